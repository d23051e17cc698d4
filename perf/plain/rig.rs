//! The rig: command words in, frames out. From the scope paper's "Command words", "Spins and power" and "The 40-byte frame"; 02 (ii), the register; 02 (iv),
//! three supplies. State is changed in place.

use crate::crc::check_of;

/// The kinds of a word.
const SINGLE: u8 = 0;
const HEAD: u8 = 1;
const DATA: u8 = 2;
const END: u8 = 3;

/// Why a word is refused, with the paper's number.
#[derive(Clone, Copy)]
#[repr(u8)]
pub enum Refusal {
    BlockDropped = 0x03,
    RelayOff = 0x04,
    SteppingOff = 0x05,
    OverLimit = 0x06,
    /// A stray data or end word, a wrong check, or relay bits that say both or neither.
    Malformed = 0x0B,
    StillStepping = 0x0C,
    OutOfRange = 0x0D,
    WrongCount = 0x0E,
    UnknownCode = 0x0F,
}

#[derive(Clone, Copy)]
pub enum Answer {
    Accepted,
    Waiting,
    Refused(Refusal),
}

#[derive(Clone, Copy)]
pub enum Reply {
    Plain(Answer),
    /// The block was dropped, 03h, and the word with it.
    Swallowed,
    /// The block was dropped, 03h; then the word was judged afresh.
    Dropped(Answer),
}

/// One of the three supplies. The relay is common, and the rig's.
#[derive(Default)]
struct Supply {
    stepping: bool,
    level: u8,
    target: u8,
    limit: u8,
}

impl Supply {
    fn spin(&mut self, relay: bool) {
        if relay && self.stepping {
            if self.level < self.target {
                self.level += 1;
            } else if self.level > self.target {
                self.level -= 1;
            }
        }
    }

    fn off(&mut self) {
        self.level = 0;
        self.target = 0;
    }

    fn set_target(&mut self, relay: bool, low: u8) -> Result<(), Refusal> {
        let target = low & 0x0F;
        if !relay {
            return Err(Refusal::RelayOff);
        }
        if !self.stepping {
            return Err(Refusal::SteppingOff);
        }
        if target > self.limit {
            return Err(Refusal::OverLimit);
        }
        self.target = target;
        Ok(())
    }

    /// A limit over 15 is 0Dh, but four bits never are.
    fn set_limit(&mut self, low: u8) -> Result<(), Refusal> {
        if self.level != self.target {
            return Err(Refusal::StillStepping);
        }
        self.limit = low & 0x0F;
        self.target = self.target.min(self.limit);
        Ok(())
    }
}

#[derive(Clone, Copy, Default)]
struct Window {
    start: u8,
    stop: u8,
}

impl Window {
    fn of(start: u8, stop: u8) -> Window {
        Window {
            start: start & 0x1F,
            stop: stop & 0x1F,
        }
    }
}

/// Multiplexer word and windows: what was ordered, or what the sensor's register has.
#[derive(Clone, Copy, Default)]
struct Sensor {
    multiplexers: (u8, bool),
    direction: Window,
    energy: Window,
}

/// A block that waits: its head's high byte, how many data words it is to have, how many came, and their low bytes.
struct Pending {
    head: u8,
    n: u8,
    got: u8,
    bytes: [u8; 79],
}

pub struct Rig {
    relay: bool,
    stop: Supply,
    start: Supply,
    deflection: Supply,
    parallel: bool,
    head_mask: u8,
    iel_clock: bool,
    iel_enable: bool,
    ordered: Sensor,
    /// A spin copies what was ordered, and frames show it.
    register: Sensor,
    pending: Option<Pending>,
    last_check: u8,
    pub error: u8,
    pub last_invalid: u8,
    pub invalid_count: u8,
    pub bias: u8,
    pub ground: u8,
    pub free_time: u16,
    pub flaps: [bool; 3],
    long_counter: u32,
    /// The index of the next frame.
    next: u8,
    /// The number that is going out spread over frames, as it was when its first was built.
    latch: u32,
}

impl Rig {
    /// The start, to which a power cut returns.
    pub fn start() -> Rig {
        Rig {
            relay: false,
            stop: Supply::default(),
            start: Supply::default(),
            deflection: Supply::default(),
            parallel: false,
            head_mask: 7,
            iel_clock: false,
            iel_enable: false,
            ordered: Sensor::default(),
            register: Sensor::default(),
            pending: None,
            last_check: 0,
            error: 0,
            last_invalid: 0xFF,
            invalid_count: 0,
            bias: 0,
            ground: 0,
            free_time: 0,
            flaps: [false; 3],
            long_counter: 0,
            next: 0,
            latch: 0,
        }
    }

    pub fn level(&self) -> u8 {
        self.stop.level
    }

    pub fn long_counter(&self) -> u32 {
        self.long_counter
    }

    pub fn spin(&mut self) {
        self.stop.spin(self.relay);
        self.start.spin(self.relay);
        self.deflection.spin(self.relay);
        self.register = self.ordered;
        self.long_counter = self.long_counter.wrapping_add(1);
    }

    pub fn take(&mut self, word: u16) -> Reply {
        let [high, low] = word.to_be_bytes();
        let Some(block) = &mut self.pending else {
            return Reply::Plain(self.judge(high, low));
        };
        let kind = high >> 6;
        let same = high & 0x3F == block.head & 0x3F;
        if kind == DATA && same && block.got < block.n {
            block.bytes[usize::from(block.got)] = low;
            block.got += 1;
            return Reply::Plain(Answer::Waiting);
        }
        let full = block.got == block.n;
        let block = self.pending.take().unwrap();
        if kind == END && same && full {
            return Reply::Plain(self.close(block, low));
        }
        self.refuse(block.head, Refusal::BlockDropped);
        if kind == DATA || kind == END {
            return Reply::Swallowed;
        }
        Reply::Dropped(self.judge(high, low))
    }

    /// A word with nothing pending.
    fn judge(&mut self, high: u8, low: u8) -> Answer {
        match high >> 6 {
            SINGLE => {
                let result = self.single(high & 0x3F, low);
                self.settle(high, result)
            }
            HEAD if low > 79 => self.settle(high, Err(Refusal::WrongCount)),
            HEAD => {
                self.pending = Some(Pending {
                    head: high,
                    n: low,
                    got: 0,
                    bytes: [0; 79],
                });
                Answer::Waiting
            }
            _ => self.settle(high, Err(Refusal::Malformed)),
        }
    }

    /// The end word of a block that has all its data words.
    fn close(&mut self, block: Pending, check: u8) -> Answer {
        let data = &block.bytes[..usize::from(block.n)];
        self.last_check = check_of(data);
        let result = if self.last_check == check {
            self.block(block.head & 0x3F, data)
        } else {
            Err(Refusal::Malformed)
        };
        self.settle(block.head, result)
    }

    fn settle(&mut self, high: u8, result: Result<(), Refusal>) -> Answer {
        match result {
            Ok(()) => Answer::Accepted,
            Err(why) => {
                self.refuse(high, why);
                Answer::Refused(why)
            }
        }
    }

    fn refuse(&mut self, high: u8, why: Refusal) {
        self.error = why as u8;
        self.last_invalid = high;
        self.invalid_count = self.invalid_count.wrapping_add(1);
    }

    fn single(&mut self, code: u8, low: u8) -> Result<(), Refusal> {
        match code {
            0x08 => match (low & 0x02 != 0, low & 0x20 != 0) {
                (true, false) => self.relay = true,
                (false, true) => {
                    self.relay = false;
                    self.stop.off();
                    self.start.off();
                    self.deflection.off();
                }
                _ => return Err(Refusal::Malformed),
            },
            0x0C => {
                self.iel_clock = low & 0x01 != 0;
                self.iel_enable = low & 0x02 != 0;
            }
            0x20 => self.start.set_target(self.relay, low)?,
            0x21 => self.start.set_limit(low)?,
            0x22 => self.deflection.stepping = switch(low)?,
            0x23 => self.deflection.set_target(self.relay, low)?,
            0x24 => self.deflection.set_limit(low)?,
            0x26 => self.head_mask = low & 0x07,
            0x28 => self.stop.set_target(self.relay, low)?,
            0x29 => self.stop.set_limit(low)?,
            0x2B => self.parallel = switch(low)?,
            0x2C => self.start.stepping = switch(low)?,
            0x2D => self.stop.stepping = switch(low)?,
            _ => return Err(Refusal::UnknownCode),
        }
        Ok(())
    }

    fn block(&mut self, code: u8, data: &[u8]) -> Result<(), Refusal> {
        if !matches!(code, 0x20 | 0x23 | 0x24) {
            return Err(Refusal::UnknownCode);
        }
        let &[first, second] = data else {
            return Err(Refusal::WrongCount);
        };
        match code {
            0x20 => self.ordered.multiplexers = (first, second & 0x01 != 0),
            0x23 => self.ordered.direction = Window::of(first, second),
            _ => self.ordered.energy = Window::of(first, second),
        }
        Ok(())
    }

    /// The next frame, written at a place of the caller's buffer.
    pub fn build(&mut self, buf: &mut [u8], at: usize) -> Result<(), u8> {
        let rest = buf.get_mut(at..).ok_or(18)?;
        let f = rest.first_chunk_mut::<40>().ok_or(18)?;
        let i = self.next;
        match i {
            0 => self.latch = self.long_counter,
            27 => self.latch = u32::from(self.free_time),
            _ => {}
        }
        let (stop, start, deflection) = (&self.stop, &self.start, &self.deflection);
        let sensor = &self.register;
        *f = [0; 40];
        f[0] = i;
        f[1] = u8::from(self.parallel) << 6;
        f[2] = u8::from(self.relay) << 6;
        f[6] = sensor.multiplexers.0 & 0x49;
        f[7] = self.error << 4;
        f[8] = sensor.direction.stop >> 1;
        f[9] = sensor.direction.stop << 7 | sensor.direction.start << 2 | sensor.energy.stop >> 3;
        f[10] = sensor.energy.stop << 5 | sensor.energy.start;
        f[16] = self.last_invalid;
        f[19] = u8::from(self.iel_enable) << 7;
        f[20] = self.long_counter.wrapping_sub(1) as u8 & 0x3F;
        f[36] = self.bias;
        f[37] = match i % 4 {
            0 => {
                u8::from(stop.stepping) << 4
                    | u8::from(start.stepping) << 5
                    | u8::from(deflection.stepping) << 6
            }
            1 => deflection.limit << 4 | deflection.level,
            2 => stop.limit << 4 | start.limit,
            _ => stop.level << 4 | start.level,
        };
        if i % 8 == 0 {
            f[38] = self.ground;
        }
        f[39] = match i {
            0..=3 => self.latch.to_be_bytes()[usize::from(i)],
            12 => {
                let [one, two, three] = self.flaps.map(u8::from);
                one << 4 | two << 5 | three << 6 | u8::from(self.iel_clock) << 7
            }
            21 => self.last_check,
            22 => self.invalid_count,
            27 => (self.latch >> 8) as u8,
            28 => self.latch as u8,
            31 => self.head_mask << 4,
            _ => 0,
        };
        self.next = (i + 1) % 32;
        Ok(())
    }
}

fn switch(low: u8) -> Result<bool, Refusal> {
    match low {
        0 => Ok(false),
        1 => Ok(true),
        _ => Err(Refusal::OutOfRange),
    }
}
