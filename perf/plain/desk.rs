//! The desk: slots in, items with their ages out. From the scope paper's "The 40-byte frame" and 02 (iv).
//! A frame is read in two ways: straight, which is the yardstick, and by a table of places, which is a second one.

/// The items, in the order of their rows.
#[derive(Clone, Copy)]
pub enum Item {
    Parallel,
    Multiplexer1,
    Multiplexer2,
    Multiplexer3,
    ErrorCode,
    DirectionStop,
    DirectionStart,
    EnergyStop,
    EnergyStart,
    LastInvalidCode,
    IelEnable,
    ReducedCounter,
    Bias,
    Relay,
    Ground,
    StopStepping,
    StopLimit,
    StopLevel,
    Flap1,
    Flap2,
    Flap3,
    IelClock,
    LastCheck,
    InvalidCount,
    HeadMask,
    LongCounter,
    FreeTime,
    StartStepping,
    StartLimit,
    StartLevel,
    DeflectionStepping,
    DeflectionLimit,
    DeflectionLevel,
}

const ITEMS: usize = Item::DeflectionLevel as usize + 1;

#[derive(Clone, Copy)]
pub struct Shown {
    pub value: u32,
    /// In slots, stopping at 65,535.
    pub age: u16,
}

/// A number spread over frames, half read: the index that must come next, and the bytes so far.
struct Half {
    next: u8,
    bytes: u32,
}

pub struct Desk {
    items: [Option<Shown>; ITEMS],
    half: Option<Half>,
}

pub enum Heard {
    Frame,
    Miss,
}

impl Desk {
    pub fn fresh() -> Desk {
        Desk {
            items: [None; ITEMS],
            half: None,
        }
    }

    /// What is shown of each item, by its row.
    pub fn items(&self) -> &[Option<Shown>; ITEMS] {
        &self.items
    }

    pub fn missed(&mut self) {
        self.half = None;
        self.age();
    }

    pub fn slot(&mut self, frame: &[u8]) -> Result<Heard, u8> {
        self.take(frame, Desk::read)
    }

    pub fn slot_by_table(&mut self, frame: &[u8]) -> Result<Heard, u8> {
        self.take(frame, Desk::read_by_table)
    }

    fn age(&mut self) {
        for shown in self.items.iter_mut().flatten() {
            shown.age = shown.age.saturating_add(1);
        }
    }

    fn take(&mut self, frame: &[u8], read: impl Fn(&mut Desk, &[u8; 40], u8)) -> Result<Heard, u8> {
        let f: &[u8; 40] = frame.try_into().map_err(|_| 17)?;
        if f.iter().all(|&b| b == 0xC0) || f.iter().all(|&b| b == 0xFF) {
            self.missed();
            return Ok(Heard::Miss);
        }
        let i = f[0] & 0x1F;
        self.age();
        read(self, f, i);
        if matches!(i, 0..=3 | 27 | 28) {
            self.join(i, f[39]);
        } else {
            self.half = None;
        }
        Ok(Heard::Frame)
    }

    fn set(&mut self, item: Item, value: u8) {
        self.items[item as usize] = Some(Shown {
            value: value.into(),
            age: 0,
        });
    }

    /// The items that stand in one frame, of index `i`.
    fn read(&mut self, f: &[u8; 40], i: u8) {
        self.set(Item::Parallel, f[1] >> 6 & 1);
        self.set(Item::Relay, f[2] >> 6 & 1);
        self.set(Item::Multiplexer1, f[6] & 1);
        self.set(Item::Multiplexer2, f[6] >> 3 & 1);
        self.set(Item::Multiplexer3, f[6] >> 6 & 1);
        self.set(Item::ErrorCode, f[7] >> 4);
        self.set(Item::DirectionStop, (f[8] & 0x0F) << 1 | f[9] >> 7);
        self.set(Item::DirectionStart, f[9] >> 2 & 0x1F);
        self.set(Item::EnergyStop, (f[9] & 0x03) << 3 | f[10] >> 5);
        self.set(Item::EnergyStart, f[10] & 0x1F);
        self.set(Item::LastInvalidCode, f[16]);
        self.set(Item::IelEnable, f[19] >> 7);
        self.set(Item::ReducedCounter, f[20] & 0x3F);
        self.set(Item::Bias, f[36]);
        match i % 4 {
            0 => {
                self.set(Item::StopStepping, f[37] >> 4 & 1);
                self.set(Item::StartStepping, f[37] >> 5 & 1);
                self.set(Item::DeflectionStepping, f[37] >> 6 & 1);
            }
            1 => {
                self.set(Item::DeflectionLimit, f[37] >> 4);
                self.set(Item::DeflectionLevel, f[37] & 0x0F);
            }
            2 => {
                self.set(Item::StopLimit, f[37] >> 4);
                self.set(Item::StartLimit, f[37] & 0x0F);
            }
            _ => {
                self.set(Item::StopLevel, f[37] >> 4);
                self.set(Item::StartLevel, f[37] & 0x0F);
            }
        }
        if i % 8 == 0 {
            self.set(Item::Ground, f[38]);
        }
        let last = f[39];
        match i {
            12 => {
                self.set(Item::Flap1, last >> 4 & 1);
                self.set(Item::Flap2, last >> 5 & 1);
                self.set(Item::Flap3, last >> 6 & 1);
                self.set(Item::IelClock, last >> 7);
            }
            21 => self.set(Item::LastCheck, last),
            22 => self.set(Item::InvalidCount, last),
            31 => self.set(Item::HeadMask, last >> 4 & 0x07),
            _ => {}
        }
    }

    /// The same, by the table below.
    fn read_by_table(&mut self, f: &[u8; 40], i: u8) {
        for place in &PLACES {
            if i % place.period == place.phase {
                let word = u16::from_be_bytes([f[place.byte - 1], f[place.byte]]);
                self.set(place.item, (word >> place.shift) as u8 & place.mask);
            }
        }
    }

    /// Byte 39 of a frame that brings a part of a spread number.
    fn join(&mut self, i: u8, byte: u8) {
        let byte = u32::from(byte);
        let value = match (i, self.half.take()) {
            (0 | 27, _) => byte,
            (_, Some(half)) if half.next == i => half.bytes << 8 | byte,
            _ => return,
        };
        match i {
            3 => self.items[Item::LongCounter as usize] = Some(Shown { value, age: 3 }),
            28 => self.items[Item::FreeTime as usize] = Some(Shown { value, age: 1 }),
            _ => {
                self.half = Some(Half {
                    next: i + 1,
                    bytes: value,
                })
            }
        }
    }
}

/// Where an item stands: the second byte of its word, the shift to the right, the mask; and the frames that bring it.
struct Place {
    item: Item,
    byte: usize,
    shift: u8,
    mask: u8,
    period: u8,
    phase: u8,
}

const fn place(item: Item, byte: usize, shift: u8, mask: u8, period: u8, phase: u8) -> Place {
    Place {
        item,
        byte,
        shift,
        mask,
        period,
        phase,
    }
}

static PLACES: [Place; 31] = [
    place(Item::Parallel, 1, 6, 0x01, 1, 0),
    place(Item::Multiplexer1, 6, 0, 0x01, 1, 0),
    place(Item::Multiplexer2, 6, 3, 0x01, 1, 0),
    place(Item::Multiplexer3, 6, 6, 0x01, 1, 0),
    place(Item::ErrorCode, 7, 4, 0x0F, 1, 0),
    place(Item::DirectionStop, 9, 7, 0x1F, 1, 0),
    place(Item::DirectionStart, 9, 2, 0x1F, 1, 0),
    place(Item::EnergyStop, 10, 5, 0x1F, 1, 0),
    place(Item::EnergyStart, 10, 0, 0x1F, 1, 0),
    place(Item::LastInvalidCode, 16, 0, 0xFF, 1, 0),
    place(Item::IelEnable, 19, 7, 0x01, 1, 0),
    place(Item::ReducedCounter, 20, 0, 0x3F, 1, 0),
    place(Item::Bias, 36, 0, 0xFF, 1, 0),
    place(Item::Relay, 2, 6, 0x01, 1, 0),
    place(Item::Ground, 38, 0, 0xFF, 8, 0),
    place(Item::StopStepping, 37, 4, 0x01, 4, 0),
    place(Item::StopLimit, 37, 4, 0x0F, 4, 2),
    place(Item::StopLevel, 37, 4, 0x0F, 4, 3),
    place(Item::Flap1, 39, 4, 0x01, 32, 12),
    place(Item::Flap2, 39, 5, 0x01, 32, 12),
    place(Item::Flap3, 39, 6, 0x01, 32, 12),
    place(Item::IelClock, 39, 7, 0x01, 32, 12),
    place(Item::LastCheck, 39, 0, 0xFF, 32, 21),
    place(Item::InvalidCount, 39, 0, 0xFF, 32, 22),
    place(Item::HeadMask, 39, 4, 0x07, 32, 31),
    place(Item::StartStepping, 37, 5, 0x01, 4, 0),
    place(Item::StartLimit, 37, 0, 0x0F, 4, 2),
    place(Item::StartLevel, 37, 0, 0x0F, 4, 3),
    place(Item::DeflectionStepping, 37, 6, 0x01, 4, 0),
    place(Item::DeflectionLimit, 37, 4, 0x0F, 4, 1),
    place(Item::DeflectionLevel, 37, 0, 0x0F, 4, 1),
];
