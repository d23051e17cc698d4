//! One row: the same work by plain Rust and by a kernel that the Rattle toolchain compiled, in one process.
//!
//!     bench ROW time TURNS           both in turns; prints rust-ns rattle-ns equal|different
//!     bench ROW rust|rattle ROUNDS   one of them, so often, and nothing else: for counting instructions

mod block;
mod crc;
mod desk;
mod rig;

use block::{Direction, Event};
use desk::{Desk, Item, Shown};
use rig::{Answer, Reply, Rig};
use std::hint::black_box;
use std::time::Instant;

/// The work of a row, by either side: the input, a buffer and a number in, an answer out.
type Work = fn(&[u8], &mut [u8], usize) -> u64;

/// What the work writes to. It never lies across two cache lines or pages, so that every run finds it alike.
#[derive(PartialEq)]
#[repr(align(64))]
struct Buffer([u8; 64]);

/// A slice as Rattle passes it: by the address of its address and length.
#[repr(C)]
struct Slice {
    at: *const u8,
    len: usize,
}

extern "C" {
    fn rattle_kernel(input: *const Slice, out: *const Slice, n: usize) -> u64;
}

fn rattle(input: &[u8], out: &mut [u8], n: usize) -> u64 {
    let input = Slice {
        at: input.as_ptr(),
        len: input.len(),
    };
    let out = Slice {
        at: out.as_mut_ptr(),
        len: out.len(),
    };
    // SAFETY: each kernel is compiled from safe code with this signature, and keeps neither slice.
    unsafe { rattle_kernel(&input, &out, n) }
}

/// What a row does in plain Rust, its input, and its n.
fn row(name: &str) -> Option<(Work, Vec<u8>, usize)> {
    Some(match name {
        "words-random" => (words, Random(3).bytes(131_072), 65_536),
        "words-class" => (words, class_words(65_536), 65_536),
        "frames" => (frames::<false>, bytes_of(&SETUP), 4096),
        "frames-by-table" => (frames::<true>, bytes_of(&SETUP), 4096),
        "build" => (build, bytes_of(&SETUP), 4096),
        "slot" => (slots::<false>, frames_sent(64), 4096),
        "slot-by-table" => (slots::<true>, frames_sent(64), 4096),
        "spin" => (spin, bytes_of(&SETUP), 65_536),
        "check" => (check, Random(5).bytes(1 << 20), 1 << 20),
        "parts" => (parts, blocks(), 4096),
        "events" => (events, blocks(), 1024),
        "ifft" => (ifft, ifft_blocks(), 1024),
        _ => return None,
    })
}

// The inputs, the same in every run.

/// Numbers by xorshift.
struct Random(u64);

impl Random {
    fn next(&mut self) -> u64 {
        self.0 ^= self.0 << 13;
        self.0 ^= self.0 >> 7;
        self.0 ^= self.0 << 17;
        self.0.wrapping_mul(0x2545_F491_4F6C_DD1D) >> 16
    }

    fn bytes(&mut self, n: usize) -> Vec<u8> {
        (0..n).map(|_| self.next() as u8).collect()
    }
}

fn bytes_of(words: &[u16]) -> Vec<u8> {
    words.iter().flat_map(|word| word.to_be_bytes()).collect()
}

/// Words as a class sends them: settings, targets and limits, and whole blocks with the right check.
fn class_words(n: usize) -> Vec<u8> {
    let mut random = Random(7);
    let mut words = vec![0x0802, 0x2D01, 0x290A, 0x2C01, 0x210C, 0x2201, 0x2409];
    while words.len() < n {
        let low = random.next() as u8;
        match random.next() % 8 {
            0 => words.push([0x2800, 0x2000, 0x2300][usize::from(low / 16 % 3)] | u16::from(low % 16)),
            1 => words.push([0x2900, 0x2100, 0x2400][usize::from(low / 16 % 3)] | u16::from(low % 16)),
            2 => words.push(0x0C00 | u16::from(low % 4)),
            3 => words.push(0x2600 | u16::from(low % 8)),
            4 => words.push(0x2B00 | u16::from(low % 2)),
            k => {
                let code = [0x2000, 0x2300, 0x2400][k as usize - 5];
                let data = [low, random.next() as u8];
                words.push(0x4000 | code | 2);
                words.extend(data.map(|byte| 0x8000 | code | u16::from(byte)));
                words.push(0xC000 | code | u16::from(crc::check_of(&data)));
            }
        }
    }
    bytes_of(&words[..n])
}

/// Relay and stepping on, a limit and a target of each supply, a window, and one refusal.
const SETUP: [u16; 18] = [
    0x0802, 0x2D01, 0x290F, 0x280D, 0x2C01, 0x210C, 0x200B, 0x2201, 0x2409, 0x2307, 0x0C03, 0x2605,
    0x0822, 0x6302, 0xA303, 0xA313, 0xE346, 0x2B01,
];

fn set_up(words: &[u8]) -> Rig {
    let mut rig = Rig::start();
    for word in words.chunks_exact(2) {
        rig.take(u16::from_be_bytes([word[0], word[1]]));
    }
    rig
}

fn frames_sent(n: usize) -> Vec<u8> {
    let mut rig = set_up(&bytes_of(&SETUP));
    (rig.bias, rig.ground, rig.free_time) = (77, 99, 4660);
    let mut frames = vec![0; 40 * n];
    for k in 0..n {
        rig.spin();
        let _ = rig.build(&mut frames, 40 * k);
    }
    frames
}

/// An NM block and a BM1 block, with nothing hidden.
fn blocks() -> Vec<u8> {
    let mut random = Random(11);
    let mut nm = random.bytes(512);
    nm[..5].copy_from_slice(&[0x14, 0x6F, 0x2E, 9, 0]);
    nm[0x14F] = 0;
    let mut bm1 = random.bytes(2304);
    bm1[..5].copy_from_slice(&[0x14, 0x6F, 0x3D, 9, 0]);
    bm1[0x154] = 0;
    bm1[0x212..0x215].copy_from_slice(&[0x4C, 0x43, 0xE2]);
    bm1[0x475..0x478].copy_from_slice(&[0x54, 0xE1, 0xE1]);
    [nm, bm1].concat()
}

/// An IFFT block of events and one of matrix items, both full.
fn ifft_blocks() -> Vec<u8> {
    let mut random = Random(13);
    let mut events = random.bytes(512);
    events[..7].copy_from_slice(&[0x14, 0x6F, 0x2E, 9, 1, 7, 85]);
    let mut items = random.bytes(512);
    items[..7].copy_from_slice(&[0x14, 0x6F, 0x2E, 9, 1, 8, 64]);
    [events, items].concat()
}

// The work in plain Rust. Each answer is a sum to which all that is worked out adds.

fn words(input: &[u8], _out: &mut [u8], n: usize) -> u64 {
    fn heard(answer: Answer) -> u64 {
        match answer {
            Answer::Accepted => 1,
            Answer::Waiting => 2,
            Answer::Refused(why) => 16 + why as u64,
        }
    }
    let mut rig = Rig::start();
    let mut sum = 0;
    for (k, word) in input[..2 * n].chunks_exact(2).enumerate() {
        let said = match rig.take(u16::from_be_bytes([word[0], word[1]])) {
            Reply::Plain(answer) => heard(answer),
            Reply::Swallowed => 64,
            Reply::Dropped(answer) => 128 + heard(answer),
        };
        sum += said * (k as u64 + 1);
    }
    sum + u64::from(rig.error) * 65_536
        + u64::from(rig.last_invalid) * 256
        + u64::from(rig.invalid_count)
}

fn seen(shown: &Option<Shown>) -> u64 {
    match shown {
        None => 7,
        Some(shown) => u64::from(shown.value) * 65_536 + u64::from(shown.age),
    }
}

fn hand<const BY_TABLE: bool>(desk: &mut Desk, frame: &[u8]) {
    let _ = if BY_TABLE {
        desk.slot_by_table(frame)
    } else {
        desk.slot(frame)
    };
}

fn frames<const BY_TABLE: bool>(input: &[u8], out: &mut [u8], n: usize) -> u64 {
    let mut rig = set_up(input);
    let mut desk = Desk::fresh();
    (rig.bias, rig.ground, rig.free_time, rig.flaps) = (77, 99, 4660, [true, false, true]);
    let mut sum = 0;
    for k in 0..n {
        rig.spin();
        let at = k % 8;
        if rig.build(out, at).is_ok() {
            hand::<BY_TABLE>(&mut desk, &out[at..at + 40]);
        }
        sum += u64::from(out[at + 39]);
    }
    sum + desk
        .items()
        .iter()
        .zip(1..)
        .map(|(shown, k)| seen(shown) * k)
        .sum::<u64>()
}

fn build(input: &[u8], out: &mut [u8], n: usize) -> u64 {
    let mut rig = set_up(input);
    let mut sum = 0;
    for k in 0..n {
        let at = k % 8;
        let _ = rig.build(out, at);
        sum += u64::from(out[at + 37]) + u64::from(out[at + 39]);
    }
    sum
}

fn slots<const BY_TABLE: bool>(input: &[u8], _out: &mut [u8], n: usize) -> u64 {
    let mut desk = Desk::fresh();
    let mut rest = input;
    for k in 0..n {
        let (frame, after) = rest.split_at(40);
        if k % 16 == 15 {
            desk.missed();
        } else {
            hand::<BY_TABLE>(&mut desk, frame);
        }
        rest = if after.is_empty() { input } else { after };
    }
    use Item::*;
    let items = [
        Parallel,
        ErrorCode,
        DirectionStop,
        EnergyStop,
        StopLevel,
        Ground,
        HeadMask,
        LongCounter,
        FreeTime,
    ];
    items
        .iter()
        .zip(1..)
        .map(|(&item, k)| seen(&desk.items()[item as usize]) * k)
        .sum()
}

fn spin(input: &[u8], out: &mut [u8], n: usize) -> u64 {
    let mut rig = set_up(input);
    let mut sum = 0;
    for k in 0..n {
        rig.spin();
        out[k % 16] = rig.level();
        sum += u64::from(rig.level());
    }
    sum + u64::from(rig.long_counter())
}

fn check(input: &[u8], _out: &mut [u8], n: usize) -> u64 {
    crc::check_of(&input[..n]).into()
}

fn parts(input: &[u8], _out: &mut [u8], n: usize) -> u64 {
    fn weight(part: Result<&[u8], u8>) -> u64 {
        part.map_or(5, |part| part.len() as u64 * 256 + u64::from(part[0]))
    }
    let (nm, bm1) = input.split_at(512);
    let mut sum = 0;
    for _ in 0..n {
        for (&part, k) in block::PARTS.iter().zip(1..) {
            sum += weight(block::part_of(nm, part)) * k;
            sum += weight(block::part_of(bm1, part)) * (k + 1);
        }
    }
    sum
}

fn event_weight(event: Result<Event, u8>) -> u64 {
    match event {
        Ok(event) => {
            let direction = match event.direction {
                Direction::Head(head, fine) => u64::from(head) * 8 + u64::from(fine),
                Direction::HeadOnly(head) => 64 + u64::from(head),
                Direction::Unknown => 128,
            };
            u64::from(event.energy)
                + u64::from(event.time) * 2
                + u64::from(event.sector) * 4
                + direction
        }
        Err(why) => 1000 + u64::from(why),
    }
}

fn events(input: &[u8], _out: &mut [u8], n: usize) -> u64 {
    let (nm, bm1) = input.split_at(512);
    let mut sum = 0;
    for _ in 0..n {
        sum += (0..20)
            .map(|k| event_weight(block::direct_event(nm, k)))
            .sum::<u64>();
        sum += (0..106)
            .map(|k| event_weight(block::direct_event(bm1, k)))
            .sum::<u64>();
    }
    sum
}

fn ifft(input: &[u8], _out: &mut [u8], n: usize) -> u64 {
    fn weight(item: Result<block::MatrixItem, u8>) -> u64 {
        match item {
            Ok(item) => {
                u64::from(item.first) + u64::from(item.second) * if item.good { 2 } else { 3 }
            }
            Err(why) => 1000 + u64::from(why),
        }
    }
    let (events, items) = input.split_at(512);
    let mut sum = 0;
    for _ in 0..n {
        sum += (0..85)
            .map(|k| event_weight(block::ifft_event(events, k)))
            .sum::<u64>();
        sum += (0..64)
            .map(|k| weight(block::ifft_item(items, k)))
            .sum::<u64>();
    }
    sum
}

// The measurement.

/// Nanoseconds of one round by each side, the least of its turns, and whether answers and buffers are the same.
fn time(plain: Work, input: &[u8], n: usize, turns: u64) -> ([u128; 2], bool) {
    let sides = [plain, rattle as Work];
    let start = Instant::now();
    let answers = sides.map(|work| {
        let mut out = Buffer([0; 64]);
        (work(input, &mut out.0, n), out)
    });
    // A turn takes about a millisecond or more, so that the clock and the change of sides weigh nothing.
    let rounds = 1 + 2_000_000 / (1 + start.elapsed().as_nanos());
    let mut out = Buffer([0; 64]);
    let mut least = [u128::MAX; 2];
    for _ in 0..turns {
        for (work, least) in sides.iter().zip(&mut least) {
            let start = Instant::now();
            for _ in 0..rounds {
                black_box(work(black_box(input), &mut out.0, black_box(n)));
            }
            *least = (*least).min(start.elapsed().as_nanos() / rounds);
        }
    }
    (least, answers[0] == answers[1])
}

fn run(args: &[String]) -> Result<(), &'static str> {
    let [_, name, what, number] = args else {
        return Err("bench ROW time|rust|rattle NUMBER");
    };
    let (plain, input, n) = row(name).ok_or("no such row")?;
    let number: u64 = number.parse().map_err(|_| "no such number")?;
    if what == "time" {
        let ([rust, rattle], equal) = time(plain, &input, n, number);
        println!(
            "{rust} {rattle} {}",
            if equal { "equal" } else { "different" }
        );
        return Ok(());
    }
    let work = if what == "rust" { plain } else { rattle };
    let mut out = Buffer([0; 64]);
    for _ in 0..number {
        black_box(work(black_box(&input), &mut out.0, black_box(n)));
    }
    Ok(())
}

#[no_mangle]
pub extern "C" fn main(_argc: i32, _argv: *const *const u8) -> i32 {
    let args: Vec<String> = std::env::args().collect();
    match run(&args) {
        Ok(()) => 0,
        Err(why) => {
            eprintln!("{why}");
            2
        }
    }
}
