//! Data blocks, NM and BM1: their parts by name; direct events, IFFT events and matrix items by number.
//! From the scope paper's "Data blocks"; a refusal is the paper's number, 19 to 24.

/// The parts of both position tables, in the order of NM's.
#[derive(Clone, Copy)]
pub enum Part {
    Marker,
    Index,
    Descriptor1,
    Calibration,
    MSigns,
    Sgl0,
    DirectEvents,
    HSpct,
    ISpct,
    Sgl1,
    Sgl2,
    Sgl3,
    IPad,
    I3dd,
    Mtrx,
    Descriptor2,
    EPad,
    E3dd,
    M,
}

pub const PARTS: [Part; 19] = [
    Part::Marker,
    Part::Index,
    Part::Descriptor1,
    Part::Calibration,
    Part::MSigns,
    Part::Sgl0,
    Part::DirectEvents,
    Part::HSpct,
    Part::ISpct,
    Part::Sgl1,
    Part::Sgl2,
    Part::Sgl3,
    Part::IPad,
    Part::I3dd,
    Part::Mtrx,
    Part::Descriptor2,
    Part::EPad,
    Part::E3dd,
    Part::M,
];

/// A part's first byte and length in NM and in BM1, with length 0 where it has no such part.
/// It is hidden by these bits of the two descriptors, taken as one word.
struct Place {
    nm: (usize, usize),
    bm1: (usize, usize),
    hidden_by: u16,
}

const OPEN: u16 = 0x0000;
const WHOLE: u16 = 0x0400;
const IONS: u16 = 0x0D00;
const ELECTRONS: u16 = 0x0680;

const fn place(nm: (usize, usize), bm1: (usize, usize), hidden_by: u16) -> Place {
    Place { nm, bm1, hidden_by }
}

/// In the order of `Part`.
static PLACES: [Place; 19] = [
    place((0x000, 3), (0x000, 3), OPEN),
    place((0x003, 1), (0x003, 1), OPEN),
    place((0x004, 1), (0x004, 1), OPEN),
    place((0x005, 2), (0x005, 2), IONS),
    place((0x007, 2), (0x007, 2), IONS),
    place((0x009, 1), (0, 0), IONS),
    place((0x00A, 60), (0x00A, 318), IONS),
    place((0x046, 8), (0x148, 8), IONS),
    place((0x04E, 4), (0x150, 4), IONS),
    place((0x052, 1), (0x156, 80), IONS),
    place((0x053, 3), (0x1A6, 9), IONS),
    place((0x056, 1), (0x1AF, 3), IONS),
    place((0x057, 96), (0x1B2, 96), IONS),
    place((0x0B7, 144), (0x215, 576), IONS),
    place((0x147, 8), (0x455, 32), IONS),
    place((0x14F, 1), (0x154, 1), WHOLE),
    place((0x150, 96), (0, 0), ELECTRONS),
    place((0x1B0, 72), (0x478, 1152), ELECTRONS),
    place((0x1F8, 8), (0x8F8, 8), ELECTRONS),
];

#[derive(Clone, Copy, PartialEq)]
enum Kind {
    Nm,
    Bm1,
}

/// What a block is, with its two descriptors as one word. The second counts as 0 where it is not looked at.
struct Layout {
    kind: Kind,
    descriptors: u16,
}

impl Layout {
    fn of(b: &[u8]) -> Result<Layout, u8> {
        match b.get(..3).ok_or(20)? {
            [0x14, 0x6F, 0x2E] => {
                let b: &[u8; 512] = b.try_into().map_err(|_| 20)?;
                let d2 = if b[4] & 0x04 == 0 { b[0x14F] } else { 0 };
                Ok(Layout::new(Kind::Nm, b[4], d2))
            }
            [0x14, 0x6F, 0x3D] => {
                let b: &[u8; 2304] = b.try_into().map_err(|_| 20)?;
                if b[4] & 0x04 != 0 {
                    return Ok(Layout::new(Kind::Bm1, b[4], 0));
                }
                if b[0x212..0x215] != [0x4C, 0x43, 0xE2] || b[0x475..0x478] != [0x54, 0xE1, 0xE1] {
                    return Err(21);
                }
                Ok(Layout::new(Kind::Bm1, b[4], b[0x154]))
            }
            _ => Err(19),
        }
    }

    fn new(kind: Kind, d1: u8, d2: u8) -> Layout {
        let descriptors = u16::from_be_bytes([d1, d2]);
        Layout { kind, descriptors }
    }

    fn part<'a>(&self, b: &'a [u8], part: Part) -> Result<&'a [u8], u8> {
        let place = &PLACES[part as usize];
        let (at, n) = match self.kind {
            Kind::Nm => place.nm,
            Kind::Bm1 => place.bm1,
        };
        if n == 0 {
            return Err(22);
        }
        if self.descriptors & place.hidden_by != 0 {
            return Err(23);
        }
        Ok(&b[at..at + n])
    }
}

pub fn part_of(b: &[u8], part: Part) -> Result<&[u8], u8> {
    Layout::of(b)?.part(b, part)
}

/// Heads are 1 to 3, finer directions 0 to 3.
pub enum Direction {
    Head(u8, u8),
    HeadOnly(u8),
    Unknown,
}

pub struct Event {
    pub energy: u8,
    pub time: u8,
    pub sector: u8,
    pub direction: Direction,
}

impl Event {
    /// Event `n` of those that stand in `b` one after the other.
    fn nth(b: &[u8], n: usize) -> Event {
        let b = &b[3 * n..3 * n + 3];
        let d = b[2] & 0x0F;
        let direction = match d {
            0..=11 => Direction::Head(d / 4 + 1, d % 4),
            12..=14 => Direction::HeadOnly(d - 11),
            _ => Direction::Unknown,
        };
        Event {
            energy: b[0],
            time: b[1],
            sector: b[2] >> 4,
            direction,
        }
    }
}

pub fn direct_event(b: &[u8], n: usize) -> Result<Event, u8> {
    let layout = Layout::of(b)?;
    let count = match layout.kind {
        Kind::Nm => 20,
        Kind::Bm1 => 106,
    };
    if n >= count {
        return Err(22);
    }
    Ok(Event::nth(layout.part(b, Part::DirectEvents)?, n))
}

/// The entries of an IFFT block and their number, if its spin counter is one of `spins` and they are at most `most`.
fn ifft(b: &[u8], spins: [u8; 3], most: u8) -> Result<(&[u8], usize), u8> {
    let layout = Layout::of(b)?;
    let wanted = layout.kind == Kind::Nm && layout.descriptors & 0x0500 == 0x0100;
    if !wanted || !spins.contains(&b[5]) || b[6] > most {
        return Err(24);
    }
    Ok((&b[0x20..0x120], usize::from(b[6])))
}

pub fn ifft_event(b: &[u8], n: usize) -> Result<Event, u8> {
    let (entries, count) = ifft(b, [5, 7, 9], 85)?;
    if n >= count {
        return Err(22);
    }
    Ok(Event::nth(entries, n))
}

pub struct MatrixItem {
    pub first: u16,
    pub second: u16,
    pub good: bool,
}

pub fn ifft_item(b: &[u8], n: usize) -> Result<MatrixItem, u8> {
    let (entries, count) = ifft(b, [6, 8, 10], 64)?;
    if n >= count {
        return Err(22);
    }
    let b = &entries[4 * n..4 * n + 4];
    let first = u16::from_be_bytes([b[0], b[1]]);
    let second = u16::from_be_bytes([b[2], b[3]]);
    Ok(MatrixItem {
        first,
        second,
        good: second.count_ones() % 2 == 0,
    })
}
