//! The check of a block command: the CRC of width 8, polynomial 07h, start 0, with no reflection and no final change.
//! Worked from a table of 256 entries, which is the quick way.

static TABLE: [u8; 256] = table();

const fn table() -> [u8; 256] {
    let mut table = [0; 256];
    let mut i = 0;
    while i < 256 {
        let mut c = i as u8;
        let mut step = 0;
        while step < 8 {
            c = if c & 0x80 != 0 { c << 1 ^ 0x07 } else { c << 1 };
            step += 1;
        }
        table[i] = c;
        i += 1;
    }
    table
}

pub fn check_of(bytes: &[u8]) -> u8 {
    bytes
        .iter()
        .fold(0, |check, byte| TABLE[usize::from(check ^ byte)])
}
