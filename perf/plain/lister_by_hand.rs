//! The lister once more, a second yardstick: its lines are put together byte by byte.
//! That is what is done where `write!` is found too slow.

mod crc;
mod input;
#[allow(dead_code)]
mod rig;

use rig::{Answer, Reply, Rig};
use std::io::{self, Write};

fn hex(out: &mut Vec<u8>, byte: u8) {
    const DIGITS: &[u8; 16] = b"0123456789ABCDEF";
    out.extend_from_slice(&[
        DIGITS[usize::from(byte >> 4)],
        DIGITS[usize::from(byte & 0x0F)],
    ]);
}

fn list(out: &mut Vec<u8>, [high, low]: [u8; 2], answer: Answer) {
    hex(out, high);
    hex(out, low);
    match answer {
        Answer::Accepted => out.extend_from_slice(b" accepted\n"),
        Answer::Waiting => out.extend_from_slice(b" waiting\n"),
        Answer::Refused(why) => {
            out.extend_from_slice(b" refused ");
            hex(out, why as u8);
            out.push(b'\n');
        }
    }
}

fn dropped(out: &mut Vec<u8>, [high, low]: [u8; 2]) {
    hex(out, high);
    hex(out, low);
    out.extend_from_slice(b" dropped 03\n");
}

fn run() -> io::Result<()> {
    let mut stdout = io::stdout().lock();
    let mut out = Vec::with_capacity(1 << 21);
    let mut rig = Rig::start();
    out.extend_from_slice(b"word answer\n");
    let odd = input::each_piece(|piece| {
        for bytes in piece.chunks_exact(2) {
            let word = [bytes[0], bytes[1]];
            match rig.take(u16::from_be_bytes(word)) {
                Reply::Plain(answer) => list(&mut out, word, answer),
                Reply::Swallowed => dropped(&mut out, word),
                Reply::Dropped(answer) => {
                    dropped(&mut out, word);
                    list(&mut out, word, answer);
                }
            }
        }
        stdout.write_all(&out)?;
        out.clear();
        Ok(())
    })?;
    if odd {
        out.extend_from_slice(b"odd byte\n");
    }
    writeln!(
        out,
        "invalid {} last {:02X} code {:02X}",
        rig.invalid_count, rig.last_invalid, rig.error
    )?;
    stdout.write_all(&out)?;
    stdout.flush()
}

#[no_mangle]
pub extern "C" fn main(_argc: i32, _argv: *const *const u8) -> i32 {
    run().is_err().into()
}
