//! The lister: the words of standard input, each with what the rig answers. From the scope paper's "Bench cases".
//! Its lines are written with `write!`.

mod crc;
mod input;
#[allow(dead_code)]
mod rig;

use rig::{Answer, Reply, Rig};
use std::io::{self, BufWriter, Write};

fn list(out: &mut impl Write, word: u16, answer: Answer) -> io::Result<()> {
    match answer {
        Answer::Accepted => writeln!(out, "{word:04X} accepted"),
        Answer::Waiting => writeln!(out, "{word:04X} waiting"),
        Answer::Refused(why) => writeln!(out, "{word:04X} refused {:02X}", why as u8),
    }
}

fn run() -> io::Result<()> {
    let mut out = BufWriter::with_capacity(1 << 16, io::stdout().lock());
    let mut rig = Rig::start();
    writeln!(out, "word answer")?;
    let odd = input::each_piece(|piece| {
        for bytes in piece.chunks_exact(2) {
            let word = u16::from_be_bytes([bytes[0], bytes[1]]);
            match rig.take(word) {
                Reply::Plain(answer) => list(&mut out, word, answer)?,
                Reply::Swallowed => writeln!(out, "{word:04X} dropped 03")?,
                Reply::Dropped(answer) => {
                    writeln!(out, "{word:04X} dropped 03")?;
                    list(&mut out, word, answer)?;
                }
            }
        }
        Ok(())
    })?;
    if odd {
        writeln!(out, "odd byte")?;
    }
    writeln!(
        out,
        "invalid {} last {:02X} code {:02X}",
        rig.invalid_count, rig.last_invalid, rig.error
    )?;
    out.flush()
}

#[no_mangle]
pub extern "C" fn main(_argc: i32, _argv: *const *const u8) -> i32 {
    run().is_err().into()
}
