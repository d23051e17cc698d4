//! Standard input, for both listers: read a piece at a time, so that memory does not grow with it.
//! A word may be cut in two by the end of a piece.

use std::io::{self, ErrorKind, Read};

/// Hands on whole words, two bytes each, until the input ends; then says whether a lone byte was left.
pub fn each_piece(mut take: impl FnMut(&[u8]) -> io::Result<()>) -> io::Result<bool> {
    let mut input = io::stdin().lock();
    let mut buf = [0; 1 << 16];
    let mut held = 0;
    loop {
        let end = match input.read(&mut buf[held..]) {
            Ok(0) => return Ok(held == 1),
            Ok(n) => held + n,
            Err(e) if e.kind() == ErrorKind::Interrupted => continue,
            Err(e) => return Err(e),
        };
        held = end % 2;
        take(&buf[..end - held])?;
        if held == 1 {
            buf[0] = buf[end - 1];
        }
    }
}
