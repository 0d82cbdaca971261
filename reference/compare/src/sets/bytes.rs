//! A sheet with lines of every kind, cut or changed at each byte.

use std::io;

use super::every_kind_of_line;
use crate::Emit;

const ODD_BYTES: [u8; 9] = [0, b'\r', b'\n', b' ', b'-', b'0', b'9', b'a', 0xff];

pub fn cuts(emit: &mut Emit) -> io::Result<()> {
    let whole = every_kind_of_line();
    for length in 0..=whole.len() {
        emit(&whole[..length])?;
    }
    Ok(())
}

pub fn changes(emit: &mut Emit) -> io::Result<()> {
    let whole = every_kind_of_line();
    for place in 0..whole.len() {
        let (before, after) = (&whole[..place], &whole[place + 1..]);
        for byte in ODD_BYTES {
            emit(&[before, &[byte], after].concat())?;
        }
        emit(&[before, &whole[place..=place], &whole[place..]].concat())?;
        emit(&[before, after].concat())?;
    }
    Ok(())
}
