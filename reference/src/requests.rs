//! Requests as the programs `probe_check`, `probe_calls`, `probe_services` and `probe_edits`
//! read them: tables after their lengths, and numbers of 32 bits with the high byte first.

use std::io::{self, ErrorKind, Read};

/// The longest table that the programs read, accepted or not.
pub const MOST_TABLE_BYTES: usize = 10_240;

/// The next table; none where the input ends.
pub fn next_table(input: &mut impl Read) -> io::Result<Option<Vec<u8>>> {
    match word(input) {
        Ok(length) => bytes(input, length as usize, MOST_TABLE_BYTES).map(Some),
        Err(error) if error.kind() == ErrorKind::UnexpectedEof => Ok(None),
        Err(error) => Err(error),
    }
}

pub fn word(input: &mut impl Read) -> io::Result<u32> {
    let mut four = [0; 4];
    input.read_exact(&mut four)?;
    Ok(u32::from_be_bytes(four))
}

pub fn bytes(input: &mut impl Read, length: usize, most: usize) -> io::Result<Vec<u8>> {
    let mut bytes = vec![0; at_most(length, most)?];
    input.read_exact(&mut bytes)?;
    Ok(bytes)
}

/// The number, or an error where it is above the most that a program takes.
pub fn at_most(number: usize, most: usize) -> io::Result<usize> {
    if number > most {
        return Err(io::Error::other(format!("{number} is above {most}")));
    }
    Ok(number)
}
