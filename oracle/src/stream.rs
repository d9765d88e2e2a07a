//! Byte strings one after another, each after its length in 4 bytes.
//!
//! A script, an image and the route images added after it, is such a stream
//! itself.

use std::io::{self, Read, Write};

/// Writes one string.
pub fn put(out: &mut impl Write, bytes: &[u8]) -> io::Result<()> {
    let length = u32::try_from(bytes.len()).expect("a length of four bytes");
    out.write_all(&length.to_le_bytes())?;
    out.write_all(bytes)
}

/// Reads the next string, or none at the end.
pub fn get(input: &mut impl Read) -> io::Result<Option<Vec<u8>>> {
    let mut length = [0; 4];
    if input.read(&mut length[..1])? == 0 {
        return Ok(None);
    }
    input.read_exact(&mut length[1..])?;
    let mut bytes = vec![0; u32::from_le_bytes(length) as usize];
    input.read_exact(&mut bytes)?;
    Ok(Some(bytes))
}

/// All strings of a stream.
pub fn get_all(mut input: &[u8]) -> io::Result<Vec<Vec<u8>>> {
    let mut strings = Vec::new();
    while let Some(bytes) = get(&mut input)? {
        strings.push(bytes);
    }
    Ok(strings)
}

/// The strings as one stream.
pub fn pack(strings: &[Vec<u8>]) -> Vec<u8> {
    let mut out = Vec::new();
    for bytes in strings {
        put(&mut out, bytes).expect("a vector takes every byte");
    }
    out
}

/// Two hexadecimal digits for each byte.
pub fn hex(bytes: &[u8]) -> String {
    bytes.iter().map(|byte| format!("{byte:02x}")).collect()
}
