//! Names.

use super::MOST_NAME_BYTES;

/// A name has 1 to 16 bytes: a letter a to z, then letters, digits or hyphens.
pub fn read_name(bytes: &[u8]) -> Option<&str> {
    let (&first, others) = bytes.split_first()?;
    let good =
        bytes.len() <= MOST_NAME_BYTES && first.is_ascii_lowercase() && others.iter().all(|&byte| is_name_byte(byte));
    if good {
        std::str::from_utf8(bytes).ok()
    } else {
        None
    }
}

pub fn is_name_byte(byte: u8) -> bool {
    byte.is_ascii_lowercase() || byte.is_ascii_digit() || byte == b'-'
}
