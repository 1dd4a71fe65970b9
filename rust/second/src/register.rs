//! The register: which identifier has which number.

use crate::limits::{ENTRY, IDENTIFIER};

/// Whether these bytes can be an identifier.
pub fn is_identifier(bytes: &[u8]) -> bool {
    (1..=IDENTIFIER).contains(&bytes.len())
}

/// The identifiers in the order of their numbers, or `None` if the register is malformed.
pub fn read(register: &[u8]) -> Option<Vec<Vec<u8>>> {
    let entries: Vec<&[u8]> = register.chunks_exact(ENTRY).collect();
    let used = entries.iter().take_while(|entry| entry[0] != 0).count();
    let names: Option<Vec<Vec<u8>>> = entries[..used].iter().map(|e| read_entry(e)).collect();
    let rest_is_zero = entries[used..].iter().all(|entry| is_zero(entry));
    names.filter(|names| rest_is_zero && all_differ(names))
}

/// A used entry's identifier, or `None` if its length or its padding is wrong.
fn read_entry(entry: &[u8]) -> Option<Vec<u8>> {
    let length = usize::from(entry[0]);
    if !(1..=IDENTIFIER).contains(&length) {
        return None;
    }
    let (name, padding) = entry[1..].split_at(length);
    is_zero(padding).then(|| name.to_vec())
}

fn is_zero(bytes: &[u8]) -> bool {
    bytes.iter().all(|&byte| byte == 0)
}

/// Whether any two identifiers differ.
pub fn all_differ<T: AsRef<[u8]>>(names: &[T]) -> bool {
    let mut sorted: Vec<&[u8]> = names.iter().map(|name| name.as_ref()).collect();
    sorted.sort_unstable();
    sorted.windows(2).all(|pair| pair[0] != pair[1])
}

/// An identifier's number, or `None` if the register does not have it.
pub fn number_of(names: &[Vec<u8>], identifier: &[u8]) -> Option<u16> {
    let place = names.iter().position(|name| name == identifier)?;
    Some(place as u16)
}

/// Enters an identifier under its number; a second time changes nothing.
pub fn enter(register: &mut [u8], number: u16, identifier: &[u8]) {
    let entry = &mut register[usize::from(number) * ENTRY..][..ENTRY];
    entry[0] = identifier.len() as u8;
    entry[1..=identifier.len()].copy_from_slice(identifier);
}
