//! Bytes as text, one way for each.

use gemsilver::Stretch;

/// An identifier as text: bytes that print as themselves, a backslash as two, any other byte as `\x` and two digits. It has no space.
pub fn identifier(bytes: &[u8]) -> String {
    bytes.iter().map(|&byte| shown(byte, false)).collect()
}

/// A line as text: as an identifier, but with its spaces.
pub fn line(bytes: &[u8]) -> String {
    bytes.iter().map(|&byte| shown(byte, true)).collect()
}

fn shown(byte: u8, with_spaces: bool) -> String {
    match byte {
        b'\\' => r"\\".to_string(),
        b' ' if with_spaces => " ".to_string(),
        33..=126 => char::from(byte).to_string(),
        _ => format!(r"\x{byte:02x}"),
    }
}

/// The bytes that a text stands for, as [`identifier`] shows them; `None` where a backslash is followed by anything else.
pub fn bytes(text: &[u8]) -> Option<Vec<u8>> {
    let mut bytes = Vec::new();
    let mut rest = text;
    while let Some((&byte, after)) = rest.split_first() {
        rest = after;
        if byte != b'\\' {
            bytes.push(byte);
            continue;
        }
        match after {
            [b'\\', after @ ..] => {
                bytes.push(b'\\');
                rest = after;
            }
            [b'x', high, low, after @ ..] => {
                let digit = |digit: u8| char::from(digit).to_digit(16);
                bytes.push((16 * digit(*high)? + digit(*low)?) as u8);
                rest = after;
            }
            _ => return None,
        }
    }
    Some(bytes)
}

/// A number of things in words: `1 hit`, `2 hits`.
pub fn count(number: impl TryInto<u64>, thing: &str) -> String {
    match number.try_into() {
        Ok(1) => format!("1 {thing}"),
        Ok(number) => format!("{number} {thing}s"),
        Err(_) => format!("many {thing}s"),
    }
}

/// A stretch in words: `windows 200 to 340`.
pub fn windows(stretch: Stretch) -> String {
    format!("windows {} to {}", stretch.first, stretch.last)
}

/// A signed count: `+3`, `-3`, `0`.
pub fn signed(count: i32) -> String {
    if count == 0 {
        "0".to_string()
    } else {
        format!("{count:+}")
    }
}

#[cfg(test)]
mod tests {
    use super::{bytes, identifier};

    #[test]
    fn every_byte_is_shown_and_read_back() {
        let all: Vec<u8> = (0..=255).collect();
        let text = identifier(&all);
        assert!(text.bytes().all(|byte| (33..=126).contains(&byte)));
        assert_eq!(bytes(text.as_bytes()), Some(all));
        assert_eq!(bytes(br"\x4"), None);
        assert_eq!(bytes(br"\n"), None);
    }
}
