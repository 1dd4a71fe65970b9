//! The example of docs/FORMAT.md is what the engine writes.

use gemsilver::bytes;

const FORMAT: &str = include_str!("../../../docs/FORMAT.md");
const BLOCKS: usize = 4;
const ENTRIES: usize = 4;

/// The lines of the example that is fenced under a name.
fn example(name: &str) -> impl Iterator<Item = &'static str> {
    let fence = format!("```{name}");
    FORMAT
        .lines()
        .skip_while(move |line| *line != fence)
        .skip(1)
        .take_while(|line| *line != "```")
}

/// A line of a dump: where it begins, and its bytes.
fn dumped(line: &str) -> (usize, Vec<u8>) {
    let (at, bytes) = line.split_once(": ").expect("an offset and bytes");
    (
        usize::from_str_radix(at, 16).expect("an offset"),
        bytes
            .split(' ')
            .map(|byte| u8::from_str_radix(byte, 16).expect("a byte"))
            .collect(),
    )
}

/// Bytes of one value with the example's over them.
fn filled(name: &str, value: u8, length: usize) -> Vec<u8> {
    let mut all = vec![value; length];
    for line in example(name) {
        let (at, bytes) = dumped(line);
        all[at..at + bytes.len()].copy_from_slice(&bytes);
    }
    all
}

fn word(image: &[u8], place: usize) -> u32 {
    u32::from_le_bytes(
        image[4 * place..4 * place + 4]
            .try_into()
            .expect("four bytes"),
    )
}

#[test]
fn the_example_is_what_is_written() {
    let mut image = vec![0; gemsilver::IMAGE];
    let mut card = vec![0; BLOCKS * 4_096];
    let mut register = vec![1; ENTRIES * 65];
    bytes::start(&mut image, &mut card, &mut register).expect("a start");
    let fresh = image.clone();
    for events in [&["LUCKY", "LUCKY", "LUCKY", "TILT"][..], &["LUCKY"]] {
        bytes::open(&mut image).expect("an open");
        for event in events {
            bytes::event(&mut image, &mut card, &mut register, event.as_bytes()).expect("an event");
        }
        bytes::close(&mut image).expect("a close");
    }
    bytes::flush(&mut image, &mut card).expect("a flush");
    bytes::remove(&mut image, &mut card, 1).expect("a removal");
    bytes::flush(&mut image, &mut card).expect("a flush");

    assert!(card == filled("card", 255, card.len()), "the card");
    assert!(
        register == filled("register", 0, register.len()),
        "the register"
    );
    let told: Vec<(usize, u32)> = example("image")
        .map(|line| line.split_once(": ").expect("a place and a number"))
        .map(|(place, number)| {
            (
                place.parse().expect("a place"),
                number.parse().expect("a number"),
            )
        })
        .collect();
    assert_eq!(told.len(), 14);
    for place in 0..gemsilver::IMAGE / 4 {
        let expected = told
            .iter()
            .find(|(at, _)| *at == place)
            .map_or(word(&fresh, place), |(_, number)| *number);
        assert_eq!(word(&image, place), expected, "word {place}");
    }
}
