//! A state's image: every word has its place and comes back.

use crate::history::{Odds, Plan, run};
use second::image::{LENGTH, read, write};
use second::state::State;

/// The image of zeros with one word changed. A count of 0 is an image's 32,768.
fn with(place: usize, word: u32) -> Vec<u8> {
    let mut image = write(&State::default());
    image[4 * place..][..4].copy_from_slice(&word.to_le_bytes());
    image
}

#[test]
fn every_word_comes_back() {
    assert_eq!(write(&State::default()).len(), LENGTH);
    for place in 0..716 {
        for word in [0, 1, 255, 256, 32_767, 32_768, 65_535] {
            let image = with(place, word);
            assert!(read(&image).is_some_and(|state| write(&state) == image));
        }
    }
}

#[test]
fn lengths_and_steps_need_all_bits_and_no_other_number_has_them() {
    let is_length = |place: usize| (457..712).contains(&place) && (place - 457) % 5 == 2;
    for place in 0..716 {
        let wide = [0, 1, 714, 715].contains(&place) || is_length(place);
        for word in [65_536, u32::MAX] {
            let image = with(place, word);
            assert_eq!(read(&image).is_some(), wide, "{place}");
            assert!(read(&image).is_none_or(|state| write(&state) == image));
        }
    }
}

#[test]
fn other_lengths_are_no_image() {
    let image = with(2, 5);
    assert_eq!(read(&image[..LENGTH - 1]), None);
    assert_eq!(read(&[&image[..], &[0]].concat()), None);
    assert_eq!(read(&[]), None);
}

#[test]
fn words_stand_where_they_are_said_to_stand() {
    let state = |place, word| read(&with(place, word)).expect("an image");
    assert_eq!(state(1, 650).lengths.register, 650);
    assert_eq!(state(2, 7).windows.last, 7);
    assert_eq!(state(5, 7).windows.events, 7);
    assert_eq!(state(6, 7).listed.used, 7);
    assert_eq!(state(70, 7).listed.ids[63], 7);
    assert_eq!(state(71, 7).buffer.used, 7);
    assert_eq!(state(74, 32_767).buffer.postings[0].count, -1);
    assert_eq!(state(454, 7).buffer.postings[127].window, 7);
    assert_eq!(state(456, 7).partitions.used, 7);
    assert_eq!(state(457, 7).partitions.records[0].first, 7);
    assert_eq!(state(458, 7).partitions.records[0].level, 7);
    assert_eq!(state(460, 7).partitions.records[0].lowest, 7);
    assert_eq!(state(461, 7).partitions.records[0].highest, 7);
    assert_eq!(state(709, 70_000).partitions.records[50].length, 70_000);
    assert_eq!(state(710, 7).partitions.records[50].lowest, 7);
    assert_eq!(state(711, 7).partitions.records[50].highest, 7);
    assert_eq!(state(712, 7).taken, 7);
    assert_eq!(state(713, 7).merge.first, 7);
    assert_eq!(state(714, 70_000).merge.length, 70_000);
    assert_eq!(state(715, 70_000).merge.steps, 70_000);
}

#[test]
fn states_of_histories_come_back() {
    let odds = Odds {
        turn: 10,
        event: 60,
        remove: 8,
        together: 0,
        flush: 14,
        step: 10,
        query: 0,
        odd: 0,
    };
    for seed in 0..20 {
        let plan = Plan {
            seed,
            blocks: 32,
            entries: 20,
            calls: 100 * seed as usize,
            names: 20,
            keep: 4,
            odds,
        };
        let state = run(&plan).state;
        assert_eq!(read(&write(&state)), Some(state));
    }
}
