//! Each way in which what a call must read can be malformed.

use crate::build::build;
use crate::calls::{Call, event, forecast, make, mean, mean_of, outcome, query, query_in};
use crate::image::{BLOCK, CONTENT, encode, place, word};
use second::commands::Probe;
use second::ledger::Ledger;
use second::ledger::account::{Entry, Part};
use second::stretch::Stretch;

pub fn part(level: usize, entries: Vec<Entry>) -> Part {
    Part { level, entries }
}

/// A foreign card of 16 blocks with identifiers A, B, C and D, 2000 windows,
/// 1500 of them closed and live, and the last one open with one event.
pub fn card_of(parts: Vec<Part>) -> Probe {
    let mut ledger = Ledger::new(16, 5);
    ledger.known = [b"A", b"B", b"C", b"D"].map(|id| id.to_vec()).to_vec();
    ledger.last = 2000;
    ledger.open = Some(2000);
    ledger.listed = vec![b"A".to_vec()];
    ledger.live.insert(2000, [(b"A".to_vec(), 1)].into());
    ledger.account.add(0, 2000, 1);
    ledger.account.parts = parts;
    let mut probe = build(&ledger);
    probe.state.windows.live = 1500;
    probe
}

/// Three partitions, the first of them in two blocks.
///
/// Block 0: entries at 32, 44, 56; lists of A at 68, of B at 80. Block 1: list
/// of C at 1988. Block 2: entries at 32, 44; lists at 56, 60.
fn probe() -> Probe {
    let mut entries = vec![(0, 9, 5), (0, 5, 4), (0, 3, -2)];
    entries.extend((1..=1500).rev().map(|window| (1, window, 1)));
    entries.push((2, 5, 7));
    card_of(vec![
        part(1, entries),
        part(0, vec![(0, 9, 2), (2, 9, 1)]),
        part(0, vec![(0, 9, -3)]),
    ])
}

fn put(probe: &mut Probe, block: usize, offset: usize, value: u32) {
    probe.card[block * BLOCK + offset..][..4].copy_from_slice(&value.to_le_bytes());
}

fn changed(block: usize, offset: usize, value: u32) -> Probe {
    let mut probe = probe();
    assert_ne!(word(&probe.card, block * BLOCK + offset), value);
    put(&mut probe, block, offset, value);
    probe
}

/// What query of A, query of C, removal of 9, step, event and flush come to.
fn outcomes(probe: &Probe) -> [u8; 6] {
    for name in [b"A", b"B", b"C", b"X"] {
        // It is held against the query of that identifier.
        let _ = mean_of(probe, name);
    }
    for windows in [vec![], vec![9], vec![8, 9], vec![9; 2]] {
        // They are held against single removals.
        let _ = outcome(probe, &Call::RemoveAll(windows));
    }
    [
        query(&[b"A"]),
        query(&[b"C"]),
        Call::Remove(9),
        Call::Step,
        event(b"A"),
        Call::Flush,
    ]
    .map(|call| outcome(probe, &call))
}

const FINE: [u8; 6] = [0, 0, 0, 13, 0, 0];
const BAD: [u8; 6] = [3, 3, 3, 3, 0, 0];

#[test]
fn the_card_as_built_is_fine() {
    assert_eq!(outcomes(&probe()), FINE);
}

#[test]
fn every_field_of_a_header_counts() {
    for field in 0..8 {
        let right = word(&probe().card, 4 * field);
        let others = [
            0,
            1,
            right + 1,
            right.wrapping_sub(1),
            0x8000_0000,
            u32::MAX,
        ];
        for value in others.into_iter().filter(|&value| value != right) {
            assert_eq!(outcomes(&changed(0, 4 * field, value)), BAD);
        }
    }
}

/// A partition with other fields, each at its offset, and another length. Its record has
/// the windows of the header.
fn rewritten(entries: Vec<Entry>, fields: &[(usize, u32)], length: u32) -> Probe {
    let mut probe = card_of(vec![part(0, entries)]);
    for &(offset, value) in fields {
        put(&mut probe, 0, offset, value);
    }
    put(&mut probe, 0, 16, length);
    let [lowest, highest] = [24, 28].map(|offset| word(&probe.card, offset) as u16);
    let record = &mut probe.state.partitions.records[0];
    (record.length, record.lowest, record.highest) = (length, lowest, highest);
    probe
}

/// Everything else agrees with what there is none of.
#[test]
fn identifiers_and_postings_are_at_least_one() {
    let one = || vec![(0, 9, 1)];
    let cases = [
        // No identifiers; no postings; neither.
        rewritten(one(), &[(0, 0), (4, 4), (12, 32)], 48),
        rewritten(one(), &[(4, 0), (36, 0)], 44),
        rewritten(one(), &[(0, 0), (4, 0), (12, 32)], 32),
        // An identifier without postings.
        rewritten(vec![(0, 9, 1), (1, 9, 1)], &[(4, 1), (36, 0), (52, 0)], 60),
    ];
    for probe in cases {
        assert_eq!(outcomes(&probe), BAD);
    }
}

/// A posting of no identifier at the end.
#[test]
fn entries_hold_all_postings() {
    let probe = rewritten(vec![(0, 9, 1), (0, 5, 1)], &[(36, 1)], 52);
    assert_eq!(outcomes(&probe), BAD);
    let probe = rewritten(vec![(0, 9, 1), (0, 5, 1)], &[(4, 1), (36, 1), (24, 9)], 48);
    assert_eq!(outcomes(&probe), FINE);
}

#[test]
fn every_field_of_an_entry_counts() {
    let cases = [
        (32, 1),           // not ascending: the next is 1
        (32, 2),           // not ascending
        (44, 0),           // not ascending
        (56, 1024),        // number too high
        (56, 0x0001_0002), // not zero
        (56, 0x8000_0002), // not zero
        (36, 2),           // the next list starts elsewhere
        (36, 0),           // no postings
        (40, 1),           // first list not at the start
        (52, 2),           // list does not follow the one before
        (60, 2),           // more postings than there are
        (60, 0),           // fewer
        (60, u32::MAX),    // far more
        (64, 0),           // list does not follow the one before
    ];
    for (offset, value) in cases {
        assert_eq!(outcomes(&changed(0, offset, value)), BAD, "{offset}");
    }
    // Numbers that the register does not use are no fault.
    assert_eq!(outcomes(&changed(0, 56, 1023)), FINE);
    // Two lists that overlap, though the numbers add up.
    let mut probe = changed(0, 36, 2);
    put(&mut probe, 0, 48, 1501);
    assert_eq!(outcomes(&probe), BAD);
    put(&mut probe, 0, 52, 2);
    assert_eq!(outcomes(&probe)[3..], FINE[3..]);
}

#[test]
fn chains_stay_on_the_card_and_end_in_time() {
    for link in [0, 2, 3, 4, 16, 65_533, 65_534, 65_535, 0x1_0001, u32::MAX] {
        assert_eq!(outcomes(&changed(0, CONTENT, link)), BAD, "{link}");
    }
    for link in [0, 1, 2, 5, 16, 65_535, 0x1_fffe, u32::MAX] {
        assert_eq!(outcomes(&changed(1, CONTENT, link)), BAD, "{link}");
    }
}

#[test]
fn the_record_counts() {
    for first in [1, 2, 15, 16, 65_534, 65_535] {
        let mut probe = probe();
        probe.state.partitions.records[0].first = first;
        assert_eq!(outcomes(&probe), BAD);
    }
    for length in [0, 1, 31, 48, 4092, 4093, 6083, 6085, 8184, 8185, 16 * 4092] {
        let mut probe = probe();
        probe.state.partitions.records[0].length = length;
        // A whole card of one partition leaves no room for a flush.
        let flush = if length == 16 * 4092 { 11 } else { 0 };
        assert_eq!(outcomes(&probe), [3, 3, 3, 3, 0, flush]);
    }
    for level in [2, 5] {
        let mut probe = probe();
        probe.state.partitions.records[0].level = level;
        assert_eq!(outcomes(&probe), BAD);
    }
    for (lowest, highest) in [(2, 1500), (1, 1499), (1, 1501), (1, 65_535), (1500, 1500)] {
        let mut probe = probe();
        let record = &mut probe.state.partitions.records[0];
        (record.lowest, record.highest) = (lowest, highest);
        assert_eq!(outcomes(&probe), BAD);
    }
}

/// Header and record agree, and the lists do not. A step without a level due reads no lists.
#[test]
fn lowest_and_highest_are_those_of_the_lists() {
    let lists_are_bad = [3, 3, 3, 13, 0, 0];
    for (lowest, highest) in [(2, 1500), (1, 1499), (1, 1501), (1, 65_535), (1500, 1500)] {
        let mut probe = changed(0, 24, 0);
        put(&mut probe, 0, 24, lowest);
        put(&mut probe, 0, 28, highest);
        let record = &mut probe.state.partitions.records[0];
        (record.lowest, record.highest) = (lowest as u16, highest as u16);
        assert_eq!(outcomes(&probe), lists_are_bad, "{lowest} to {highest}");
    }
}

/// A step reads the lists of its inputs and of no other partition; a removal reads all.
#[test]
fn a_step_judges_the_windows_of_its_inputs() {
    let parts = (1..=9).map(|window| part(0, vec![(0, window, 1)]));
    let sound = card_of(parts.collect());
    assert_eq!(outcome(&sound, &Call::Step), 0);
    for place in 0..9 {
        let mut probe = sound.clone();
        put(&mut probe, place, 28, 30);
        // At odds with the record first, and then with the lists alone.
        assert_eq!(outcome(&probe, &Call::Step), 3, "partition {place}");
        probe.state.partitions.records[place].highest = 30;
        let expected = if place < 8 { 3 } else { 0 };
        assert_eq!(outcome(&probe, &Call::Step), expected, "partition {place}");
        assert_eq!(outcome(&probe, &Call::Remove(1)), 3, "partition {place}");
    }
}

/// A partition of zeros in the last two fields, whose record cannot have them.
#[test]
fn a_header_of_zeros_is_no_header() {
    for offset in [24, 28] {
        assert_eq!(outcomes(&changed(0, offset, 0)), BAD);
        assert_eq!(outcomes(&changed(3, offset, 0)), BAD);
    }
}

#[test]
fn no_block_is_in_two_partitions() {
    let mut probe = probe();
    probe.state.partitions.records[2] = probe.state.partitions.records[1];
    assert_eq!(outcomes(&probe), BAD);
    // The tail of one chain in another: the same content would do for both.
    let mut probe = card_of(vec![
        part(0, (1..=1200).rev().map(|window| (0, window, 1)).collect()),
        part(0, (1..=1200).rev().map(|window| (0, window, 1)).collect()),
    ]);
    put(&mut probe, 2, CONTENT, 1);
    assert_eq!(outcomes(&probe), BAD);
}

/// A fault in a list, whatever its identifier, is met by the calls that read all lists.
#[test]
fn every_list_counts() {
    let a_list_is_bad = [3, 3, 3, 13, 0, 0];
    let cases = [
        0x0000_0005, // window 0
        0x0005_0005, // the window of the next one
        0x0004_0005, // below the next one
        0x0009_0000, // size 0
        0x0009_8000, // size 0, negative
    ];
    for value in cases {
        assert_eq!(outcomes(&changed(0, 68, value)), a_list_is_bad, "{value:x}");
    }
    // The last of the list: only a window of 0 or a size of 0 can be wrong.
    assert_eq!(outcomes(&changed(0, 76, 0x0000_0001)), a_list_is_bad);
    assert_eq!(outcomes(&changed(1, 1988, 0x0005_0000)), a_list_is_bad);
    // A list that no query here is for.
    assert_eq!(outcomes(&changed(0, 80, 0x0001_0001)), a_list_is_bad);
    // Lists of different identifiers do not hang together.
    assert_eq!(outcomes(&changed(0, 76, 0x0001_0001)), FINE);
    // A window above the last one given, which is then the highest.
    let mut probe = changed(0, 68, 0xffff_0001);
    assert_eq!(outcomes(&probe), a_list_is_bad);
    put(&mut probe, 0, 28, 65_535);
    probe.state.partitions.records[0].highest = 65_535;
    assert_eq!(outcomes(&probe), FINE);
}

/// Partitions of windows 1 to 1500, 9 and 9: what is wrong with the lists of one is met by a query over a
/// stretch that does not pass it over.
#[test]
fn lists_of_partitions_passed_over_are_not_read() {
    let ask =
        |probe: &Probe, first, last| outcome(probe, &query_in(&[b"A"], Stretch { first, last }));
    // A list of C in the first partition, and one of A in the second.
    let (first, second) = (changed(1, 1988, 0x0005_0000), changed(2, 56, 0x0009_0000));
    for (probe, lowest, highest) in [(first, 1, 1500), (second, 9, 9)] {
        assert_eq!(ask(&probe, 1, 65_535), 3);
        assert_eq!(ask(&probe, lowest, lowest), 3);
        assert_eq!(ask(&probe, highest, highest), 3);
        assert_eq!(ask(&probe, lowest - 1, lowest - 1), 0);
        assert_eq!(ask(&probe, highest + 1, 65_535), 0);
        assert_eq!(ask(&probe, 0, lowest - 1), 0);
        assert_eq!(ask(&probe, 0, 0), 0);
    }
    // What is wrong with a header, an entry or a chain is met wherever it is.
    for probe in [
        changed(0, 28, 1499),
        changed(0, 60, 0),
        changed(1, CONTENT, 5),
    ] {
        assert_eq!(ask(&probe, 1501, 65_535), 3);
        assert_eq!(ask(&probe, 0, 0), 3);
    }
}

/// Which partitions are passed over goes by the same rule where the first window exceeds the last.
#[test]
fn what_is_read_comes_before_the_stretch() {
    let ask =
        |probe: &Probe, first, last| outcome(probe, &query_in(&[b"A"], Stretch { first, last }));
    let bad = changed(1, 1988, 0x0005_0000);
    for (first, last, expected) in [
        (9, 8, 3),
        (1500, 1, 3),
        (1501, 1, 17),
        (1, 0, 17),
        (65_535, 65_534, 17),
    ] {
        assert_eq!(ask(&bad, first, last), expected, "{first} to {last}");
        assert_eq!(ask(&probe(), first, last), 17, "{first} to {last}");
    }
}

#[test]
fn content_past_the_length_is_not_read() {
    let mut probe = probe();
    probe.card[BLOCK + 1992..BLOCK + CONTENT].fill(0);
    probe.card[4 * BLOCK..].fill(0);
    probe.card[15 * BLOCK..].fill(255);
    assert_eq!(outcomes(&probe), FINE);
    probe.card[15 * BLOCK] = 0;
    assert_eq!(outcomes(&probe), [0, 0, 0, 13, 0, 12]);
}

/// A card on which window 9 has these counts of A, and one buffered.
fn sums(counts: &[i64], buffered: i16) -> Probe {
    let parts = counts.iter().map(|&count| part(0, vec![(0, 9, count)]));
    let mut probe = card_of(parts.collect());
    if buffered != 0 {
        probe.state.buffer.used = 2;
        probe.state.buffer.postings[1] = second::state::Posting {
            id: 0,
            window: 9,
            count: buffered,
        };
    }
    probe
}

#[test]
fn sums_are_counts() {
    let over = [
        (vec![32_767, 1], 0),
        (vec![32_767, 1], -1),
        (vec![-32_767, -1], 0),
        (vec![-32_767, -1], 1),
        (vec![32_767], 1),
        (vec![-32_767], -1),
        (vec![32_767; 7], -32_767),
    ];
    for (counts, buffered) in over {
        let probe = sums(&counts, buffered);
        assert_eq!(outcomes(&probe), [3, 0, 3, 13, 0, 0], "{counts:?}");
        assert_eq!(outcome(&probe, &Call::Remove(8)), 7);
    }
    let within = [
        (vec![32_767, 32_767, -32_767], 0),
        (vec![32_766, 1], -32_767),
        (vec![-32_767], 32_767),
    ];
    for (counts, buffered) in within {
        assert_eq!(
            outcomes(&sums(&counts, buffered))[..2],
            [0, 0],
            "{counts:?}"
        );
    }
    assert_eq!(outcome(&sums(&[32_767; 8], 0), &Call::Step), 3);
    let balanced = [32_767, 32_767, -32_767, -1, 32_767, -32_767, 1, -32_767];
    assert_eq!(outcome(&sums(&balanced, 0), &Call::Step), 0);
    // A ninth partition is no input.
    let ninth = [&balanced[..], &[32_767, 32_767]].concat();
    assert_eq!(outcome(&sums(&ninth, 0), &Call::Step), 0);
}

/// A card on which a window has one count of each of so many identifiers.
fn wide(window: u32, identifiers: usize) -> Probe {
    let entries = (0..identifiers).map(|id| (id, window, if id == 0 { 1 } else { -1 }));
    card_of(vec![part(0, entries.collect())])
}

#[test]
fn a_window_to_be_removed_has_at_most_64_identifiers() {
    assert_eq!(outcome(&wide(9, 64), &Call::Remove(9)), 0);
    // Whatever the window is: live, open, or above the last one given.
    for window in [9, 2000, 2001, 65_535] {
        assert_eq!(outcome(&wide(window, 65), &Call::Remove(window)), 3);
        assert_eq!(outcome(&wide(window, 65), &Call::Remove(8)), 7);
    }
    assert_eq!(outcome(&wide(2001, 64), &Call::Remove(2001)), 7);
    // Pairs that come to 0 are none of its identifiers.
    let mut probe = card_of(vec![
        part(0, (0..70).map(|id| (id, 9, 1)).collect()),
        part(0, (6..70).map(|id| (id, 9, -1)).collect()),
    ]);
    assert_eq!(make(&mut probe, &Call::Remove(9)), Ok(()));
    assert_eq!(probe.state.buffer.used, 7);
}

#[test]
fn the_register_is_read_whole() {
    let changes: [fn(&mut [u8]); 7] = [
        |register| register[0] = 0,           // a gap
        |register| register[65] = 65,         // too long
        |register| register[130] = 255,       // too long
        |register| register[2] = 1,           // a byte past the identifier
        |register| register[64] = 1,          // the last one
        |register| register[65 + 1] = b'A',   // one identifier twice
        |register| register[4 * 65 + 64] = 1, // an unused entry that is not zero
    ];
    for change in changes {
        let mut probe = probe();
        change(&mut probe.register);
        assert_eq!(outcomes(&probe), [3, 3, 0, 13, 3, 0]);
        // Before any other reason.
        assert_eq!(outcome(&probe, &event(b"")), 3);
        assert_eq!(outcome(&probe, &mean(b"")), 3);
        let nothing = Call::Query(Vec::new(), Stretch { first: 1, last: 0 }, 0);
        assert_eq!(outcome(&probe, &nothing), 3);
        assert_eq!(outcome(&probe, &forecast(&[])), 3);
    }
}

/// Sums of A are no counts in windows 9 and 7, and A is in partitions of its own. With the buffer one is a count.
#[test]
fn sums_are_of_the_partitions_that_are_read() {
    let mut parts = [9, 7]
        .map(|window| [32_767, 1].map(|count| part(0, vec![(0, window, count)])))
        .concat();
    parts.push(part(0, vec![(1, 20, 1), (1, 3, 1)]));
    let mut probe = card_of(parts);
    probe.state.buffer.used = 2;
    probe.state.buffer.postings[1] = second::state::Posting {
        id: 0,
        window: 8,
        count: 1,
    };
    let ask = |ids: &[&[u8]], first, last| {
        let stretch = Stretch { first, last };
        outcome(&probe, &query_in(ids, stretch))
    };
    for (first, last, expected) in [
        (1, 65_535, 3),
        (8, 9, 3),
        (7, 8, 3),
        (9, 9, 3),
        (8, 8, 0),
        (10, 65_535, 0),
        (1, 6, 0),
        (0, 0, 0),
        // Backward, both are passed over.
        (9, 7, 17),
    ] {
        assert_eq!(ask(&[b"A"], first, last), expected, "{first} to {last}");
        let other = if first > last { 17 } else { 0 };
        assert_eq!(ask(&[b"B"], first, last), other, "{first} to {last}");
    }
}

/// A sum that is no count is met in every window of the partitions read, in the stretch or not.
#[test]
fn sums_outside_the_stretch_are_counts_too() {
    let list = |count| part(0, vec![(0, 9, count), (0, 5, 1), (1, 20, 1)]);
    let probe = card_of(vec![list(32_767), list(1)]);
    for (first, last) in [(5, 5), (6, 8), (10, 20), (20, 20), (1, 65_535)] {
        let stretch = Stretch { first, last };
        assert_eq!(outcome(&probe, &query_in(&[b"A"], stretch)), 3);
        assert_eq!(outcome(&probe, &query_in(&[b"B"], stretch)), 0);
    }
    for (first, last) in [(1, 4), (21, 65_535), (0, 0)] {
        let stretch = Stretch { first, last };
        assert_eq!(outcome(&probe, &query_in(&[b"A"], stretch)), 0);
    }
    // The buffer is always read.
    let mut probe = card_of(vec![list(32_767)]);
    probe.state.buffer.postings[1] = second::state::Posting {
        id: 0,
        window: 9,
        count: 1,
    };
    probe.state.buffer.used = 2;
    for (first, last, expected) in [(6, 8, 3), (21, 30, 0), (1, 4, 0)] {
        let stretch = Stretch { first, last };
        assert_eq!(outcome(&probe, &query_in(&[b"A"], stretch)), expected);
    }
}

#[test]
fn a_query_sums_all_that_it_names() {
    let probe = sums(&[32_767, 1], 0);
    let sixth: [&[u8]; 6] = [b"B", b"C", b"D", b"X", b"Y", b"A"];
    assert_eq!(outcome(&probe, &query(&sixth)), 3);
    assert_eq!(outcome(&probe, &query(&sixth[..5])), 0);
    assert_eq!(outcome(&probe, &query(&[b"A", b"A"])), 3);
    assert_eq!(outcome(&probe, &query(&[b"B", b"B"])), 14);
    assert_eq!(outcome(&probe, &query(&[b"", b"A"])), 3);
    assert_eq!(outcome(&probe, &query(&[b"", b"B"])), 4);
    let no_places = Call::Query(vec![b"A".to_vec()], Stretch::ALL, 0);
    assert_eq!(outcome(&probe, &no_places), 3);
}

/// A merge of 1600 pairs after 70 of 100 steps, its output in blocks 8 and 9.
fn in_progress() -> Probe {
    let probe = in_progress_after(None);
    assert_eq!(probe.state.merge.first, 8);
    assert_eq!(probe.state.merge.length, 32 + 12 + 6400);
    assert_eq!(probe.state.taken, 9);
    probe
}

/// The same merge beside an older partition.
fn in_progress_after(older: Option<Part>) -> Probe {
    let inputs = (0..8).map(|input| {
        let windows = (1..=200).rev().map(|window| input * 200 + window);
        part(0, windows.map(|window| (0, window, 3)).collect())
    });
    let mut probe = card_of(older.into_iter().chain(inputs).collect());
    for _ in 0..70 {
        make(&mut probe, &Call::Step).unwrap();
    }
    probe
}

#[test]
fn every_byte_of_the_output_counts() {
    let mut probe = in_progress();
    assert_eq!(outcome(&probe, &Call::Step), 0);
    for place in (8 * BLOCK..10 * BLOCK).step_by(11) {
        let byte = probe.card[place];
        probe.card[place] = byte ^ 4;
        assert_eq!(outcome(&probe, &Call::Step), 3, "{place}");
        probe.card[place] = byte;
    }
}

#[test]
fn the_record_of_the_merge_counts() {
    let change = |change: &dyn Fn(&mut Probe)| {
        let mut probe = in_progress();
        change(&mut probe);
        assert_eq!(outcome(&probe, &query(&[b"B"])), 0);
        outcome(&probe, &Call::Step)
    };
    for steps in [1, 69, 71, 99, 100, 101, u32::MAX] {
        assert_eq!(change(&|probe| probe.state.merge.steps = steps), 3);
    }
    for length in [0, 6443, 6445, 8184, u32::MAX] {
        assert_eq!(change(&|probe| probe.state.merge.length = length), 3);
    }
    for first in [0, 7, 9, 10, 15, 16, 65_534, 65_535] {
        assert_eq!(change(&|probe| probe.state.merge.first = first), 3);
    }
    // Other blocks do as well, but none of a finished partition.
    let moved = |probe: &mut Probe, to: usize| {
        let second = probe.card[9 * BLOCK..10 * BLOCK].to_vec();
        probe.card[to * BLOCK..(to + 1) * BLOCK].copy_from_slice(&second);
        put(probe, 8, CONTENT, to as u32);
    };
    assert_eq!(change(&|probe| moved(probe, 12)), 0);
    assert_eq!(change(&|probe| put(probe, 8, CONTENT, 8)), 3);
}

/// With all pairs taken but the merge still in progress, no step can follow.
#[test]
fn pairs_must_be_left() {
    let mut probe = in_progress();
    for _ in 70..99 {
        make(&mut probe, &Call::Step).unwrap();
    }
    let mut finished = probe.clone();
    make(&mut finished, &Call::Step).unwrap();
    assert_eq!(finished.state.partitions.used, 1);
    // All postings in place, no header yet.
    let windows = (1..=1600).rev();
    let mut content = encode(&part(1, windows.map(|window| (0, window, 3)).collect()));
    content[..44].fill(255);
    place(&mut probe.card, &[8, 9], &content);
    probe.state.merge.steps = 100;
    assert_eq!(outcome(&probe, &Call::Step), 3);
}

/// The second block of the output serves a finished partition as well. Its
/// lists are not read, so that nothing else can be wrong with it.
#[test]
fn the_output_lies_in_no_finished_partition() {
    let mut probe = in_progress_after(Some(part(
        1,
        (1..=1200).rev().map(|window| (1, window, 1)).collect(),
    )));
    assert_eq!(probe.state.merge.first, 10);
    assert_eq!(outcome(&probe, &Call::Step), 0);
    put(&mut probe, 0, CONTENT, 11);
    let passing_it_over = Stretch {
        first: 1201,
        last: 1600,
    };
    assert_eq!(outcome(&probe, &query_in(&[b"A"], passing_it_over)), 0);
    assert_eq!(outcome(&probe, &Call::Step), 3);
}

/// Inputs that cancel: nothing is written, and no block is named.
#[test]
fn an_empty_output_has_no_block() {
    let list = |count| (1..=20).rev().map(|window| (0, window, count)).collect();
    let parts = [1, -1, 2, -2, 3, -3, 4, -4].map(|count| part(0, list(count)));
    let mut probe = card_of(parts.to_vec());
    // No block need be free for it.
    probe.card[8 * BLOCK..].fill(0);
    make(&mut probe, &Call::Step).unwrap();
    let job = probe.state.merge;
    assert_eq!((job.first, job.length, job.steps), (65_534, 0, 1));
    assert_eq!(probe.state.taken, 7);
    for (first, length) in [(0, 0), (8, 0), (65_535, 0), (65_534, 1), (8, 48)] {
        let mut probe = probe.clone();
        (probe.state.merge.first, probe.state.merge.length) = (first, length);
        assert_eq!(outcome(&probe, &Call::Step), 3);
    }
    make(&mut probe, &Call::Step).unwrap();
    assert_eq!(probe.state.partitions.used, 0);
    assert_eq!(probe.state.merge, Default::default());
    assert!(probe.card[..8 * BLOCK].iter().all(|&byte| byte == 255));
}
