//! Wrong engines: what each answers where its fault shows, and near by where it does not.

use second::commands::Probe;
use second::engine;
use second::faults::Fault;
use second::refusal::Refusal;
use second::state::Hit;
use second::stretch::Stretch;
use second::wrong;
use std::collections::BTreeSet;

/// Windows and scores, and the postings taken; or the refusal.
pub type Answer = Result<(Vec<(u16, u32)>, u32), u8>;

/// The program's card and register have 16 blocks and 64 entries.
pub const PROGRAM: (usize, usize) = (16, 64);
/// Room for a second merge of level 0, and for many identifiers.
pub const LARGE: (usize, usize) = (48, 256);

pub fn probe((blocks, entries): (usize, usize)) -> Probe {
    let mut card = vec![0; blocks * 4096];
    let mut register = vec![0; entries * 65];
    let (state, result) = engine::start(&mut card, &mut register);
    assert_eq!(result, Ok(()));
    Probe {
        state,
        card,
        register,
    }
}

/// A query of a wrong engine over all windows, or of the right one.
pub fn ask(fault: Option<Fault>, probe: &Probe, ids: &[&[u8]], places: usize) -> Answer {
    ask_in(fault, probe, ids, Stretch::ALL, places)
}

/// The same over a stretch. Places beyond the last hit must stay.
pub fn ask_in(
    fault: Option<Fault>,
    probe: &Probe,
    ids: &[&[u8]],
    stretch: Stretch,
    places: usize,
) -> Answer {
    let untouched = Hit {
        window: 0xabcd,
        score: 0xdead_beef,
    };
    let mut hits = vec![untouched; places];
    let (state, card, register) = (&probe.state, &probe.card, &probe.register);
    let found = match fault {
        Some(fault) => wrong::query(fault, state, card, register, ids, stretch, &mut hits),
        None => engine::query(state, card, register, ids, stretch, &mut hits),
    };
    let listed = found.map_or(0, |found| usize::from(found.hits));
    assert!(hits[listed..].iter().all(|hit| *hit == untouched));
    let list = hits[..listed].iter().map(|hit| (hit.window, hit.score));
    found
        .map(|found| (list.collect(), found.taken))
        .map_err(Refusal::number)
}

/// An event of a wrong engine.
pub fn count(fault: Fault, probe: &mut Probe, identifier: &[u8]) -> Result<(), u8> {
    let (state, card, register) = (&mut probe.state, &mut probe.card, &mut probe.register);
    wrong::event(fault, state, card, register, identifier).map_err(Refusal::number)
}

/// A merge step of a wrong engine.
pub fn step(fault: Fault, probe: &mut Probe) -> Result<(), u8> {
    wrong::step(fault, &mut probe.state, &mut probe.card).map_err(Refusal::number)
}

fn done(result: Result<(), u8>) -> String {
    result.map_or_else(|number| format!("!{number}"), |()| "0".to_string())
}

/// Obeys a line as the program does, but prints the lines of an answer in one. A line that the program has not
/// asks over a stretch: S, its first and last window, and then as Q goes on.
pub fn obey(fault: Option<Fault>, probe: &mut Probe, line: &str) -> String {
    let fields: Vec<&str> = line.split(' ').collect();
    match (fault, &fields[..]) {
        (Some(fault), ["E", id]) => done(count(fault, probe, id.as_bytes())),
        (Some(fault), ["M"]) => done(step(fault, probe)),
        (Some(_), ["Q", places, ids @ ..]) => answer(fault, probe, Stretch::ALL, places, ids),
        (_, ["S", first, last, places, ids @ ..]) => {
            let [first, last] = [first, last].map(|window| window.parse().unwrap());
            answer(fault, probe, Stretch { first, last }, places, ids)
        }
        _ => probe.obey(line.as_bytes()).trim_end().replace('\n', ", "),
    }
}

/// What a query answers, in one line.
fn answer(
    fault: Option<Fault>,
    probe: &Probe,
    stretch: Stretch,
    places: &str,
    ids: &[&str],
) -> String {
    let ids: Vec<&[u8]> = ids.iter().map(|id| id.as_bytes()).collect();
    match ask_in(fault, probe, &ids, stretch, places.parse().unwrap()) {
        Ok((hits, taken)) => {
            let first = format!("{} {taken}", hits.len());
            let hits = hits
                .iter()
                .map(|(window, score)| format!(", {window} {score}"));
            first + &hits.collect::<String>()
        }
        Err(number) => format!("!{number}"),
    }
}

/// What an engine answers to the last line of a history; no line before it is refused.
fn last(fault: Option<Fault>, probe: &Probe, history: &str) -> String {
    let mut probe = probe.clone();
    let mut answer = String::new();
    for line in history.split(", ") {
        assert!(!answer.starts_with(['!', '?']), "{answer} before {line}");
        answer = obey(fault, &mut probe, line);
    }
    answer
}

/// The history tells the wrong engine from the right one, on the program's card.
fn tells(fault: Fault, history: &str, right: &str, wrong: &str) {
    assert_eq!(last(None, &probe(PROGRAM), history), right);
    assert_eq!(last(Some(fault), &probe(PROGRAM), history), wrong);
}

/// The history does not tell any of these wrong engines from the right one.
fn hides(faults: &[Fault], history: &str, right: &str) {
    for fault in faults {
        tells(*fault, history, right, right);
    }
}

#[test]
fn names_and_sentences_differ() {
    let names = [
        "cut-identifiers",
        "added-frequencies",
        "mended-neighbours",
        "dropped-negatives",
        "filled-first",
        "rounded-quotient",
        "read-output",
        "forgotten-buffer",
        "lowest-alone",
        "last-list-highest",
        "taken-outside",
        "live-outside",
        "frequency-outside",
    ];
    assert_eq!(Fault::ALL.map(Fault::name), names);
    assert_eq!(names.map(Fault::named), Fault::ALL.map(Some));
    let sentences: BTreeSet<&str> = Fault::ALL.map(Fault::sentence).into();
    assert_eq!(sentences.len(), 13);
    for name in ["", "cut", "cut-identifiers ", "CutIdentifiers"] {
        assert_eq!(Fault::named(name), None);
    }
}

#[test]
fn cut_identifiers() {
    let cut = Fault::CutIdentifiers;
    let two = "O, E ABCDEFGHIJKLMNOP1, C, O, E ABCDEFGHIJKLMNOP2, C";
    // One window of two weighs 16; two of two weigh nothing.
    let one = format!("{two}, Q 4 ABCDEFGHIJKLMNOP1");
    tells(cut, &one, "1 1, 1 256", "2 2, 2 0, 1 0");
    let other = format!("{two}, Q 4 ABCDEFGHIJKLMNOP");
    tells(cut, &other, "0 0", "2 2, 2 0, 1 0");
    let both = format!("{two}, Q 4 ABCDEFGHIJKLMNOP1 ABCDEFGHIJKLMNOP2");
    tells(cut, &both, "2 2, 2 256, 1 256", "!14");
    // They differ at sixteen bytes, or differ among the first sixteen.
    let short = "O, E ABCDEFGHIJKLMNO1, C, O, E ABCDEFGHIJKLMNO2, C, Q 4 ABCDEFGHIJKLMNO1";
    hides(&[cut], short, "1 1, 1 256");
    let early = "O, E 1ABCDEFGHIJKLMNOP, C, O, E 2ABCDEFGHIJKLMNOP, C, Q 4 1ABCDEFGHIJKLMNOP";
    hides(&[cut], early, "1 1, 1 256");
}

/// Lengths are judged before the cut, and sixteen bytes of it are entered.
#[test]
fn cut_identifiers_have_their_length() {
    let cut = Fault::CutIdentifiers;
    let mut probe = probe(PROGRAM);
    engine::open(&mut probe.state).unwrap();
    for length in [0, 65, 66, 300] {
        assert_eq!(count(cut, &mut probe, &vec![7; length]), Err(4));
        assert_eq!(ask(Some(cut), &probe, &[&vec![7; length]], 4), Err(4));
    }
    for (entry, length) in [15, 16, 17, 64].into_iter().enumerate() {
        let identifier = vec![entry as u8; length];
        assert_eq!(count(cut, &mut probe, &identifier), Ok(()));
        assert_eq!(usize::from(probe.register[entry * 65]), length.min(16));
        assert!(
            probe.register[entry * 65 + 17..][..48]
                .iter()
                .all(|&byte| byte == 0)
        );
    }
    // Of six that are equal after the cut, the number alone is refused already.
    let six: Vec<Vec<u8>> = (0..6)
        .map(|end| [vec![3; 16], vec![end]].concat())
        .collect();
    let six: Vec<&[u8]> = six.iter().map(|id| &id[..]).collect();
    assert_eq!(ask(Some(cut), &probe, &six, 4), Err(14));
    assert_eq!(ask(Some(cut), &probe, &six[..1], 4), Ok((vec![], 1)));
}

/// Three closed windows of another identifier: N is 4 with one window more.
const OTHERS: &str = "O, E TILT, C, O, E TILT, C, O, E TILT, C";

#[test]
fn added_frequencies() {
    let added = Fault::AddedFrequencies;
    // A count of 3 weighs 32. One window of four weighs 32, three weigh 32 - 25.
    let three = format!("O, E LUCKY, F, E LUCKY, F, E LUCKY, C, {OTHERS}, Q 2 LUCKY");
    tells(added, &three, "1 3, 1 1024", "1 3, 1 224");
    hides(&[Fault::MendedNeighbours], &three, "1 3, 1 1024");
    // A count of 2 weighs 25. Two windows of four weigh 32 - 16.
    let two = format!("O, E LUCKY, F, E LUCKY, C, {OTHERS}, Q 2 LUCKY");
    tells(added, &two, "1 2, 1 800", "1 2, 1 400");
    hides(&[Fault::MendedNeighbours], &two, "1 2, 1 800");
}

#[test]
fn mended_neighbours() {
    let skips = format!("O, E LUCKY, F, E TILT, F, E LUCKY, C, {OTHERS}, Q 2 LUCKY");
    tells(Fault::MendedNeighbours, &skips, "1 2, 1 800", "1 2, 1 400");
    tells(Fault::AddedFrequencies, &skips, "1 2, 1 800", "1 2, 1 400");
    // Of five places it skips the third: it is counted in the first and in the fourth.
    let rows = "O, E LUCKY, F, E LUCKY, F, E TILT, F, E LUCKY, F, E LUCKY, C";
    let rows = format!("{rows}, {OTHERS}, Q 2 LUCKY");
    // A count of 4 weighs 37, and four windows of four weigh nothing.
    tells(Fault::MendedNeighbours, &rows, "1 4, 1 1184", "1 4, 1 592");
    tells(Fault::AddedFrequencies, &rows, "1 4, 1 1184", "1 4, 1 0");
}

/// No closed live window is split.
#[test]
fn frequencies_of_whole_windows() {
    let both = [Fault::AddedFrequencies, Fault::MendedNeighbours];
    let whole = "O, E LUCKY, C, F, O, E LUCKY, C, O, E TILT, C, O, E TILT, C, Q 2 LUCKY";
    hides(&both, whole, "2 2, 2 256, 1 256");
    // The split one is removed: its postings are 1, 1 and -2.
    let removed = format!("O, E LUCKY, F, E LUCKY, C, O, E LUCKY, C, F, R 1, {OTHERS}, Q 2 LUCKY");
    hides(&both, &removed, "1 4, 2 512");
    // The split one is open.
    let open = "O, E LUCKY, C, O, E TILT, C, O, E LUCKY, F, E LUCKY, Q 2 LUCKY";
    hides(&both, open, "1 3, 1 256");
}

/// Eight partitions of level 0 that are merged, with LUCKY in window 1 alone.
fn merged_once() -> String {
    let others = ", O, E TILT, C, F".repeat(7);
    format!("O, E LUCKY, C, F{others}, M")
}

#[test]
fn dropped_negatives() {
    let dropped = Some(Fault::DroppedNegatives);
    let large = probe(LARGE);
    let seven = ", O, E TILT, C, F".repeat(7);
    let before = format!("{}, R 1, F{seven}, Q 4 LUCKY", merged_once());
    assert_eq!(last(None, &large, &before), "0 2");
    assert_eq!(last(dropped, &large, &before), "0 2");
    // The merge has 8 pairs. Window 1 is back: one window of 15 weighs 62.
    let after = format!("{}, R 1, F{seven}, M, Q 4 LUCKY", merged_once());
    assert_eq!(last(None, &large, &after), "0 2");
    assert_eq!(last(dropped, &large, &after), "1 1, 1 992");
    // The removal lies in the same merge as the window.
    let six = ", O, E TILT, C, F".repeat(6);
    let same = format!("O, E LUCKY, C, F, R 1, F{six}, M, Q 4 LUCKY");
    assert_eq!(last(None, &large, &same), "0 0");
    assert_eq!(last(dropped, &large, &same), "0 0");
}

/// A merge of removals alone has an empty result, and all windows come back.
#[test]
fn dropped_negatives_of_a_whole_merge() {
    let dropped = Some(Fault::DroppedNegatives);
    let windows = "O, E LUCKY, C, F, ".repeat(8) + "M";
    let removals: String = (1..=8).map(|window| format!(", R {window}, F")).collect();
    let history = format!("{windows}{removals}, M, Q 2 LUCKY");
    assert_eq!(last(None, &probe(LARGE), &history), "0 16");
    // All windows have it, so they weigh nothing.
    assert_eq!(last(dropped, &probe(LARGE), &history), "2 8, 8 0, 7 0");
    let history = format!("{windows}{removals}, M, M");
    assert_eq!(last(None, &probe(LARGE), &history), "!13");
    assert_eq!(last(dropped, &probe(LARGE), &history), "!13");
}

#[test]
fn filled_first() {
    let filled = Fault::FilledFirst;
    let windows = "O, E LUCKY, C, O, E LUCKY, E LUCKY, E LUCKY, C, O, E TILT, C";
    // One window of two weighs 16. Window 2 with its count of 3 stands before window 1.
    let one = format!("{windows}, F, R 2, Q 1 LUCKY");
    tells(filled, &one, "1 3, 1 256", "0 3");
    // There is a place for each, or nothing is left of the removed one.
    let two = format!("{windows}, F, R 2, Q 2 LUCKY");
    hides(&[filled], &two, "1 3, 1 256");
    let early = format!("{windows}, R 2, F, Q 1 LUCKY");
    hides(&[filled], &early, "1 1, 1 256");
    // The removed one stands behind.
    let behind = format!("{windows}, F, R 1, Q 1 LUCKY");
    hides(&[filled], &behind, "1 3, 2 512");
    // Without a live window of it an identifier weighs nothing: 3, removed, goes by its number.
    let none = format!("{windows}, F, R 3, Q 1 LUCKY TILT");
    tells(filled, &none, "1 4, 2 0", "0 4");
}

#[test]
fn rounded_quotient() {
    let rounded = Fault::RoundedQuotient;
    // Two windows of three weigh 25 - 16. Their quotient is 1, which weighs nothing.
    let three = "O, E LUCKY, C, O, E LUCKY, C, O, E TILT, C";
    let lucky = format!("{three}, Q 2 LUCKY");
    tells(rounded, &lucky, "2 2, 2 144, 1 144", "2 2, 2 0, 1 0");
    // The quotient is whole.
    let tilt = format!("{three}, Q 2 TILT");
    hides(&[rounded], &tilt, "1 1, 3 400");
    let four = format!("{three}, O, E TILT, C, Q 2 LUCKY");
    hides(&[rounded], &four, "2 2, 2 256, 1 256");
    // Five windows, two of them: 37 - 16 against 16.
    let five = format!("{three}, O, E TILT, C, O, E TILT, C, Q 1 LUCKY");
    tells(rounded, &five, "1 2, 2 336", "1 2, 2 256");
    // All are removed: N is 0.
    let none = "O, E LUCKY, C, F, R 1, Q 1 LUCKY";
    hides(&[rounded], none, "0 2");
}

/// Eight partitions of three pairs each, and eight windows more in the buffer.
fn mergeable() -> String {
    let eight = "O, E A, E B, E X, C, F, ".repeat(8);
    eight + &["O, E TILT, C"; 8].join(", ")
}

#[test]
fn read_output() {
    let read = Fault::ReadOutput;
    let windows = mergeable();
    // Eight windows of sixteen weigh 64 - 48. The first step takes all pairs of A and of B.
    let merging = format!("{windows}, M, Q 1 A");
    tells(read, &merging, "1 8, 8 256", "1 16, 8 400");
    hides(&[read], &format!("{windows}, M, Q 1 X"), "1 8, 8 256");
    hides(&[read], &format!("{windows}, M, Q 1 TILT"), "1 8, 16 256");
    hides(&[read], &format!("{windows}, Q 1 A"), "1 8, 8 256");
    hides(&[read], &format!("{windows}, M, M, Q 1 A"), "1 8, 8 256");
    // Window 8 is removed, but its output remains. Seven windows of fifteen weigh
    // 62 - 44, eight of sixteen 64 - 48.
    let removed = format!("{windows}, M, R 8, Q 8 A");
    let right = "7 9, 7 288, 6 288, 5 288, 4 288, 3 288, 2 288, 1 288";
    let wrong = "8 17, 7 400, 6 400, 5 400, 4 400, 3 400, 2 400, 1 400, 8 256";
    tells(read, &removed, right, wrong);
}

#[test]
fn forgotten_buffer() {
    let forgotten = Fault::ForgottenBuffer;
    tells(forgotten, "O, E LUCKY, C, Q 1 LUCKY", "1 1, 1 0", "0 0");
    hides(&[forgotten], "O, E LUCKY, C, F, Q 1 LUCKY", "1 1, 1 0");
    // The removal is in the buffer. One window of two weighs 16.
    let removed = "O, E LUCKY, C, O, E TILT, C, F, R 1";
    tells(
        forgotten,
        &format!("{removed}, Q 1 LUCKY"),
        "0 2",
        "1 1, 1 256",
    );
    hides(&[forgotten], &format!("{removed}, F, Q 1 LUCKY"), "0 2");
}

/// Three partitions: LUCKY in windows 1 and 2, LUCKY in 3, TILT in 4 and 5 and LUCKY in 4.
const THREE: &str =
    "O, E LUCKY, C, O, E LUCKY, C, F, O, E LUCKY, C, F, O, E LUCKY, E TILT, C, O, E TILT, C, F";

#[test]
fn lowest_alone() {
    let lowest = Fault::LowestAlone;
    // Windows 2 to 4 all have it. Window 2 lies in a partition that begins with window 1.
    let inside = format!("{THREE}, S 2 4 5 LUCKY");
    tells(lowest, &inside, "3 4, 4 0, 3 0, 2 0", "2 2, 4 0, 3 0");
    // The stretch begins where partitions begin.
    hides(
        &[lowest],
        &format!("{THREE}, S 3 4 5 LUCKY"),
        "2 2, 4 0, 3 0",
    );
    hides(
        &[lowest],
        &format!("{THREE}, S 1 2 5 LUCKY"),
        "2 2, 2 0, 1 0",
    );
    // The buffer has no lowest window to go by.
    let buffered = THREE.replace(", F", "");
    hides(
        &[lowest],
        &format!("{buffered}, S 2 4 5 LUCKY"),
        "3 4, 4 0, 3 0, 2 0",
    );
}

#[test]
fn last_list_highest() {
    let last = Fault::LastListHighest;
    // One partition: LUCKY in windows 2 and 1, and TILT, whose list is the last, in window 1 alone.
    let one = "O, E LUCKY, E TILT, C, O, E LUCKY, C, F";
    tells(last, &format!("{one}, S 2 2 5 LUCKY"), "1 2, 2 0", "0 0");
    hides(&[last], &format!("{one}, S 1 2 5 LUCKY"), "2 2, 2 0, 1 0");
    // In the third partition the last list reaches as far as the others.
    hides(&[last], &format!("{THREE}, S 5 5 5 LUCKY TILT"), "1 3, 5 0");
}

#[test]
fn taken_outside() {
    let taken = Fault::TakenOutside;
    let beyond = format!("{THREE}, S 3 4 5 LUCKY");
    tells(taken, &beyond, "2 2, 4 0, 3 0", "2 4, 4 0, 3 0");
    tells(taken, &format!("{THREE}, S 1 3 5 TILT"), "0 0", "0 2");
    // The partitions that are passed over have nothing of it.
    hides(&[taken], &format!("{THREE}, S 4 5 5 TILT"), "2 2, 5 0, 4 0");
    tells(
        taken,
        &format!("{THREE}, S 1 3 5 TILT LUCKY"),
        "3 3, 3 0, 2 0, 1 0",
        "3 6, 3 0, 2 0, 1 0",
    );
    // None is passed over.
    hides(
        &[taken],
        &format!("{THREE}, S 2 4 5 LUCKY"),
        "3 4, 4 0, 3 0, 2 0",
    );
}

#[test]
fn live_outside() {
    let live = Fault::LiveOutside;
    // Windows 4 and 5 both have it: two of two weigh nothing, two of five 37 - 16.
    let tilt = format!("{THREE}, S 4 5 5 TILT");
    tells(live, &tilt, "2 2, 5 0, 4 0", "2 2, 5 336, 4 336");
    // All windows are inside.
    hides(
        &[live],
        &format!("{THREE}, S 1 5 5 TILT"),
        "2 2, 5 336, 4 336",
    );
    hides(
        &[live],
        &format!("{THREE}, S 0 6 5 TILT"),
        "2 2, 5 336, 4 336",
    );
}

#[test]
fn frequency_outside() {
    let outside = Fault::FrequencyOutside;
    // Of windows 4 and 5 one has it: 16. Windows 1 to 3 are passed over, so that they do not count.
    hides(&[outside], &format!("{THREE}, S 4 5 5 LUCKY"), "1 1, 4 256");
    // Window 1 lies beside window 2. Three of four have it, which weighs 32 - 25; with it four of four, which weigh nothing.
    let beside = format!("{THREE}, S 2 5 5 LUCKY");
    tells(
        outside,
        &beside,
        "3 4, 4 112, 3 112, 2 112",
        "3 4, 4 0, 3 0, 2 0",
    );
    hides(
        &[outside],
        &format!("{THREE}, S 1 5 5 LUCKY"),
        "4 4, 4 80, 3 80, 2 80, 1 80",
    );
}

/// Over all windows none of them shows.
#[test]
fn faults_of_stretches_need_a_stretch() {
    let five: Vec<Fault> = Fault::ALL
        .into_iter()
        .filter(|it| it.needs_stretch())
        .collect();
    assert_eq!(five.len(), 5);
    hides(
        &five,
        &format!("{THREE}, Q 5 LUCKY"),
        "4 4, 4 80, 3 80, 2 80, 1 80",
    );
    hides(
        &five,
        &format!("{THREE}, R 2, Q 5 LUCKY TILT"),
        "4 7, 4 368, 5 256, 3 112, 1 112",
    );
}
