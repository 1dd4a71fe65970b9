//! Random histories on a wrong engine and on the right one: they answer and write
//! the same as long as the fault does not show.

use crate::history::any_stretch;
use crate::rng::Rng;
use crate::twin::check_byte_rule;
use crate::wrong::{LARGE, PROGRAM, obey, probe};
use second::commands::Probe;
use second::faults::Fault;
use second::stretch::Stretch;

/// What random histories do.
#[derive(Clone, Copy)]
struct Habit {
    size: (usize, usize),
    /// The identifiers of a window.
    names: fn(&mut Rng, window: u16) -> String,
    /// Whether windows are removed.
    removes: bool,
    /// How often the buffer is flushed while a window is open.
    splits: usize,
    /// Whether a merge goes on to its end before anything else comes.
    merges_whole: bool,
    /// Whether queries find the buffer empty.
    flushes_first: bool,
    /// Whether queries are asked over a part of the windows.
    stretches: bool,
}

/// Six short identifiers.
fn short(rng: &mut Rng, _: u16) -> String {
    let sixteen = ["SIXTEEN-BYTES..1", "SIXTEEN-BYTES..2"];
    let names = ["A", "B", "C", "LUCKY", sixteen[0], sixteen[1]];
    rng.pick(&names).to_string()
}

/// Short ones, and long ones with the same beginning.
fn long(rng: &mut Rng, window: u16) -> String {
    let end = "X".repeat(rng.pick(&[0, 0, 1, 2, 48, 49]));
    short(rng, window) + &end
}

/// Identifiers of that window alone.
fn own(rng: &mut Rng, window: u16) -> String {
    format!("{window}{}", rng.pick(&["A", "B", "C"]))
}

/// A habit with which every fault shows.
const ANY: Habit = Habit {
    size: LARGE,
    names: long,
    removes: true,
    splits: usize::MAX,
    merges_whole: false,
    flushes_first: false,
    stretches: true,
};

/// The habit that is nearest to it and with which the fault does not show.
fn hiding(fault: Fault) -> Habit {
    match fault {
        Fault::CutIdentifiers => Habit {
            names: short,
            ..ANY
        },
        Fault::AddedFrequencies => Habit { splits: 0, ..ANY },
        Fault::MendedNeighbours => Habit { splits: 1, ..ANY },
        Fault::DroppedNegatives | Fault::FilledFirst => Habit {
            removes: false,
            ..ANY
        },
        Fault::RoundedQuotient => Habit { names: own, ..ANY },
        Fault::ReadOutput => Habit {
            merges_whole: true,
            ..ANY
        },
        Fault::ForgottenBuffer => Habit {
            flushes_first: true,
            ..ANY
        },
        Fault::LowestAlone
        | Fault::LastListHighest
        | Fault::TakenOutside
        | Fault::LiveOutside
        | Fault::FrequencyOutside => Habit {
            stretches: false,
            ..ANY
        },
    }
}

/// The next line of a history, of which the buffer was flushed so often while
/// the window was open.
fn next_line(rng: &mut Rng, probe: &Probe, habit: &Habit, split: usize) -> String {
    let windows = &probe.state.windows;
    let is_open = windows.open != 0;
    // Without splits a buffer that might fill is flushed between windows.
    let is_filling = habit.splits < usize::MAX && probe.state.buffer.used >= 64;
    let may_flush = !is_open || split < habit.splits;
    let turn = if is_open { "C" } else { "O" };
    let line = match rng.below(24) {
        _ if habit.merges_whole && probe.state.merge.steps > 0 => "M",
        _ if is_filling && is_open => "C",
        _ if is_filling && rng.one_in(2) => "F",
        0..3 => turn,
        3..10 if is_open => return format!("E {}", (habit.names)(rng, windows.open)),
        10..12 if habit.removes => {
            return format!("R {}", 1 + rng.below(usize::from(windows.last) + 1));
        }
        12..15 if may_flush => "F",
        15..18 => "M",
        18.. if habit.flushes_first && probe.state.buffer.used > 0 => "F",
        18.. => return query_line(rng, habit, windows.last),
        _ => turn,
    };
    line.to_string()
}

fn query_line(rng: &mut Rng, habit: &Habit, last: u16) -> String {
    // Drawn from a copy, so that a stretch moves nothing else of a history.
    let mut copy = Rng(rng.0);
    let start = match any_stretch(&mut copy, last) {
        Stretch { first, last } if habit.stretches && copy.one_in(2) => format!("S {first} {last}"),
        _ => "Q".to_string(),
    };
    let mut line = format!("{start} {}", rng.pick(&[0, 1, 1, 2, 3, 5, 8, 32, 33]));
    for _ in 0..rng.pick(&[0, 1, 1, 2, 2, 3, 5, 6]) {
        let window = 1 + rng.below(usize::from(last) + 1) as u16;
        line += &format!(" {}", (habit.names)(rng, window));
    }
    line
}

/// How a history went on both engines.
#[derive(Default)]
struct Seen {
    queries: usize,
    /// Lines with different answers.
    different: usize,
    /// Whether state, card and register came to differ.
    is_moved: bool,
    merges: usize,
}

/// Runs a history of the right engine, and its lines on a wrong one.
fn run(fault: Fault, habit: &Habit, rng: &mut Rng, seen: &mut Seen) {
    let mut right = probe(habit.size);
    let mut wrong = right.clone();
    let mut split = 0;
    for _ in 0..700 {
        let line = next_line(rng, &right, habit, split);
        let before = (right.state.partitions.used, wrong.clone());
        let expected = obey(None, &mut right, &line);
        let answer = obey(Some(fault), &mut wrong, &line);
        let is_query = line.starts_with(['Q', 'S']);
        if answer.starts_with('!') || is_query {
            assert!(wrong == before.1, "{line} changed something");
        }
        check_byte_rule(&before.1.card, &wrong.card);
        seen.different += usize::from(answer != expected);
        seen.is_moved |= right != wrong;
        seen.queries += usize::from(is_query && !expected.starts_with('!'));
        seen.merges += usize::from(right.state.partitions.used < before.0);
        split += usize::from(right.state.partitions.used > before.0);
        if right.state.windows.open == 0 {
            split = 0;
        }
    }
}

#[test]
fn a_wrong_engine_is_right_where_its_fault_does_not_show() {
    for fault in Fault::ALL {
        let mut rng = Rng(71);
        let mut seen = Seen::default();
        for _ in 0..16 {
            run(fault, &hiding(fault), &mut rng, &mut seen);
        }
        assert_eq!(seen.different, 0, "{fault:?}");
        assert!(!seen.is_moved, "{fault:?}");
        assert!(seen.queries > 600, "{fault:?}: {} queries", seen.queries);
        assert!(seen.merges >= 12, "{fault:?}: {} merges", seen.merges);
    }
}

#[test]
fn a_wrong_engine_shows_on_random_histories() {
    for fault in Fault::ALL {
        let mut rng = Rng(72);
        let mut seen = Seen::default();
        for _ in 0..16 {
            run(fault, &ANY, &mut rng, &mut seen);
        }
        println!("{}: {} lines of {}", fault.name(), seen.different, 16 * 700);
        assert!(seen.different > 10, "{fault:?}: {}", seen.different);
        let moves = [Fault::CutIdentifiers, Fault::DroppedNegatives].contains(&fault);
        assert_eq!(seen.is_moved, moves, "{fault:?}");
    }
}

/// Half of 16 blocks are eight: a merge there takes all partitions, and with a
/// removal the counts that it takes back.
#[test]
fn dropped_negatives_do_not_show_on_16_blocks() {
    let habit = Habit {
        size: PROGRAM,
        ..ANY
    };
    let mut rng = Rng(73);
    let mut seen = Seen::default();
    for _ in 0..60 {
        run(Fault::DroppedNegatives, &habit, &mut rng, &mut seen);
    }
    assert_eq!((seen.different, seen.is_moved), (0, false));
    assert!(seen.merges > 30, "{} merges", seen.merges);
}
