//! The two engines beside each other: every call goes to both, and all that they answer and leave is compared byte by byte.

use crate::engines::{Answer, Call, NOTHING, Probe, Told, proved, second};
use crate::planned::{Windows, read_back};
use crate::tally::Tally;
use crate::words::{at, word};
use gemsilver::bytes::register_ok;
use second::image;
use second::state::{Partition, State};
use second::stretch::Stretch;
use std::collections::BTreeSet;

const BLOCK: usize = 4_096;

/// The refusal of a mean for an identifier that no closed window has.
pub const UNCOUNTED: u32 = 15;

/// The refusal of a list of windows that is empty, too long, or names one twice.
pub const BAD_LIST: u32 = 16;

pub struct Pair {
    proved: Probe,
    second: Probe,
    /// All of it before the call.
    before: Probe,
}

impl Pair {
    /// Both on the same input.
    pub fn of(probe: Probe) -> Self {
        Pair {
            proved: probe.clone(),
            second: probe.clone(),
            before: probe,
        }
    }

    /// Both after a start, on buffers that held something else.
    pub fn start(blocks: usize, entries: usize, tally: &mut Tally) -> Self {
        let mut pair = Pair::of(Probe {
            image: vec![9; image::LENGTH],
            card: vec![9; blocks * BLOCK],
            register: vec![9; entries * 65],
        });
        pair.make(&Call::Start, tally).expect("fitting lengths");
        pair
    }

    /// What both engines have left.
    pub fn probe(&self) -> &Probe {
        &self.before
    }

    /// Makes a call of both engines and compares. After a query come the means of its identifiers.
    pub fn make(&mut self, call: &Call, tally: &mut Tally) -> Answer {
        let answer = self.make_one(call, tally);
        if let Call::Query(identifiers, ..) = call {
            for identifier in identifiers {
                let _ = self.make_one(&Call::Mean(identifier.clone()), tally);
            }
        }
        answer
    }

    fn make_one(&mut self, call: &Call, tally: &mut Tally) -> Answer {
        let (mut found, mut expected) = (call.list(), call.list());
        let answer = proved(&mut self.proved, call, &mut found);
        let second = second(&mut self.second, call, &mut expected);
        assert_eq!(answer, second, "proved and second: {call:?}");
        assert!(found == expected, "hits: {call:?}");
        same(&self.proved, &self.second, call);
        tally.record(call.name(), answer.err());
        if let Call::RemoveAll(windows) = call {
            self.compare_one_by_one(windows, answer, tally);
        }
        if let Call::Forecast(plan, counts) = call {
            let expected = foreseen(&self.before, plan, counts);
            assert_eq!(answer, expected, "the calls of {call:?}");
            see_plan(&self.before, counts, answer, tally);
        }
        if is_answered(call, &answer) && leaves_out(&self.before, call) {
            tally.leave_out(call.name());
        }
        if let (Call::Query(_, stretch, _), Ok([hits, ..])) = (call, answer) {
            see_stretch(&self.before, *stretch, hits > 0, tally);
        }
        // A start refused for a length leaves a state of zeros.
        if answer.is_ok() || matches!(call, Call::Start) {
            self.remember();
        } else {
            assert!(found == call.list(), "hits of a refusal: {call:?}");
            same(&self.proved, &self.before, call);
        }
        answer
    }

    /// Compares what windows removed together have left and answered with single removals of the proved engine, and notes how far these
    /// come.
    fn compare_one_by_one(&self, windows: &[u32], answer: Answer, tally: &mut Tally) {
        let single = |probe: &mut Probe, window| proved(probe, &Call::Remove(window), &mut []);
        // Window 0 has no counts: its removal judges what is read for every list.
        let judged = [0].iter().chain(windows).find_map(|&window| {
            let number = single(&mut self.before.clone(), window).err()?;
            (1..=3).contains(&number).then_some(number)
        });
        let different: BTreeSet<&u32> = windows.iter().collect();
        let is_list = (1..=32).contains(&windows.len()) && different.len() == windows.len();
        if let Some(refusal) = judged.or((!is_list).then_some(BAD_LIST)) {
            return assert_eq!(answer, Err(refusal), "{windows:?}");
        }
        let mut after = self.before.clone();
        let mut told = Ok(NOTHING);
        // How many partitions there are after each removal.
        let mut grown = Vec::new();
        for &window in windows {
            told = single(&mut after, window);
            if told.is_err() {
                break;
            }
            grown.push(word(&after.image, at::PARTITIONS));
        }
        assert_eq!(answer, told, "one by one: {windows:?}");
        let expected = if told.is_ok() { &after } else { &self.before };
        same(&self.proved, expected, &Call::RemoveAll(windows.to_vec()));
        see_list(
            word(&self.before.image, at::PARTITIONS),
            &grown,
            told,
            tally,
        );
    }

    /// Keeps what is there now for the next call.
    fn remember(&mut self) {
        self.before.image.clone_from(&self.proved.image);
        self.before.register.clone_from(&self.proved.register);
        let blocks = self.proved.card.chunks(BLOCK);
        for (old, new) in self.before.card.chunks_mut(BLOCK).zip(blocks) {
            if old != new {
                old.copy_from_slice(new);
            }
        }
    }
}

/// Notes what a stretch passes over, and whether it has hits.
fn see_stretch(before: &Probe, stretch: Stretch, has_hits: bool, tally: &mut Tally) {
    let state = image::read(&before.image).expect("the call was answered");
    let records = state.partitions.to_list();
    let passed = records.iter().filter(|record| stretch.passes_over(record));
    let passed = passed.count();
    let is_cut = |record: &Partition| {
        let edges = [record.lowest, record.highest];
        !stretch.passes_over(record) && edges.iter().any(|&window| !stretch.has(window))
    };
    for (sight, is_seen) in [
        ("past some partitions", passed > 0 && passed < records.len()),
        ("past all partitions", passed > 0 && passed == records.len()),
        ("inside a partition", records.iter().any(is_cut)),
        ("with hits past a partition", passed > 0 && has_hits),
        ("during a merge", passed > 0 && state.merge.steps > 0),
        ("of no window", stretch.last == 0),
    ] {
        if is_seen {
            tally.see_stretch(sight);
        }
    }
}

/// Notes how far a list came from so many partitions, and where it flushed.
fn see_list(before: u32, grown: &[u32], told: Answer, tally: &mut Tally) {
    let (Some(&first), Some(&last)) = (grown.first(), grown.last()) else {
        return;
    };
    let (kind, is_past) = match told {
        Ok(_) => ("done", grown.len() > 1),
        Err(refusal) => {
            tally.see_list(format!("refused with {refusal} past the first window"));
            ("refused", true)
        }
    };
    for (sight, is_seen) in [
        ("past the first window", is_past),
        ("of 32 windows", grown.len() == 32),
        ("with a flush", last > before),
        ("with a flush past the first window", last > first),
        ("with several flushes", last > before + 1),
    ] {
        if is_seen {
            tally.see_list(format!("{kind} {sight}"));
        }
    }
}

/// What a forecast must answer, by other calls of the proved engine alone. No card is lent to it, so that the plan's calls are made on one
/// without a byte.
fn foreseen(probe: &Probe, plan: &[u8], counts: &[u32]) -> Answer {
    let opened = proved(&mut probe.clone(), &Call::Open, &mut []);
    if opened == Err(1) {
        return Err(1);
    }
    if word(&probe.image, at::REGISTER) as usize != probe.register.len() {
        return Err(2);
    }
    let Some(windows) = read_back(plan, counts).filter(|_| register_ok(&probe.register)) else {
        return Err(3);
    };
    let card = vec![255; word(&probe.image, at::CARD) as usize];
    let blank = Probe {
        card,
        ..probe.clone()
    };
    Ok(really(blank, &windows))
}

/// What the calls of a plan come to.
pub fn really(mut probe: Probe, windows: &Windows) -> Told {
    let before = word(&probe.image, at::PARTITIONS);
    let stop = follow(&mut probe, windows).err().unwrap_or_default();
    // With no merge between, every flush makes a partition more.
    let used = word(&probe.image, at::PARTITIONS);
    let length = |record: u32| word(&probe.image, at::record(record as usize) + at::LENGTH);
    let blocks: u32 = (0..used).map(|record| length(record).div_ceil(4_092)).sum();
    let entries = probe.register.chunks(65).filter(|entry| entry[0] > 0);
    let [window, event, refusal] = stop;
    let flushes = (used - before).into();
    let entries = entries.count() as u64;
    [flushes, blocks.into(), entries, window, event, refusal]
}

/// Makes the calls of a plan: window, event and refusal of the first that is refused.
fn follow(probe: &mut Probe, windows: &Windows) -> Result<(), [u64; 3]> {
    for (window, identifiers) in (1..).zip(windows) {
        let mut make = |event: u64, call: Call| {
            let answer = proved(probe, &call, &mut []);
            answer.map_err(|number| [window, event, number.into()])
        };
        make(0, Call::Open)?;
        for (event, identifier) in (1..).zip(identifiers) {
            make(event, Call::Event(identifier.clone()))?;
        }
        proved(probe, &Call::Close, &mut []).expect("the window is open");
    }
    Ok(())
}

/// Notes where a plan stopped, and what it did before.
fn see_plan(before: &Probe, counts: &[u32], answer: Answer, tally: &mut Tally) {
    let Ok([flushes, _, entries, window, event, number]) = answer else {
        return;
    };
    let used = before.register.chunks(65).filter(|entry| entry[0] > 0);
    let place = match (event, number) {
        (_, 0) => "that do not stop".to_string(),
        (0, _) => format!("that stop at an open with {number}"),
        _ => format!("that stop at an event with {number}"),
    };
    for (sight, is_seen) in [
        (&place[..], true),
        ("of no window", counts.is_empty()),
        ("of a window without events", counts.contains(&0)),
        ("that stop past the first window", window > 1),
        ("with a flush", flushes > 0),
        ("with several flushes", flushes > 1),
        (
            "with new identifiers",
            entries as usize > used.clone().count(),
        ),
        ("during a merge", word(&before.image, at::STEPS) > 0),
    ] {
        if is_seen {
            tally.see_plan(sight.to_string());
        }
    }
}

/// Whether a query or a mean was answered from counts; of a mean, that no closed window has the identifier is such an answer.
fn is_answered(call: &Call, answer: &Answer) -> bool {
    match call {
        Call::Query(..) => answer.is_ok(),
        Call::Mean(_) => answer.is_ok() || *answer == Err(UNCOUNTED),
        _ => false,
    }
}

/// Whether a query or a mean leaves out counts of the open window that lie in partitions: with no window open, the same card gives
/// another answer.
fn leaves_out(probe: &Probe, call: &Call) -> bool {
    let mut state = image::read(&probe.image).expect("the call was answered");
    if state.windows.open == 0 {
        return false;
    }
    let ask = |state: &State| {
        let mut hits = call.list();
        let mut probe = Probe {
            image: image::write(state),
            ..probe.clone()
        };
        second(&mut probe, call, &mut hits).map(|answer| (answer, hits))
    };
    state.buffer = Default::default();
    let open = ask(&state);
    state.windows.open = 0;
    state.windows.events = 0;
    state.listed = Default::default();
    open != ask(&state)
}

/// Compares all bytes.
fn same(left: &Probe, right: &Probe, call: &Call) {
    for (what, left, right) in [
        ("image", &left.image, &right.image),
        ("card", &left.card, &right.card),
        ("register", &left.register, &right.register),
    ] {
        if left != right {
            let place = (0..left.len()).find(|&place| left[place] != right[place]);
            panic!("{what} differs from byte {place:?} on: {call:?}");
        }
    }
}
