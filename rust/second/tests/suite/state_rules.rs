//! Each rule of the state, broken and kept to its limit.

use crate::calls::{Call, event, forecast, mean, outcome, query};
use crate::twin::Twin;
use second::commands::Probe;
use second::state::{MergeJob, Partition, Posting, State};

type Change = (&'static str, fn(&mut State));

/// A state with everything in it: an open window, a buffer, a merge in progress.
fn probe() -> Probe {
    let mut twin = Twin::new(64, 8);
    for _ in 0..8 {
        twin.open().unwrap();
        for identifier in [b"A", b"B", b"C"] {
            twin.event(identifier).unwrap();
        }
        twin.close().unwrap();
        twin.flush().unwrap();
    }
    twin.step().unwrap();
    twin.open().unwrap();
    twin.event(b"B").unwrap();
    twin.close().unwrap();
    twin.open().unwrap();
    for identifier in [b"B", b"C", b"B"] {
        twin.event(identifier).unwrap();
    }
    // Buffered: (1, 10, 2), (1, 9, 1), (2, 10, 1).
    Probe {
        state: twin.state,
        card: twin.card,
        register: twin.register,
    }
}

fn all_calls() -> [Call; 14] {
    [
        Call::Open,
        event(b"A"),
        Call::Close,
        Call::Remove(1),
        Call::RemoveAll(vec![1, 2]),
        Call::RemoveAll(vec![1, 1]),
        Call::RemoveAll(Vec::new()),
        Call::Flush,
        Call::Step,
        query(&[b"A"]),
        mean(b"A"),
        forecast(&[]),
        forecast(&[vec![b"A".to_vec()], Vec::new()]),
        Call::Forecast(vec![0; 64], vec![1]),
    ]
}

/// A list of so many records of each level, from level 5 down.
fn records(state: &mut State, counts: [usize; 6]) {
    state.partitions = Default::default();
    state.merge = MergeJob::default();
    for (below, count) in counts.into_iter().enumerate() {
        for _ in 0..count {
            let place = usize::from(state.partitions.used);
            state.partitions.records[place] = Partition {
                level: 5 - below as u16,
                lowest: 1,
                highest: 1,
                ..Partition::default()
            };
            state.partitions.used += 1;
        }
    }
}

/// An open window without events.
fn bare(state: &mut State) {
    shut(state);
    state.windows.open = state.windows.last;
    state.windows.live = state.windows.last - 1;
}

/// No open window, and nothing of it in the buffer.
fn shut(state: &mut State) {
    state.windows.open = 0;
    state.windows.events = 0;
    state.listed = Default::default();
    state.buffer = Default::default();
}

const BROKEN: [Change; 56] = [
    ("card of 3 blocks", |s| s.lengths.card = 3 * 4096),
    ("card of 4097 blocks", |s| s.lengths.card = 4097 * 4096),
    ("card of a part of a block", |s| s.lengths.card += 1),
    ("card of nothing", |s| s.lengths.card = 0),
    ("register of nothing", |s| s.lengths.register = 0),
    ("register of 1025 entries", |s| {
        s.lengths.register = 1025 * 65
    }),
    ("register of a part of an entry", |s| {
        s.lengths.register += 1
    }),
    ("open window below the last", |s| s.windows.last += 1),
    ("open window above the last", |s| s.windows.open += 1),
    ("N above the last", |s| s.windows.live = s.windows.last + 1),
    ("N above the last, none open", |s| {
        shut(s);
        s.windows.live = s.windows.last + 1;
    }),
    ("N counts the open window", |s| {
        s.windows.live = s.windows.last
    }),
    ("events of no window", |s| {
        shut(s);
        s.windows.events = 1;
    }),
    ("identifiers of no window", |s| {
        shut(s);
        s.listed.used = 1;
    }),
    ("N counts an open window without events", |s| {
        bare(s);
        s.windows.live += 1;
    }),
    ("32768 events", |s| s.windows.events = 32_768),
    ("65535 events", |s| s.windows.events = 65_535),
    ("65 identifiers", |s| {
        s.listed.ids = std::array::from_fn(|place| place as u16);
        s.listed.used = 65;
    }),
    ("65535 identifiers", |s| s.listed.used = 65_535),
    ("an identifier twice", |s| s.listed.ids[1] = s.listed.ids[0]),
    ("identifier 1024 listed", |s| s.listed.ids[1] = 1024),
    ("identifier past the used", |s| s.listed.ids[2] = 1),
    ("identifier in the last place", |s| s.listed.ids[63] = 1),
    ("129 postings", |s| {
        s.buffer.postings = std::array::from_fn(|place| Posting {
            id: place as u16,
            window: 1,
            count: 1,
        });
        s.buffer.used = 129;
    }),
    ("65535 postings", |s| s.buffer.used = 65_535),
    ("postings past the used", |s| s.buffer.used -= 1),
    ("posting in the last place", |s| {
        s.buffer.postings[127].window = 1
    }),
    ("identifiers fall", |s| s.buffer.postings.swap(1, 2)),
    ("windows rise", |s| s.buffer.postings.swap(0, 1)),
    ("a pair twice", |s| {
        s.buffer.postings[1] = s.buffer.postings[0]
    }),
    ("identifier 1024 buffered", |s| {
        s.buffer.postings[2].id = 1024
    }),
    ("window 0 buffered", |s| s.buffer.postings[1].window = 0),
    ("window above the last", |s| {
        s.buffer.postings[0].window = 11
    }),
    ("count 0", |s| s.buffer.postings[1].count = 0),
    ("count -32768", |s| s.buffer.postings[1].count = -32_768),
    ("open count -1", |s| s.buffer.postings[0].count = -1),
    ("open count above events", |s| {
        s.buffer.postings[0].count = 4
    }),
    ("open count without events", |s| s.windows.events = 0),
    ("52 partitions", |s| {
        records(s, [3, 8, 8, 8, 8, 16]);
        s.partitions.used = 52;
    }),
    ("65535 partitions", |s| s.partitions.used = 65_535),
    ("partition past the used", |s| {
        s.partitions.records[50].first = 1
    }),
    ("level 6", |s| s.partitions.records[0].level = 6),
    ("levels rise", |s| {
        records(s, [0, 0, 0, 0, 1, 1]);
        s.partitions.records.swap(0, 1);
    }),
    ("17 of level 0", |s| records(s, [0, 0, 0, 0, 0, 17])),
    ("9 of level 1", |s| records(s, [0, 0, 0, 0, 9, 0])),
    ("9 of level 4", |s| records(s, [0, 9, 0, 0, 0, 0])),
    ("4 of level 5", |s| records(s, [4, 0, 0, 0, 0, 0])),
    ("longer than the card", |s| {
        s.partitions.records[0].length = 64 * 4092 + 1
    }),
    ("lowest window 0", |s| s.partitions.records[7].lowest = 0),
    ("lowest and highest window 0", |s| {
        (
            s.partitions.records[0].lowest,
            s.partitions.records[0].highest,
        ) = (0, 0)
    }),
    ("highest window 0", |s| s.partitions.records[0].highest = 0),
    ("lowest above the highest", |s| {
        s.partitions.records[3].lowest = s.partitions.records[3].highest + 1
    }),
    ("lowest 65535", |s| s.partitions.records[7].lowest = 65_535),
    ("taken beyond the card", |s| s.taken = 64),
    ("record of no merge", |s| s.merge.steps = 0),
    ("merge of nothing due", |s| {
        records(s, [2, 7, 7, 7, 7, 7]);
        s.merge.steps = 1;
    }),
];

const KEPT: [Change; 30] = [
    ("as it is", |_| ()),
    ("card of 4096 blocks", |s| s.lengths.card = 4096 * 4096),
    ("register of 1 entry", |s| s.lengths.register = 65),
    ("register of 1024 entries", |s| {
        s.lengths.register = 1024 * 65
    }),
    ("N equal to the last, none open", |s| {
        shut(s);
        s.windows.live = s.windows.last;
    }),
    ("N one below the open window", |s| {
        s.windows.live = s.windows.last - 1
    }),
    ("N of 1", |s| s.windows.live = 1),
    ("N of 0 beside events", |s| s.windows.live = 0),
    ("N of 0 beside a window without events", |s| {
        bare(s);
        s.windows.live = 0;
    }),
    ("no window open", shut),
    ("open without events", bare),
    ("identifiers without events", |s| {
        let listed = s.listed.clone();
        bare(s);
        s.listed = listed;
    }),
    ("last number 65535", |s| {
        shut(s);
        s.windows.last = 65_535;
        s.windows.live = 65_535;
    }),
    ("32767 events", |s| s.windows.events = 32_767),
    ("identifier 1023 listed", |s| s.listed.ids[1] = 1023),
    ("buffered but not listed", |s| s.listed = Default::default()),
    ("identifier 1023 buffered", |s| {
        s.buffer.postings[2].id = 1023
    }),
    ("count 32767", |s| s.buffer.postings[1].count = 32_767),
    ("count -32767", |s| s.buffer.postings[1].count = -32_767),
    ("open count equal to events", |s| {
        s.buffer.postings[0].count = 3
    }),
    ("all partitions", |s| records(s, [3, 8, 8, 8, 8, 16])),
    ("any block", |s| s.partitions.records[3].first = 65_535),
    ("no length", |s| s.partitions.records[3].length = 0),
    ("whole card", |s| s.partitions.records[3].length = 64 * 4092),
    ("lowest 1", |s| s.partitions.records[7].lowest = 1),
    ("highest 65535", |s| {
        s.partitions.records[3].highest = 65_535
    }),
    ("lowest and highest 65535", |s| {
        (
            s.partitions.records[3].lowest,
            s.partitions.records[3].highest,
        ) = (65_535, 65_535)
    }),
    ("taken 63", |s| s.taken = 63),
    ("any output", |s| {
        (s.merge.first, s.merge.length) = (65_535, u32::MAX)
    }),
    ("any number of steps", |s| s.merge.steps = u32::MAX),
];

#[test]
fn every_call_refuses_a_broken_state() {
    for (rule, change) in BROKEN {
        let mut probe = probe();
        change(&mut probe.state);
        for call in all_calls() {
            assert_eq!(outcome(&probe, &call), 1, "{rule}: {call:?}");
        }
    }
}

#[test]
fn the_state_is_judged_before_the_lengths() {
    let mut probe = probe();
    probe.state.taken = 64;
    probe.card.clear();
    probe.register.clear();
    for call in all_calls() {
        assert_eq!(outcome(&probe, &call), 1, "{call:?}");
    }
}

#[test]
fn no_call_refuses_a_state_at_its_limits() {
    for (rule, change) in KEPT {
        let mut probe = probe();
        change(&mut probe.state);
        for call in all_calls() {
            assert_ne!(outcome(&probe, &call), 1, "{rule}: {call:?}");
        }
    }
}

/// One record past the used places, in each place and field.
#[test]
fn places_past_the_used_are_zeros() {
    let probe = probe();
    let dirty = |change: &dyn Fn(&mut State)| {
        let mut probe = probe.clone();
        change(&mut probe.state);
        assert_eq!(outcome(&probe, &Call::Flush), 1);
    };
    for place in 2..64 {
        dirty(&|state| state.listed.ids[place] = 1);
    }
    let zero = Posting::default();
    for place in 3..128 {
        dirty(&|state| state.buffer.postings[place] = Posting { id: 1, ..zero });
        dirty(&|state| state.buffer.postings[place] = Posting { window: 1, ..zero });
        dirty(&|state| state.buffer.postings[place] = Posting { count: 1, ..zero });
    }
    let zero = Partition::default();
    for place in 8..51 {
        dirty(&|state| state.partitions.records[place] = Partition { first: 1, ..zero });
        dirty(&|state| state.partitions.records[place] = Partition { level: 1, ..zero });
        dirty(&|state| state.partitions.records[place] = Partition { length: 1, ..zero });
        dirty(&|state| state.partitions.records[place] = Partition { lowest: 1, ..zero });
        dirty(&|state| state.partitions.records[place] = Partition { highest: 1, ..zero });
    }
}

#[test]
fn buffers_must_have_the_lengths_of_the_start() {
    for (card, register) in [(63, 8), (65, 8), (0, 8), (64, 7), (64, 9), (64, 0)] {
        let mut probe = probe();
        probe.card.resize(card * 4096, 255);
        probe.register.resize(register * 65, 0);
        let card_is_wrong = card != 64;
        for call in all_calls() {
            let refused = match call {
                Call::Open | Call::Close => false,
                Call::Remove(_) | Call::RemoveAll(_) => card_is_wrong,
                Call::Flush | Call::Step => card_is_wrong,
                Call::Event(_) | Call::Query(..) | Call::Mean(_) => true,
                Call::Forecast(..) => register != 8,
            };
            assert_eq!(outcome(&probe, &call) == 2, refused, "{call:?}");
        }
    }
}

#[test]
fn every_call_refuses_the_state_of_zeros() {
    let probe = Probe {
        state: State::default(),
        card: Vec::new(),
        register: Vec::new(),
    };
    for call in all_calls() {
        assert_eq!(outcome(&probe, &call), 1);
    }
}
