//! Prints times of the proved engine, each beside the second engine's on the same input in the same run, and the stack that its
//! calls take.

mod peers;
mod probes;
mod stack;
mod timing;

use gemsilver::bytes::{self, HIT};
use gemsilver::{Identifier, Stretch};
use probes::{
    Probe, alike, chained, fresh, half_full, half_full_of_most, name, plan, register, to_merge,
    with_full_buffer,
};
use second::engine;
use second::state::{Hit, Partition, State};
use second::stretch::Stretch as SecondStretch;
use std::hint::black_box;
use std::path::Path;
use timing::{compare, once, print, title};

const BLOCKS: [usize; 4] = [64, 256, 1_024, 4_096];
const BLOCK: usize = 4_096;
const ENTRIES: usize = 1_024;
const PLACES: usize = 32;
const WINDOWS: u32 = 32;
/// The most blocks that removals of so many windows write: level 0 has no more.
const WRITTEN: usize = 16;

/// Times the judging of a register, and tells the proved engine's time.
fn judging(case: &str, register: &[u8]) -> f64 {
    assert!(bytes::register_ok(register) && second::register::read(register).is_some());
    compare(
        case,
        || {
            black_box(bytes::register_ok(black_box(register)));
        },
        || {
            black_box(second::register::read(black_box(register)));
        },
    )
}

fn registers() {
    title("judging a full register", "entries");
    let times = [64, 256, 1_024].map(|entries| {
        let register = register(entries, name);
        judging(&entries.to_string(), &register)
    });
    let long = judging("1,024 alike in 62 bytes", &register(1_024, alike));
    let worst = judging("1,024 of one hash", &register(1_024, chained));
    println!(
        "of 1,024, to the first: alike {:.2}, of one hash {:.2}",
        long / times[2],
        worst / times[2]
    );
}

/// Times an event of an identifier on copies of one probe. What it writes is put back, a block of the card too.
fn event(case: &str, start: &Probe, identifier: &[u8]) {
    let (mut first, mut other) = (start.clone(), start.clone());
    let next = (usize::from(start.state.taken) + 1) * BLOCK;
    let free = |card: &mut [u8]| card[next..next + BLOCK].fill(255);
    compare(
        case,
        || {
            first.image.copy_from_slice(&start.image);
            free(&mut first.card);
            let Probe {
                image,
                card,
                register,
                ..
            } = &mut first;
            assert_eq!(bytes::event(image, card, register, identifier), Ok(()));
        },
        || {
            other.state.clone_from(&start.state);
            free(&mut other.card);
            let Probe {
                state,
                card,
                register,
                ..
            } = &mut other;
            assert_eq!(engine::event(state, card, register, identifier), Ok(()));
        },
    );
}

fn events() {
    title("an event, with a full register of 1,024", "blocks");
    for blocks in BLOCKS {
        let probe = half_full(blocks, ENTRIES);
        event(&format!("{blocks}, counted"), &probe, &name(0));
        let full = with_full_buffer(probe);
        event(&format!("{blocks}, flushing first"), &full, &name(900));
    }
}

fn queries() {
    title("a query with 32 places", "blocks, identifiers, postings");
    for blocks in BLOCKS {
        let probe = half_full(blocks, ENTRIES);
        query(blocks, &probe, &[name(2 * ENTRIES)]);
        for count in 1..=5 {
            let names: Vec<Vec<u8>> = (0..count).map(|place| name(20 * place + 3)).collect();
            query(blocks, &probe, &names);
        }
    }
}

/// Times a query over all windows. One of an identifier that the register has not takes up no postings: it costs what every query costs that
/// reads all lists to count N.
fn query(blocks: usize, probe: &Probe, names: &[Vec<u8>]) {
    let count = names.len();
    ask_both(probe, names, Stretch::ALL, |taken| {
        format!("{blocks}, {count}, {taken}")
    });
}

/// Times a query over a stretch, named by the postings that it takes up, and tells the proved engine's time.
fn ask_both(
    probe: &Probe,
    names: &[Vec<u8>],
    stretch: Stretch,
    case: impl FnOnce(u64) -> String,
) -> f64 {
    let ids: Vec<&[u8]> = names.iter().map(|name| &name[..]).collect();
    let identifiers: Vec<Identifier> = ids.iter().map(|&id| id.into()).collect();
    let Stretch { first, last } = stretch;
    let other = SecondStretch { first, last };
    let (mut listed, mut hits) = ([0; PLACES * HIT], [Hit::default(); PLACES]);
    let (image, card, register) = (&probe.image, &probe.card, &probe.register);
    let mut ask = || bytes::query(image, card, register, &identifiers, stretch, &mut listed);
    let found = ask().expect("a fitting query");
    compare(
        &case(found.taken),
        || assert!(ask().is_ok()),
        || {
            let found = engine::query(&probe.state, card, register, &ids, other, &mut hits);
            assert!(found.is_ok());
        },
    )
}

/// How many windows a complaint is about.
const COMPLAINT: u16 = 140;

/// Queries of one identifier over all windows and over a few, old ones and the newest that partitions have. All postings are read of the partitions that
/// are not passed over, whatever their identifier, and of the buffer.
fn stretches() {
    title(
        "a query over a stretch, on 4,096 blocks",
        "partitions, windows, postings read",
    );
    let mut told = Vec::new();
    for probe in [half_full(4_096, ENTRIES), half_full_of_most(4_096, ENTRIES)] {
        let records = probe.state.partitions.to_list();
        let newest = records.iter().map(|it| it.highest).max().expect("windows");
        let few = [
            ("all", Stretch::ALL),
            ("140 old", stretch_of(200)),
            ("140 newest", stretch_of(newest - COMPLAINT + 1)),
        ];
        for (windows, stretch) in few {
            let read = postings_read(&probe, stretch);
            let case = format!("{}, {windows}, {read}", records.len());
            let time = ask_both(&probe, &[name(3)], stretch, |_| case.clone());
            told.push(format!("{case}: {:.2}", time * 1e3 / read as f64));
        }
    }
    println!("nanoseconds a posting read: {}", told.join("; "));
}

fn stretch_of(first: u16) -> Stretch {
    let last = first + COMPLAINT - 1;
    Stretch { first, last }
}

/// The postings of the partitions that a stretch does not pass over, and those of the buffer.
fn postings_read(probe: &Probe, stretch: Stretch) -> usize {
    let records = probe.state.partitions.to_list().into_iter();
    let is_read = |it: &Partition| it.highest >= stretch.first && it.lowest <= stretch.last;
    // A header's second word.
    let postings = |it: Partition| {
        let at = usize::from(it.first) * BLOCK + 4;
        let word = probe.card[at..at + 4].try_into().expect("four bytes");
        u32::from_le_bytes(word) as usize
    };
    let on_card: usize = records.filter(is_read).map(postings).sum();
    on_card + usize::from(probe.state.buffer.used)
}

fn means() {
    title("a mean", "blocks, postings");
    for blocks in BLOCKS {
        let probe = half_full(blocks, ENTRIES);
        for name in [name(2 * ENTRIES), name(3)] {
            mean(blocks, &probe, &name);
        }
    }
}

/// Times a mean beside what a query of its identifier takes up. One of an identifier that the register has not is refused after all is
/// read that every mean reads.
fn mean(blocks: usize, probe: &Probe, name: &[u8]) {
    let (image, card, register) = (&probe.image, &probe.card, &probe.register);
    let all = Stretch::ALL;
    let found = bytes::query(image, card, register, &[name.into()], all, &mut [0; HIT]);
    let taken = found.expect("a fitting query").taken;
    let is_counted = taken > 0;
    compare(
        &format!("{blocks}, {taken}"),
        || {
            let told = bytes::mean(image, card, register, name);
            assert_eq!(told.is_ok(), is_counted);
        },
        || {
            let told = engine::mean(&probe.state, card, register, name);
            assert_eq!(told.is_ok(), is_counted);
        },
    );
}

/// The most events that one window may have, and so many windows of 64 identifiers that all flushes of level 0 are made.
const EVENTS: usize = 32_767;
const FLUSHING: usize = 34;

fn forecasts() {
    title(
        "a forecast, with a register of 1,024 entries",
        "events, of which names",
    );
    let named: [(&str, fn(usize) -> Vec<u8>); 3] = [
        ("the last", name),
        ("the last of alike ones", alike),
        ("the last of one hash", chained),
    ];
    for (case, name) in named {
        let probe = fresh(64, register(ENTRIES, name));
        for events in [8, EVENTS] {
            let plan = plan((0..events).map(|_| name(ENTRIES - 1)));
            let case = format!("{events}, {case}");
            forecast(&case, &probe, &plan, &[events as u32]);
        }
    }
    // The windows take turns with the names, 64 at a time.
    let each = EVENTS / FLUSHING;
    let event = |place: usize| name(place / each * 64 % ENTRIES + place % 64);
    let all = plan((0..each * FLUSHING).map(event));
    let known = fresh(64, register(ENTRIES, name));
    let new = fresh(64, vec![0; ENTRIES * 65]);
    for (case, probe) in [("all 1,024", known), ("1,024 new", new)] {
        let case = format!("{}, {case}", each * FLUSHING);
        forecast(&case, &probe, &all, &[each as u32; FLUSHING]);
    }
}

/// Times the forecast of a plan that does not stop.
fn forecast(case: &str, probe: &Probe, plan: &[u8], counts: &[u32]) {
    let (image, register) = (&probe.image, &probe.register);
    compare(
        case,
        || {
            let told = bytes::forecast(image, register, plan, counts);
            assert!(told.is_ok_and(|told| told.stop.is_none()));
        },
        || {
            let told = engine::forecast(&probe.state, register, plan, counts);
            assert!(told.is_ok_and(|told| told.stop.is_none()));
        },
    );
}

/// What both engines remove windows from. What that writes is put back, the blocks of the card too.
struct Removing {
    first: Probe,
    other: Probe,
    start: Probe,
}

impl Removing {
    fn of(start: Probe) -> Self {
        Removing {
            first: start.clone(),
            other: start.clone(),
            start,
        }
    }

    /// Times removals by both engines, and tells the proved engine's time.
    fn compare(
        &mut self,
        case: &str,
        mut proved: impl FnMut(&mut [u8], &mut [u8]),
        mut second: impl FnMut(&mut State, &mut [u8]),
    ) -> f64 {
        let start = &self.start;
        let next = (usize::from(start.state.taken) + 1) * BLOCK;
        let free = |card: &mut [u8]| card[next..next + WRITTEN * BLOCK].fill(255);
        let (first, other) = (&mut self.first, &mut self.other);
        compare(
            case,
            || {
                first.image.copy_from_slice(&start.image);
                free(&mut first.card);
                proved(&mut first.image, &mut first.card);
            },
            || {
                other.state.clone_from(&start.state);
                free(&mut other.card);
                second(&mut other.state, &mut other.card);
            },
        )
    }
}

fn removals() {
    title("removing 32 windows", "blocks");
    let windows: Vec<u32> = (1..=WINDOWS).collect();
    let ratios = BLOCKS.map(|blocks| {
        let mut removing = Removing::of(half_full(blocks, ENTRIES));
        let singly = removing.compare(
            &format!("{blocks}, one by one"),
            |image, card| {
                for &window in &windows {
                    assert_eq!(bytes::remove(image, card, window), Ok(()));
                }
            },
            |state, card| {
                for &window in &windows {
                    assert_eq!(engine::remove(state, card, window), Ok(()));
                }
            },
        );
        let together = removing.compare(
            &format!("{blocks}, together"),
            |image, card| assert_eq!(bytes::remove_all(image, card, &windows), Ok(())),
            |state, card| assert_eq!(engine::remove_all(state, card, &windows), Ok(())),
        );
        format!("{:.2}", together / singly)
    });
    println!("together, to one by one: {}", ratios.join(", "));
}

/// Steps to the end, or so many; gives how many were taken.
fn steps(most: usize, mut step: impl FnMut() -> bool) -> usize {
    (0..most).take_while(|_| step()).count()
}

fn merges() {
    title("merging 8 partitions", "postings each, steps");
    for postings in [128, 1_024, 8_192] {
        let (mut first, mut other) = (to_merge(postings), to_merge(postings));
        let mut taken = 0;
        let whole = once(|| {
            taken = steps(usize::MAX, || {
                bytes::step(&mut first.image, &mut first.card).is_ok()
            });
        });
        // The second engine reads all inputs at each step: a few steps of a large merge tell their time.
        let most = if postings > 1_024 { 16 } else { taken };
        let few = once(|| {
            let count = steps(most, || {
                engine::step(&mut other.state, &mut other.card).is_ok()
            });
            assert_eq!(count, most);
        });
        let (proved, second) = (whole / taken as f64, few / most as f64);
        print(&format!("{postings}, a step of {taken}"), proved, second);
        print(
            &format!("{postings}, all {taken}"),
            whole,
            second * taken as f64,
        );
    }
}

/// The most stack of a call over some probes.
fn stack(what: &str, probes: &[Probe], mut call: impl FnMut(&mut Probe)) {
    let most = probes.iter().map(|probe| {
        let mut probe = probe.clone();
        stack::used(&mut || call(&mut probe))
    });
    println!("{what:>32} {:>12}", most.max().unwrap_or(0));
}

fn stacks() {
    println!("\nstack of a call of the proved engine, with the caller's frames: bytes");
    let half = half_full(64, 64);
    let probes = [
        half.clone(),
        half_full(256, ENTRIES),
        with_full_buffer(half),
        to_merge(128),
        to_merge(1_024),
    ];
    stack("no call", &probes, |probe| {
        black_box(probe);
    });
    stack("start", &probes, |probe| {
        let Probe {
            image,
            card,
            register,
            ..
        } = probe;
        assert!(bytes::start(image, card, register).is_ok());
    });
    let closed = probes.clone().map(|mut probe| {
        bytes::close(&mut probe.image).expect("an open window");
        probe
    });
    stack("open", &closed, |probe| {
        assert!(bytes::open(&mut probe.image).is_ok());
    });
    stack("close", &probes, |probe| {
        assert!(bytes::close(&mut probe.image).is_ok());
    });
    stack("event", &probes, |probe| {
        let Probe {
            image,
            card,
            register,
            ..
        } = probe;
        assert!(bytes::event(image, card, register, &name(60)).is_ok());
    });
    stack("flush", &probes, |probe| {
        assert!(bytes::flush(&mut probe.image, &mut probe.card).is_ok());
    });
    stack("remove", &probes, |probe| {
        assert!(bytes::remove(&mut probe.image, &mut probe.card, 1).is_ok());
    });
    let windows: Vec<u32> = (1..=WINDOWS).collect();
    stack("remove_all", &probes, |probe| {
        assert!(bytes::remove_all(&mut probe.image, &mut probe.card, &windows).is_ok());
    });
    stack("all steps of a merge", &probes, |probe| {
        while bytes::step(&mut probe.image, &mut probe.card).is_ok() {}
    });
    let names: Vec<Vec<u8>> = (0..5).map(name).collect();
    let ids: Vec<Identifier> = names.iter().map(|name| name[..].into()).collect();
    for (what, stretch) in [("query", Stretch::ALL), ("query over 140", stretch_of(200))] {
        stack(what, &probes, |probe| {
            let mut hits = [0; PLACES * HIT];
            let (image, card, register) = (&probe.image, &probe.card, &probe.register);
            assert!(bytes::query(image, card, register, &ids, stretch, &mut hits).is_ok());
        });
    }
    stack("mean", &probes, |probe| {
        let (image, card, register) = (&probe.image, &probe.card, &probe.register);
        assert!(bytes::mean(image, card, register, &names[0]).is_ok());
    });
    let planned = plan((0..4 * 60).map(|place| name(place % 60)));
    stack("forecast", &closed, |probe| {
        let told = bytes::forecast(&probe.image, &probe.register, &planned, &[60; 4]);
        assert!(told.is_ok_and(|told| told.flushes > 0));
    });
}

/// All tables; or, with `peers FOLDER`, the queries that other engines are held against.
fn main() {
    let words: Vec<String> = std::env::args().skip(1).collect();
    if let [first, folder] = &words[..]
        && first == "peers"
    {
        return peers::run(Path::new(folder));
    }
    registers();
    events();
    queries();
    stretches();
    means();
    forecasts();
    removals();
    merges();
    stacks();
}
