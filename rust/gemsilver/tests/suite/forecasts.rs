//! Plans by hand and at random. Each forecast is held against the plan's calls where it is made.

use crate::damage::damage;
use crate::engines::{Call, Probe, Told};
use crate::history::{any_plan, name};
use crate::pair::Pair;
use crate::parts::{build, mix, register};
use crate::planned::{Windows, laid_out};
use crate::rng::Rng;
use crate::tally::Tally;
use crate::words::{at, word};
use gemsilver::{Entry, Probe as Lent, bytes};
use second::image;
use second::state::{Lengths, State, Windows as Numbers};

/// A call that both engines must do alike.
fn make(pair: &mut Pair, call: Call) {
    let answer = pair.make(&call, &mut Tally::default());
    assert!(answer.is_ok(), "{call:?}: {answer:?}");
}

/// What a plan comes to: flushes, blocks, entries, and window, event and refusal where it stops; or a refusal of the whole.
fn ask(pair: &mut Pair, windows: &Windows) -> Result<Told, u32> {
    let (plan, counts) = laid_out(windows);
    ask_bytes(pair, &plan, &counts)
}

fn ask_bytes(pair: &mut Pair, plan: &[u8], counts: &[u32]) -> Result<Told, u32> {
    let call = Call::Forecast(plan.to_vec(), counts.to_vec());
    pair.make(&call, &mut Tally::default())
}

/// A window of these identifiers.
fn window(identifiers: &[&[u8]]) -> Vec<Vec<u8>> {
    identifiers.iter().map(|id| id.to_vec()).collect()
}

/// So many windows of 64 identifiers each.
fn full(count: usize) -> Windows {
    vec![(0..64).map(name).collect(); count]
}

/// Makes the calls of a plan that does not stop.
fn follow(pair: &mut Pair, windows: &Windows) {
    for identifiers in windows {
        make(pair, Call::Open);
        for identifier in identifiers {
            make(pair, Call::Event(identifier.clone()));
        }
        make(pair, Call::Close);
    }
}

/// A foreign state with so many numbers given, no window open, and a register of five entries with four names.
fn numbered(last: u16) -> Probe {
    let state = State {
        lengths: Lengths {
            card: 16 * 4_096,
            register: 5 * 65,
        },
        windows: Numbers {
            last,
            ..Numbers::default()
        },
        ..State::default()
    };
    Probe {
        image: image::write(&state),
        card: Vec::new(),
        register: register(5, 4),
    }
}

#[test]
fn plans_are_counted_to_their_end() {
    let mut pair = Pair::start(16, 70, &mut Tally::default());
    assert_eq!(ask(&mut pair, &vec![]), Ok([0; 6]));
    assert_eq!(ask(&mut pair, &vec![vec![]; 70_000]), Ok([0; 6]));
    // Once in the register, however often it is planned.
    let plan = vec![window(&[b"A", b"B", b"A"]), vec![], window(&[b"B"])];
    assert_eq!(ask(&mut pair, &plan), Ok([0, 0, 2, 0, 0, 0]));
    assert_eq!(ask(&mut pair, &full(2)), Ok([0, 0, 64, 0, 0, 0]));
    assert_eq!(ask(&mut pair, &full(5)), Ok([2, 2, 64, 0, 0, 0]));
    follow(&mut pair, &full(3));
    assert_eq!(ask(&mut pair, &vec![]), Ok([0, 1, 64, 0, 0, 0]));
    assert_eq!(ask(&mut pair, &full(2)), Ok([1, 2, 64, 0, 0, 0]));
    // Removed counts take room in the buffer as well.
    make(&mut pair, Call::Flush);
    make(&mut pair, Call::Remove(1));
    make(&mut pair, Call::Remove(2));
    assert_eq!(ask(&mut pair, &full(1)), Ok([1, 3, 64, 0, 0, 0]));
}

#[test]
fn plans_stop_where_a_call_is_refused() {
    let mut pair = Pair::start(16, 66, &mut Tally::default());
    for bad in [&[b'X'; 0][..], &[b'X'; 65], &[b'X'; 255]] {
        let plan = vec![vec![], window(&[b"A", b"A", bad, b"B"])];
        assert_eq!(ask(&mut pair, &plan), Ok([0, 0, 1, 2, 3, 4]));
    }
    let many: Vec<Vec<u8>> = (0..65).map(name).collect();
    let plan = vec![many.clone(), vec![]];
    assert_eq!(ask(&mut pair, &plan), Ok([0, 0, 64, 1, 65, 9]));
    let plan = vec![window(&[b"A", b"B", b"C"]), many];
    // The register is full with the 63rd.
    assert_eq!(ask(&mut pair, &plan), Ok([0, 0, 66, 2, 64, 8]));
    make(&mut pair, Call::Open);
    assert_eq!(ask(&mut pair, &vec![vec![]]), Ok([0, 0, 0, 1, 0, 5]));
    assert_eq!(ask(&mut pair, &vec![]), Ok([0; 6]));
}

#[test]
fn plans_stop_where_numbers_or_events_are_used_up() {
    let mut pair = Pair::of(numbered(65_534));
    assert_eq!(ask(&mut pair, &vec![vec![]; 3]), Ok([0, 0, 4, 0, 0, 0]));
    let plan = vec![vec![], vec![name(0)], vec![]];
    assert_eq!(ask(&mut pair, &plan), Ok([0, 0, 4, 3, 0, 6]));
    let mut pair = Pair::of(numbered(65_535));
    assert_eq!(ask(&mut pair, &vec![vec![]]), Ok([0, 0, 4, 1, 0, 6]));
    let mut pair = Pair::of(numbered(0));
    let mut plan = vec![vec![name(3); 32_767]; 2];
    assert_eq!(ask(&mut pair, &plan), Ok([0, 0, 4, 0, 0, 0]));
    plan[1].push(name(0));
    assert_eq!(ask(&mut pair, &plan), Ok([0, 0, 4, 2, 32_768, 6]));
    // 4 before 6.
    plan[1][32_767].clear();
    assert_eq!(ask(&mut pair, &plan), Ok([0, 0, 4, 2, 32_768, 4]));
}

#[test]
fn plans_stop_where_a_flush_has_no_room() {
    let mut pair = Pair::start(64, 64, &mut Tally::default());
    assert_eq!(ask(&mut pair, &full(34)), Ok([16, 16, 64, 0, 0, 0]));
    assert_eq!(ask(&mut pair, &full(36)), Ok([16, 16, 64, 35, 1, 10]));
    follow(&mut pair, &full(20));
    // A merge in progress makes no room before it ends.
    make(&mut pair, Call::Step);
    assert!(word(&pair.probe().image, at::STEPS) > 0);
    assert_eq!(ask(&mut pair, &full(36)), Ok([7, 16, 64, 15, 1, 10]));
    for (blocks, flushes) in [(4, 2), (5, 2), (31, 15)] {
        let mut pair = Pair::start(blocks, 64, &mut Tally::default());
        let windows = 2 * flushes + 2;
        let fits = Ok([flushes, flushes, 64, 0, 0, 0]);
        assert_eq!(ask(&mut pair, &full(windows as usize)), fits);
        let stops = Ok([flushes, flushes, 64, windows + 1, 1, 11]);
        assert_eq!(ask(&mut pair, &full(windows as usize + 1)), stops);
    }
}

/// Also past the place where the plan would stop.
#[test]
fn malformed_plans_are_refused_as_a_whole() {
    let mut pair = Pair::of(numbered(7));
    let plan = vec![window(&[b"", b"BB"]), vec![], window(&[&[9; 64]])];
    let (plan, counts) = laid_out(&plan);
    let stops = Ok([0, 0, 4, 1, 1, 4]);
    assert_eq!(ask_bytes(&mut pair, &plan, &counts), stops);
    for length in [0, 1, 64, 65, 66, 130, 194] {
        assert_eq!(ask_bytes(&mut pair, &plan[..length], &counts), Err(3));
    }
    let sums: [&[u32]; 6] = [
        &[],
        &[2],
        &[4],
        &[2, 0, 2],
        &[u32::MAX, 4],
        &[u32::MAX, u32::MAX, 5],
    ];
    for counts in sums {
        assert_eq!(ask_bytes(&mut pair, &plan, counts), Err(3), "{counts:?}");
    }
    // The entries' lengths are 0, 2 and 64.
    for place in 0..3 * 65 {
        let mut damaged = plan.clone();
        damaged[place] ^= 1;
        let is_identifier = (66..=67).contains(&place) || place > 130;
        let expected = match place {
            // A length of 1 makes a zero the identifier, which is known.
            0 => Ok([0, 0, 5, 3, 1, 8]),
            // So it does with 3, and 65 is too long.
            65 | 130 => stops,
            _ if is_identifier => stops,
            _ => Err(3),
        };
        let answer = ask_bytes(&mut pair, &damaged, &counts);
        assert_eq!(answer, expected, "{place}");
    }
}

#[test]
fn state_and_register_come_before_the_plan() {
    let mut probe = numbered(7);
    let bad = |probe: &Probe| ask_bytes(&mut Pair::of(probe.clone()), &[0; 64], &[1]);
    assert_eq!(bad(&probe), Err(3));
    let good = |probe: &Probe| ask(&mut Pair::of(probe.clone()), &vec![]);
    assert!(good(&probe).is_ok());
    probe.register.copy_within(0..65, 65);
    assert_eq!((bad(&probe), good(&probe)), (Err(3), Err(3)));
    probe.register.pop();
    assert_eq!((bad(&probe), good(&probe)), (Err(2), Err(2)));
    probe.image.pop();
    assert_eq!((bad(&probe), good(&probe)), (Err(1), Err(1)));
}

unsafe extern "C" {
    fn gemsilver_forecast(
        image: *const u8,
        image_length: usize,
        register: *const u8,
        register_length: usize,
        plan: *const u8,
        plan_length: usize,
        counts: *const u32,
        count_count: usize,
        told: *mut u64,
    ) -> u32;
}

/// The exported function itself, with what the numbers that it tells held before, and one after them.
fn exported(probe: &Probe, plan: &[u8], counts: &[u32]) -> (u32, [u64; 7]) {
    let mut told = [99; 7];
    let (image, register) = (&probe.image, &probe.register);
    // Sound: each pointer and length are those of one slice, and there is room for seven numbers.
    let number = unsafe {
        gemsilver_forecast(
            image.as_ptr(),
            image.len(),
            register.as_ptr(),
            register.len(),
            plan.as_ptr(),
            plan.len(),
            counts.as_ptr(),
            counts.len(),
            told.as_mut_ptr(),
        )
    };
    (number, told)
}

#[test]
fn what_is_told_stays_where_the_call_is_refused() {
    let probe = numbered(7);
    let (plan, counts) = laid_out(&vec![window(&[b"A", b""])]);
    let stops = [0, 0, 5, 1, 2, 4, 99];
    assert_eq!(exported(&probe, &plan, &counts), (0, stops));
    assert_eq!(exported(&probe, &[], &[]), (0, [0, 0, 4, 0, 0, 0, 99]));
    assert_eq!(exported(&probe, &plan, &[1]), (3, [99; 7]));
    let mut short = probe.clone();
    short.register.pop();
    assert_eq!(exported(&short, &plan, &counts), (2, [99; 7]));
    short.image.pop();
    assert_eq!(exported(&short, &plan, &counts), (1, [99; 7]));
}

/// A plan of entries is the plan of their bytes.
#[test]
fn entries_are_laid_out_as_the_register_has_them() {
    let probe = numbered(7);
    let lent = Lent::resume(&probe.image[..], &probe.card, &probe.register);
    for length in [0, 1, 2, 63, 64, 65, 255, 256, 300] {
        let identifier = vec![b'X'; length];
        let (plan, counts) = laid_out(&vec![vec![identifier.clone()]]);
        let entry = Entry::from(&identifier);
        assert_eq!(entry.bytes()[..], plan, "{length}");
        let by_bytes = bytes::forecast(&probe.image, &probe.register, &plan, &counts);
        assert_eq!(lent.forecast(&[entry], &counts), by_bytes);
        let stops = by_bytes.is_ok_and(|told| told.stop.is_some());
        assert_eq!(stops, !(1..=64).contains(&length), "{length}");
    }
}

/// Probes that no history need have made, mostly with no window open, some of them damaged.
#[test]
fn both_engines_forecast_alike() {
    let mut tally = Tally::default();
    let mut rng = Rng(606);
    for _ in 0..3_600 {
        let mix = mix(&mut rng);
        let mut probe = build(&mix, &mut rng);
        if !rng.one_in(6) {
            shut(&mut probe, &mut rng);
        }
        if rng.one_in(6) {
            damage(&mut probe, &mut rng);
        }
        let names = probe.register.len() / 65 + 1;
        let call = any_plan(&mut rng, names);
        let _ = Pair::of(probe).make(&call, &mut tally);
    }
    tally.print("forecasts");
    tally.expect("forecast", &[0], 1_000);
    tally.expect("forecast", &[1, 2, 3], 10);
    for (sight, times) in [
        ("that do not stop", 300),
        ("that stop at an open with 5", 100),
        ("that stop at an open with 6", 100),
        ("that stop at an event with 4", 50),
        ("that stop at an event with 8", 100),
        ("that stop at an event with 9", 5),
        ("that stop at an event with 10", 20),
        ("that stop at an event with 11", 100),
        ("that stop past the first window", 300),
        ("of no window", 100),
        ("of a window without events", 100),
        ("with a flush", 100),
        ("with several flushes", 20),
        ("with new identifiers", 200),
    ] {
        tally.expect_plans(sight, times);
    }
}

/// Takes the open window out, and gives the register more entries where it may have them.
fn shut(probe: &mut Probe, rng: &mut Rng) {
    let mut state = image::read(&probe.image).expect("an image");
    state.windows.open = 0;
    state.windows.events = 0;
    state.listed = Default::default();
    let entries = rng.pick(&[5, 70, 200]);
    state.lengths.register = entries as u32 * 65;
    probe.register = register(entries, rng.below(entries + 1));
    probe.image = image::write(&state);
}
