//! Random histories: calls at random, weighted by a plan.

use crate::rng::Rng;
use crate::twin::Twin;
use second::ledger::Ledger;
use second::stretch::Stretch;

/// How likely each kind of call is, against the others.
#[derive(Clone, Copy)]
pub struct Odds {
    /// Open a window, or close the open one.
    pub turn: usize,
    pub event: usize,
    pub remove: usize,
    /// Remove several windows together.
    pub together: usize,
    pub flush: usize,
    pub step: usize,
    pub query: usize,
    /// A call that is likely to be refused.
    pub odd: usize,
}

#[derive(Clone, Copy)]
pub struct Plan {
    pub seed: u64,
    pub blocks: usize,
    pub entries: usize,
    pub calls: usize,
    /// How many different identifiers are used.
    pub names: usize,
    /// Windows are removed when more than this are live.
    pub keep: usize,
    pub odds: Odds,
}

/// The identifier of a number: of all lengths, with common beginnings and zeros.
pub fn name(number: usize) -> Vec<u8> {
    let mut name = match number % 4 {
        0 => vec![b'A'; 1 + number / 4 % 60],
        1 => b"SWITCH".to_vec(),
        2 => vec![255; 60],
        _ => vec![0; 1 + number / 4 % 7],
    };
    name.extend((number as u16).to_le_bytes());
    name
}

/// Runs a history to its end.
pub fn run(plan: &Plan) -> Twin {
    let mut twin = Twin::new(plan.blocks, plan.entries);
    let mut rng = Rng(plan.seed);
    for _ in 0..plan.calls {
        act(&mut twin, &mut rng, plan);
    }
    twin
}

/// A kind of call; tells whether it was done.
type Call = fn(&mut Twin, &mut Rng, &Plan) -> bool;

/// Makes one call.
pub fn act(twin: &mut Twin, rng: &mut Rng, plan: &Plan) -> bool {
    let odds = &plan.odds;
    let kinds: [(usize, Call); 8] = [
        (odds.turn, turn),
        (odds.event, event),
        (odds.remove, remove),
        (odds.together, together),
        (odds.flush, |twin, _, _| twin.flush().is_ok()),
        (odds.step, step),
        (odds.query, query),
        (odds.odd, odd),
    ];
    let mut place = rng.below(kinds.iter().map(|kind| kind.0).sum());
    for (weight, call) in kinds {
        if place < weight {
            return call(twin, rng, plan);
        }
        place -= weight;
    }
    unreachable!("the weights have been added up")
}

/// Opens a window, or closes the open one between queries and means of what it holds.
fn turn(twin: &mut Twin, _: &mut Rng, _: &Plan) -> bool {
    if twin.ledger.open.is_none() {
        return twin.open().is_ok();
    }
    let names = twin.ledger.listed.clone();
    let ids: Vec<&[u8]> = names.iter().take(5).map(|name| &name[..]).collect();
    if ids.is_empty() {
        return twin.close().is_ok();
    }
    let before = twin.query(&ids, 32).expect("a query");
    let mean_before = twin.mean(ids[0]);
    let is_closed = twin.close().is_ok();
    let after = twin.query(&ids, 32).expect("a query");
    assert_eq!(before.1, after.1, "a close moves no posting");
    if before.0 != after.0 {
        twin.tally.see("closes that change an answer");
    }
    let windows = mean_before.map_or(0, |(_, _, windows)| windows);
    let mean_after = twin.mean(ids[0]).expect("the window counts it");
    assert_eq!(mean_after.2, windows + 1, "a close brings a window");
    if mean_before.is_err() {
        twin.tally.see("closes that bring the first mean");
    }
    is_closed
}

fn event(twin: &mut Twin, rng: &mut Rng, plan: &Plan) -> bool {
    if twin.ledger.open.is_none() && !rng.one_in(20) {
        twin.open().expect("a number is left");
    }
    twin.event(&name(rng.below(plan.names))).is_ok()
}

/// Removes an old window or any one.
fn remove(twin: &mut Twin, rng: &mut Rng, plan: &Plan) -> bool {
    let live: Vec<u32> = twin.ledger.live.keys().copied().collect();
    if live.len() <= plan.keep {
        return false;
    }
    let among = if rng.one_in(2) { 1 } else { live.len() };
    twin.remove(live[rng.below(among)]).is_ok()
}

fn together(twin: &mut Twin, rng: &mut Rng, plan: &Plan) -> bool {
    if twin.ledger.live.len() <= plan.keep {
        return false;
    }
    let windows = any_list(rng, &twin.ledger);
    twin.remove_all(&windows).is_ok()
}

/// A list of live closed windows, now and then with one that is none or one twice.
pub fn any_list(rng: &mut Rng, ledger: &Ledger) -> Vec<u32> {
    let mut live: Vec<u32> = ledger.closed().map(|(&window, _)| window).collect();
    let length = rng.pick(&[0, 1, 2, 2, 3, 3, 5, 8, 32, 32, 33, 40]);
    let mut list: Vec<u32> = (0..length.min(live.len()))
        .map(|_| live.swap_remove(rng.below(live.len())))
        .collect();
    if rng.one_in(3) {
        let odd = match rng.below(6) {
            0 => rng.pick(&[0, 65_535, 65_536, u32::MAX]),
            1 => 65_536 + list.first().copied().unwrap_or(1),
            2 => ledger.last + rng.below(2) as u32,
            3 => 1 + rng.below(ledger.last as usize + 1) as u32,
            _ => list.last().copied().unwrap_or(0),
        };
        list.insert(rng.below(list.len() + 1), odd);
    }
    list
}

/// Steps where there is work, and now and then where there is none.
fn step(twin: &mut Twin, rng: &mut Rng, _: &Plan) -> bool {
    let is_due = twin.ledger.account.due_inputs().is_some();
    (is_due || rng.one_in(20)) && twin.step().is_ok()
}

/// A stretch whose first window exceeds its last.
const BACKWARD: Stretch = Stretch { first: 2, last: 1 };

/// A query, and the mean of each of its identifiers. The stretch is drawn from a copy of the generator, so that it
/// moves nothing else of a history.
fn query(twin: &mut Twin, rng: &mut Rng, plan: &Plan) -> bool {
    let names: Vec<Vec<u8>> = (0..1 + rng.below(5))
        .map(|_| name(rng.below(plan.names + 2)))
        .collect();
    for name in &names {
        // An identifier that no closed window has is met often.
        let _ = twin.mean(name);
    }
    let ids: Vec<&[u8]> = names.iter().map(|name| &name[..]).collect();
    let stretch = any_stretch(&mut Rng(rng.0), twin.state.windows.last);
    twin.query_in(&ids, stretch, 1 + rng.below(32)).is_ok()
}

/// A stretch of the windows up to a last one: all, one, those from or up to one, or some; now and then an empty
/// one or one whose first exceeds its last.
pub fn any_stretch(rng: &mut Rng, last: u16) -> Stretch {
    let window = |rng: &mut Rng| rng.below(usize::from(last) + 2) as u16;
    let (one, other) = (window(rng), window(rng));
    let (first, last) = match rng.below(10) {
        0 | 1 => (1, u16::MAX),
        2 => (one, one),
        3 => (one, u16::MAX),
        4 => (1, one),
        5 => (0, one),
        6 if rng.one_in(2) => (0, 0),
        6 => (one.max(1), one.saturating_sub(1)),
        7 => (rng.next() as u16, rng.next() as u16),
        _ => (one.min(other), one.max(other)),
    };
    Stretch { first, last }
}

/// A call beyond a limit.
fn odd(twin: &mut Twin, rng: &mut Rng, plan: &Plan) -> bool {
    match rng.below(11) {
        0 => twin.open().is_ok(),
        1 => twin.close().is_ok(),
        2 => twin.event(&vec![b'X'; rng.pick(&[0, 65, 66, 300])]).is_ok(),
        3 => twin
            .remove(rng.pick(&[0, 65_535, 65_536, u32::MAX]))
            .is_ok(),
        4 => twin.remove(twin.ledger.last + rng.below(3) as u32).is_ok(),
        5 => twin
            .remove(rng.below(twin.ledger.last as usize + 2) as u32)
            .is_ok(),
        6 => odd_query(twin, rng, plan),
        7 => twin
            .query_in(&[&name(0)], BACKWARD, rng.pick(&[0, 1, 32, 33, 100]))
            .is_ok(),
        8 => twin
            .query_in(&[b"X", &[b'Y'; 65]], BACKWARD, rng.below(34))
            .is_ok(),
        9 => twin.mean(&vec![b'X'; rng.pick(&[0, 64, 65, 300])]).is_ok(),
        _ => twin.query(&[&name(1), b""], rng.below(34)).is_ok(),
    }
}

/// A query of too few, too many or equal identifiers.
fn odd_query(twin: &mut Twin, rng: &mut Rng, plan: &Plan) -> bool {
    let mut names: Vec<Vec<u8>> = (0..rng.below(8)).map(name).collect();
    if rng.one_in(2) && !names.is_empty() {
        names.push(names[0].clone());
    }
    let turns = rng.below(names.len().max(1));
    names.rotate_left(turns);
    let ids: Vec<&[u8]> = names.iter().map(|name| &name[..]).collect();
    twin.query(&ids, 1 + plan.names % 32).is_ok()
}
