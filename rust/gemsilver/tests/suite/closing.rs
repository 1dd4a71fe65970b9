//! One query and one mean while a window is open and after its close, counted by hand.

use crate::engines::{Call, proved};
use crate::pair::Pair;
use crate::tally::Tally;
use crate::words::word;
use gemsilver::bytes::HIT;
use second::stretch::Stretch;

const LUCKY: &[u8] = b"LUCKY";

/// A call that both engines must do alike.
fn make(pair: &mut Pair, call: Call) {
    let answer = pair.make(&call, &mut Tally::default());
    assert!(answer.is_ok(), "{call:?}: {answer:?}");
}

/// Counts identifiers in the open window.
fn count(pair: &mut Pair, identifiers: &[&[u8]]) {
    for identifier in identifiers {
        make(pair, Call::Event(identifier.to_vec()));
    }
}

/// The hits of LUCKY and the postings taken.
fn ask(pair: &mut Pair) -> (Vec<(u32, u32)>, u64) {
    let call = Call::Query(vec![LUCKY.to_vec()], Stretch::ALL, vec![0; 32 * HIT]);
    make(pair, call.clone());
    let mut hits = call.list();
    let answer = proved(&mut pair.probe().clone(), &call, &mut hits);
    let [listed, taken, ..] = answer.expect("it was answered before");
    let hit = |place: usize| (word(&hits, 2 * place), word(&hits, 2 * place + 1));
    ((0..listed as usize).map(hit).collect(), taken)
}

/// The mean of LUCKY: quotient, remainder and windows.
fn mean(pair: &mut Pair) -> [u64; 3] {
    let call = Call::Mean(LUCKY.to_vec());
    let answer = pair.make(&call, &mut Tally::default());
    let [quotient, remainder, windows, ..] = answer.expect("a mean");
    [quotient, remainder, windows]
}

/// Window 1 has LUCKY 3, window 2 DOOR 1; both are closed. Window 3 counts LUCKY eight times, with a flush after each.
#[test]
fn a_window_shows_from_its_close() {
    let mut pair = Pair::start(32, 40, &mut Tally::default());
    make(&mut pair, Call::Open);
    count(&mut pair, &[LUCKY; 3]);
    make(&mut pair, Call::Close);
    make(&mut pair, Call::Open);
    count(&mut pair, &[b"DOOR"]);
    make(&mut pair, Call::Close);
    make(&mut pair, Call::Open);
    for flush in 0..8u8 {
        // Two pairs more each time, so that the merge takes several steps.
        count(&mut pair, &[LUCKY, &[flush], &[flush, flush]]);
        // Count 3 weighs 32, one window of two 16; the open one's postings are taken up all the same.
        let taken = u64::from(flush) + 2;
        assert_eq!(ask(&mut pair), (vec![(1, 32 * 16)], taken));
        assert_eq!(mean(&mut pair), [3, 0, 1]);
        make(&mut pair, Call::Flush);
        assert_eq!(ask(&mut pair), (vec![(1, 32 * 16)], taken));
        assert_eq!(mean(&mut pair), [3, 0, 1]);
    }
    make(&mut pair, Call::Step);
    assert_eq!(ask(&mut pair), (vec![(1, 32 * 16)], 9));
    assert_eq!(mean(&mut pair), [3, 0, 1]);
    make(&mut pair, Call::Step);
    assert_eq!(ask(&mut pair), (vec![(1, 32 * 16)], 2));
    assert_eq!(mean(&mut pair), [3, 0, 1]);
    make(&mut pair, Call::Close);
    // Count 8 weighs 50, two windows of three 25 - 16.
    assert_eq!(ask(&mut pair), (vec![(3, 50 * 9), (1, 32 * 9)], 2));
    // 11 in two windows.
    assert_eq!(mean(&mut pair), [5, 1, 2]);
}
