//! States that no short history reaches, built from what the ledger says.

use crate::image::{BLOCK, encode, place, span};
use second::commands::Probe;
use second::ledger::Ledger;
use second::ledger::account::Account;
use second::state::{Lengths, Posting, State, Windows};

/// A state, card and register for a ledger without a merge in progress. The
/// partitions lie one after the other from block 0 on.
pub fn build(ledger: &Ledger) -> Probe {
    let mut card = vec![255; ledger.account.blocks * BLOCK];
    let mut state = state_of(ledger);
    let mut next = 0;
    for (number, part) in ledger.account.parts.iter().enumerate() {
        let blocks: Vec<usize> = (next..next + part.blocks()).collect();
        place(&mut card, &blocks, &encode(part));
        state.partitions.records[number].first = next as u16;
        next += part.blocks();
    }
    state.taken = (next.checked_sub(1).unwrap_or(ledger.account.blocks - 1)) as u16;
    Probe {
        state,
        card,
        register: register_of(ledger),
    }
}

/// The state, all but the places of blocks and the merge in progress.
pub fn state_of(ledger: &Ledger) -> State {
    let mut state = State {
        lengths: Lengths {
            card: (ledger.account.blocks * BLOCK) as u32,
            register: (ledger.entries * 65) as u32,
        },
        windows: Windows {
            last: ledger.last as u16,
            live: ledger.closed().count() as u16,
            open: ledger.open.unwrap_or(0) as u16,
            events: ledger.events() as u16,
        },
        ..State::default()
    };
    state.listed.used = ledger.listed.len() as u16;
    for (place, id) in state.listed.ids.iter_mut().zip(&ledger.listed) {
        *place = ledger.number(id).unwrap() as u16;
    }
    buffer(&mut state, &ledger.account);
    records(&mut state, &ledger.account);
    state
}

fn records(state: &mut State, account: &Account) {
    state.partitions.used = account.parts.len() as u16;
    for (place, part) in state.partitions.records.iter_mut().zip(&account.parts) {
        place.level = part.level as u16;
        place.length = part.length() as u32;
        [place.lowest, place.highest] = span(part).map(|window| window as u16);
    }
}

fn buffer(state: &mut State, account: &Account) {
    state.buffer.used = account.buffer.len() as u16;
    for (place, (pair, &sum)) in state.buffer.postings.iter_mut().zip(&account.buffer) {
        *place = Posting {
            id: pair.0 as u16,
            window: pair.1.0 as u16,
            count: sum as i16,
        };
    }
}

/// The register's bytes.
pub fn register_of(ledger: &Ledger) -> Vec<u8> {
    let mut register = vec![0; ledger.entries * 65];
    for (entry, id) in register.chunks_exact_mut(65).zip(&ledger.known) {
        entry[0] = id.len() as u8;
        entry[1..=id.len()].copy_from_slice(id);
    }
    register
}
