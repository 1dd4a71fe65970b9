//! Planned sessions really made, which forecasts are held against.

use crate::planned::read_back;
use second::commands::Probe;
use second::engine::{self, Forecast};
use second::ledger;
use second::refusal::Refusal;
use second::register;

/// Flushes, blocks, entries, and window, event and refusal where the plan stops.
pub type Told = (usize, usize, usize, Option<(usize, usize, u8)>);

pub fn told(forecast: Forecast) -> Told {
    let stop = forecast.stop;
    let stop = stop.map(|stop| (stop.window, stop.event, stop.refusal.number()));
    (forecast.flushes, forecast.blocks, forecast.entries, stop)
}

pub fn told_by_ledger(forecast: ledger::Forecast) -> Told {
    let stop = forecast.stop;
    let stop = stop.map(|stop| (stop.window, stop.event, stop.number));
    (forecast.flushes, forecast.blocks, forecast.entries, stop)
}

/// Makes the calls of a plan on a copy, and tells what they came to.
pub fn really(probe: &Probe, windows: &[Vec<Vec<u8>>]) -> Told {
    let mut after = probe.clone();
    let Probe {
        state,
        card,
        register,
    } = &mut after;
    let mut flushes = 0;
    let mut stop = None;
    'plan: for (window, identifiers) in windows.iter().enumerate() {
        if let Err(refusal) = engine::open(state) {
            stop = Some((window + 1, 0, refusal.number()));
            break;
        }
        for (event, identifier) in identifiers.iter().enumerate() {
            let before = state.partitions.used;
            if let Err(refusal) = engine::event(state, card, register, identifier) {
                stop = Some((window + 1, event + 1, refusal.number()));
                break 'plan;
            }
            flushes += usize::from(state.partitions.used - before);
        }
        engine::close(state).expect("the window is open");
    }
    let records = state.partitions.to_list();
    let blocks = records.iter().map(|r| (r.length as usize).div_ceil(4092));
    let used = register.chunks(65).filter(|entry| entry[0] > 0);
    (flushes, blocks.sum(), used.count(), stop)
}

/// What a forecast must answer, by the calls alone. The card is not lent to it,
/// so that the calls are made on one without a byte.
pub fn expected(probe: &Probe, plan: &[u8], counts: &[u32]) -> Result<Told, u8> {
    let broken = Refusal::BrokenState;
    if engine::open(&mut probe.state.clone()) == Err(broken) {
        return Err(1);
    }
    if probe.register.len() != probe.state.lengths.register as usize {
        return Err(2);
    }
    let windows = read_back(plan, counts).ok_or(3)?;
    register::read(&probe.register).ok_or(3)?;
    let blank = Probe {
        card: vec![255; probe.state.lengths.card as usize],
        ..probe.clone()
    };
    Ok(really(&blank, &windows))
}
