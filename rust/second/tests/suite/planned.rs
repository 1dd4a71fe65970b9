//! Planned sessions: as bytes, and at random.

use crate::history::name;
use crate::rng::Rng;

/// The identifiers of each window, in order.
pub type Windows = Vec<Vec<Vec<u8>>>;

/// The windows as a plan is lent: entries, and how many each window has. Of an
/// identifier that is too long an entry has what it has room for.
pub fn laid_out(windows: &[Vec<Vec<u8>>]) -> (Vec<u8>, Vec<u32>) {
    let mut plan = Vec::new();
    for identifier in windows.iter().flatten() {
        let mut entry = [0; 65];
        entry[0] = identifier.len().min(255) as u8;
        let length = identifier.len().min(64);
        entry[1..=length].copy_from_slice(&identifier[..length]);
        plan.extend(entry);
    }
    (plan, windows.iter().map(|ids| ids.len() as u32).collect())
}

/// The windows of a plan, or `None` if it is malformed.
pub fn read_back(plan: &[u8], counts: &[u32]) -> Option<Windows> {
    let mut left = plan;
    let mut windows = Windows::new();
    for &count in counts {
        let mut window = Vec::new();
        for _ in 0..count {
            let (entry, rest) = left.split_at_checked(65)?;
            left = rest;
            let length = usize::from(entry[0]);
            let after = entry.iter().skip(1 + length);
            if after.copied().any(|byte| byte > 0) {
                return None;
            }
            window.push([&entry[1..], &[0; 191]].concat()[..length].to_vec());
        }
        windows.push(window);
    }
    left.is_empty().then_some(windows)
}

/// A plan of some of so many names: a short one, or now and then one that fills
/// windows, the buffer and level 0.
pub fn any_windows(rng: &mut Rng, names: usize) -> Windows {
    let mut windows: Windows = if rng.one_in(3) {
        let length = rng.pick(&[20, 63, 64]);
        let count = rng.pick(&[3, 10, 40]);
        // Names in a row, so that windows have many.
        let row = |first| (first..first + length).map(|place| name(place % names));
        (0..count)
            .map(|_| row(rng.below(names)).collect())
            .collect()
    } else {
        let any = |rng: &mut Rng| (0..rng.below(9)).map(|_| name(rng.below(names))).collect();
        (0..rng.below(6)).map(|_| any(rng)).collect()
    };
    if rng.one_in(6) {
        windows.insert(rng.below(windows.len() + 1), (0..66).map(name).collect());
    }
    if rng.one_in(6) && !windows.is_empty() {
        let window = rng.below(windows.len());
        let place = rng.below(windows[window].len() + 1);
        let length = rng.pick(&[0, 0, 65, 66, 255]);
        windows[window].insert(place, vec![b'X'; length]);
    }
    windows
}

/// Changes a plan so that it may be malformed.
pub fn damage_plan(plan: &mut Vec<u8>, counts: &mut Vec<u32>, rng: &mut Rng) {
    let entries = plan.len() / 65;
    match rng.below(9) {
        0 => plan.truncate(plan.len().saturating_sub(rng.pick(&[1, 64, 65, 66]))),
        1 => plan.extend(vec![0; rng.pick(&[1, 64, 65])]),
        2 => counts.push(rng.pick(&[0, 1, 2, u32::MAX])),
        3 => drop(counts.pop()),
        4 if !counts.is_empty() => {
            let place = rng.below(counts.len());
            counts[place] = counts[place].wrapping_add(rng.pick(&[1, 65_536, u32::MAX]));
        }
        5 if counts.len() > 1 => {
            // The same sum: events go to another window.
            let last = counts.len() - 1;
            (counts[0], counts[last]) = (0, counts[0] + counts[last]);
        }
        _ if entries > 0 => {
            let place = match rng.below(3) {
                0 => 0,
                1 => 64,
                _ => rng.below(65),
            };
            plan[65 * rng.below(entries) + place] = rng.pick(&[0, 1, 2, 63, 64, 65, 66, 255]);
        }
        _ => {}
    }
}
