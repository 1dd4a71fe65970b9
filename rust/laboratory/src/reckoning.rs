//! How a score comes about, reckoned step by step from what is read for display.

use crate::view::{Sums, View};
use gemsilver::Stretch;
use second::weights::{count_weight, rarity_weight, sixteenths};
use std::cmp::Reverse;
use std::collections::BTreeSet;

/// An identifier of a query: how many closed windows of its stretch have it, and what that weighs.
#[derive(Clone, PartialEq, Eq, Debug)]
pub struct Rarity {
    pub identifier: Vec<u8>,
    /// Its number, if the register has it.
    pub id: Option<usize>,
    /// F: in how many closed windows of the stretch its count is above 0.
    pub windows: u32,
    /// S(F), 0 where F is 0.
    pub sixteenths: u32,
    /// S(N) - S(F).
    pub weight: u32,
}

/// A window's count of an identifier: what it weighs, and the product of both weights.
#[derive(Clone, Copy, PartialEq, Eq, Debug)]
pub struct Product {
    pub count: u32,
    pub weight: u32,
    pub product: u32,
}

/// What a query's scores are reckoned from.
#[derive(Clone, PartialEq, Eq, Debug)]
pub struct Reckoning {
    /// N, how many closed windows of the stretch are live, and S(N), 0 where N is 0.
    pub live: u32,
    pub sixteenths: u32,
    pub rarities: Vec<Rarity>,
    /// The count of each pair.
    sums: Sums,
}

/// S of a number of windows, 0 for none.
fn logarithm(number: u32) -> u32 {
    match u16::try_from(number) {
        Ok(number) if number > 0 => sixteenths(number),
        _ => 0,
    }
}

impl Reckoning {
    /// Reckons the weights of a query's identifiers over a stretch. What partitions hold that it passes over is of windows outside, so that the
    /// sums need not leave it out.
    pub fn of(view: &View, identifiers: &[Vec<u8>], stretch: Stretch) -> Reckoning {
        let inside = u32::from(stretch.first)..=u32::from(stretch.last);
        let sums = view.sums();
        let mut counts = sums.clone();
        counts.retain(|(_, Reverse(window)), sum| {
            *window != view.open && inside.contains(window) && *sum > 0
        });
        let windows: BTreeSet<u32> = counts.keys().map(|pair| pair.1.0).collect();
        let live = windows.len() as u32;
        let rarity = |identifier: &Vec<u8>| {
            let id = view.names.iter().position(|name| name == identifier);
            let windows = id.map_or(0, |id| windows_with(&counts, id));
            Rarity {
                identifier: identifier.clone(),
                id,
                windows,
                sixteenths: logarithm(windows),
                weight: rarity_weight(narrow(live), narrow(windows)),
            }
        };
        Reckoning {
            live,
            sixteenths: logarithm(live),
            rarities: identifiers.iter().map(rarity).collect(),
            sums,
        }
    }

    /// The products of a window, one for each identifier that counts in it.
    pub fn products(&self, window: u32) -> Vec<Option<Product>> {
        let product = |rarity: &Rarity| {
            let sum = *self.sums.get(&(rarity.id?, Reverse(window)))?;
            let count = u32::try_from(sum).ok().filter(|&count| count > 0)?;
            let weight = count_weight(narrow(count).min(32_767));
            Some(Product {
                count,
                weight,
                product: weight * rarity.weight,
            })
        };
        self.rarities.iter().map(product).collect()
    }
}

/// In how many windows of these an identifier counts.
fn windows_with(counts: &Sums, id: usize) -> u32 {
    let list = counts.range((id, Reverse(u32::MAX))..=(id, Reverse(0)));
    list.count() as u32
}

/// A number of 16 bits; a greater one only a foreign card has.
fn narrow(number: u32) -> u16 {
    number.try_into().unwrap_or(u16::MAX)
}
