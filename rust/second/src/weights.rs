//! The weights of a score: binary logarithms in sixteenths, cut to whole ones.
//!
//! Sixteen times the logarithm of a number is the logarithm of its sixteenth
//! power, so every weight comes from the place of a highest set bit. That power
//! has up to 256 bits: it is the square of the eighth, which has at most 128.

/// The logarithm of a number above 0 in sixteenths: the largest a with 2^a at
/// most number^16.
pub fn sixteenths(number: u16) -> u32 {
    let (high, low) = square(u128::from(number).pow(8));
    match high {
        0 => low.ilog2(),
        _ => 128 + high.ilog2(),
    }
}

/// The square of a number: its high 128 bits and its low ones.
fn square(number: u128) -> (u128, u128) {
    let (high, low) = (number >> 64, number & u128::from(u64::MAX));
    // Twice high * low, 64 bits up: once, 65 bits up.
    let cross = high * low;
    let (bottom, is_carried) = (low * low).overflowing_add(cross << 65);
    (high * high + (cross >> 63) + u128::from(is_carried), bottom)
}

/// The weight of a count, of at most 32,767.
pub fn count_weight(count: u16) -> u32 {
    sixteenths(count + 1)
}

/// The weight of an identifier that `with` of `live` closed windows contain.
///
/// It is 0 where no window contains it, or more than there are: only a foreign
/// card can say that.
pub fn rarity_weight(live: u16, with: u16) -> u32 {
    if with == 0 || with > live {
        return 0;
    }
    // Each logarithm is cut by itself: that of the quotient may be one less.
    sixteenths(live) - sixteenths(with)
}
