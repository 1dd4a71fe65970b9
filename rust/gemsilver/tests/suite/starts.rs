//! Starts on buffers of fitting and other lengths.

use crate::engines::{Call, Probe};
use crate::pair::Pair;
use crate::tally::Tally;
use second::image::LENGTH;

#[test]
fn both_engines_start_alike() {
    let mut tally = Tally::default();
    let cards = [
        0,
        1,
        4_096,
        3 * 4_096,
        4 * 4_096 - 1,
        4 * 4_096,
        4 * 4_096 + 1,
        100 * 4_096,
        4_096 * 4_096,
        4_097 * 4_096,
    ];
    let registers = [
        0,
        1,
        64,
        65,
        66,
        130,
        1_024 * 65,
        1_024 * 65 + 1,
        1_025 * 65,
    ];
    for card in cards {
        for register in registers {
            for image in [LENGTH, 0, LENGTH - 1, LENGTH + 1, LENGTH + 4] {
                // Lengths of an image other than the right one are tried on small buffers alone.
                if image == LENGTH || card + register < 20_000 {
                    let mut pair = Pair::of(Probe {
                        image: vec![7; image],
                        card: vec![7; card],
                        register: vec![7; register],
                    });
                    let _ = pair.make(&Call::Start, &mut tally);
                    let _ = pair.make(&Call::Open, &mut tally);
                }
            }
        }
    }
    tally.print("starts");
    tally.expect("start", &[0, 1, 2], 9);
    tally.expect("open", &[0, 1], 9);
}
