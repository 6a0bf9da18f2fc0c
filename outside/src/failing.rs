//! The ways in which the tests let a step fail. Each is one that the rules allow (F6, F7): only the choice of bits differs.

use crate::rng::Rng;
use crate::steps::{do_step, fail_step, Step};

#[derive(Clone, Copy, Debug, PartialEq, Eq, PartialOrd, Ord)]
pub enum Failing {
    Untouched,
    Complete,
    /// Each bit stays with one chance in two, in eight, seven in eight.
    HalfStay,
    FewStay,
    MostStay,
    /// All bits change but one, or only one does.
    OneStays,
    OneChanges,
    /// Whole bytes of a half-word, or whole words of a page, stay or change.
    Blocks,
    /// The front of a page is erased and the back isn't, or the other way round.
    FrontChanges,
    BackChanges,
}

/// The outcomes that a failing step is tried with. A half-word has no front and back of whole words, so a program step has
/// only the first eight.
pub const OUTCOMES: [Failing; 10] = [
    Failing::Untouched,
    Failing::Complete,
    Failing::HalfStay,
    Failing::FewStay,
    Failing::MostStay,
    Failing::OneStays,
    Failing::OneChanges,
    Failing::Blocks,
    Failing::FrontChanges,
    Failing::BackChanges,
];

pub fn failings(step: Step) -> &'static [Failing] {
    match step {
        Step::Program { .. } => &OUTCOMES[..8],
        Step::Erase { .. } => &OUTCOMES,
    }
}

/// Fails in the step in this way.
pub fn fail(image: &mut [u8], step: Step, failing: Failing, rng: &mut Rng) {
    let bytes = step.bytes();
    let (odd_byte, odd_bit) = changing_bit(image, step, rng);
    let cut = bytes.start + rng.below(bytes.len() + 1);
    let block = if bytes.len() == 2 { 1 } else { 4 };
    let blocks_seed = rng.draw();
    let mut stays = |offset: usize| match failing {
        Failing::Untouched => 255,
        Failing::Complete => 0,
        Failing::HalfStay => rng.byte(),
        Failing::FewStay => rng.byte() & rng.byte() & rng.byte(),
        Failing::MostStay => rng.byte() | rng.byte() | rng.byte(),
        Failing::OneStays => bit_if(offset == odd_byte, odd_bit),
        Failing::OneChanges => !bit_if(offset == odd_byte, odd_bit),
        Failing::Blocks => all_if(Rng::new(blocks_seed ^ (offset / block) as u64).one_in(2)),
        Failing::FrontChanges => all_if(offset >= cut),
        Failing::BackChanges => all_if(offset < cut),
    };
    fail_step(image, step, &mut stays);
}

/// Fails in the step in a random way.
pub fn fail_somehow(image: &mut [u8], step: Step, rng: &mut Rng) {
    let failing = rng.pick(failings(step));
    fail(image, step, failing, rng);
}

fn bit_if(condition: bool, bit: u8) -> u8 {
    if condition {
        bit
    } else {
        0
    }
}

fn all_if(condition: bool) -> u8 {
    bit_if(condition, 255)
}

/// The byte and the bit of one of the bits that the step changes, or of any if it changes none.
fn changing_bit(image: &[u8], step: Step, rng: &mut Rng) -> (usize, u8) {
    let before = &image[step.bytes()];
    let mut after = image.to_vec();
    do_step(&mut after, step);
    let after = &after[step.bytes()];
    let mut changing = Vec::new();
    for (index, (before, after)) in before.iter().zip(after).enumerate() {
        for bit in 0..8 {
            if (before ^ after) & (1 << bit) != 0 {
                changing.push((step.bytes().start + index, 1 << bit));
            }
        }
    }
    if changing.is_empty() {
        return (step.bytes().start, 1);
    }
    rng.pick(&changing)
}
