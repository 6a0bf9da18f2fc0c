//! Steps: doing one, failing in one, and the list of steps of each call as fixed by the image at the call.

use std::collections::BTreeMap;

use crate::page::*;
use crate::rules::*;
use crate::word::*;
use crate::{Pairing, Reading, Second, Stepped, Store};

#[derive(Clone, Copy, Debug, PartialEq, Eq)]
pub enum Step {
    Program {
        offset: usize,
        value: u16,
    },
    /// Of the page of this index, where pages have so many bytes.
    Erase {
        page: usize,
        page_bytes: usize,
    },
}

impl Step {
    /// The bytes that the step may change.
    pub fn bytes(self) -> std::ops::Range<usize> {
        match self {
            Step::Program { offset, .. } => offset..offset + 2,
            Step::Erase { page, page_bytes } => page * page_bytes..(page + 1) * page_bytes,
        }
    }
}

/// Does the step. A half-word that doesn't read 65,535 may not be programmed.
pub fn do_step(image: &mut [u8], step: Step) {
    match step {
        Step::Program { offset, value } => {
            assert_programmable(image, offset);
            image[step.bytes()].copy_from_slice(&value.to_le_bytes());
        }
        Step::Erase { .. } => image[step.bytes()].fill(255),
    }
}

/// Power fails in the step: `stays` is asked for each byte (by its offset) which bits don't change. Of a program step
/// each bit that was to become 0 may stay 1, of an erase each 0 bit may stay 0; nothing else changes.
pub fn fail_step(image: &mut [u8], step: Step, stays: &mut dyn FnMut(usize) -> u8) {
    match step {
        Step::Program { offset, value } => {
            assert_programmable(image, offset);
            for (offset, intended) in step.bytes().zip(value.to_le_bytes()) {
                image[offset] = intended | stays(offset);
            }
        }
        Step::Erase { .. } => {
            for offset in step.bytes() {
                image[offset] |= !stays(offset);
            }
        }
    }
}

fn assert_programmable(image: &[u8], offset: usize) {
    assert!(offset.is_multiple_of(2), "a half-word begins at an even offset, not at {offset}");
    let reads = [image[offset], image[offset + 1]];
    assert!(reads == [255, 255], "flash rule: the half-word at {offset} reads {reads:?}");
}

/// A word is programmed first half first.
pub fn program_word_steps(offset: usize, word: Word) -> [Step; 2] {
    [
        Step::Program { offset, value: u16::from_le_bytes([word[0], word[1]]) },
        Step::Program { offset: offset + 2, value: u16::from_le_bytes([word[2], word[3]]) },
    ]
}

fn header_steps(chip: Chip, page: usize, offset: usize, word: Word) -> [Step; 2] {
    program_word_steps(chip.page_range(page).start + offset, word)
}

pub fn slot_steps(chip: Chip, page: usize, slot: usize, word: Word) -> [Step; 2] {
    assert!(slot < chip.slots());
    program_word_steps(chip.page_range(page).start + slot_offset(slot), word)
}

/// The words one behind the other, from this slot on.
pub fn slots_steps(chip: Chip, page: usize, first: usize, words: &[Word]) -> Vec<Step> {
    words.iter().enumerate().flat_map(|(place, &word)| slot_steps(chip, page, first + place, word)).collect()
}

pub fn renew_steps(chip: Chip, page: usize, wear: u16, edition: Edition) -> [Step; 3] {
    let [first, second] = header_steps(chip, page, WEAR_OFFSET, wear_word(wear, edition));
    [Step::Erase { page, page_bytes: chip.page_bytes }, first, second]
}

/// The steps that renew these pages one after the other, each with the wear that it gets by the image just before its
/// erase.
fn renewal_steps(image: &[u8], chip: Chip, edition: Edition, pages: impl IntoIterator<Item = usize>) -> Vec<Step> {
    let mut now = image.to_vec();
    let mut steps = Vec::new();
    for page in pages {
        let renewed = renew_steps(chip, page, next_wear(&now, chip, edition, page), edition);
        renewed.iter().for_each(|&step| do_step(&mut now, step));
        steps.extend(renewed);
    }
    steps
}

pub fn format_steps(image: &[u8], chip: Chip, edition: Edition) -> Result<Vec<Step>, u8> {
    test_size(image, chip)?;
    let mut steps = Vec::new();
    for page in 0..page_count(image, chip) {
        steps.extend(renew_steps(chip, page, 1, edition));
    }
    steps.extend(header_steps(chip, 0, OPENING_OFFSET, order_word(0, PLAIN)));
    Ok(steps)
}

pub fn recovery_steps(image: &[u8], chip: Chip) -> Result<Vec<Step>, u8> {
    test_store(image, chip)?;
    let mut steps = Vec::new();
    if let Some((page, slot)) = slot_to_abandon(image, chip) {
        steps.extend(slot_steps(chip, page, slot, mark_word(Mark::Abandons)));
    }
    steps.extend(renewal_steps(image, chip, edition(image, chip), unclean_pages(image, chip)));
    Ok(steps)
}

/// The steps of a write or a group write.
pub fn change_steps(image: &[u8], chip: Chip, timer: bool, change: &Change) -> Result<Vec<Step>, u8> {
    test_change(image, chip, timer, change)?;
    Ok(accepted_steps(image, chip, change))
}

/// The same, of a change that is known to be accepted: whose it is makes no difference any more.
pub fn accepted_steps(image: &[u8], chip: Chip, change: &Change) -> Vec<Step> {
    if is_held(image, chip, change) {
        return Vec::new();
    }
    placing_steps(image, chip, &change.words(), || moved_words(image, chip, change))
}

/// These words from the free slot on or into a new page, or else a move of the others.
pub fn placing_steps(image: &[u8], chip: Chip, words: &[Word], moved: impl FnOnce() -> Vec<Word>) -> Vec<Step> {
    let active = active_page(image, chip);
    let free = free_slots(page_at(image, chip, active.page));
    if free.len() >= words.len() {
        return slots_steps(chip, active.page, free.start, words);
    }
    let cleared = cleared_pages(image, chip);
    let (page, _) =
        *cleared.iter().min_by_key(|&&(page, wear)| (wear, page)).expect("tests 3 and 4 leave a cleared page");
    if cleared.len() == 1 {
        return move_steps(image, chip, page, active.order + 1, &moved());
    }
    let opening = header_steps(chip, page, OPENING_OFFSET, order_word(active.order + 1, PLAIN));
    [opening.to_vec(), slots_steps(chip, page, 0, words)].concat()
}

/// The copies of a move: a record for each held address but the written ones, by rising address.
pub fn copies(image: &[u8], chip: Chip, change: &Change) -> Vec<Word> {
    let copied = held(image, chip).into_iter().filter(|&(address, _)| !change.names(address));
    copied.map(|(address, value)| record(address, value)).collect()
}

/// What a move programs: the copies, and behind them the new records without marks.
fn moved_words(image: &[u8], chip: Chip, change: &Change) -> Vec<Word> {
    [copies(image, chip, change), change.records()].concat()
}

/// Every page but the receiving one is used when a move begins, and none is once the done word is there.
fn move_steps(image: &[u8], chip: Chip, page: usize, order: u32, words: &[Word]) -> Vec<Step> {
    let mut steps = header_steps(chip, page, OPENING_OFFSET, order_word(order, RECEIVING)).to_vec();
    steps.extend(slots_steps(chip, page, 0, words));
    steps.extend(header_steps(chip, page, DONE_OFFSET, done_word(order)));
    let mut filled = image.to_vec();
    steps.iter().for_each(|&step| do_step(&mut filled, step));
    let others = (0..page_count(image, chip)).filter(|&other| other != page);
    steps.extend(renewal_steps(&filled, chip, edition(image, chip), others));
    steps
}

/// A store given by its lists of steps, and by how it takes a page size and an image to be before it reads the image.
pub trait Plan {
    /// The chip whose page size a call names.
    fn chip(&self, page_size: u16) -> Result<Chip, u8> {
        chip_named(page_size)
    }
    fn format_steps(&self, image: &[u8], chip: Chip, second_edition: bool) -> Result<Vec<Step>, u8> {
        format_steps(image, chip, chip.told(second_edition))
    }
    fn recovery_steps(&self, image: &[u8], chip: Chip) -> Result<Vec<Step>, u8>;
    fn change_steps(&self, image: &[u8], chip: Chip, timer: bool, change: &Change) -> Result<Vec<Step>, u8>;
    /// The group in the bytes that a group write is lent.
    fn group(&self, bytes: &[u8]) -> Change {
        Change::group(bytes)
    }
    /// The rules see the image as it is; only a broken store (see `broken`) sees another.
    fn seen(&self, image: &[u8], _chip: Chip) -> Vec<u8> {
        image.to_vec()
    }
    /// Whether an image is accepted.
    fn test_store(&self, seen: &[u8], chip: Chip) -> Result<(), u8> {
        test_store(seen, chip)
    }
    /// What a read finds among these settings.
    fn value(&self, held: &BTreeMap<u16, u8>, timer: bool, address: u16) -> Result<Option<u8>, u8> {
        test_address(address)?;
        test_owner(timer, address)?;
        Ok(held.get(&address).copied())
    }
    /// What a blank read finds.
    fn blank_value(&self, held: &BTreeMap<u16, u8>, timer: bool, address: u16) -> Result<u8, u8> {
        Ok(self.value(held, timer, address)?.unwrap_or(0))
    }
}

impl Plan for Second {
    fn recovery_steps(&self, image: &[u8], chip: Chip) -> Result<Vec<Step>, u8> {
        recovery_steps(image, chip)
    }
    fn change_steps(&self, image: &[u8], chip: Chip, timer: bool, change: &Change) -> Result<Vec<Step>, u8> {
        change_steps(image, chip, timer, change)
    }
}

/// The store that does a plan's list of steps, one step at a time.
pub struct Stepwise<P>(pub P);

impl<P: Plan> Stepwise<P> {
    fn run(
        &self,
        image: &mut [u8],
        page_size: u16,
        allowance: u16,
        steps: impl FnOnce(&P, &[u8], Chip) -> Result<Vec<Step>, u8>,
    ) -> Stepped {
        let steps = match self.0.chip(page_size).and_then(|chip| steps(&self.0, image, chip)) {
            Ok(steps) => steps,
            Err(number) => return Stepped::refused(number),
        };
        let done = steps.len().min(usize::from(allowance));
        for &step in &steps[..done] {
            do_step(image, step);
        }
        Stepped { number: OK, finished: done == steps.len(), steps: done as u16 }
    }

    /// What the plan holds for held, in an image that is accepted.
    fn held(&self, image: &[u8], page_size: u16) -> Result<BTreeMap<u16, u8>, u8> {
        let chip = self.0.chip(page_size)?;
        let seen = self.0.seen(image, chip);
        self.0.test_store(&seen, chip)?;
        Ok(held(&seen, chip))
    }
}

impl<P: Plan> Store for Stepwise<P> {
    fn format(&self, image: &mut [u8], page_size: u16, second_edition: bool) -> u8 {
        self.run(image, page_size, u16::MAX, |plan, image, chip| plan.format_steps(image, chip, second_edition)).number
    }
    fn recover(&self, image: &mut [u8], page_size: u16, allowance: u16) -> Stepped {
        self.run(image, page_size, allowance, P::recovery_steps)
    }
    fn write(&self, image: &mut [u8], page_size: u16, timer: bool, address: u16, value: u8, allowance: u16) -> Stepped {
        let change = Change::Single((address, value));
        self.run(image, page_size, allowance, |plan, image, chip| plan.change_steps(image, chip, timer, &change))
    }
    fn write_group(&self, image: &mut [u8], page_size: u16, timer: bool, group: &[u8], allowance: u16) -> Stepped {
        let change = self.0.group(group);
        self.run(image, page_size, allowance, |plan, image, chip| plan.change_steps(image, chip, timer, &change))
    }
    fn read(&self, image: &[u8], page_size: u16, timer: bool, address: u16) -> Reading {
        match self.held(image, page_size).and_then(|held| self.0.value(&held, timer, address)) {
            Ok(Some(value)) => Reading { number: OK, value },
            Ok(None) => Reading::refused(NOT_HELD),
            Err(number) => Reading::refused(number),
        }
    }
    fn blank_read(&self, image: &[u8], page_size: u16, timer: bool, address: u16) -> Reading {
        match self.held(image, page_size).and_then(|held| self.0.blank_value(&held, timer, address)) {
            Ok(value) => Reading { number: OK, value },
            Err(number) => Reading::refused(number),
        }
    }
    fn lookup(&self, image: &[u8], page_size: u16) -> Pairing {
        let held = match self.held(image, page_size) {
            Ok(held) => held,
            Err(number) => return Pairing::refused(number),
        };
        let mut digits = [0; 4];
        for (address, &value) in held.range(16..20) {
            digits[usize::from(address - 16)] = value;
        }
        Pairing { number: OK, paired: held.range(16..20).count() == 4, digits }
    }
}
