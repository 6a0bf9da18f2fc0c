//! Stores broken on purpose, most of them among the designs that look sound and aren't, and listings that miscount. A
//! test driver that lets one of them pass is worth nothing.

use crate::page::*;
use crate::rules::*;
use crate::second::listing_with;
use crate::steps::*;
use crate::word::*;
use crate::{Pairing, Reading, Second, Stepped, Store};

mod chips;
mod groups;
mod owners;
mod wears;

pub use chips::{WrongChip, WRONG_CHIPS};
pub use groups::{WrongGroup, WRONG_GROUPS};
pub use owners::{WrongOwner, WRONG_OWNERS};
pub use wears::WrongWear;

#[derive(Clone, Copy, Debug, PartialEq, Eq)]
pub enum Broken {
    /// A move erases the old pages before it programs the done word.
    EraseFirst,
    /// A move copies the old value of the written address after the new one.
    OldAfterNew,
    /// A receiving page counts as open.
    ReceivingIsCurrent,
    /// The check is the exclusive-or of the first three bytes.
    ExclusiveOr,
    /// The check counts the 0 bits of the low half of each byte twice, and those of the high half not at all.
    LowHalfTwice,
    /// The base order is not looked at: old pages count until they are erased.
    OldPagesCount,
    /// A write within the page programs new, old and new again.
    Wavering,
    /// A write takes the first blank slot, which may have slots behind it that are not blank.
    FirstBlankSlot,
    /// A page without a wear word gets wear 1, as document 01 has it before wish 1.
    LostWearIsOne,
    /// A page without a wear word gets one more than the greatest of the image at the call.
    GreatestAtTheCall,
    /// A page without a wear word gets one more than the greatest of the used pages.
    GreatestOfUsedPages,
    /// Every page gets one more than the greatest.
    GreatestForEveryPage,
    /// After wear 65,535 comes 0.
    WearWraps,
}

/// The stores of which only the wear is wrong.
pub const WRONG_WEARS: [Broken; 5] = [
    Broken::LostWearIsOne,
    Broken::GreatestAtTheCall,
    Broken::GreatestOfUsedPages,
    Broken::GreatestForEveryPage,
    Broken::WearWraps,
];

impl Plan for Broken {
    fn format_steps(&self, image: &[u8], chip: Chip, second_edition: bool) -> Result<Vec<Step>, u8> {
        Ok(self.rechecked(format_steps(image, chip, chip.told(second_edition))?))
    }

    fn recovery_steps(&self, image: &[u8], chip: Chip) -> Result<Vec<Step>, u8> {
        let seen = self.seen(image, chip);
        Ok(self.reworn(&seen, chip, self.rechecked(recovery_steps(&seen, chip)?)))
    }

    fn change_steps(&self, image: &[u8], chip: Chip, timer: bool, change: &Change) -> Result<Vec<Step>, u8> {
        let seen = self.seen(image, chip);
        let steps = self.rechecked(change_steps(&seen, chip, timer, change)?);
        let single = match *change {
            Change::Single((address, value)) => Some((address, value, held(&seen, chip).get(&address).copied())),
            Change::Group(_) => None,
        };
        Ok(match (self, single) {
            (Broken::EraseFirst, _) => erase_first(steps),
            (Broken::OldAfterNew, Some((address, _, Some(old)))) => old_after_new(&seen, chip, steps, address, old),
            (Broken::Wavering, Some((address, value, Some(old)))) => wavering(chip, steps, address, old, value),
            (Broken::FirstBlankSlot, Some((address, value, _))) => first_blank_slot(&seen, chip, steps, address, value),
            _ => self.reworn(&seen, chip, steps),
        })
    }

    fn seen(&self, image: &[u8], chip: Chip) -> Vec<u8> {
        let mut seen = image.to_vec();
        let whole = test_size(image, chip).is_ok();
        match self {
            Broken::ReceivingIsCurrent if whole => add_done_words(&mut seen, chip),
            Broken::OldPagesCount if whole => make_all_plain(&mut seen, chip),
            _ => {}
        }
        if let (Some(check), true) = (self.wrong_check(), whole) {
            translate(&mut seen, check);
        }
        seen
    }
}

type Check = fn([u8; 3]) -> u8;

/// The wear that a page gets, by the image at the call, the image just before its erase, the chip and the edition.
type WearRule = fn(&[u8], &[u8], Chip, Edition, usize) -> u16;

impl Broken {
    fn wrong_check(self) -> Option<Check> {
        match self {
            Broken::ExclusiveOr => Some(|bytes| bytes[0] ^ bytes[1] ^ bytes[2]),
            Broken::LowHalfTwice => Some(|bytes| bytes.iter().map(|byte| 2 * (byte | 0xF0).count_zeros() as u8).sum()),
            _ => None,
        }
    }

    fn wrong_wear(self) -> Option<WearRule> {
        match self {
            Broken::LostWearIsOne => Some(|_, now, chip, edition, page| {
                wear(page_at(now, chip, page), edition).unwrap_or(0).saturating_add(1)
            }),
            Broken::GreatestAtTheCall => {
                Some(|at_call, _, chip, edition, page| next_wear(at_call, chip, edition, page))
            }
            Broken::GreatestOfUsedPages => Some(|_, now, chip, edition, page| {
                let wear_of = |page| wear(page_at(now, chip, page), edition);
                let of_used = used_pages(now, chip).into_iter().filter_map(|used| wear_of(used.page));
                wear_of(page).or(of_used.max()).unwrap_or(0).saturating_add(1)
            }),
            Broken::GreatestForEveryPage => {
                Some(|_, now, chip, edition, _| greatest_wear(now, chip, edition).saturating_add(1))
            }
            Broken::WearWraps => Some(|_, now, chip, edition, page| {
                let own = wear(page_at(now, chip, page), edition);
                own.unwrap_or_else(|| greatest_wear(now, chip, edition)).wrapping_add(1)
            }),
            _ => None,
        }
    }

    fn reworn(self, image: &[u8], chip: Chip, steps: Vec<Step>) -> Vec<Step> {
        match self.wrong_wear() {
            Some(rule) => with_wears(image, chip, steps, rule),
            None => steps,
        }
    }

    fn rechecked(self, steps: Vec<Step>) -> Vec<Step> {
        match self.wrong_check() {
            Some(check) => with_check(steps, check),
            None => steps,
        }
    }
}

fn is_move(steps: &[Step]) -> bool {
    steps.iter().any(|step| matches!(step, Step::Erase { .. }))
}

fn erase_first(steps: Vec<Step>) -> Vec<Step> {
    let Some(first_erase) = steps.iter().position(|step| matches!(step, Step::Erase { .. })) else {
        return steps;
    };
    let (before_done, done) = steps[..first_erase].split_at(first_erase - 2);
    [before_done, &steps[first_erase..], done].concat()
}

fn old_after_new(image: &[u8], chip: Chip, steps: Vec<Step>, address: u16, old: u8) -> Vec<Step> {
    if !is_move(&steps) {
        return steps;
    }
    let copied = held(image, chip).len();
    let (page, _) = cleared_pages(image, chip)[0];
    let (to_new, rest) = steps.split_at(2 + 2 * copied);
    [to_new, &slot_steps(chip, page, copied, record(address, old)), rest].concat()
}

fn wavering(chip: Chip, steps: Vec<Step>, address: u16, old: u8, new: u8) -> Vec<Step> {
    let &[Step::Program { offset, .. }, _] = &steps[..] else {
        return steps;
    };
    if offset % chip.page_bytes + 12 > chip.page_bytes {
        return steps;
    }
    let words = [record(address, new), record(address, old), record(address, new)];
    let offsets = [offset, offset + 4, offset + 8];
    offsets.iter().zip(words).flat_map(|(&offset, word)| program_word_steps(offset, word)).collect()
}

fn first_blank_slot(image: &[u8], chip: Chip, steps: Vec<Step>, address: u16, value: u8) -> Vec<Step> {
    let active = active_page(image, chip).page;
    let blank = slot_words(page_at(image, chip, active)).position(is_blank);
    match blank {
        Some(slot) if !steps.is_empty() => slot_steps(chip, active, slot, record(address, value)).to_vec(),
        _ => steps,
    }
}

fn add_done_words(image: &mut [u8], chip: Chip) {
    let edition = edition(image, chip);
    for page in chip.pages_mut(image) {
        if state(page, edition) == State::Receiving {
            let (order, _) = order_and_kind_in(word_at(page, OPENING_OFFSET)).expect("a receiving page has an order");
            page[DONE_OFFSET..DONE_OFFSET + 4].copy_from_slice(&done_word(order));
        }
    }
}

fn make_all_plain(image: &mut [u8], chip: Chip) {
    let edition = edition(image, chip);
    for page in chip.pages_mut(image) {
        if let State::Open { order, .. } = state(page, edition) {
            page[OPENING_OFFSET..OPENING_OFFSET + 4].copy_from_slice(&order_word(order, PLAIN));
        }
    }
}

/// Words that pass this check become sound, the others spoiled (no check is 200), so that the rules can read them.
fn translate(image: &mut [u8], check: Check) {
    for word in image.chunks_exact_mut(4) {
        if *word != BLANK {
            let bytes = [word[0], word[1], word[2]];
            word[3] = if word[3] == check(bytes) { zero_bits(bytes) } else { 200 };
        }
    }
}

/// The second half of each word follows its first half in the list.
fn with_check(mut steps: Vec<Step>, check: Check) -> Vec<Step> {
    let mut first_half = [0, 0];
    for step in &mut steps {
        if let Step::Program { offset, value } = step {
            let [low, high] = value.to_le_bytes();
            if *offset % 4 == 0 {
                first_half = [low, high];
            } else {
                *value = u16::from_le_bytes([low, check([first_half[0], first_half[1], low])]);
            }
        }
    }
    steps
}

/// The two steps of a wear word follow the erase in the list.
fn with_wears(image: &[u8], chip: Chip, mut steps: Vec<Step>, rule: WearRule) -> Vec<Step> {
    let edition = edition(image, chip);
    let mut now = image.to_vec();
    for at in 0..steps.len() {
        if let Step::Erase { page, .. } = steps[at] {
            let word = wear_word(rule(image, &now, chip, edition, page), edition);
            let offset = chip.page_range(page).start + WEAR_OFFSET;
            steps[at + 1..at + 3].copy_from_slice(&program_word_steps(offset, word));
        }
        do_step(&mut now, steps[at]);
    }
    steps
}

/// A write, or a group write, that does all its steps at allowance 1.
pub struct Eager;

fn eagerly(allowance: u16) -> u16 {
    if allowance == 1 {
        u16::MAX
    } else {
        allowance
    }
}

impl Store for Eager {
    fn format(&self, image: &mut [u8], page_size: u16, second_edition: bool) -> u8 {
        Second.format(image, page_size, second_edition)
    }
    fn recover(&self, image: &mut [u8], page_size: u16, allowance: u16) -> Stepped {
        Second.recover(image, page_size, allowance)
    }
    fn write(&self, image: &mut [u8], page_size: u16, timer: bool, address: u16, value: u8, allowance: u16) -> Stepped {
        Second.write(image, page_size, timer, address, value, eagerly(allowance))
    }
    fn write_group(&self, image: &mut [u8], page_size: u16, timer: bool, group: &[u8], allowance: u16) -> Stepped {
        Second.write_group(image, page_size, timer, group, eagerly(allowance))
    }
    fn read(&self, image: &[u8], page_size: u16, timer: bool, address: u16) -> Reading {
        Second.read(image, page_size, timer, address)
    }
    fn blank_read(&self, image: &[u8], page_size: u16, timer: bool, address: u16) -> Reading {
        Second.blank_read(image, page_size, timer, address)
    }
    fn lookup(&self, image: &[u8], page_size: u16) -> Pairing {
        Second.lookup(image, page_size)
    }
}

/// Stores of which only wish 6 is wrong: what is blank, and what is a pairing code.
#[derive(Clone, Copy, Debug, PartialEq, Eq)]
pub enum WrongPairing {
    /// A blank read of an address that isn't held answers 255, as before wish 6.
    BlankIs255,
    /// A blank read of an address that isn't held answers NOT HELD.
    BlankIsNotHeld,
    /// A write of 0 to an address that isn't held has no steps, as if its blank read told that 0 is held.
    BlankIsHeld,
    /// A digit whose address isn't held is 255, as before wish 6.
    DigitIs255,
    /// A code is whole if no digit is 255, as before wish 6; but a digit whose address isn't held is 0 now.
    NoDigitIs255,
    /// A digit 255 counts as not held, as before wish 6.
    Held255IsNone,
    /// A digit 0 counts as not held.
    Held0IsNone,
    /// Four digits 255 are no code.
    Four255sAreNone,
    /// Four digits 0 are no code.
    Four0sAreNone,
    /// A code is whole with any three of its digits.
    ThreeSuffice,
    /// A code is whole without the digit of this place, counted from 0, which isn't looked at.
    WholeWithout(usize),
}

pub const WRONG_PAIRINGS: [WrongPairing; 14] = [
    WrongPairing::BlankIs255,
    WrongPairing::BlankIsNotHeld,
    WrongPairing::BlankIsHeld,
    WrongPairing::DigitIs255,
    WrongPairing::NoDigitIs255,
    WrongPairing::Held255IsNone,
    WrongPairing::Held0IsNone,
    WrongPairing::Four255sAreNone,
    WrongPairing::Four0sAreNone,
    WrongPairing::ThreeSuffice,
    WrongPairing::WholeWithout(0),
    WrongPairing::WholeWithout(1),
    WrongPairing::WholeWithout(2),
    WrongPairing::WholeWithout(3),
];

impl WrongPairing {
    /// Whether the code is whole, by what its addresses hold.
    fn paired(self, code: [Option<u8>; 4]) -> bool {
        let held = |digit: &Option<u8>| digit.is_some();
        let whole = code.iter().all(held);
        match self {
            WrongPairing::NoDigitIs255 => !code.contains(&Some(255)),
            WrongPairing::Held255IsNone => whole && !code.contains(&Some(255)),
            WrongPairing::Held0IsNone => whole && !code.contains(&Some(0)),
            WrongPairing::Four255sAreNone => whole && code != [Some(255); 4],
            WrongPairing::Four0sAreNone => whole && code != [Some(0); 4],
            WrongPairing::ThreeSuffice => code.iter().filter(|digit| held(digit)).count() >= 3,
            WrongPairing::WholeWithout(place) => (0..4).all(|other| other == place || held(&code[other])),
            _ => whole,
        }
    }
}

impl Store for WrongPairing {
    fn format(&self, image: &mut [u8], page_size: u16, second_edition: bool) -> u8 {
        Second.format(image, page_size, second_edition)
    }
    fn recover(&self, image: &mut [u8], page_size: u16, allowance: u16) -> Stepped {
        Second.recover(image, page_size, allowance)
    }
    fn write(&self, image: &mut [u8], page_size: u16, timer: bool, address: u16, value: u8, allowance: u16) -> Stepped {
        let blank = Second.blank_read(image, page_size, timer, address);
        let idle = *self == WrongPairing::BlankIsHeld && blank.value == value;
        let answer = Second.write(image, page_size, timer, address, value, if idle { 0 } else { allowance });
        Stepped { finished: answer.finished || idle && answer.number == OK, ..answer }
    }
    fn write_group(&self, image: &mut [u8], page_size: u16, timer: bool, group: &[u8], allowance: u16) -> Stepped {
        Second.write_group(image, page_size, timer, group, allowance)
    }
    fn read(&self, image: &[u8], page_size: u16, timer: bool, address: u16) -> Reading {
        Second.read(image, page_size, timer, address)
    }
    fn blank_read(&self, image: &[u8], page_size: u16, timer: bool, address: u16) -> Reading {
        match (self, Second.read(image, page_size, timer, address)) {
            (WrongPairing::BlankIs255, Reading { number: NOT_HELD, .. }) => Reading { number: OK, value: 255 },
            (WrongPairing::BlankIsNotHeld, reading) => reading,
            _ => Second.blank_read(image, page_size, timer, address),
        }
    }
    fn lookup(&self, image: &[u8], page_size: u16) -> Pairing {
        let chip = match chip_named(page_size).and_then(|chip| test_store(image, chip).map(|()| chip)) {
            Ok(chip) => chip,
            Err(number) => return Pairing::refused(number),
        };
        let code = [16, 17, 18, 19].map(|address| value(image, chip, address));
        let blank = if *self == WrongPairing::DigitIs255 { 255 } else { 0 };
        Pairing { number: OK, paired: self.paired(code), digits: code.map(|digit| digit.unwrap_or(blank)) }
    }
}

/// Listings of which only the count of the broken words is wrong.
#[derive(Clone, Copy, Debug, PartialEq, Eq)]
pub enum WrongListing {
    /// A half-written slot counts as spoiled too.
    HalfIsSpoiledToo,
    /// A half-written slot counts as spoiled and not as half-written, as before wish 2.
    HalfIsSpoiled,
    /// A blank slot counts as half-written.
    BlankIsHalf,
    /// A slot that is neither sound nor blank counts as half-written if its third byte is 255, whatever its fourth is.
    ThirdByteTells,
    /// The same by its fourth byte alone.
    FourthByteTells,
    /// A sound slot with address 65,535 doesn't count as spoiled.
    NoAddressIsSound,
    /// Every sound slot with address 65,535 counts as spoiled, as before wish 4.
    MarksAreSpoiled,
    /// The marks of a store of the first edition don't count as spoiled.
    MarksInBothEditions,
    /// A mark that opens inside a group doesn't count as spoiled.
    NestedIsAMark,
    /// A mark that closes or abandons outside a group counts as spoiled.
    EndOutsideIsSpoiled,
    /// The records of a group that don't count are counted as spoiled.
    OthersOfAGroup,
    /// The slots of all open pages count.
    EveryOpenPage,
    /// The slots of the active page count, and of no other.
    ActivePageAlone,
    /// The header words of the used pages count too.
    HeaderWordsToo,
    /// The slots of a page count only up to its first blank one.
    UpToTheFirstBlank,
    /// After 255 comes 0.
    CountsWrap,
}

pub const WRONG_LISTINGS: [WrongListing; 16] = [
    WrongListing::HalfIsSpoiledToo,
    WrongListing::HalfIsSpoiled,
    WrongListing::BlankIsHalf,
    WrongListing::ThirdByteTells,
    WrongListing::FourthByteTells,
    WrongListing::NoAddressIsSound,
    WrongListing::MarksAreSpoiled,
    WrongListing::MarksInBothEditions,
    WrongListing::NestedIsAMark,
    WrongListing::EndOutsideIsSpoiled,
    WrongListing::OthersOfAGroup,
    WrongListing::EveryOpenPage,
    WrongListing::ActivePageAlone,
    WrongListing::HeaderWordsToo,
    WrongListing::UpToTheFirstBlank,
    WrongListing::CountsWrap,
];

impl WrongListing {
    pub fn listing(self, image: &[u8]) -> Vec<u8> {
        listing_with(image, |image| self.broken_words(image))
    }

    fn broken_words(self, image: &[u8]) -> (usize, usize) {
        let edition = edition(image, SMALLER);
        let pages = self.pages(image).into_iter().map(|page| page_at(image, SMALLER, page));
        let slots: Vec<Slot> = pages.flat_map(|page| self.slots(page, edition)).collect();
        let count = |wanted| slots.iter().filter(|&&slot| slot == wanted).count();
        let (half, spoiled) = (count(Slot::HalfWritten), count(Slot::Spoiled));
        match self {
            WrongListing::HalfIsSpoiledToo => (half, half + spoiled),
            WrongListing::HalfIsSpoiled => (0, half + spoiled),
            WrongListing::CountsWrap => (half % 256, spoiled % 256),
            _ => (half, spoiled),
        }
    }

    fn pages(self, image: &[u8]) -> Vec<usize> {
        match self {
            WrongListing::EveryOpenPage => (0..page_count(image, SMALLER))
                .filter(|&page| matches!(states(image, SMALLER)[page], State::Open { .. }))
                .collect(),
            WrongListing::ActivePageAlone => vec![active_page(image, SMALLER).page],
            _ => used_pages(image, SMALLER).into_iter().map(|used| used.page).collect(),
        }
    }

    /// What stands in the slots that are counted, by the wrong rule.
    fn slots(self, page: &[u8], edition: Edition) -> Vec<Slot> {
        let right = slots_in_place(page, edition);
        match self {
            WrongListing::HeaderWordsToo => header_slots(page).into_iter().chain(right).collect(),
            WrongListing::UpToTheFirstBlank => right.into_iter().take_while(|&slot| slot != Slot::Blank).collect(),
            WrongListing::MarksInBothEditions => slots_in_place(page, Edition::Second),
            WrongListing::EndOutsideIsSpoiled => ends_outside_spoiled(right),
            WrongListing::OthersOfAGroup => others_spoiled(right),
            _ => right.into_iter().zip(slot_words(page)).map(|(slot, word)| self.slot(slot, word, edition)).collect(),
        }
    }

    fn slot(self, right: Slot, word: Word, edition: Edition) -> Slot {
        match (self, right) {
            (WrongListing::BlankIsHalf, Slot::Blank) => Slot::HalfWritten,
            (WrongListing::ThirdByteTells, Slot::Spoiled) if word[2] == 255 && !is_sound(word) => Slot::HalfWritten,
            (WrongListing::FourthByteTells, Slot::Spoiled) if word[3] == 255 => Slot::HalfWritten,
            (WrongListing::NoAddressIsSound, Slot::Spoiled) if is_sound(word) => Slot::Mark(Mark::Abandons),
            (WrongListing::NestedIsAMark, Slot::Spoiled) => slot_in(word, edition),
            (WrongListing::MarksAreSpoiled, Slot::Mark(_)) => Slot::Spoiled,
            (_, right) => right,
        }
    }
}

/// The header words, as if they were slots; a sound one is none that is counted.
fn header_slots(page: &[u8]) -> [Slot; 3] {
    [WEAR_OFFSET, OPENING_OFFSET, DONE_OFFSET].map(|offset| match condition(word_at(page, offset)) {
        Condition::HalfWritten => Slot::HalfWritten,
        Condition::Spoiled => Slot::Spoiled,
        Condition::Sound | Condition::Blank => Slot::Blank,
    })
}

fn ends_outside_spoiled(mut slots: Vec<Slot>) -> Vec<Slot> {
    let ends: Vec<Option<usize>> = groups(&slots).iter().map(|group| group.end).collect();
    for (place, slot) in slots.iter_mut().enumerate() {
        if matches!(slot, Slot::Mark(Mark::Closes(_) | Mark::Abandons)) && !ends.contains(&Some(place)) {
            *slot = Slot::Spoiled;
        }
    }
    slots
}

fn others_spoiled(mut slots: Vec<Slot>) -> Vec<Slot> {
    for group in groups(&slots) {
        if !group.counts(&slots) {
            let inside = group.inside(slots.len());
            let records = slots[inside].iter_mut().filter(|slot| matches!(slot, Slot::Record { .. }));
            records.for_each(|slot| *slot = Slot::Spoiled);
        }
    }
    slots
}
