//! The seven calls and the listing, done on the image as they go.

use std::fmt::Write;

use crate::page::*;
use crate::rules::*;
use crate::steps::{do_step, Step};
use crate::word::*;
use crate::{Pairing, Reading, Stepped, Store};

/// The second implementation.
#[derive(Clone, Copy, Debug, Default)]
pub struct Second;

impl Store for Second {
    fn format(&self, image: &mut [u8], page_size: u16, second_edition: bool) -> u8 {
        format(image, page_size, second_edition)
    }
    fn recover(&self, image: &mut [u8], page_size: u16, allowance: u16) -> Stepped {
        recover(image, page_size, allowance)
    }
    fn write(&self, image: &mut [u8], page_size: u16, timer: bool, address: u16, value: u8, allowance: u16) -> Stepped {
        write(image, page_size, timer, address, value, allowance)
    }
    fn write_group(&self, image: &mut [u8], page_size: u16, timer: bool, group: &[u8], allowance: u16) -> Stepped {
        write_group(image, page_size, timer, group, allowance)
    }
    fn read(&self, image: &[u8], page_size: u16, timer: bool, address: u16) -> Reading {
        read(image, page_size, timer, address)
    }
    fn blank_read(&self, image: &[u8], page_size: u16, timer: bool, address: u16) -> Reading {
        blank_read(image, page_size, timer, address)
    }
    fn lookup(&self, image: &[u8], page_size: u16) -> Pairing {
        lookup(image, page_size)
    }
}

/// The image of a chip with an allowance of steps, and the edition at the call. Once the allowance is used up no step is
/// done, and the call isn't finished.
struct Flash<'a> {
    image: &'a mut [u8],
    chip: Chip,
    edition: Edition,
    allowance: u16,
    steps: u16,
    finished: bool,
}

impl Flash<'_> {
    fn new(image: &mut [u8], chip: Chip, edition: Edition, allowance: u16) -> Flash<'_> {
        Flash { image, chip, edition, allowance, steps: 0, finished: true }
    }

    fn step(&mut self, step: Step) {
        if self.steps == self.allowance {
            self.finished = false;
            return;
        }
        do_step(self.image, step);
        self.steps += 1;
    }

    fn program_word(&mut self, offset: usize, word: Word) {
        self.step(Step::Program { offset, value: u16::from_le_bytes([word[0], word[1]]) });
        self.step(Step::Program { offset: offset + 2, value: u16::from_le_bytes([word[2], word[3]]) });
    }

    fn program_header(&mut self, page: usize, offset: usize, word: Word) {
        self.program_word(self.chip.page_range(page).start + offset, word);
    }

    fn program_slot(&mut self, page: usize, slot: usize, word: Word) {
        assert!(slot < self.chip.slots());
        self.program_word(self.chip.page_range(page).start + slot_offset(slot), word);
    }

    fn program_slots(&mut self, page: usize, first: usize, words: &[Word]) {
        for (slot, &word) in (first..).zip(words) {
            self.program_slot(page, slot, word);
        }
    }

    fn renew(&mut self, page: usize, wear: u16) {
        self.step(Step::Erase { page, page_bytes: self.chip.page_bytes });
        self.program_header(page, WEAR_OFFSET, wear_word(wear, self.edition));
    }

    fn abandon(&mut self) {
        if let Some((page, slot)) = slot_to_abandon(self.image, self.chip) {
            self.program_slot(page, slot, mark_word(Mark::Abandons));
        }
    }

    /// The wear of each page is looked up when its turn comes, because the pages before it count with their new wear.
    fn renew_unclean_pages(&mut self) {
        for page in unclean_pages(self.image, self.chip) {
            self.renew(page, next_wear(self.image, self.chip, self.edition, page));
        }
    }

    fn open_page(&mut self, page: usize, order: u32, change: &Change) {
        self.program_header(page, OPENING_OFFSET, order_word(order, PLAIN));
        self.program_slots(page, 0, &change.words());
    }

    /// Until the done word is whole the page is receiving and the old pages are used; after it they aren't, so that
    /// treating them is just what recovery does.
    fn move_to(&mut self, page: usize, order: u32, change: &Change) {
        let mut copied = held(self.image, self.chip);
        for (address, _) in change.settings() {
            copied.remove(address);
        }
        self.program_header(page, OPENING_OFFSET, order_word(order, RECEIVING));
        for (slot, (&address, &value)) in copied.iter().enumerate() {
            self.program_slot(page, slot, record(address, value));
        }
        self.program_slots(page, copied.len(), &change.records());
        self.program_header(page, DONE_OFFSET, done_word(order));
        self.renew_unclean_pages();
    }

    fn change(&mut self, change: &Change) {
        let active = active_page(self.image, self.chip);
        let free = free_slots(page_at(self.image, self.chip, active.page));
        let words = change.words();
        if words.len() <= free.len() {
            self.program_slots(active.page, free.start, &words);
            return;
        }
        let cleared = cleared_pages(self.image, self.chip);
        let page = least_worn(&cleared);
        if cleared.len() >= 2 {
            self.open_page(page, active.order + 1, change);
        } else {
            self.move_to(page, active.order + 1, change);
        }
    }

    fn answer(&self) -> Stepped {
        Stepped { number: OK, finished: self.finished, steps: self.steps }
    }
}

/// The page of least wear, of lowest index on a tie. Tests 3 and 4 leave at least one cleared page.
fn least_worn(cleared: &[(usize, u16)]) -> usize {
    let (mut best, mut least) = cleared[0];
    for &(page, wear) in cleared {
        if wear < least {
            (best, least) = (page, wear);
        }
    }
    best
}

/// The answer of a call that names this page size: the call's own on the chip that has it, or a refusal.
fn on_chip<A>(page_size: u16, refused: fn(u8) -> A, call: impl FnOnce(Chip) -> Result<A, u8>) -> A {
    chip_named(page_size).and_then(call).unwrap_or_else(refused)
}

pub fn format(image: &mut [u8], page_size: u16, second_edition: bool) -> u8 {
    on_chip(page_size, std::convert::identity, |chip| {
        test_size(image, chip)?;
        let mut flash = Flash::new(image, chip, chip.told(second_edition), u16::MAX);
        for page in 0..page_count(flash.image, chip) {
            flash.renew(page, 1);
        }
        flash.program_header(0, OPENING_OFFSET, order_word(0, PLAIN));
        Ok(OK)
    })
}

pub fn recover(image: &mut [u8], page_size: u16, allowance: u16) -> Stepped {
    on_chip(page_size, Stepped::refused, |chip| {
        test_store(image, chip)?;
        let edition = edition(image, chip);
        let mut flash = Flash::new(image, chip, edition, allowance);
        flash.abandon();
        flash.renew_unclean_pages();
        Ok(flash.answer())
    })
}

pub fn write(image: &mut [u8], page_size: u16, timer: bool, address: u16, value: u8, allowance: u16) -> Stepped {
    do_change(image, page_size, timer, &Change::Single((address, value)), allowance)
}

pub fn write_group(image: &mut [u8], page_size: u16, timer: bool, group: &[u8], allowance: u16) -> Stepped {
    do_change(image, page_size, timer, &Change::group(group), allowance)
}

fn do_change(image: &mut [u8], page_size: u16, timer: bool, change: &Change, allowance: u16) -> Stepped {
    on_chip(page_size, Stepped::refused, |chip| {
        test_change(image, chip, timer, change)?;
        let already_held = is_held(image, chip, change);
        let edition = edition(image, chip);
        let mut flash = Flash::new(image, chip, edition, allowance);
        if !already_held {
            flash.change(change);
        }
        Ok(flash.answer())
    })
}

pub fn read(image: &[u8], page_size: u16, timer: bool, address: u16) -> Reading {
    on_chip(page_size, Reading::refused, |chip| {
        test_store(image, chip)?;
        test_address(address)?;
        test_owner(timer, address)?;
        Ok(Reading { number: OK, value: value(image, chip, address).ok_or(NOT_HELD)? })
    })
}

pub fn blank_read(image: &[u8], page_size: u16, timer: bool, address: u16) -> Reading {
    let reading = read(image, page_size, timer, address);
    if reading.number == NOT_HELD {
        return Reading { number: OK, value: 0 };
    }
    reading
}

pub fn lookup(image: &[u8], page_size: u16) -> Pairing {
    on_chip(page_size, Pairing::refused, |chip| {
        test_store(image, chip)?;
        let code = [16, 17, 18, 19].map(|address| value(image, chip, address));
        Ok(Pairing { number: OK, paired: !code.contains(&None), digits: code.map(|digit| digit.unwrap_or(0)) })
    })
}

/// What the listing program prints for this input. It lists the smaller chip's images.
pub fn listing(image: &[u8]) -> Vec<u8> {
    listing_with(image, |image| broken_words(image, SMALLER))
}

/// The same by another count of the broken words, which only a wrong listing (see `broken`) has.
pub fn listing_with(image: &[u8], count: impl FnOnce(&[u8]) -> (usize, usize)) -> Vec<u8> {
    if let Err(number) = test_store(image, SMALLER) {
        return format!("refused {number}\n").into_bytes();
    }
    let held = held(image, SMALLER);
    let (half, spoiled) = count(image);
    let mut text = format!(
        "pages {} used {} cleared {} order {} held {} half {half} spoiled {spoiled}\n",
        page_count(image, SMALLER),
        used_pages(image, SMALLER).len(),
        cleared_pages(image, SMALLER).len(),
        active_page(image, SMALLER).order,
        held.len()
    );
    for (address, value) in held {
        writeln!(text, "{address} {value}").expect("a String takes any text");
    }
    text.into_bytes()
}
