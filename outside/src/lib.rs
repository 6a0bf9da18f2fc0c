//! A second settings store, written from the rules in words, which docs/FORMAT.md restates, and not from the definitions:
//! clear and literal rather than fast. It counts the 0 bits of a word; the library looks them up, half a byte at a time.
//!
//! The rules are in `word` (four bytes), `page` (1,024 or 2,048 bytes, by the chip) and `rules` (a whole image). The calls
//! are there twice: `second` does them on the image as it goes, `steps` lists the steps beforehand. The rest serves the
//! tests: `images` makes images from seeds, `cases` tells what they have, `failing` makes steps fail, `guard` lends an image
//! and a group between unreadable pages, and `broken` has stores and listings that the tests must catch. The example `wear`
//! wears stores out for `bench/wear`.
//!
//! `cargo test --release` tests the second implementation against itself; `ISTROVELL_LIB=directory cargo test --release
//! --features library` tests the library `libistrovell.a` of that directory against it. ISTROVELL_IMAGES says how many
//! images `compare` tries; ISTROVELL_SEED runs one seed again, for instance with `--test compare both -- --nocapture`.

pub mod broken;
pub mod cases;
pub mod failing;
pub mod guard;
pub mod images;
#[cfg(feature = "library")]
pub mod library;
pub mod page;
pub mod rng;
pub mod rules;
pub mod second;
pub mod steps;
pub mod word;

pub use page::Chip;
pub use rules::{Change, Setting};
pub use second::{blank_read, format, listing, lookup, read, recover, write, write_group, Second};
pub use steps::{change_steps, do_step, fail_step, format_steps, recovery_steps, Plan, Step, Stepwise};
pub use word::Edition;

/// The answer of read and blank read.
#[derive(Clone, Copy, Debug, PartialEq, Eq)]
pub struct Reading {
    pub number: u8,
    pub value: u8,
}

/// The answer of recovery and of both writes.
#[derive(Clone, Copy, Debug, PartialEq, Eq)]
pub struct Stepped {
    pub number: u8,
    pub finished: bool,
    pub steps: u16,
}

/// The answer of the pairing lookup.
#[derive(Clone, Copy, Debug, PartialEq, Eq)]
pub struct Pairing {
    pub number: u8,
    pub paired: bool,
    pub digits: [u8; 4],
}

impl Reading {
    pub fn refused(number: u8) -> Reading {
        Reading { number, value: 0 }
    }
}

impl Stepped {
    pub fn refused(number: u8) -> Stepped {
        Stepped { number, finished: false, steps: 0 }
    }
}

impl Pairing {
    pub fn refused(number: u8) -> Pairing {
        Pairing { number, paired: false, digits: [0; 4] }
    }
}

/// The seven calls, each with the page size that it names. Writes and reads name the owner too: the glaze timer if
/// `timer`, or else the handset. Every test driver takes any `Store`.
pub trait Store {
    /// Only the smaller chip has two editions, and only there is `second_edition` looked at.
    fn format(&self, image: &mut [u8], page_size: u16, second_edition: bool) -> u8;
    fn recover(&self, image: &mut [u8], page_size: u16, allowance: u16) -> Stepped;
    fn write(&self, image: &mut [u8], page_size: u16, timer: bool, address: u16, value: u8, allowance: u16) -> Stepped;
    /// `group` has three bytes for each setting: its address, low byte first, then its value.
    fn write_group(&self, image: &mut [u8], page_size: u16, timer: bool, group: &[u8], allowance: u16) -> Stepped;
    fn read(&self, image: &[u8], page_size: u16, timer: bool, address: u16) -> Reading;
    fn blank_read(&self, image: &[u8], page_size: u16, timer: bool, address: u16) -> Reading;
    fn lookup(&self, image: &[u8], page_size: u16) -> Pairing;

    /// The write or the group write that makes this change.
    fn change(&self, image: &mut [u8], page_size: u16, timer: bool, change: &Change, allowance: u16) -> Stepped {
        match change {
            &Change::Single((address, value)) => self.write(image, page_size, timer, address, value, allowance),
            Change::Group(settings) => {
                self.write_group(image, page_size, timer, &rules::group_bytes(settings), allowance)
            }
        }
    }
}
