//! Words: four bytes, of which the fourth is the number of 0 bits in the first three (Berger's code).

pub type Word = [u8; 4];

pub const BLANK: Word = [255; 4];

pub const PLAIN: u32 = 1;
pub const RECEIVING: u32 = 2;
pub const DONE: u32 = 3;
pub const LAST_ORDER: u32 = 4_194_303;

/// The address that no record may have.
pub const NO_ADDRESS: u16 = 65_535;

/// The most settings that a group may have.
pub const MOST_IN_A_GROUP: usize = 8;

/// A mark has the value 0 if it abandons, n if it opens a group of n records, and 128 + n if it closes one.
const ABANDONING: u8 = 0;
const CLOSING: u8 = 128;

/// The edition of a store's pages, which is the third byte of their wear words.
#[derive(Clone, Copy, Debug, PartialEq, Eq)]
pub enum Edition {
    First = 1,
    Second = 2,
    /// That of the larger chip.
    Third = 3,
}

pub const EDITIONS: [Edition; 3] = [Edition::First, Edition::Second, Edition::Third];

impl Edition {
    pub fn has_groups(self) -> bool {
        self != Edition::First
    }
}

/// A word is exactly one of these.
#[derive(Clone, Copy, Debug, PartialEq, Eq)]
pub enum Condition {
    Sound,
    Blank,
    HalfWritten,
    Spoiled,
}

/// What stands in a slot.
#[derive(Clone, Copy, Debug, PartialEq, Eq)]
pub enum Slot {
    Record { address: u16, value: u8 },
    Mark(Mark),
    Blank,
    HalfWritten,
    Spoiled,
}

#[derive(Clone, Copy, Debug, PartialEq, Eq)]
pub enum Mark {
    /// Opens a group of that many records.
    Opens(u8),
    /// Closes one.
    Closes(u8),
    Abandons,
}

pub fn zero_bits([first, second, third]: [u8; 3]) -> u8 {
    u32::from_le_bytes([first, second, third, 255]).count_zeros() as u8
}

/// The sound word that begins with these three bytes.
pub fn sound_word(bytes: [u8; 3]) -> Word {
    [bytes[0], bytes[1], bytes[2], zero_bits(bytes)]
}

pub fn is_sound(word: Word) -> bool {
    word == sound_word([word[0], word[1], word[2]])
}

pub fn is_blank(word: Word) -> bool {
    word == BLANK
}

/// A second half of 65,535 says that no bit of it has been programmed; any other word that is neither sound nor blank
/// broke later, or was hurt otherwise.
pub fn condition(word: Word) -> Condition {
    if is_sound(word) {
        Condition::Sound
    } else if is_blank(word) {
        Condition::Blank
    } else if word[2..] == [255, 255] {
        Condition::HalfWritten
    } else {
        Condition::Spoiled
    }
}

pub fn wear_word(wear: u16, edition: Edition) -> Word {
    let [low, high] = wear.to_le_bytes();
    sound_word([low, high, edition as u8])
}

/// Order x 4 + kind, 24 bits, low byte first.
pub fn order_word(order: u32, kind: u32) -> Word {
    assert!(order <= LAST_ORDER && kind <= 3);
    let [low, middle, high, _] = (order * 4 + kind).to_le_bytes();
    sound_word([low, middle, high])
}

pub fn done_word(order: u32) -> Word {
    order_word(order, DONE)
}

pub fn record(address: u16, value: u8) -> Word {
    let [low, high] = address.to_le_bytes();
    sound_word([low, high, value])
}

pub fn mark_word(mark: Mark) -> Word {
    record(
        NO_ADDRESS,
        match mark {
            Mark::Opens(records) => records,
            Mark::Closes(records) => CLOSING + records,
            Mark::Abandons => ABANDONING,
        },
    )
}

/// The wear in a sound wear word of this edition.
pub fn wear_in(word: Word, edition: Edition) -> Option<u16> {
    if is_sound(word) && word[2] == edition as u8 {
        Some(u16::from_le_bytes([word[0], word[1]]))
    } else {
        None
    }
}

/// Order and kind in a sound opening word.
pub fn order_and_kind_in(word: Word) -> Option<(u32, u32)> {
    if !is_sound(word) {
        return None;
    }
    let number = u32::from_le_bytes([word[0], word[1], word[2], 0]);
    Some((number / 4, number % 4))
}

/// What the word is in a slot. There a sound word with address 65,535 is no record: it is a mark or counts as spoiled.
pub fn slot_in(word: Word, edition: Edition) -> Slot {
    let [low, high, value, _] = word;
    match condition(word) {
        Condition::Sound if [low, high] == [255, 255] => mark_of(value, edition).map_or(Slot::Spoiled, Slot::Mark),
        Condition::Sound => Slot::Record { address: u16::from_le_bytes([low, high]), value },
        Condition::Blank => Slot::Blank,
        Condition::HalfWritten => Slot::HalfWritten,
        Condition::Spoiled => Slot::Spoiled,
    }
}

/// The mark of this value. An edition without groups has none.
fn mark_of(value: u8, edition: Edition) -> Option<Mark> {
    match value {
        _ if !edition.has_groups() => None,
        ABANDONING => Some(Mark::Abandons),
        1..=8 => Some(Mark::Opens(value)),
        129..=136 => Some(Mark::Closes(value - CLOSING)),
        _ => None,
    }
}
