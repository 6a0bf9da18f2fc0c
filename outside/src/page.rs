//! Pages: three header words (wear, opening, done) and then slots to the end, of which some may be bound together in groups.
//! How many slots a page has, its length tells: 253 on the smaller chip, 509 on the larger.

use crate::word::*;

/// A chip, by its pages: their size, and which editions they have.
#[derive(Clone, Copy, Debug, PartialEq, Eq)]
pub struct Chip {
    pub page_bytes: usize,
    pub editions: &'static [Edition],
}

pub const SMALLER: Chip = Chip { page_bytes: 1_024, editions: &[Edition::First, Edition::Second] };
pub const LARGER: Chip = Chip { page_bytes: 2_048, editions: &[Edition::Third] };
pub const CHIPS: [Chip; 2] = [SMALLER, LARGER];

pub const WEAR_OFFSET: usize = 0;
pub const OPENING_OFFSET: usize = 4;
pub const DONE_OFFSET: usize = 8;
const FIRST_SLOT_OFFSET: usize = 12;

/// What follows the wear word of a cleared page: as many of these as it has bytes.
static ALL_255: [u8; 4_096] = [255; 4_096];

impl Chip {
    /// The chip whose pages have this edition.
    pub fn of(edition: Edition) -> Chip {
        CHIPS.into_iter().find(|chip| chip.editions.contains(&edition)).expect("each edition is one of a chip")
    }

    /// The size that a call names.
    pub fn page_size(self) -> u16 {
        self.page_bytes as u16
    }

    /// The edition that a format gives: the one that it is told, or the only one that there is.
    pub fn told(self, second_edition: bool) -> Edition {
        match *self.editions {
            [only] => only,
            _ if second_edition => Edition::Second,
            _ => Edition::First,
        }
    }

    /// How many slots a page has.
    pub fn slots(self) -> usize {
        (self.page_bytes - FIRST_SLOT_OFFSET) / 4
    }

    /// The bytes of page `page` in its image.
    pub fn page_range(self, page: usize) -> std::ops::Range<usize> {
        page * self.page_bytes..(page + 1) * self.page_bytes
    }

    pub fn pages(self, image: &[u8]) -> std::slice::ChunksExact<'_, u8> {
        image.chunks_exact(self.page_bytes)
    }

    pub fn pages_mut(self, image: &mut [u8]) -> std::slice::ChunksExactMut<'_, u8> {
        image.chunks_exact_mut(self.page_bytes)
    }
}

#[derive(Clone, Copy, Debug, PartialEq, Eq)]
pub enum State {
    Cleared { wear: u16 },
    Open { order: u32, kind: u32 },
    Receiving,
    Bad,
}

/// A group, by the slots of its marks.
#[derive(Clone, Copy, Debug, PartialEq, Eq)]
pub struct Group {
    /// The mark that opens it, and for how many records.
    pub begin: usize,
    pub records: u8,
    /// The mark that closes or abandons it; none if the group is open.
    pub end: Option<usize>,
}

/// Where slot `slot` begins in its page.
pub fn slot_offset(slot: usize) -> usize {
    FIRST_SLOT_OFFSET + 4 * slot
}

pub fn word_at(bytes: &[u8], offset: usize) -> Word {
    [bytes[offset], bytes[offset + 1], bytes[offset + 2], bytes[offset + 3]]
}

pub fn slot_word(page: &[u8], slot: usize) -> Word {
    word_at(page, slot_offset(slot))
}

/// The words of all slots, from the first on.
pub fn slot_words(page: &[u8]) -> impl DoubleEndedIterator<Item = Word> + ExactSizeIterator + '_ {
    page[FIRST_SLOT_OFFSET..].chunks_exact(4).map(|word| word_at(word, 0))
}

/// The wear of a page in any state, if its wear word is sound and has this edition.
pub fn wear(page: &[u8], edition: Edition) -> Option<u16> {
    wear_in(word_at(page, WEAR_OFFSET), edition)
}

/// The state of a page in a store of this edition.
pub fn state(page: &[u8], edition: Edition) -> State {
    let Some(wear) = wear(page, edition) else {
        return State::Bad;
    };
    if page[OPENING_OFFSET..] == ALL_255[OPENING_OFFSET..page.len()] {
        return State::Cleared { wear };
    }
    match order_and_kind_in(word_at(page, OPENING_OFFSET)) {
        Some((order, PLAIN)) => State::Open { order, kind: PLAIN },
        Some((order, RECEIVING)) if word_at(page, DONE_OFFSET) == done_word(order) => {
            State::Open { order, kind: RECEIVING }
        }
        Some((_, RECEIVING)) => State::Receiving,
        _ => State::Bad,
    }
}

/// The edition of the chip in which the page is open by itself, if it is.
pub fn open_by_itself(page: &[u8], chip: Chip) -> Option<Edition> {
    chip.editions.iter().copied().find(|&edition| matches!(state(page, edition), State::Open { .. }))
}

/// The slots after the last that isn't blank. A half-written or spoiled slot isn't blank: it is never programmed again.
pub fn free_slots(page: &[u8]) -> std::ops::Range<usize> {
    let count = slot_words(page).len();
    let last_taken = slot_words(page).rposition(|word| !is_blank(word));
    last_taken.map_or(0, |slot| slot + 1)..count
}

/// What each slot of the page has, seen by itself.
pub fn slots(page: &[u8], edition: Edition) -> Vec<Slot> {
    slot_words(page).map(|word| slot_in(word, edition)).collect()
}

/// The same, seen in the page: a mark that opens inside a group is spoiled.
pub fn slots_in_place(page: &[u8], edition: Edition) -> Vec<Slot> {
    let mut slots = slots(page, edition);
    for group in groups(&slots) {
        for place in group.inside(slots.len()) {
            if matches!(slots[place], Slot::Mark(Mark::Opens(_))) {
                slots[place] = Slot::Spoiled;
            }
        }
    }
    slots
}

/// The groups, from the first slot on. Inside one only a mark that closes or abandons means anything: it ends the group,
/// whatever its number. Outside only a mark that opens does.
pub fn groups(slots: &[Slot]) -> Vec<Group> {
    let mut groups = Vec::new();
    let mut open: Option<Group> = None;
    for (place, slot) in slots.iter().enumerate() {
        let Slot::Mark(mark) = slot else {
            continue;
        };
        match (mark, open) {
            (&Mark::Opens(records), None) => open = Some(Group { begin: place, records, end: None }),
            (Mark::Closes(_) | Mark::Abandons, Some(group)) => {
                groups.push(Group { end: Some(place), ..group });
                open = None;
            }
            _ => {}
        }
    }
    groups.extend(open);
    groups
}

impl Group {
    /// The slots behind the mark that opens, up to the mark that ends the group, or to the end of a page of so many.
    pub fn inside(self, count: usize) -> std::ops::Range<usize> {
        self.begin + 1..self.end.unwrap_or(count)
    }

    /// Whether its records count: it was opened for n, is closed by the mark of n, and has n records and nothing else.
    pub fn counts(self, slots: &[Slot]) -> bool {
        let inside = &slots[self.inside(slots.len())];
        let closed = self.end.is_some_and(|end| slots[end] == Slot::Mark(Mark::Closes(self.records)));
        closed
            && inside.len() == usize::from(self.records)
            && inside.iter().all(|slot| matches!(slot, Slot::Record { .. }))
    }
}

/// Which of the slots count, if they are records: all but those in a group that doesn't.
pub fn counting(slots: &[Slot]) -> Vec<bool> {
    let mut counting = vec![true; slots.len()];
    for group in groups(slots) {
        counting[group.inside(slots.len())].fill(group.counts(slots));
    }
    counting
}

/// The records of a page that count, address and value, in slot order.
pub fn records(page: &[u8], edition: Edition) -> Vec<(u16, u8)> {
    let slots = slots(page, edition);
    let counting = counting(&slots);
    let mut records = Vec::with_capacity(slots.len());
    for (slot, counts) in slots.into_iter().zip(counting) {
        if let (Slot::Record { address, value }, true) = (slot, counts) {
            records.push((address, value));
        }
    }
    records
}

/// Whether a group of the page has no end.
pub fn has_open_group(page: &[u8], edition: Edition) -> bool {
    groups(&slots(page, edition)).iter().any(|group| group.end.is_none())
}
