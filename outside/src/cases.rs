//! Which cases of groups, editions, page sizes and owners an image has, and which a write or a read is. The tests count
//! them by chips, so that a case that is never met is noticed.

use std::collections::BTreeMap;

use crate::page::*;
use crate::rules::*;
use crate::word::*;
use crate::Stepped;

mod owners;

pub use owners::{note_owner_of_read, note_owner_of_write, note_owners};

/// How often each case was met.
pub type Counts = BTreeMap<&'static str, u64>;

pub fn note(counts: &mut Counts, case: &'static str, met: bool) {
    *counts.entry(case).or_default() += u64::from(met);
}

/// The cases that were met less often than this.
pub fn rare(counts: &Counts, least: u64) -> Vec<&'static str> {
    counts.iter().filter(|(_, &count)| count < least).map(|(&case, _)| case).collect()
}

/// Which editions the pages have, in an image that is accepted or not.
pub fn note_editions(image: &[u8], chip: Chip, counts: &mut Counts) {
    let edition = edition(image, chip);
    let wear_words = chip.pages(image).map(|page| word_at(page, WEAR_OFFSET));
    let third_bytes: Vec<u8> = wear_words.filter(|&word| is_sound(word)).map(|word| word[2]).collect();
    let accepted = test_store(image, chip).is_ok();
    let has = |third_byte| accepted && third_bytes.contains(&third_byte);
    note(counts, "store with a page of edition 0", has(0));
    note(counts, "store with a page of edition 255", has(255));
    if accepted {
        note(
            counts,
            "page that is cleared but for its edition",
            chip.pages(image).any(|page| {
                wear(page, edition).is_none()
                    && EDITIONS.iter().any(|&other| matches!(state(page, other), State::Cleared { .. }))
            }),
        );
    }
    if chip == LARGER {
        note(counts, "store of edition 3", accepted);
        note(counts, "store of edition 3, page of edition 1", has(1));
        note(counts, "store of edition 3, page of edition 2", has(2));
        note(counts, "no store but for edition 1", would_be_open(image, chip, Edition::First));
        note(counts, "no store but for edition 2", would_be_open(image, chip, Edition::Second));
        return;
    }
    note(counts, "store of edition 1", accepted && edition == Edition::First);
    note(counts, "store of edition 2", accepted && edition == Edition::Second);
    note(counts, "store of edition 1, page of edition 2", edition == Edition::First && has(2));
    note(counts, "store of edition 2, page of edition 1", edition == Edition::Second && has(1));
    note(counts, "store with a page of edition 3", has(3));
    note(counts, "no store but for edition 3", would_be_open(image, chip, Edition::Third));
    if accepted {
        note_two_editions(image, counts);
    }
}

/// Whether there is no open page, but would be one in this edition.
fn would_be_open(image: &[u8], chip: Chip, edition: Edition) -> bool {
    let is_open = |page: &[u8]| matches!(state(page, edition), State::Open { .. });
    used_pages(image, chip).is_empty() && chip.pages(image).any(is_open)
}

/// What an accepted store of the smaller chip has of its two editions.
fn note_two_editions(image: &[u8], counts: &mut Counts) {
    let edition = edition(image, SMALLER);
    let open_editions: Vec<Option<Edition>> = SMALLER.pages(image).map(|page| open_by_itself(page, SMALLER)).collect();
    let lowest = open_editions.iter().position(|open| open.is_some());
    let of_other = open_editions.iter().position(|open| open.is_some_and(|open| open != edition));
    let last = open_editions.iter().rev().find_map(|&open| open);
    let used = used_pages(image, SMALLER);
    let is_used = |page| used.iter().any(|used| Some(used.page) == page);
    note(counts, "store with an open page of the other edition", of_other.is_some());
    note(counts, "open pages of lowest and highest index of two editions", last != Some(edition));
    note(counts, "edition of a page that is not used", !is_used(lowest));
    note(
        counts,
        "edition that turns while a page is renewed",
        !is_used(lowest) && of_other.is_some_and(|other| used.iter().all(|used| used.page > other)),
    );
}

/// What the image is at the other size.
pub fn note_other_size(image: &[u8], chip: Chip, counts: &mut Counts) {
    let accepted = test_store(image, chip).is_ok();
    let other = if chip == LARGER { SMALLER } else { LARGER };
    let at_other = test_store(image, other);
    note(counts, "at the other size SIZE", accepted && at_other == Err(SIZE));
    note(counts, "at the other size NO STORE", accepted && at_other == Err(NO_STORE));
    note(counts, "at the other size DAMAGED", accepted && at_other == Err(DAMAGED));
    note(counts, "at the other size accepted", accepted && at_other.is_ok());
    note(counts, "at the other size alone accepted", test_size(image, chip).is_ok() && !accepted && at_other.is_ok());
    if accepted && at_other.is_ok() {
        note_both_sizes(image, counts);
    }
}

/// Which records of the larger chip pass for what at 1,024, in an image that is accepted at both sizes.
fn note_both_sizes(image: &[u8], counts: &mut Counts) {
    let used = used_pages(image, LARGER);
    let used_at_smaller = used_pages(image, SMALLER);
    // The header of a page of odd index is in the middle of a larger page.
    let passes = |page: usize| page % 2 == 1 && used.iter().any(|used| used.page == page / 2);
    let kind_of = |page: usize| match states(image, SMALLER)[page] {
        State::Open { kind, .. } => kind,
        _ => 0,
    };
    let passing: Vec<usize> = used_at_smaller.iter().map(|used| used.page).filter(|&page| passes(page)).collect();
    note(counts, "records that pass for a header at 1,024", !passing.is_empty());
    note(counts, "records that pass for two headers at 1,024", passing.len() > 1);
    note(counts, "records that pass for a header of kind 1", passing.iter().any(|&page| kind_of(page) == PLAIN));
    note(counts, "records that pass for a header of kind 2", passing.iter().any(|&page| kind_of(page) == RECEIVING));
    note(counts, "records that pass for a cleared page", {
        cleared_pages(image, SMALLER).iter().any(|&(page, _)| passes(page))
    });
    note(counts, "other settings at the other size", held(image, SMALLER) != held(image, LARGER));
}

/// Where records and free slots are, in a store that is accepted.
pub fn note_slots(image: &[u8], chip: Chip, counts: &mut Counts) {
    let edition = edition(image, chip);
    let last = chip.slots() - 1;
    let used = used_pages(image, chip);
    let free = free_slots(page_at(image, chip, used[0].page));
    note(counts, "free slot is the last", free.start == last);
    note(counts, "no free slot", free.is_empty());
    for used in used {
        let slots = slots(page_at(image, chip, used.page), edition);
        let counting = counting(&slots);
        let has_record = |place: usize| counting[place] && matches!(slots[place], Slot::Record { .. });
        note(counts, "record in the last slot that counts", has_record(last));
        if edition.has_groups() {
            let closes = groups(&slots).iter().any(|group| group.end == Some(last) && group.counts(&slots));
            note(counts, "last slot closes a group that counts", closes);
        }
        if chip == LARGER {
            let middle = SMALLER.slots();
            let over = |group: &Group| group.begin < middle && group.end >= Some(middle) && group.counts(&slots);
            note(counts, "record behind slot 252 that counts", (middle..=last).any(has_record));
            note(counts, "group that counts over offset 1,024", groups(&slots).iter().any(over));
        }
    }
    if chip == LARGER {
        let mut front = image.to_vec();
        LARGER.pages_mut(&mut front).for_each(|page| page[SMALLER.page_bytes..].fill(255));
        let fewer_held = held(&front, chip).len() < held(image, chip).len();
        let more_cleared = cleared_pages(&front, chip).len() > cleared_pages(image, chip).len();
        note(counts, "free slot behind slot 252", (SMALLER.slots()..=last).contains(&free.start));
        note(counts, "setting that only records behind slot 252 name", fewer_held);
        note(counts, "page that is cleared but for a byte behind offset 1,024", more_cleared);
    }
}

/// Which groups the used pages have, in a store that is accepted.
pub fn note_groups(image: &[u8], chip: Chip, counts: &mut Counts) {
    let used = used_pages(image, chip);
    for (index, used) in used.iter().enumerate() {
        let page = page_at(image, chip, used.page);
        if edition(image, chip).has_groups() {
            note_groups_of_page(page, index == 0, counts);
        } else {
            note_marks_of_first(page, counts);
        }
    }
    let held = held(image, chip);
    let everywhere = used.iter().flat_map(|used| slots(page_at(image, chip, used.page), Edition::Second));
    let only_in_groups =
        everywhere.into_iter().any(|slot| matches!(slot, Slot::Record { address, .. } if !held.contains_key(&address)));
    note(counts, "address that only records name which don't count", only_in_groups);
}

fn note_marks_of_first(page: &[u8], counts: &mut Counts) {
    let as_second = slots(page, Edition::Second);
    let has = |wanted: fn(&Slot) -> bool| as_second.iter().any(wanted);
    note(counts, "edition 1, what would open a group", has(|slot| matches!(slot, Slot::Mark(Mark::Opens(_)))));
    note(counts, "edition 1, what would close a group", has(|slot| matches!(slot, Slot::Mark(Mark::Closes(_)))));
    note(counts, "edition 1, what would abandon a group", has(|slot| matches!(slot, Slot::Mark(Mark::Abandons))));
    let lost = groups(&as_second).iter().any(|group| !group.counts(&as_second));
    note(counts, "edition 1, what would be a group that doesn't count", lost);
}

/// Marks mean the same in every edition that has them.
fn note_groups_of_page(page: &[u8], active: bool, counts: &mut Counts) {
    let slots = slots_in_place(page, Edition::Second);
    let groups = groups(&slots);
    for group in &groups {
        note_group(page, &slots, *group, counts);
    }
    let ends: Vec<usize> = groups.iter().filter_map(|group| group.end).collect();
    let outside = |mark: fn(Slot) -> bool| (0..slots.len()).any(|place| mark(slots[place]) && !ends.contains(&place));
    note(counts, "mark that closes outside a group", outside(|slot| matches!(slot, Slot::Mark(Mark::Closes(_)))));
    note(counts, "mark that abandons outside a group", outside(|slot| slot == Slot::Mark(Mark::Abandons)));
    let without_address = slot_words(page).filter(|&word| is_sound(word) && word[..2] == [255, 255]);
    let values: Vec<u8> = without_address.map(|word| word[2]).collect();
    note(counts, "value 9 to 128, which no mark has", values.iter().any(|value| (9..=128).contains(value)));
    note(counts, "value 137 to 255, which no mark has", values.iter().any(|value| (137..=255).contains(value)));
    let open = has_open_group(page, Edition::Second);
    let full = free_slots(page).is_empty();
    note(counts, "open group in the active page, with a free slot", open && active && !full);
    note(counts, "open group in the active page, which is full", open && active && full);
    note(counts, "open group in another used page", open && !active);
}

fn note_group(page: &[u8], slots: &[Slot], group: Group, counts: &mut Counts) {
    let inside = &slots[group.inside(slots.len())];
    let counted = group.counts(slots);
    let has = |wanted: fn(&Slot) -> bool| inside.iter().any(wanted);
    let addresses: Vec<Option<u16>> = inside
        .iter()
        .map(|slot| match slot {
            Slot::Record { address, .. } => Some(*address),
            _ => None,
        })
        .collect();
    let only_records = !addresses.contains(&None);
    let length = inside.len().cmp(&usize::from(group.records));
    let end = group.end.map(|end| slots[end]);
    let closed = end == Some(Slot::Mark(Mark::Closes(group.records)));
    let abandoned = end == Some(Slot::Mark(Mark::Abandons));
    note(counts, "group of 1 that counts", counted && group.records == 1);
    note(counts, "group of 8 that counts", counted && group.records == 8);
    note(
        counts,
        "group that counts and names an address twice",
        counted && { (1..addresses.len()).any(|place| addresses[..place].contains(&addresses[place])) },
    );
    note(counts, "group closed by another number", end.is_some() && !closed && !abandoned && length.is_eq());
    note(counts, "group with too few records", closed && only_records && length.is_lt());
    note(counts, "group with too many records", closed && only_records && length.is_gt());
    note(counts, "group that is abandoned", abandoned && only_records && !inside.is_empty());
    note(counts, "group that is abandoned at once", abandoned && inside.is_empty());
    note(counts, "group with a spoiled slot inside", closed && has(|&slot| slot == Slot::Spoiled));
    note(counts, "group with a half-written slot inside", closed && has(|&slot| slot == Slot::HalfWritten));
    note(counts, "group with a blank slot inside", closed && has(|&slot| slot == Slot::Blank));
    let words = || group.inside(slots.len()).map(|slot| slot_word(page, slot));
    let nested = words().any(|word| matches!(slot_in(word, Edition::Second), Slot::Mark(Mark::Opens(_))));
    let no_mark = words().any(|word| is_sound(word) && slot_in(word, Edition::Second) == Slot::Spoiled);
    note(counts, "group with a mark that opens inside", nested);
    note(counts, "group with a value inside that no mark has", no_mark);
}

/// Which case the group write of these bytes is, by its image and its answer.
pub fn note_group_write(image: &[u8], chip: Chip, bytes: &[u8], answer: Stepped, counts: &mut Counts) {
    const LENGTHS: [(usize, &str); 9] = [
        (0, "group write of 0 bytes"),
        (1, "group write of 1 byte"),
        (2, "group write of 2 bytes"),
        (4, "group write of 4 bytes"),
        (23, "group write of 23 bytes"),
        (25, "group write of 25 bytes"),
        (27, "group write of 27 bytes"),
        (30, "group write of 30 bytes"),
        (765, "group write of 255 settings"),
    ];
    let refused_as_group = answer.number == GROUP;
    let change = Change::group(bytes);
    let settings = change.settings();
    let accepted = !matches!(answer.number, SIZE | NO_STORE | DAMAGED);
    let has_groups = accepted && edition(image, chip).has_groups();
    for (length, case) in LENGTHS {
        note(counts, case, has_groups && refused_as_group && bytes.len() == length);
    }
    let wrong_address = change.names(NO_ADDRESS);
    note(counts, "group write, an address twice", has_groups && refused_as_group && (2..=8).contains(&settings.len()));
    note(counts, "group write, GROUP with address 65,535", has_groups && refused_as_group && wrong_address);
    note(counts, "group write, ADDRESS", answer.number == ADDRESS);
    note(counts, "group write, ADDRESS of another than the first", {
        answer.number == ADDRESS && settings[0].0 != NO_ADDRESS
    });
    if !has_groups || refused_as_group || wrong_address || matches!(answer.number, UNCLEAN | OWNER) {
        return;
    }
    note_tested_group(image, chip, &change, answer, counts);
}

/// The same of a group that is tested for NO ROOM and ORDER END, or whose values are all held.
fn note_tested_group(image: &[u8], chip: Chip, change: &Change, answer: Stepped, counts: &mut Counts) {
    let held = held(image, chip);
    let settings = change.settings();
    let named = settings.iter().filter(|(address, _)| held.contains_key(address)).count();
    let new = settings.len() - named;
    let unchanged = settings.iter().filter(|(address, value)| held.get(address) == Some(value)).count();
    let all_held = unchanged == settings.len();
    let active = active_page(image, chip);
    let free = free_slots(page_at(image, chip, active.page)).len();
    let taken = change.words().len();
    let at_the_end = active.order == LAST_ORDER && free < taken;
    let accepted = answer.number == OK && !all_held;
    let one_cleared = cleared_pages(image, chip).len() == 1;
    note(counts, "group write, all values held", all_held);
    note(counts, "group write, all values held at the last order", all_held && at_the_end);
    note(counts, "group write, all values held and 192 held", all_held && held.len() == MOST_HELD);
    note(counts, "group write, some values held", accepted && unchanged > 0);
    note(counts, "group write, new addresses only", accepted && named == 0);
    note(counts, "group write, held addresses only", accepted && new == 0);
    note(counts, "group write, new and held addresses", accepted && new > 0 && named > 0);
    note(counts, "group write, of one setting", accepted && settings.len() == 1);
    note(counts, "group write, of eight settings", accepted && settings.len() == 8);
    note(counts, "group write, not by rising address", accepted && !settings.is_sorted());
    note(counts, "group write, just as many free slots", accepted && free == taken);
    note(counts, "group write, one slot short", accepted && free + 1 == taken);
    note(counts, "group write, slots for its records alone", accepted && free + 2 == taken);
    note(counts, "group write, into a new page", accepted && free < taken && !one_cleared);
    note(
        counts,
        "group write, into a new page, with free slots left",
        accepted && free < taken && free > 0 && !one_cleared,
    );
    note(counts, "group write, a move", accepted && free < taken && one_cleared);
    note(counts, "group write, a move, not by rising address", {
        accepted && free < taken && one_cleared && !settings.is_sorted()
    });
    note(
        counts,
        "group write, a move to 192",
        accepted && free < taken && one_cleared && held.len() + new == MOST_HELD,
    );
    note(counts, "group write, 192 held then", accepted && new > 0 && held.len() + new == MOST_HELD);
    let no_room = answer.number == NO_ROOM && held.len() + new > MOST_HELD;
    note(counts, "group write, NO ROOM by one", no_room && held.len() + new == MOST_HELD + 1);
    note(counts, "group write, NO ROOM with room for one", no_room && held.len() < MOST_HELD);
    note(counts, "group write, at the last order", accepted && active.order == LAST_ORDER);
    note(counts, "group write, to the last order", accepted && active.order == LAST_ORDER - 1 && free < taken);
    note(counts, "group write, ORDER END", answer.number == ORDER_END);
    note(counts, "group write, ORDER END with free slots left", answer.number == ORDER_END && free > 0);
}
