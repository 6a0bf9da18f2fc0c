//! What an image says (edition, base order, used pages, active page, values) and when a call refuses it.

use std::collections::BTreeMap;

use crate::page::*;
use crate::word::*;

pub const OK: u8 = 0;
pub const SIZE: u8 = 1;
pub const NO_STORE: u8 = 2;
pub const DAMAGED: u8 = 3;
pub const UNCLEAN: u8 = 4;
pub const ADDRESS: u8 = 5;
pub const NO_ROOM: u8 = 6;
pub const ORDER_END: u8 = 7;
pub const NOT_HELD: u8 = 8;
pub const GROUP: u8 = 9;
pub const OWNER: u8 = 11;

/// How many numbers there are from 0 on, to count answers by them. None is 10.
pub const NUMBERS: usize = 12;

pub const MOST_HELD: usize = 192;

/// What an owner may come to hold. A store that holds more of one was not made so by these calls, but it is a store.
pub const MOST_HELD_BY_OWNER: usize = 128;

/// The handset has the addresses before this one, the glaze timer has it and those behind.
pub const FIRST_OF_TIMER: u16 = 32_768;

pub fn is_timers(address: u16) -> bool {
    address >= FIRST_OF_TIMER
}

/// Whether the address is of this owner: the timer, or else the handset.
pub fn owns(timer: bool, address: u16) -> bool {
    is_timers(address) == timer
}

/// A used page: where it is and its order.
#[derive(Clone, Copy, Debug, PartialEq, Eq)]
pub struct Used {
    pub page: usize,
    pub order: u32,
}

/// An address with a value.
pub type Setting = (u16, u8);

/// What a write or a group write is to put into the store.
#[derive(Clone, Debug, PartialEq, Eq)]
pub enum Change {
    Single(Setting),
    Group(Vec<Setting>),
}

impl Change {
    /// The group in these bytes, three for each setting. Of a length that 3 doesn't divide it has no settings.
    pub fn group(bytes: &[u8]) -> Change {
        if !bytes.len().is_multiple_of(3) {
            return Change::Group(Vec::new());
        }
        Change::Group(
            bytes.chunks(3).map(|setting| (u16::from_le_bytes([setting[0], setting[1]]), setting[2])).collect(),
        )
    }

    pub fn settings(&self) -> &[Setting] {
        match self {
            Change::Single(setting) => std::slice::from_ref(setting),
            Change::Group(settings) => settings,
        }
    }

    pub fn settings_mut(&mut self) -> &mut [Setting] {
        match self {
            Change::Single(setting) => std::slice::from_mut(setting),
            Change::Group(settings) => settings,
        }
    }

    /// Whose change it is to be, by its first address; of a group of nothing, the handset's.
    pub fn timer(&self) -> bool {
        self.settings().first().is_some_and(|&(address, _)| is_timers(address))
    }

    pub fn names(&self, address: u16) -> bool {
        self.settings().iter().any(|&(named, _)| named == address)
    }

    pub fn records(&self) -> Vec<Word> {
        self.settings().iter().map(|&(address, value)| record(address, value)).collect()
    }

    /// What is programmed where there are slots enough: the records, and those of a group between two marks.
    pub fn words(&self) -> Vec<Word> {
        let records = self.records();
        match self {
            Change::Single(_) => records,
            Change::Group(settings) => {
                let count = settings.len() as u8;
                [vec![mark_word(Mark::Opens(count))], records, vec![mark_word(Mark::Closes(count))]].concat()
            }
        }
    }
}

/// The bytes in which a group is lent.
pub fn group_bytes(settings: &[Setting]) -> Vec<u8> {
    settings.iter().flat_map(|&(address, value)| [address as u8, (address >> 8) as u8, value]).collect()
}

pub fn page_count(image: &[u8], chip: Chip) -> usize {
    image.len() / chip.page_bytes
}

pub fn page_at(image: &[u8], chip: Chip, page: usize) -> &[u8] {
    &image[chip.page_range(page)]
}

/// The edition of the page of lowest index that is open by itself, or without one the chip's first. All pages are read
/// by it.
pub fn edition(image: &[u8], chip: Chip) -> Edition {
    chip.pages(image).find_map(|page| open_by_itself(page, chip)).unwrap_or(chip.editions[0])
}

pub fn states(image: &[u8], chip: Chip) -> Vec<State> {
    let edition = edition(image, chip);
    chip.pages(image).map(|page| state(page, edition)).collect()
}

/// The greatest order of an open page of kind 2, or 0 if there is none.
pub fn base_order(states: &[State]) -> u32 {
    let orders = states.iter().map(|state| match *state {
        State::Open { order, kind: RECEIVING } => order,
        _ => 0,
    });
    orders.max().unwrap_or(0)
}

/// The open pages of the base order or greater, by falling order.
pub fn used_pages(image: &[u8], chip: Chip) -> Vec<Used> {
    let states = states(image, chip);
    let base = base_order(&states);
    let mut used = Vec::new();
    for (page, state) in states.iter().enumerate() {
        if let State::Open { order, .. } = *state {
            if order >= base {
                used.push(Used { page, order });
            }
        }
    }
    used.sort_by_key(|used| std::cmp::Reverse(used.order));
    used
}

/// The used page of greatest order. There is one whenever there is an open page.
pub fn active_page(image: &[u8], chip: Chip) -> Used {
    used_pages(image, chip)[0]
}

/// The value in the last record that counts and names the address: from the last slot of the active page back, then
/// through the used pages of falling order.
pub fn value(image: &[u8], chip: Chip, address: u16) -> Option<u8> {
    let edition = edition(image, chip);
    for used in used_pages(image, chip) {
        for (named, value) in records(page_at(image, chip, used.page), edition).into_iter().rev() {
            if named == address {
                return Some(value);
            }
        }
    }
    None
}

/// Every held address with its value. Going forward, a later record replaces an earlier one.
pub fn held(image: &[u8], chip: Chip) -> BTreeMap<u16, u8> {
    let edition = edition(image, chip);
    let mut held = BTreeMap::new();
    for used in used_pages(image, chip).iter().rev() {
        held.extend(records(page_at(image, chip, used.page), edition));
    }
    held
}

/// How many addresses are held, without their values: every call but format asks for it.
fn held_count(image: &[u8], chip: Chip) -> usize {
    let edition = edition(image, chip);
    let mut is_held = vec![false; 65_536];
    let mut count = 0;
    for used in used_pages(image, chip) {
        for (address, _) in records(page_at(image, chip, used.page), edition) {
            count += usize::from(!is_held[usize::from(address)]);
            is_held[usize::from(address)] = true;
        }
    }
    count
}

/// How many of the held addresses are this owner's.
pub fn held_by(held: &BTreeMap<u16, u8>, timer: bool) -> usize {
    held.keys().filter(|&&address| owns(timer, address)).count()
}

/// Whether each address of the change has its value already.
pub fn is_held(image: &[u8], chip: Chip, change: &Change) -> bool {
    change.settings().iter().all(|&(address, new)| value(image, chip, address) == Some(new))
}

/// How many slots of the used pages are half-written, and how many are spoiled.
pub fn broken_words(image: &[u8], chip: Chip) -> (usize, usize) {
    let edition = edition(image, chip);
    let (mut half, mut spoiled) = (0, 0);
    for used in used_pages(image, chip) {
        for slot in slots_in_place(page_at(image, chip, used.page), edition) {
            match slot {
                Slot::HalfWritten => half += 1,
                Slot::Spoiled => spoiled += 1,
                Slot::Record { .. } | Slot::Mark(_) | Slot::Blank => {}
            }
        }
    }
    (half, spoiled)
}

/// The cleared pages with their wear, by index.
pub fn cleared_pages(image: &[u8], chip: Chip) -> Vec<(usize, u16)> {
    let mut cleared = Vec::new();
    for (page, state) in states(image, chip).iter().enumerate() {
        if let State::Cleared { wear } = *state {
            cleared.push((page, wear));
        }
    }
    cleared
}

/// The pages that are neither used nor cleared, by index: those that recovery renews.
pub fn unclean_pages(image: &[u8], chip: Chip) -> Vec<usize> {
    let used = used_pages(image, chip);
    let cleared = cleared_pages(image, chip);
    let is_used = |page| used.iter().any(|used| used.page == page);
    let is_cleared = |page| cleared.iter().any(|&(cleared, _)| cleared == page);
    (0..page_count(image, chip)).filter(|&page| !is_used(page) && !is_cleared(page)).collect()
}

/// Page and slot for the mark that abandons: the free slot of the active page, if that has an open group and a free slot.
pub fn slot_to_abandon(image: &[u8], chip: Chip) -> Option<(usize, usize)> {
    let active = active_page(image, chip).page;
    let page = page_at(image, chip, active);
    let free = free_slots(page);
    (has_open_group(page, edition(image, chip)) && !free.is_empty()).then_some((active, free.start))
}

/// The greatest wear in the image, whatever its page; 0 if there is none.
pub fn greatest_wear(image: &[u8], chip: Chip, edition: Edition) -> u16 {
    chip.pages(image).filter_map(|page| wear(page, edition)).max().unwrap_or(0)
}

/// The wear that a page gets if it is erased now: one more than its own, and if it has none one more than the greatest in
/// the image, at most 65,535. The edition is that of the store at the call.
pub fn next_wear(image: &[u8], chip: Chip, edition: Edition, page: usize) -> u16 {
    wear(page_at(image, chip, page), edition).unwrap_or_else(|| greatest_wear(image, chip, edition)).saturating_add(1)
}

/// Test 1, of the page size by itself: no other than these two is a chip's.
pub fn chip_named(page_size: u16) -> Result<Chip, u8> {
    CHIPS.into_iter().find(|chip| chip.page_size() == page_size).ok_or(SIZE)
}

/// Test 1, of the length by the chip's page size.
pub fn test_size(image: &[u8], chip: Chip) -> Result<(), u8> {
    let pages = page_count(image, chip);
    if !image.len().is_multiple_of(chip.page_bytes) || !(2..=32).contains(&pages) {
        return Err(SIZE);
    }
    Ok(())
}

/// Tests 1 to 3.
pub fn test_store(image: &[u8], chip: Chip) -> Result<(), u8> {
    test_size(image, chip)?;
    let used = used_pages(image, chip);
    if used.is_empty() {
        return Err(NO_STORE);
    }
    let two_of_one_order = used.windows(2).any(|pair| pair[0].order == pair[1].order);
    let every_page_used = used.len() == page_count(image, chip);
    if two_of_one_order || every_page_used || held_count(image, chip) > MOST_HELD {
        return Err(DAMAGED);
    }
    Ok(())
}

/// Test 4.
pub fn test_clean(image: &[u8], chip: Chip) -> Result<(), u8> {
    if !unclean_pages(image, chip).is_empty() || slot_to_abandon(image, chip).is_some() {
        return Err(UNCLEAN);
    }
    Ok(())
}

/// Test 9, which a single setting passes.
pub fn test_group(image: &[u8], chip: Chip, change: &Change) -> Result<(), u8> {
    let Change::Group(settings) = change else {
        return Ok(());
    };
    let repeated = settings
        .iter()
        .enumerate()
        .any(|(place, &(address, _))| settings[..place].iter().any(|&(earlier, _)| earlier == address));
    if !edition(image, chip).has_groups() || !(1..=MOST_IN_A_GROUP).contains(&settings.len()) || repeated {
        return Err(GROUP);
    }
    Ok(())
}

/// Test 5.
pub fn test_address(address: u16) -> Result<(), u8> {
    if address == NO_ADDRESS {
        return Err(ADDRESS);
    }
    Ok(())
}

/// Test 11, straight after 5.
pub fn test_owner(timer: bool, address: u16) -> Result<(), u8> {
    if !owns(timer, address) {
        return Err(OWNER);
    }
    Ok(())
}

/// Test 6, of the new addresses together. Without a new one there is room, however many its owner holds.
fn test_room(held: &BTreeMap<u16, u8>, timer: bool, change: &Change) -> Result<(), u8> {
    let new = change.settings().iter().filter(|(address, _)| !held.contains_key(address)).count();
    let too_many = held.len() + new > MOST_HELD;
    let too_many_of_owner = held_by(held, timer) + new > MOST_HELD_BY_OWNER;
    if new > 0 && (too_many || too_many_of_owner) {
        return Err(NO_ROOM);
    }
    Ok(())
}

/// Test 7.
pub fn test_order(image: &[u8], chip: Chip, change: &Change) -> Result<(), u8> {
    let active = active_page(image, chip);
    let new_page_needed = free_slots(page_at(image, chip, active.page)).len() < change.words().len();
    if new_page_needed && active.order == LAST_ORDER {
        return Err(ORDER_END);
    }
    Ok(())
}

/// Tests 1 to 7, with 9 behind 4 and 11 behind 5: each of them of all addresses before the next. A change whose values
/// are all held is not tested for 6 and 7.
pub fn test_change(image: &[u8], chip: Chip, timer: bool, change: &Change) -> Result<(), u8> {
    test_store(image, chip)?;
    test_clean(image, chip)?;
    test_group(image, chip, change)?;
    for &(address, _) in change.settings() {
        test_address(address)?;
    }
    for &(address, _) in change.settings() {
        test_owner(timer, address)?;
    }
    let held = held(image, chip);
    if change.settings().iter().all(|(address, value)| held.get(address) == Some(value)) {
        return Ok(());
    }
    test_room(&held, timer, change)?;
    test_order(image, chip, change)
}
