//! Which cases of the two owners an image has, and which a write or a read is. Each is counted of the handset and of
//! the timer.

use std::collections::BTreeMap;

use super::{note, Counts};
use crate::page::*;
use crate::rules::*;
use crate::word::*;
use crate::Stepped;

/// The names of a case, of the handset and of the timer.
type Names = [&'static str; 2];

macro_rules! of_each {
    ($case:literal) => {
        [concat!("handset, ", $case), concat!("timer, ", $case)]
    };
}

fn note_of(timer: bool, counts: &mut Counts, names: Names, met: bool) {
    note(counts, names[usize::from(timer)], met);
    note(counts, names[usize::from(!timer)], false);
}

/// The last address before the border and the first behind it.
fn is_at_the_border(address: u16) -> bool {
    [FIRST_OF_TIMER - 1, FIRST_OF_TIMER].contains(&address)
}

/// How many each owner holds, in a store that is accepted.
pub fn note_owners(image: &[u8], chip: Chip, counts: &mut Counts) {
    let held = held(image, chip);
    for timer in [false, true] {
        let own = held_by(&held, timer);
        let other = held.len() - own;
        let mut note = |names: Names, met| note_of(timer, counts, names, met);
        note(of_each!("holds all that is held"), own > 0 && other == 0);
        note(of_each!("holds 127"), own == 127);
        note(of_each!("holds 128"), own == 128);
        note(of_each!("holds 129"), own == 129);
        note(of_each!("holds more than 129"), own > 129);
        note(of_each!("holds 128 of 192"), own == 128 && held.len() == MOST_HELD);
        note(of_each!("holds 128, and fewer than 192 are held"), own == 128 && other > 0 && held.len() < MOST_HELD);
        note(of_each!("holds more than 128 of 192"), own > 128 && held.len() == MOST_HELD);
        note(of_each!("holds all of 192"), own == MOST_HELD);
        note(of_each!("holds at the border"), held.keys().any(|&at| owns(timer, at) && is_at_the_border(at)));
    }
    let twins = held.keys().any(|&address| !is_timers(address) && held.contains_key(&(address + FIRST_OF_TIMER)));
    note(counts, "address that is held, and so is the one 32,768 further on", twins);
}

/// What a write meets: the settings, and how many are its owner's.
struct Met {
    held: BTreeMap<u16, u8>,
    own: usize,
    /// How many addresses of the write aren't held.
    new: usize,
    all_held: bool,
    /// Whether it needs a page, and there is no order for it.
    at_the_end: bool,
    moves: bool,
}

impl Met {
    fn by(image: &[u8], chip: Chip, timer: bool, change: &Change) -> Met {
        let held = held(image, chip);
        let own = held_by(&held, timer);
        let new = change.settings().iter().filter(|(address, _)| !held.contains_key(address)).count();
        let all_held = change.settings().iter().all(|(address, value)| held.get(address) == Some(value));
        let active = active_page(image, chip);
        let taken = match change {
            Change::Single(_) => 1,
            Change::Group(settings) => settings.len() + 2,
        };
        let needs_a_page = free_slots(page_at(image, chip, active.page)).len() < taken;
        let at_the_end = needs_a_page && active.order == LAST_ORDER;
        let moves = needs_a_page && !all_held && cleared_pages(image, chip).len() == 1;
        Met { held, own, new, all_held, at_the_end, moves }
    }

    fn total_has_room(&self) -> bool {
        self.held.len() + self.new <= MOST_HELD
    }

    fn owner_has_room(&self) -> bool {
        self.own + self.new <= MOST_HELD_BY_OWNER
    }

    fn has(&self, &(address, value): &Setting) -> bool {
        self.held.get(&address) == Some(&value)
    }

    fn holds_of_both(&self) -> bool {
        self.own > 0 && self.own < self.held.len()
    }
}

/// Which case of the owners a write or a group write is, by its image and its answer.
pub fn note_owner_of_write(
    image: &[u8],
    chip: Chip,
    timer: bool,
    change: &Change,
    answer: Stepped,
    counts: &mut Counts,
) {
    if matches!(answer.number, SIZE | NO_STORE | DAMAGED | UNCLEAN) {
        return;
    }
    let met = Met::by(image, chip, timer, change);
    match change {
        Change::Single(setting) => note_single(&met, timer, setting, answer.number, counts),
        Change::Group(settings) => {
            note_foreign_of_group(&met, timer, settings, answer.number, counts);
            note_room_of_group(&met, timer, settings.len(), answer.number, counts);
        }
    }
}

fn note_single(met: &Met, timer: bool, setting: &Setting, number: u8, counts: &mut Counts) {
    let (address, is_new) = (setting.0, met.new == 1);
    let border = is_at_the_border(address);
    let (ok, foreign, no_room) = (number == OK, number == OWNER, number == NO_ROOM);
    let changes = ok && !is_new && !met.all_held;
    let full = met.held.len() == MOST_HELD;
    let mut note = |names: Names, met| note_of(timer, counts, names, met);
    note(of_each!("write at the border"), ok && border);
    note(of_each!("write, ADDRESS"), number == ADDRESS);
    note(of_each!("write, OWNER at the border"), foreign && border);
    note(of_each!("write, OWNER of a new address"), foreign && is_new);
    note(of_each!("write, OWNER of a held address"), foreign && !is_new && !met.all_held);
    note(of_each!("write, OWNER of the held value"), foreign && met.all_held);
    note(of_each!("write, OWNER of a new address, 192 held"), foreign && is_new && full);
    note(of_each!("write, OWNER of a new address, at the limit"), foreign && is_new && !met.owner_has_room());
    note(
        of_each!("write, OWNER at the last order"),
        foreign && met.at_the_end && !met.all_held && met.total_has_room(),
    );
    note(of_each!("write, the 128th"), ok && is_new && met.own == 127);
    note(of_each!("write, the 128th and the 192nd"), ok && is_new && met.own == 127 && met.held.len() == 191);
    note(of_each!("write, NO ROOM by the limit alone"), no_room && met.own == 128 && !full);
    note(of_each!("write, NO ROOM beyond the limit"), no_room && met.own > 128 && !full);
    note(of_each!("write, NO ROOM by the total alone"), no_room && met.own < 128);
    note(of_each!("write, NO ROOM by both"), no_room && met.own >= 128 && full);
    note(of_each!("write, NO ROOM by the limit at the last order"), no_room && !full && met.at_the_end);
    note(of_each!("write, a change at the limit"), changes && met.own == 128);
    note(of_each!("write, a change beyond the limit"), changes && met.own > 128);
    note(of_each!("write, the held value beyond the limit"), ok && met.all_held && met.own > 128);
    note(of_each!("write, new beside an owner beyond its limit"), ok && is_new && met.held.len() - met.own > 128);
    note(of_each!("write, a move of both owners' settings"), ok && met.moves && met.holds_of_both());
}

/// Where a group has addresses of the other owner.
fn note_foreign_of_group(met: &Met, timer: bool, settings: &[Setting], number: u8, counts: &mut Counts) {
    let is_foreign = |setting: &Setting| setting.0 != NO_ADDRESS && !owns(timer, setting.0);
    let foreign: Vec<usize> = (0..settings.len()).filter(|&place| is_foreign(&settings[place])).collect();
    let none = settings.iter().position(|&(address, _)| address == NO_ADDRESS);
    let last = settings.len().saturating_sub(1);
    let refused = number == OWNER;
    let alone = |place: usize| refused && settings.len() > 2 && foreign == [place];
    let behind = |&place: &usize| Some(place) > none;
    let with_its_value = foreign.iter().any(|&place| met.has(&settings[place]));
    let at_the_border = foreign.iter().any(|&place| is_at_the_border(settings[place].0));
    let mut note = |names: Names, met| note_of(timer, counts, names, met);
    note(of_each!("group write, OWNER of the first alone"), alone(0));
    note(of_each!("group write, OWNER of the last alone"), alone(last));
    note(of_each!("group write, OWNER of another alone"), (1..last).any(alone));
    note(of_each!("group write, OWNER of all"), refused && foreign.len() == settings.len());
    note(of_each!("group write, OWNER at the border"), refused && at_the_border);
    note(of_each!("group write, OWNER of a held value"), refused && with_its_value && !met.all_held);
    note(of_each!("group write, OWNER of held values alone"), refused && met.all_held);
    note(of_each!("group write, OWNER where 192 are held"), refused && met.new > 0 && !met.total_has_room());
    note(of_each!("group write, OWNER at the limit"), refused && met.new > 0 && !met.owner_has_room());
    note(of_each!("group write, GROUP with one of the other's"), number == GROUP && !foreign.is_empty());
    note(of_each!("group write, ADDRESS before one of the other's"), number == ADDRESS && foreign.iter().any(behind));
    note(of_each!("group write, ADDRESS behind one of the other's"), {
        number == ADDRESS && !foreign.is_empty() && !foreign.iter().any(behind)
    });
}

/// How a group comes to its owner's limit.
fn note_room_of_group(met: &Met, timer: bool, count: usize, number: u8, counts: &mut Counts) {
    let (ok, no_room) = (number == OK && !met.all_held, number == NO_ROOM);
    let by_limit = no_room && met.total_has_room();
    let then = met.own + met.new;
    let mut note = |names: Names, met| note_of(timer, counts, names, met);
    note(of_each!("group write, to the limit"), ok && met.new > 1 && then == 128);
    note(of_each!("group write, to the limit, held ones too"), ok && met.new > 0 && met.new < count && then == 128);
    note(of_each!("group write, more than to the limit with its held ones"), {
        ok && met.new > 0 && then <= 128 && met.own + count > 128
    });
    note(of_each!("group write, NO ROOM by one beyond the limit"), by_limit && then == 129);
    note(of_each!("group write, NO ROOM by the limit, with room for one"), by_limit && met.own < 128);
    note(of_each!("group write, NO ROOM by the limit for new and held"), by_limit && met.new < count);
    note(of_each!("group write, NO ROOM beyond the limit"), by_limit && met.own > 128);
    note(of_each!("group write, NO ROOM by the total alone"), no_room && then <= 128);
    note(of_each!("group write, NO ROOM by the limit at the last order"), by_limit && met.at_the_end);
    note(of_each!("group write, changes at the limit"), ok && met.new == 0 && met.own == 128);
    note(of_each!("group write, changes beyond the limit"), ok && met.new == 0 && met.own > 128);
    note(of_each!("group write, held values beyond the limit"), number == OK && met.all_held && met.own > 128);
    note(of_each!("group write, a move of both owners' settings"), ok && met.moves && met.holds_of_both());
}

const OF_READS: [Names; 7] = [
    of_each!("read at the border"),
    of_each!("read, ADDRESS"),
    of_each!("read, OWNER at the border"),
    of_each!("read, OWNER of a held address"),
    of_each!("read, OWNER of an address that isn't held"),
    of_each!("read beyond the limit"),
    of_each!("read, not held, but the other's address 32,768 on or back is"),
];

const OF_BLANK_READS: [Names; 7] = [
    of_each!("blank read at the border"),
    of_each!("blank read, ADDRESS"),
    of_each!("blank read, OWNER at the border"),
    of_each!("blank read, OWNER of a held address"),
    of_each!("blank read, OWNER of an address that isn't held"),
    of_each!("blank read beyond the limit"),
    of_each!("blank read, not held, but the other's address 32,768 on or back is"),
];

/// Which case of the owners a read is, or a blank read.
pub fn note_owner_of_read(
    image: &[u8],
    chip: Chip,
    timer: bool,
    address: u16,
    blank: bool,
    number: u8,
    counts: &mut Counts,
) {
    if matches!(number, SIZE | NO_STORE | DAMAGED) {
        return;
    }
    let held = held(image, chip);
    let (border, is_held) = (is_at_the_border(address), held.contains_key(&address));
    let (answered, foreign) = (matches!(number, OK | NOT_HELD), number == OWNER);
    let met = [
        answered && border,
        number == ADDRESS,
        foreign && border,
        foreign && is_held,
        foreign && !is_held,
        answered && held_by(&held, timer) > MOST_HELD_BY_OWNER,
        answered && !is_held && held.contains_key(&(address ^ FIRST_OF_TIMER)),
    ];
    let names = if blank { OF_BLANK_READS } else { OF_READS };
    names.into_iter().zip(met).for_each(|(names, met)| note_of(timer, counts, names, met));
}
