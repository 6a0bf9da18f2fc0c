//! Stores that are wrong in groups or in editions alone, each in one thing.

use crate::page::*;
use crate::rules::*;
use crate::steps::*;
use crate::word::*;

#[derive(Clone, Copy, Debug, PartialEq, Eq)]
pub enum WrongGroup {
    /// Nothing is wrong. It shows that no other is caught by how it is made.
    Nothing,

    // Which records count.
    /// The records of an open group count.
    OpenCounts,
    /// The number of the mark that closes isn't looked at.
    AnyCloseCounts,
    /// How many records there are isn't looked at.
    AnyLengthCounts,
    /// The records of a group that is abandoned count.
    AbandonedCounts,
    /// What isn't a record is passed over inside a group.
    OthersArePassedOver,
    /// A mark that opens inside a group begins another, and nothing ends the first.
    NestedBegins,
    /// A group goes on in the next used page.
    GoesOn,
    /// A mark that closes another number of records doesn't end a group.
    OtherNumberEndsNothing,
    /// A mark that abandons doesn't end a group.
    AbandonEndsNothing,
    /// A mark that abandons outside a group takes the records before it away.
    AbandonsOutside,
    /// 9 to 127 open groups too, and 128 and 137 to 255 close them.
    EveryValueIsAMark,
    /// Of two records in a group that name one address, the first counts.
    FirstOfAGroup,
    /// There are marks in the first edition.
    MarksInBothEditions,

    // Editions.
    /// The pages of both editions are read.
    BothEditionsRead,
    /// The open page of highest index says what the edition is.
    HighestIndexDecides,
    /// The page of lowest index that has a wear in either edition says what the edition is, open or not.
    LowestWearDecides,
    /// A page that is renewed gets the edition that the image has just before its erase.
    EditionTurns,
    /// Format gives the first edition, whatever it is told.
    FormatsFirst,
    /// Format gives the second edition, whatever it is told.
    FormatsSecond,
    /// A page that is renewed gets the first edition, whatever the store has.
    RenewsFirst,

    // Answers.
    /// A store of the first edition accepts a group.
    FirstTakesGroups,
    /// A group without settings is accepted.
    NoneTaken,
    /// A group of nine is accepted.
    NineTaken,
    /// What is over at the end of a length that 3 doesn't divide is left out.
    LengthRoundedDown,
    /// A group that names an address twice is accepted.
    RepeatedTaken,
    /// Only two neighbours are compared.
    RepeatedApartTaken,
    /// GROUP is tested before UNCLEAN.
    GroupBeforeUnclean,
    /// ADDRESS is tested before GROUP.
    AddressBeforeGroup,
    /// Only the first address is tested.
    FirstAddressTested,
    /// NO ROOM takes all addresses that aren't held for one.
    NewCountAsOne,
    /// NO ROOM takes those that are held for new ones, also where all values are held.
    HeldCountAsNew,
    /// A group whose values are all held is tested for ORDER END.
    HeldTestedForOrderEnd,
    /// ORDER END is for a store without a free slot, however many a group takes: it needs a page and has no order for it.
    OrderEndForOneSlot,
    /// An open group is nothing: neither UNCLEAN nor abandoned.
    OpenIsNothing,
    /// An open group in a full page waits for recovery too, which can do nothing.
    DeadIsUnclean,
    /// An open group in a used page that isn't active waits for recovery too.
    OpenBelowIsUnclean,

    // Steps.
    /// A group is written without marks.
    NoMarks,
    /// A group of one is written without marks.
    OneWithoutMarks,
    /// Where there are slots for the records alone, a group is written without marks.
    FewSlotsWithoutMarks,
    /// Where there are just as many free slots as a group takes, it goes to a new page.
    JustEnoughIsTooFew,
    /// As many settings as fit are written to the page, and the others to the next.
    Split,
    /// Settings whose values are held are left out.
    HeldLeftOut,
    /// A group of which one value is held takes no steps.
    OneHeldSuffices,
    /// A move has the group's records by rising address.
    MovesByAddress,
    /// A move has the group's marks too.
    MovesWithMarks,
    /// A move copies the written addresses too.
    MovesAll,
    /// Recovery leaves an open group.
    NoAbandon,
    /// Recovery abandons after the renewals.
    AbandonsLast,
    /// Recovery ends an open group by closing it.
    ClosesInstead,
    /// Recovery abandons in the first blank slot, which may have slots behind it that are not blank.
    AbandonsInFirstBlank,
}

pub const WRONG_GROUPS: [WrongGroup; 50] = [
    WrongGroup::OpenCounts,
    WrongGroup::AnyCloseCounts,
    WrongGroup::AnyLengthCounts,
    WrongGroup::AbandonedCounts,
    WrongGroup::OthersArePassedOver,
    WrongGroup::NestedBegins,
    WrongGroup::GoesOn,
    WrongGroup::OtherNumberEndsNothing,
    WrongGroup::AbandonEndsNothing,
    WrongGroup::AbandonsOutside,
    WrongGroup::EveryValueIsAMark,
    WrongGroup::FirstOfAGroup,
    WrongGroup::MarksInBothEditions,
    WrongGroup::BothEditionsRead,
    WrongGroup::HighestIndexDecides,
    WrongGroup::LowestWearDecides,
    WrongGroup::EditionTurns,
    WrongGroup::FormatsFirst,
    WrongGroup::FormatsSecond,
    WrongGroup::RenewsFirst,
    WrongGroup::FirstTakesGroups,
    WrongGroup::NoneTaken,
    WrongGroup::NineTaken,
    WrongGroup::LengthRoundedDown,
    WrongGroup::RepeatedTaken,
    WrongGroup::RepeatedApartTaken,
    WrongGroup::GroupBeforeUnclean,
    WrongGroup::AddressBeforeGroup,
    WrongGroup::FirstAddressTested,
    WrongGroup::NewCountAsOne,
    WrongGroup::HeldCountAsNew,
    WrongGroup::HeldTestedForOrderEnd,
    WrongGroup::OrderEndForOneSlot,
    WrongGroup::OpenIsNothing,
    WrongGroup::DeadIsUnclean,
    WrongGroup::OpenBelowIsUnclean,
    WrongGroup::NoMarks,
    WrongGroup::OneWithoutMarks,
    WrongGroup::FewSlotsWithoutMarks,
    WrongGroup::JustEnoughIsTooFew,
    WrongGroup::Split,
    WrongGroup::HeldLeftOut,
    WrongGroup::OneHeldSuffices,
    WrongGroup::MovesByAddress,
    WrongGroup::MovesWithMarks,
    WrongGroup::MovesAll,
    WrongGroup::NoAbandon,
    WrongGroup::AbandonsLast,
    WrongGroup::ClosesInstead,
    WrongGroup::AbandonsInFirstBlank,
];

/// What no word of a store is: neither sound, blank nor half-written.
const SPOILED: Word = [0; 4];

/// A group while its page is passed: for how many records it was opened, and what stands in it so far.
type Begun = (u8, Vec<Slot>);

impl Plan for WrongGroup {
    fn format_steps(&self, image: &[u8], chip: Chip, second_edition: bool) -> Result<Vec<Step>, u8> {
        let told = match self {
            WrongGroup::FormatsFirst => false,
            WrongGroup::FormatsSecond => true,
            _ => second_edition,
        };
        format_steps(image, chip, chip.told(told))
    }

    fn recovery_steps(&self, image: &[u8], chip: Chip) -> Result<Vec<Step>, u8> {
        let seen = self.seen(image, chip);
        let mut steps = recovery_steps(&seen, chip)?;
        if let Some((page, slot)) = slot_to_abandon(&seen, chip) {
            let active = page_at(&seen, chip, page);
            match self {
                WrongGroup::NoAbandon => steps = steps.split_off(2),
                WrongGroup::AbandonsLast => steps.rotate_left(2),
                WrongGroup::ClosesInstead => {
                    let open = groups(&slots(active, Edition::Second)).pop().expect("a group is open");
                    steps[..2].copy_from_slice(&slot_steps(chip, page, slot, mark_word(Mark::Closes(open.records))));
                }
                WrongGroup::AbandonsInFirstBlank => {
                    let first = slot_words(active).position(is_blank).expect("a slot is free");
                    steps[..2].copy_from_slice(&slot_steps(chip, page, first, mark_word(Mark::Abandons)));
                }
                _ => {}
            }
        }
        Ok(self.renewed(&seen, chip, steps))
    }

    fn group(&self, bytes: &[u8]) -> Change {
        match self {
            WrongGroup::LengthRoundedDown => Change::group(&bytes[..bytes.len() / 3 * 3]),
            _ => Change::group(bytes),
        }
    }

    fn change_steps(&self, image: &[u8], chip: Chip, timer: bool, change: &Change) -> Result<Vec<Step>, u8> {
        let seen = self.seen(image, chip);
        self.test(&seen, chip, timer, change)?;
        Ok(self.renewed(&seen, chip, self.steps(&seen, chip, change)))
    }

    fn seen(&self, image: &[u8], chip: Chip) -> Vec<u8> {
        let mut seen = image.to_vec();
        match self {
            _ if test_size(image, chip).is_err() => {}
            WrongGroup::BothEditionsRead => put_into(&mut seen, chip, edition(image, chip)),
            WrongGroup::HighestIndexDecides => {
                keep(&mut seen, chip, chip.pages(image).rev().find_map(|page| open_by_itself(page, chip)));
            }
            WrongGroup::LowestWearDecides => {
                keep(&mut seen, chip, chip.pages(image).find_map(|page| edition_of_wear(page, chip)));
            }
            _ if self.counts_anew() => self.count_anew(&mut seen, chip),
            _ => {}
        }
        seen
    }
}

impl WrongGroup {
    fn test(self, seen: &[u8], chip: Chip, timer: bool, change: &Change) -> Result<(), u8> {
        let right = test_change(seen, chip, timer, change);
        if matches!(right, Err(SIZE | NO_STORE | DAMAGED)) {
            return right;
        }
        let settings = change.settings();
        let few = settings.len() <= MOST_IN_A_GROUP;
        let grouped = matches!(change, Change::Group(_));
        match (self, right) {
            (WrongGroup::DeadIsUnclean, _) if has_dead_group(seen, chip) => Err(UNCLEAN),
            (WrongGroup::OpenBelowIsUnclean, _) if has_open_group_below(seen, chip) => Err(UNCLEAN),
            (WrongGroup::GroupBeforeUnclean, Err(UNCLEAN)) => test_group(seen, chip, change).and(right),
            (WrongGroup::AddressBeforeGroup, Err(GROUP)) if change.names(NO_ADDRESS) => Err(ADDRESS),
            (WrongGroup::FirstTakesGroups, Err(GROUP)) if edition(seen, chip) == Edition::First => {
                let mut second = seen.to_vec();
                put_into(&mut second, chip, Edition::Second);
                test_change(&second, chip, timer, change)
            }
            (WrongGroup::NoneTaken, Err(GROUP)) if settings.is_empty() && edition(seen, chip).has_groups() => Ok(()),
            (WrongGroup::NineTaken, Err(GROUP)) if settings.len() == 9 => {
                test_change(seen, chip, timer, &Change::Group(settings[..8].to_vec()))
            }
            (WrongGroup::RepeatedTaken, Err(GROUP)) if few => test_change(seen, chip, timer, &each_once(settings)),
            (WrongGroup::RepeatedApartTaken, Err(GROUP)) if few && neighbours_differ(settings) => {
                test_change(seen, chip, timer, &each_once(settings))
            }
            (WrongGroup::FirstAddressTested, Err(ADDRESS)) if settings[0].0 != NO_ADDRESS => Ok(()),
            (WrongGroup::NewCountAsOne, Err(NO_ROOM)) if has_room_for_one(seen, chip, timer) => Ok(()),
            (WrongGroup::HeldCountAsNew, Ok(()) | Err(ORDER_END))
                if grouped && held(seen, chip).len() + settings.len() > MOST_HELD =>
            {
                Err(NO_ROOM)
            }
            (WrongGroup::HeldTestedForOrderEnd, Ok(())) if grouped && is_at_the_end(seen, chip, change) => {
                Err(ORDER_END)
            }
            (WrongGroup::OrderEndForOneSlot, Err(ORDER_END)) if free_slots_of_active(seen, chip) > 0 => Ok(()),
            _ => right,
        }
    }

    fn steps(self, seen: &[u8], chip: Chip, change: &Change) -> Vec<Step> {
        let Change::Group(settings) = change else {
            return accepted_steps(seen, chip, change);
        };
        let fuller = with_a_full_page(seen, chip);
        let just_enough = free_slots_of_active(seen, chip) == change.words().len();
        let seen = if self == WrongGroup::JustEnoughIsTooFew && just_enough { &fuller } else { seen };
        let held = held(seen, chip);
        let is_held = |(address, value): &Setting| held.get(address) == Some(value);
        let enough_held = match self {
            WrongGroup::OneHeldSuffices => settings.iter().any(is_held),
            _ => settings.iter().all(is_held),
        };
        // A test that is wrong may let a group pass for which there is no order.
        if enough_held || is_at_the_end(seen, chip, change) {
            return Vec::new();
        }
        let free = free_slots_of_active(seen, chip);
        let fits = free >= change.words().len();
        match self {
            WrongGroup::HeldLeftOut => {
                let others = settings.iter().filter(|setting| !is_held(setting)).copied().collect();
                accepted_steps(seen, chip, &Change::Group(others))
            }
            WrongGroup::Split if free > 2 && !fits => split(seen, chip, settings, free - 2),
            _ => placing_steps(seen, chip, &self.words(change, free), || self.moved_words(seen, chip, change)),
        }
    }

    /// What a group has in a page, where there are so many free slots.
    fn words(self, change: &Change, free: usize) -> Vec<Word> {
        let (records, words) = (change.records(), change.words());
        let unmarked = match self {
            WrongGroup::NoMarks => true,
            WrongGroup::OneWithoutMarks => records.len() == 1,
            WrongGroup::FewSlotsWithoutMarks => (records.len()..words.len()).contains(&free),
            _ => false,
        };
        if unmarked {
            records
        } else {
            words
        }
    }

    fn moved_words(self, seen: &[u8], chip: Chip, change: &Change) -> Vec<Word> {
        let mut settings = change.settings().to_vec();
        settings.sort();
        let by_address = Change::Group(settings);
        match self {
            WrongGroup::MovesByAddress => [copies(seen, chip, change), by_address.records()].concat(),
            WrongGroup::MovesWithMarks => [copies(seen, chip, change), change.words()].concat(),
            WrongGroup::MovesAll => [copies(seen, chip, &Change::Group(Vec::new())), change.records()].concat(),
            _ => [copies(seen, chip, change), change.records()].concat(),
        }
    }

    /// The steps with the wear words that this store programs: they follow the erase in the list.
    fn renewed(self, seen: &[u8], chip: Chip, mut steps: Vec<Step>) -> Vec<Step> {
        let mut now = seen.to_vec();
        for at in 0..steps.len() {
            if let Step::Erase { page, .. } = steps[at] {
                let offset = chip.page_range(page).start + WEAR_OFFSET;
                let word = self.new_wear_word(&now, chip, edition(seen, chip), page);
                steps[at + 1..at + 3].copy_from_slice(&program_word_steps(offset, word));
            }
            do_step(&mut now, steps[at]);
        }
        steps
    }

    /// The wear word that a page gets, by the image just before its erase and the edition at the call.
    fn new_wear_word(self, now: &[u8], chip: Chip, at_call: Edition, page: usize) -> Word {
        let turned = edition(now, chip);
        match self {
            WrongGroup::RenewsFirst => wear_word(next_wear(now, chip, at_call, page), chip.editions[0]),
            WrongGroup::EditionTurns => wear_word(next_wear(now, chip, turned, page), turned),
            _ => wear_word(next_wear(now, chip, at_call, page), at_call),
        }
    }

    fn counts_anew(self) -> bool {
        matches!(
            self,
            WrongGroup::Nothing
                | WrongGroup::OpenCounts
                | WrongGroup::AnyCloseCounts
                | WrongGroup::AnyLengthCounts
                | WrongGroup::AbandonedCounts
                | WrongGroup::OthersArePassedOver
                | WrongGroup::NestedBegins
                | WrongGroup::GoesOn
                | WrongGroup::OtherNumberEndsNothing
                | WrongGroup::AbandonEndsNothing
                | WrongGroup::AbandonsOutside
                | WrongGroup::EveryValueIsAMark
                | WrongGroup::FirstOfAGroup
                | WrongGroup::MarksInBothEditions
                | WrongGroup::OpenIsNothing
        )
    }

    /// Makes the used pages say by the rules what they say to this store. Their free slots stay.
    fn count_anew(self, image: &mut [u8], chip: Chip) {
        let edition = edition(image, chip);
        let mut begun = None;
        for used in used_pages(image, chip).iter().rev() {
            let page = &mut image[chip.page_range(used.page)];
            let (records, open) = self.records(page, edition, begun);
            let is_open = open.is_some() && edition.has_groups() && self != WrongGroup::OpenIsNothing;
            begun = open.filter(|_| self == WrongGroup::GoesOn);
            put_records(page, &records, is_open);
        }
    }

    /// The records of a page that count, and the group that is open at its end.
    fn records(self, page: &[u8], edition: Edition, mut group: Option<Begun>) -> (Vec<Setting>, Option<Begun>) {
        let mut counted = Vec::new();
        for slot in slot_words(page).map(|word| self.slot_in(word, edition)) {
            match (slot, &mut group) {
                (Slot::Mark(Mark::Opens(records)), None) => group = Some((records, Vec::new())),
                (Slot::Mark(Mark::Opens(records)), Some(_)) if self == WrongGroup::NestedBegins => {
                    group = Some((records, Vec::new()));
                }
                (Slot::Mark(mark), Some((records, inside))) if self.ends(*records, mark) => {
                    if self.counts(*records, inside, mark) {
                        counted.extend(self.records_of(inside));
                    }
                    group = None;
                }
                (Slot::Mark(Mark::Abandons), None) if self == WrongGroup::AbandonsOutside => counted.clear(),
                (slot, Some((_, inside))) => inside.push(slot),
                (slot, None) => counted.extend(self.records_of(&[slot])),
            }
        }
        if let (WrongGroup::OpenCounts, Some((_, inside))) = (self, &group) {
            counted.extend(self.records_of(inside));
        }
        (counted, group)
    }

    fn slot_in(self, word: Word, edition: Edition) -> Slot {
        match (self, slot_in(word, edition)) {
            (WrongGroup::MarksInBothEditions, _) => slot_in(word, Edition::Second),
            (WrongGroup::EveryValueIsAMark, Slot::Spoiled) if is_sound(word) && edition.has_groups() => {
                Slot::Mark(if word[2] < 128 { Mark::Opens(word[2]) } else { Mark::Closes(word[2] - 128) })
            }
            (_, slot) => slot,
        }
    }

    /// Whether the mark ends a group that was opened for so many records.
    fn ends(self, records: u8, mark: Mark) -> bool {
        match mark {
            Mark::Opens(_) => false,
            Mark::Closes(number) => self != WrongGroup::OtherNumberEndsNothing || number == records,
            Mark::Abandons => self != WrongGroup::AbandonEndsNothing,
        }
    }

    /// Whether the records of a group count, by its opening, what stands in it, and the mark that ends it.
    fn counts(self, records: u8, inside: &[Slot], end: Mark) -> bool {
        let found = inside.iter().filter(|slot| matches!(slot, Slot::Record { .. })).count();
        let ended = match self {
            WrongGroup::AnyCloseCounts => matches!(end, Mark::Closes(_)),
            WrongGroup::AbandonedCounts if end == Mark::Abandons => return found == inside.len(),
            _ => end == Mark::Closes(records),
        };
        let right_length = self == WrongGroup::AnyLengthCounts || found == usize::from(records);
        let only_records = self == WrongGroup::OthersArePassedOver || found == inside.len();
        ended && right_length && only_records
    }

    fn records_of(self, slots: &[Slot]) -> Vec<Setting> {
        let record = |slot: &Slot| match *slot {
            Slot::Record { address, value } => Some((address, value)),
            _ => None,
        };
        let mut records: Vec<Setting> = slots.iter().filter_map(record).collect();
        if self == WrongGroup::FirstOfAGroup {
            records.reverse();
        }
        records
    }
}

/// These records alone are to count, and a group is to be open or not; the free slots stay.
fn put_records(page: &mut [u8], records: &[Setting], open: bool) {
    let taken = free_slots(page).start;
    let mut words: Vec<Word> = records.iter().map(|&(address, value)| record(address, value)).collect();
    words.resize(taken, SPOILED);
    if open && taken > 0 {
        words[taken - 1] = mark_word(Mark::Opens(1));
    }
    let words = words.concat();
    page[slot_offset(0)..][..words.len()].copy_from_slice(&words);
}

/// Gives all pages of an edition of the chip this one.
fn put_into(image: &mut [u8], chip: Chip, edition: Edition) {
    for page in chip.pages_mut(image) {
        if let Some(wear) = chip.editions.iter().find_map(|&edition| wear(page, edition)) {
            page[..OPENING_OFFSET].copy_from_slice(&wear_word(wear, edition));
        }
    }
}

fn edition_of_wear(page: &[u8], chip: Chip) -> Option<Edition> {
    chip.editions.iter().copied().find(|&edition| wear(page, edition).is_some())
}

/// Takes all wear words but those of this edition, so that it is the store's.
fn keep(image: &mut [u8], chip: Chip, edition: Option<Edition>) {
    let Some(edition) = edition else {
        return;
    };
    for page in chip.pages_mut(image) {
        if wear(page, edition).is_none() {
            page[..OPENING_OFFSET].copy_from_slice(&SPOILED);
        }
    }
}

fn free_slots_of_active(image: &[u8], chip: Chip) -> usize {
    free_slots(page_at(image, chip, active_page(image, chip).page)).len()
}

/// The image as if the last slot of the active page were taken.
fn with_a_full_page(image: &[u8], chip: Chip) -> Vec<u8> {
    let mut fuller = image.to_vec();
    let end = chip.page_range(active_page(image, chip).page).end;
    fuller[end - 4..end].copy_from_slice(&SPOILED);
    fuller
}

/// Whether the change needs a page for which there is no order.
fn is_at_the_end(image: &[u8], chip: Chip, change: &Change) -> bool {
    active_page(image, chip).order == LAST_ORDER && free_slots_of_active(image, chip) < change.words().len()
}

fn has_room_for_one(image: &[u8], chip: Chip, timer: bool) -> bool {
    let held = held(image, chip);
    held.len() < MOST_HELD && held_by(&held, timer) < MOST_HELD_BY_OWNER
}

fn has_dead_group(image: &[u8], chip: Chip) -> bool {
    let active = page_at(image, chip, active_page(image, chip).page);
    has_open_group(active, edition(image, chip)) && free_slots(active).is_empty()
}

fn has_open_group_below(image: &[u8], chip: Chip) -> bool {
    let below = &used_pages(image, chip)[1..];
    below.iter().any(|used| has_open_group(page_at(image, chip, used.page), edition(image, chip)))
}

/// The first setting of each address.
fn each_once(settings: &[Setting]) -> Change {
    let mut once: Vec<Setting> = Vec::new();
    for &(address, value) in settings {
        if !once.iter().any(|&(earlier, _)| earlier == address) {
            once.push((address, value));
        }
    }
    Change::Group(once)
}

fn neighbours_differ(settings: &[Setting]) -> bool {
    settings.windows(2).all(|pair| pair[0].0 != pair[1].0)
}

/// The first of the settings as one group, the others as another.
fn split(image: &[u8], chip: Chip, settings: &[Setting], first: usize) -> Vec<Step> {
    let [first, others] = <[_; 2]>::from(settings.split_at(first)).map(|part| Change::Group(part.to_vec()));
    let mut steps = accepted_steps(image, chip, &first);
    let mut now = image.to_vec();
    steps.iter().for_each(|&step| do_step(&mut now, step));
    steps.extend(accepted_steps(&now, chip, &others));
    steps
}
