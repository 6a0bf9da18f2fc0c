//! Two stores on many images of either chip: every answer and every byte of the image is compared, of calls that name the
//! image's page size, the other chip's, and sizes that no chip has.
//!
//! With the feature `library` it is the second implementation against the library. Without it, it is the calls as
//! `second` does them against the lists of steps of `steps`, run one step at a time.
//!
//! A broken store that this catches: a write that does all its steps at allowance 1 (`Eager`); the others are in
//! `broken_stores_are_caught`, `wrong_pairings_are_caught`, `wrong_groups_are_caught`, `wrong_chips_are_caught` and
//! `wrong_owners_are_caught`, and listings that miscount in `wrong_listings_are_caught`. ISTROVELL_IMAGES says how many
//! images, ISTROVELL_SEED runs one alone.

use std::collections::BTreeMap;
use std::io::Write;
use std::process::{Command, Stdio};
use std::time::Instant;

use outside::broken::{Broken, Eager, WrongChip, WrongGroup, WrongOwner};
use outside::broken::{WRONG_CHIPS, WRONG_GROUPS, WRONG_LISTINGS, WRONG_OWNERS, WRONG_PAIRINGS, WRONG_WEARS};
use outside::cases::{note_editions, note_group_write, note_groups, note_other_size, note_slots, rare, Counts};
use outside::cases::{note_owner_of_read, note_owner_of_write, note_owners};
use outside::guard::{note_seed, Guarded, Place};
use outside::images::{self, addresses_of, some_group_size, some_value, WRONG_SIZES};
use outside::page::*;
use outside::rng::{seeds, Rng};
use outside::rules::*;
use outside::word::*;
use outside::*;

/// The store under test.
#[cfg(feature = "library")]
const SUBJECT: library::Library = library::Library;
#[cfg(not(feature = "library"))]
const SUBJECT: Stepwise<Second> = Stepwise(Second);

#[derive(Clone, Debug)]
enum Call {
    Format { second_edition: bool },
    Recover { allowance: u16 },
    Write { timer: bool, address: u16, value: u8, allowance: u16 },
    WriteGroup { timer: bool, group: Vec<u8>, allowance: u16 },
    Read { timer: bool, address: u16 },
    BlankRead { timer: bool, address: u16 },
    Lookup,
}

const CALL_NAMES: [&str; 7] = ["format", "recovery", "write", "group write", "read", "blank read", "lookup"];

#[derive(Clone, Copy, Debug, PartialEq, Eq)]
enum Answer {
    Number(u8),
    Stepped(Stepped),
    Reading(Reading),
    Pairing(Pairing),
}

impl Call {
    fn on(&self, store: &dyn Store, image: &mut [u8], size: u16) -> Answer {
        match *self {
            Call::Format { second_edition } => Answer::Number(store.format(image, size, second_edition)),
            Call::Recover { allowance } => Answer::Stepped(store.recover(image, size, allowance)),
            Call::Write { timer, address, value, allowance } => {
                Answer::Stepped(store.write(image, size, timer, address, value, allowance))
            }
            Call::WriteGroup { timer, ref group, allowance } => {
                Answer::Stepped(store.write_group(image, size, timer, group, allowance))
            }
            Call::Read { timer, address } => Answer::Reading(store.read(image, size, timer, address)),
            Call::BlankRead { timer, address } => Answer::Reading(store.blank_read(image, size, timer, address)),
            Call::Lookup => Answer::Pairing(store.lookup(image, size)),
        }
    }

    fn formats(&self) -> bool {
        matches!(self, Call::Format { .. })
    }

    fn index(&self) -> usize {
        match self {
            Call::Format { .. } => 0,
            Call::Recover { .. } => 1,
            Call::Write { .. } => 2,
            Call::WriteGroup { .. } => 3,
            Call::Read { .. } => 4,
            Call::BlankRead { .. } => 5,
            Call::Lookup => 6,
        }
    }
}

impl Answer {
    fn number(self) -> u8 {
        match self {
            Answer::Number(number) => number,
            Answer::Stepped(answer) => answer.number,
            Answer::Reading(answer) => answer.number,
            Answer::Pairing(answer) => answer.number,
        }
    }
}

/// What the run met, to show that it met everything.
#[derive(Default)]
struct Tally {
    /// By the chip whose size a call names.
    chips: [ChipTally; 2],
    /// Calls that name a size of no chip, on a store that is accepted at its own, by size.
    wrong_sizes: BTreeMap<u16, [u64; 7]>,
    /// Answers by number at the other chip's size: of the image of a seed, and of what a format and calls at the chip's own
    /// size left; by the chip.
    at_other_size: [[u64; NUMBERS]; 2],
    formatted_at_other_size: [[u64; NUMBERS]; 2],
}

#[derive(Default)]
struct ChipTally {
    numbers: [[u64; NUMBERS]; 7],
    codes: Codes,
    /// Accepted writes, and accepted group writes, by the greatest number of steps they did: 0, 1, 2, 3, 4, more.
    steps: [[u64; 6]; 2],
    unfinished: u64,
    /// Images that are accepted, by pages.
    pages: BTreeMap<usize, u64>,
    /// The groups, editions, slots and owners of the images, what they are at the other size, and the cases of writes
    /// and reads.
    cases: Counts,
}

/// What the lookups found.
#[derive(Debug, Default)]
struct Codes {
    whole: u64,
    with_a_0: u64,
    with_a_255: u64,
    /// Codes of which one digit was missing.
    of_three: u64,
}

impl Codes {
    fn count(&mut self, image: &[u8], chip: Chip, answer: Pairing) {
        self.whole += u64::from(answer.paired);
        self.with_a_0 += u64::from(answer.paired && answer.digits.contains(&0));
        self.with_a_255 += u64::from(answer.paired && answer.digits.contains(&255));
        self.of_three += u64::from(!answer.paired && held(image, chip).range(16..20).count() == 3);
    }

    fn assert_complete(&self) {
        let counts = [self.whole, self.with_a_0, self.with_a_255, self.of_three];
        assert!(counts.iter().all(|&count| count > 0), "{self:?}");
    }
}

/// The place of a chip in the counts.
fn index(chip: Chip) -> usize {
    usize::from(chip == LARGER)
}

fn other(chip: Chip) -> Chip {
    CHIPS[1 - index(chip)]
}

impl Tally {
    fn count_image(&mut self, image: &[u8], chip: Chip) {
        let tally = &mut self.chips[index(chip)];
        note_other_size(image, chip, &mut tally.cases);
        if test_size(image, chip).is_ok() {
            note_editions(image, chip, &mut tally.cases);
        }
        if test_store(image, chip).is_ok() {
            *tally.pages.entry(page_count(image, chip)).or_default() += 1;
            note_groups(image, chip, &mut tally.cases);
            note_slots(image, chip, &mut tally.cases);
            note_owners(image, chip, &mut tally.cases);
        }
    }

    fn count(&mut self, image: &[u8], size: u16, call: &Call, answer: Answer) {
        if let Ok(chip) = chip_named(size) {
            self.chips[index(chip)].count(image, chip, call, answer);
        }
    }

    fn print(&self) {
        for (chip, tally) in CHIPS.iter().zip(&self.chips) {
            println!("  calls that name {}:", chip.page_size());
            tally.print();
        }
        println!("  calls that name a size of no chip: {:?}", self.wrong_sizes);
        for (chip, numbers) in CHIPS.iter().zip(self.at_other_size) {
            println!("  images of {} at the other size, answers by number 0 to 11: {numbers:?}", chip.page_size());
        }
        for (chip, numbers) in CHIPS.iter().zip(self.formatted_at_other_size) {
            println!("  formatted at {}, at the other size, answers by number 0 to 11: {numbers:?}", chip.page_size());
        }
    }

    /// Each chip was met in full, each call named each wrong size, and each chip's images were lent at the other size.
    fn assert_complete(&self) {
        self.chips.iter().for_each(ChipTally::assert_complete);
        for size in WRONG_SIZES {
            assert!(self.wrong_sizes[&size].iter().all(|&count| count > 0), "{size}: {:?}", self.wrong_sizes[&size]);
        }
        let met = |numbers: &[u64; NUMBERS], number: u8| numbers[usize::from(number)] > 0;
        for numbers in &self.at_other_size {
            assert!([OK, SIZE, NO_STORE, DAMAGED, UNCLEAN, NOT_HELD].iter().all(|&number| met(numbers, number)));
        }
        for numbers in &self.formatted_at_other_size {
            assert!([SIZE, NO_STORE].iter().all(|&number| met(numbers, number)), "{numbers:?}");
        }
    }
}

impl ChipTally {
    fn count(&mut self, image: &[u8], chip: Chip, call: &Call, answer: Answer) {
        self.numbers[call.index()][usize::from(answer.number())] += 1;
        match (call, answer) {
            (_, Answer::Pairing(answer)) if answer.number == OK => self.codes.count(image, chip, answer),
            (&Call::Write { timer, address, value, .. }, Answer::Stepped(answer)) => {
                self.count_steps(0, answer);
                let change = Change::Single((address, value));
                note_owner_of_write(image, chip, timer, &change, answer, &mut self.cases);
            }
            (Call::WriteGroup { timer, group, .. }, Answer::Stepped(answer)) => {
                self.count_steps(1, answer);
                note_group_write(image, chip, group, answer, &mut self.cases);
                note_owner_of_write(image, chip, *timer, &Change::group(group), answer, &mut self.cases);
            }
            (&Call::Read { timer, address } | &Call::BlankRead { timer, address }, Answer::Reading(answer)) => {
                let blank = matches!(call, Call::BlankRead { .. });
                note_owner_of_read(image, chip, timer, address, blank, answer.number, &mut self.cases);
            }
            _ => {}
        }
    }

    fn count_steps(&mut self, which: usize, answer: Stepped) {
        if answer.number == OK {
            self.steps[which][usize::from(answer.steps).min(5)] += 1;
            self.unfinished += u64::from(!answer.finished);
        }
    }

    fn print(&self) {
        println!("  stores by pages: {:?}", self.pages);
        for (name, numbers) in CALL_NAMES.iter().zip(self.numbers) {
            println!("  {name:11} answers by number 0 to 11: {numbers:?}");
        }
        let [writes, group_writes] = self.steps;
        println!("  writes of 0, 1, 2, 3, 4 and more steps: {writes:?}, group writes: {group_writes:?}");
        println!("  unfinished: {}", self.unfinished);
        println!("  pairing codes: {:?}", self.codes);
        for (case, count) in &self.cases {
            println!("  {count:7} {case}");
        }
    }

    /// Each call gave each of its numbers, and no other; and each case was met.
    fn assert_complete(&self) {
        let given: [&[u8]; 7] = [
            &[0, 1],
            &[0, 1, 2, 3],
            &[0, 1, 2, 3, 4, 5, 6, 7, 11],
            &[0, 1, 2, 3, 4, 5, 6, 7, 9, 11],
            &[0, 1, 2, 3, 5, 8, 11],
            &[0, 1, 2, 3, 5, 11],
            &[0, 1, 2, 3],
        ];
        for call in 0..7 {
            for number in 0..NUMBERS {
                let expected = given[call].contains(&(number as u8));
                let met = self.numbers[call][number] > 0;
                assert_eq!(met, expected, "{} met number {number}: {met}", CALL_NAMES[call]);
            }
        }
        assert!([2, 3, 8, 31, 32].iter().all(|pages| self.pages.contains_key(pages)), "{:?}", self.pages);
        self.codes.assert_complete();
        assert!(self.steps.iter().flatten().all(|&count| count > 0));
        assert_eq!(rare(&self.cases, 1), [""; 0], "never met");
    }
}

/// One call on both stores, from the same image. Gives its number and the image after it.
fn compare_call(
    image: &[u8],
    size: u16,
    call: &Call,
    stores: [&dyn Store; 2],
    tally: &mut Tally,
) -> Result<(u8, Vec<u8>), String> {
    let mut images = [image.to_vec(), image.to_vec()];
    let answers = [call.on(stores[0], &mut images[0], size), call.on(stores[1], &mut images[1], size)];
    if answers[0] != answers[1] {
        return Err(format!("{call:?} at {size}: {:?} and {:?}", answers[0], answers[1]));
    }
    if images[0] != images[1] {
        let offset = (0..image.len()).find(|&offset| images[0][offset] != images[1][offset]).expect("a byte differs");
        let (first, second) = (images[0][offset], images[1][offset]);
        return Err(format!(
            "{call:?} at {size}: {:?}, byte {offset} is {first} and {second}, was {}",
            answers[0], image[offset]
        ));
    }
    let number = answers[0].number();
    if number != OK && images[0] != image {
        return Err(format!("{call:?} at {size}: refused with {:?}, yet the image changed", answers[0]));
    }
    if WRONG_SIZES.contains(&size) && number != SIZE {
        return Err(format!("{call:?} at {size}: {:?}", answers[0]));
    }
    tally.count(image, size, call, answers[0]);
    let [after, _] = images;
    Ok((number, after))
}

/// Held addresses, one that is 32,768 on or back from such a one, one named in any slot at all, special ones and one at
/// random.
fn addresses_for(image: &[u8], chip: Chip, rng: &mut Rng) -> Vec<u16> {
    let mut addresses = Vec::new();
    if test_size(image, chip).is_ok() {
        let held: Vec<u16> = held(image, chip).into_keys().collect();
        if !held.is_empty() {
            let twin = rng.pick(&held) ^ FIRST_OF_TIMER;
            addresses.extend([rng.pick(&held), rng.pick(&held), twin]);
        }
        let page = page_at(image, chip, rng.below(page_count(image, chip)));
        let word = slot_word(page, rng.below(chip.slots()));
        addresses.push(u16::from_le_bytes([word[0], word[1]]));
    }
    let border = rng.pick(&[FIRST_OF_TIMER - 1, FIRST_OF_TIMER]);
    addresses.extend([rng.below(65_536) as u16, 16 + rng.below(4) as u16, border, 65_534, NO_ADDRESS]);
    addresses
}

/// The owner of the address or, now and then, the other.
fn some_owner(address: u16, rng: &mut Rng) -> bool {
    is_timers(address) != rng.one_in(5)
}

fn some_allowance(rng: &mut Rng) -> u16 {
    let random = rng.below(500) as u16;
    rng.pick(&[0, 1, 2, 3, 4, random, random, u16::MAX])
}

fn held_value(image: &[u8], chip: Chip, address: u16) -> Option<u8> {
    test_store(image, chip).ok().and_then(|()| value(image, chip, address))
}

/// As many as are worth trying for a change: at its ends, in it, and none too few or too many.
fn allowances_for(image: &[u8], chip: Chip, change: &Change, rng: &mut Rng) -> [u16; 8] {
    let length = change_steps(image, chip, change.timer(), change).map_or(0, |steps| steps.len());
    let before_the_end = length.saturating_sub(1 + rng.below(8)) as u16;
    let inside = rng.below(length + 1) as u16;
    [0, 1, 2, 3, inside, before_the_end, length as u16, u16::MAX]
}

/// The first address gets every allowance; each gets one for the value that a blank read gives, which takes steps only
/// if it isn't held, or for any. And each owner writes one that is most likely new.
fn writes_for(image: &[u8], chip: Chip, addresses: &[u16], rng: &mut Rng) -> Vec<Call> {
    let mut calls = Vec::new();
    let main = addresses[0];
    let other = held_value(image, chip, main).unwrap_or(rng.byte()).wrapping_add(1 + rng.below(255) as u8);
    for allowance in allowances_for(image, chip, &Change::Single((main, other)), rng) {
        calls.push(Call::Write { timer: is_timers(main), address: main, value: other, allowance });
    }
    for &address in addresses {
        let value = if rng.one_in(2) { held_value(image, chip, address).unwrap_or(0) } else { some_value(rng) };
        calls.push(Call::Write { timer: some_owner(address, rng), address, value, allowance: some_allowance(rng) });
    }
    for timer in [false, true] {
        let address = addresses_of(timer, 1, rng)[0];
        calls.push(Call::Write { timer, address, value: some_value(rng), allowance: some_allowance(rng) });
    }
    calls
}

/// What an owner's group write depends on: its settings and the other's, in an image that is accepted, and how many
/// free slots there are.
struct Room {
    timer: bool,
    own: Vec<Setting>,
    others: Vec<Setting>,
    free: usize,
}

impl Room {
    fn of(image: &[u8], chip: Chip, timer: bool) -> Room {
        if test_store(image, chip).is_err() {
            return Room { timer, own: Vec::new(), others: Vec::new(), free: 0 };
        }
        let active = page_at(image, chip, active_page(image, chip).page);
        let (own, others) = held(image, chip).into_iter().partition(|&(address, _)| owns(timer, address));
        Room { timer, own, others, free: free_slots(active).len() }
    }

    /// This many of the owner's settings, or all if there are fewer.
    fn some_held(&self, count: usize, rng: &mut Rng) -> Vec<Setting> {
        let mut held = self.own.clone();
        rng.shuffle(&mut held);
        held.truncate(count);
        held
    }

    /// The owner's settings of which this many have addresses that aren't held. The others have other values than they
    /// have now.
    fn some_settings(&self, new: usize, count: usize, rng: &mut Rng) -> Vec<Setting> {
        let mut settings = self.some_held(count - new, rng);
        settings.iter_mut().for_each(|(_, value)| *value = value.wrapping_add(1 + rng.below(255) as u8));
        while settings.len() < count {
            let address = addresses_of(self.timer, 1, rng)[0];
            if !self.own.iter().chain(&settings).any(|&(named, _)| named == address) {
                settings.push((address, some_value(rng)));
            }
        }
        rng.shuffle(&mut settings);
        settings
    }

    /// Held addresses, new ones or both: as many new ones as there is just room for, or just not, if that is few.
    fn some_group(&self, rng: &mut Rng) -> Vec<Setting> {
        let count = some_group_size(self.free, rng);
        let of_owner = MOST_HELD_BY_OWNER.saturating_sub(self.own.len());
        let room = of_owner.min(MOST_HELD - self.own.len() - self.others.len());
        let new = match rng.below(4) {
            0 => 0,
            1 => count,
            _ if room < MOST_IN_A_GROUP => room + rng.below(2),
            _ => rng.below(count + 1),
        };
        self.some_settings(new, count.max(new), rng)
    }

    /// A setting of the other owner: as it is, or with another value, or new, or at the border.
    fn some_of_other(&self, rng: &mut Rng) -> Setting {
        let border = if self.timer { FIRST_OF_TIMER - 1 } else { FIRST_OF_TIMER };
        let any = addresses_of(!self.timer, 1, rng)[0];
        let address = rng.pick(&[border, any]);
        if self.others.is_empty() || rng.one_in(4) {
            return (address, some_value(rng));
        }
        let (address, value) = rng.pick(&self.others);
        (address, if rng.one_in(3) { some_value(rng) } else { value })
    }

    /// A group of which one address is the other owner's, or all are; as often as not the others have their held
    /// values.
    fn foreign_group(&self, rng: &mut Rng) -> Vec<u8> {
        let count = some_group_size(self.free, rng).clamp(1, MOST_IN_A_GROUP - 1);
        let mut settings = if rng.one_in(2) { self.some_held(count, rng) } else { self.some_group(rng) };
        settings.truncate(MOST_IN_A_GROUP - 1);
        if rng.one_in(6) {
            settings.clear();
        }
        let between = rng.below(settings.len() + 1);
        let place = rng.pick(&[0, settings.len(), between]);
        settings.insert(place, self.some_of_other(rng));
        group_bytes(&settings)
    }

    /// Bytes that are no group, or name an address that is none; now and then one is the other owner's.
    fn wrong_groups(&self, rng: &mut Rng) -> [Vec<u8>; 3] {
        let length = rng.pick(&[0, 1, 2, 4, 23, 25, 27, 30, 765]);
        let wrong_length = (0..length).map(|_| rng.byte()).collect();
        let count = some_group_size(self.free, rng).max(2);
        let mut settings = self.some_settings(rng.below(3), count, rng);
        if rng.one_in(3) {
            settings[rng.below(count)] = self.some_of_other(rng);
        }
        let (place, other) = (rng.below(count), rng.below(count));
        settings[place].0 = NO_ADDRESS;
        let wrong_address = group_bytes(&settings);
        settings[place].0 = settings[other].0;
        if place == other {
            settings[(place + 1) % count].0 = NO_ADDRESS;
        }
        [wrong_length, wrong_address, group_bytes(&settings)]
    }
}

/// One group, of either owner, gets every allowance. The others are held already, or but for one setting, or are wrong.
fn groups_for(image: &[u8], chip: Chip, rng: &mut Rng) -> Vec<Call> {
    let rooms = [false, true].map(|timer| Room::of(image, chip, timer));
    let room = &rooms[rng.below(2)];
    let timer = room.timer;
    let main = room.some_group(rng);
    let group = group_bytes(&main);
    let allowances = allowances_for(image, chip, &Change::Group(main), rng);
    let mut calls = allowances.map(|allowance| Call::WriteGroup { timer, group: group.clone(), allowance }).to_vec();
    let room = &rooms[rng.below(2)];
    let timer = room.timer;
    let count = some_group_size(room.free, rng);
    let all_held = room.some_held(count, rng);
    let mut all_but_one = all_held.clone();
    if let Some((_, value)) = all_but_one.last_mut() {
        *value = value.wrapping_add(1);
    }
    let mut others = vec![group_bytes(&all_held), group_bytes(&all_but_one), group_bytes(&room.some_group(rng))];
    others.extend(room.wrong_groups(rng));
    others.extend([room.foreign_group(rng), room.foreign_group(rng)]);
    for group in others {
        calls.push(Call::WriteGroup { timer, group, allowance: some_allowance(rng) });
    }
    calls
}

fn calls_for(image: &[u8], chip: Chip, rng: &mut Rng) -> Vec<Call> {
    let addresses = addresses_for(image, chip, rng);
    let mut calls = vec![Call::Lookup];
    calls.extend([false, true].map(|second_edition| Call::Format { second_edition }));
    for allowance in [0, 1 + rng.below(3) as u16, rng.below(96) as u16, u16::MAX] {
        calls.push(Call::Recover { allowance });
    }
    for &address in &addresses {
        let timer = is_timers(address);
        calls.extend([Call::Read { timer, address }, Call::BlankRead { timer, address }]);
        let timer = !timer;
        calls.push(if rng.one_in(2) { Call::Read { timer, address } } else { Call::BlankRead { timer, address } });
    }
    calls.extend(writes_for(image, chip, &addresses, rng));
    calls.extend(groups_for(image, chip, rng));
    calls
}

/// The call of this index, with arguments that suit the image.
fn some_call(which: usize, image: &[u8], chip: Chip, rng: &mut Rng) -> Call {
    let addresses = addresses_for(image, chip, rng);
    let address = rng.pick(&addresses);
    let timer = some_owner(address, rng);
    let allowance = some_allowance(rng);
    match which {
        0 => Call::Format { second_edition: rng.one_in(2) },
        1 => Call::Recover { allowance },
        2 => Call::Write { timer, address, value: some_value(rng), allowance },
        3 => Call::WriteGroup { timer, group: group_bytes(&Room::of(image, chip, timer).some_group(rng)), allowance },
        4 => Call::Read { timer, address },
        5 => Call::BlankRead { timer, address },
        _ => Call::Lookup,
    }
}

/// All seven calls on the image of this seed; and both writes on the recovered image too, because most crafted images are
/// unclean, and on what the first write leaves, with a lookup at last. Then calls that name other sizes.
fn compare_image(seed: u64, stores: [&dyn Store; 2], tally: &mut Tally) -> Result<(), String> {
    let mut rng = Rng::new(!seed);
    let (chip, image) = images::image(seed);
    let size = chip.page_size();
    tally.count_image(&image, chip);
    let calls = calls_for(&image, chip, &mut rng);
    for call in &calls {
        compare_call(&image, size, call, stores, tally)?;
    }
    let (_, recovered) = compare_call(&image, size, &Call::Recover { allowance: u16::MAX }, stores, tally)?;
    let mut latest = recovered.clone();
    let addresses = addresses_for(&recovered, chip, &mut rng);
    if recovered != image {
        let writes = writes_for(&recovered, chip, &addresses, &mut rng);
        for call in writes.into_iter().chain(groups_for(&recovered, chip, &mut rng)) {
            compare_call(&recovered, size, &call, stores, tally)?;
        }
    }
    for address in addresses {
        let timer = some_owner(address, &mut rng);
        let call = Call::Write { timer, address, value: some_value(&mut rng), allowance: u16::MAX };
        (_, latest) = compare_call(&latest, size, &call, stores, tally)?;
        compare_call(&latest, size, &Call::Read { timer, address }, stores, tally)?;
    }
    for timer in [false, true, rng.one_in(2)] {
        let group = Room::of(&latest, chip, timer).some_group(&mut rng);
        let (address, _) = group[0];
        let call = Call::WriteGroup { timer, group: group_bytes(&group), allowance: u16::MAX };
        (_, latest) = compare_call(&latest, size, &call, stores, tally)?;
        compare_call(&latest, size, &Call::Read { timer, address }, stores, tally)?;
    }
    compare_call(&latest, size, &Call::Lookup, stores, tally)?;
    compare_other_sizes(&image, chip, &calls, &mut rng, stores, tally)?;
    compare_in_turn(image, chip, &mut rng, stores, tally)
}

/// Each call with the other chip's size, and each of these with a size that no chip has.
fn compare_other_sizes(
    image: &[u8],
    chip: Chip,
    calls: &[Call],
    rng: &mut Rng,
    stores: [&dyn Store; 2],
    tally: &mut Tally,
) -> Result<(), String> {
    let accepted = test_store(image, chip).is_ok();
    for which in 0..CALL_NAMES.len() {
        let call = some_call(which, image, other(chip), rng);
        let (number, _) = compare_call(image, other(chip).page_size(), &call, stores, tally)?;
        tally.at_other_size[index(chip)][usize::from(number)] += u64::from(!call.formats());
        let alike: Vec<&Call> = calls.iter().filter(|call| call.index() == which).collect();
        let wrong_size = rng.pick(&WRONG_SIZES);
        compare_call(image, wrong_size, rng.pick(&alike), stores, tally)?;
        tally.wrong_sizes.entry(wrong_size).or_default()[which] += u64::from(accepted);
    }
    Ok(())
}

/// Calls that name either size, on one image in turn. Nothing is promised of them, and still both stores do the same.
fn compare_in_turn(
    mut image: Vec<u8>,
    chip: Chip,
    rng: &mut Rng,
    stores: [&dyn Store; 2],
    tally: &mut Tally,
) -> Result<(), String> {
    let mut formatted = None;
    for _ in 0..5 {
        let named = if rng.one_in(2) { chip } else { other(chip) };
        let call = some_call(rng.below(CALL_NAMES.len()), &image, named, rng);
        let (number, after) = compare_call(&image, named.page_size(), &call, stores, tally)?;
        if formatted == Some(other(named)) && !call.formats() {
            tally.formatted_at_other_size[index(other(named))][usize::from(number)] += 1;
        }
        if call.formats() && number == OK {
            formatted = Some(named);
        } else if formatted != Some(named) && after != image {
            formatted = None;
        }
        image = after;
    }
    Ok(())
}

/// Runs the seeds and stops at the first that differs.
fn compare_seeds(
    seeds: &[u64],
    stores_of: impl Fn(u64) -> [&'static dyn Store; 2],
    tally: &mut Tally,
) -> Result<(), String> {
    for &seed in seeds {
        note_seed(seed);
        compare_image(seed, stores_of(seed), tally).map_err(|text| format!("ISTROVELL_SEED={seed}: {text}"))?;
    }
    Ok(())
}

fn leak(store: impl Store + 'static) -> &'static dyn Store {
    Box::leak(Box::new(store))
}

#[test]
fn both_stores_agree() {
    let begin = Instant::now();
    let seeds = seeds(20_000);
    let second: &'static dyn Store = &Second;
    let guarded = [Place::AfterStartGuard, Place::BeforeEndGuard].map(|place| leak(Guarded::new(SUBJECT, place)));
    let mut tally = Tally::default();
    let result = compare_seeds(&seeds, |seed| [second, guarded[(seed % 2) as usize]], &mut tally);
    println!("{} images compared in {:.1} s", seeds.len(), begin.elapsed().as_secs_f64());
    tally.print();
    result.unwrap();
    if seeds.len() >= 5_000 {
        tally.assert_complete();
    }
}

/// The forward and the backward search of the second implementation, and its listing, say the same. An image of the larger
/// chip is listed as what it is at 1,024.
#[test]
fn the_listing_agrees_with_reads() {
    for seed in seeds(2_000) {
        let (_, image) = images::image(seed);
        let text = String::from_utf8(listing(&image)).unwrap();
        let recovery = recover(&mut image.clone(), SMALLER.page_size(), 0);
        if recovery.number != OK {
            assert_eq!(text, format!("refused {}\n", recovery.number), "seed {seed}");
            continue;
        }
        let mut lines = text.lines();
        let (_, from_held) = lines.next().and_then(|line| line.split_once(" held ")).unwrap();
        assert_eq!(lines.clone().count().to_string(), from_held.split(' ').next().unwrap(), "seed {seed}");
        for line in lines {
            let (address, value) = line.split_once(' ').unwrap();
            let address = address.parse().unwrap();
            let reading = read(&image, SMALLER.page_size(), is_timers(address), address);
            assert_eq!((reading.number, reading.value.to_string()), (OK, value.to_string()), "seed {seed}");
        }
    }
}

/// The listings that tests/listing compares the program with are by a model of their own, in Python.
#[test]
fn the_stored_listings_are_right() {
    let directory = concat!(env!("CARGO_MANIFEST_DIR"), "/../tests/listing.d");
    let mut compared = 0;
    for path in std::fs::read_dir(directory).unwrap().map(|entry| entry.unwrap().path()) {
        if path.extension().is_some_and(|extension| extension == "bin") {
            let image = std::fs::read(&path).unwrap();
            let stored = std::fs::read(path.with_extension("txt")).unwrap();
            assert!(listing(&image) == stored, "{path:?}");
            compared += 1;
        }
    }
    assert!(compared >= 20, "{compared} images are stored");
}

fn output_of(program: &str, input: &[u8]) -> Vec<u8> {
    let mut command = Command::new(program);
    let mut child = command.stdin(Stdio::piped()).stdout(Stdio::piped()).spawn().expect("the listing program starts");
    // A program that refuses early may not read all of its input.
    let _ = child.stdin.take().expect("stdin is a pipe").write_all(input);
    child.wait_with_output().expect("the listing program ends").stdout
}

/// How many images the listing program is compared on.
const LISTED: u64 = 1_000;

/// Runs the seeds and stops at the first whose image is not listed as the second implementation lists it.
fn compare_listings(seeds: &[u64], print: impl Fn(&[u8]) -> Vec<u8>) -> Result<(), String> {
    for &seed in seeds {
        let (_, image) = images::image(seed);
        let [printed, listed] = [print(&image), listing(&image)].map(|text| String::from_utf8(text).unwrap());
        if printed != listed {
            return Err(format!("ISTROVELL_SEED={seed}: {printed:?} and {listed:?}"));
        }
    }
    Ok(())
}

#[test]
#[ignore = "needs the listing program under test: ISTROVELL_LISTING=path"]
fn the_listing_program_prints_the_same() {
    let program = std::env::var("ISTROVELL_LISTING").expect("ISTROVELL_LISTING names the program");
    compare_listings(&seeds(LISTED), |image| output_of(&program, image)).unwrap();
}

#[test]
fn wrong_listings_are_caught() {
    let seeds: Vec<u64> = (0..LISTED).collect();
    for wrong in WRONG_LISTINGS {
        let Err(text) = compare_listings(&seeds, |image| wrong.listing(image)) else {
            panic!("{wrong:?} was not caught");
        };
        println!("{wrong:?}: {text}");
    }
}

#[test]
fn broken_stores_are_caught() {
    let broken = [
        Broken::EraseFirst,
        Broken::OldAfterNew,
        Broken::ReceivingIsCurrent,
        Broken::ExclusiveOr,
        Broken::LowHalfTwice,
        Broken::OldPagesCount,
        Broken::Wavering,
        Broken::FirstBlankSlot,
    ];
    let seeds: Vec<u64> = (0..2_000).collect();
    for broken in broken.into_iter().chain(WRONG_WEARS) {
        let stores = [&Second as &dyn Store, leak(Stepwise(broken))];
        let caught = compare_seeds(&seeds, |_| stores, &mut Tally::default());
        println!("{broken:?}: {}", caught.as_ref().expect_err("a broken store passed"));
    }
    let stores = [&Second as &dyn Store, &Eager];
    let caught = compare_seeds(&seeds, |_| stores, &mut Tally::default());
    println!("Eager: {}", caught.expect_err("a broken store passed"));
}

/// How many images it takes to catch a store that is wrong in groups or editions.
#[test]
fn wrong_groups_are_caught() {
    let seeds: Vec<u64> = (0..2_000).collect();
    for wrong in WRONG_GROUPS {
        let stores = [&Second as &dyn Store, leak(Stepwise(wrong))];
        let Err(text) = compare_seeds(&seeds, |_| stores, &mut Tally::default()) else {
            panic!("{wrong:?} was not caught");
        };
        println!("{wrong:?}: {text}");
    }
    let stores = [&Second as &dyn Store, leak(Stepwise(WrongGroup::Nothing))];
    compare_seeds(&seeds[..1_000], |_| stores, &mut Tally::default()).expect("nothing is wrong here");
}

/// The same of a store that is wrong in the larger chip or in page sizes.
#[test]
fn wrong_chips_are_caught() {
    let seeds: Vec<u64> = (0..2_000).collect();
    for wrong in WRONG_CHIPS {
        let stores = [&Second as &dyn Store, leak(Stepwise(wrong))];
        let Err(text) = compare_seeds(&seeds, |_| stores, &mut Tally::default()) else {
            panic!("{wrong:?} was not caught");
        };
        println!("{wrong:?}: {text}");
    }
    let stores = [&Second as &dyn Store, leak(Stepwise(WrongChip::Nothing))];
    compare_seeds(&seeds[..500], |_| stores, &mut Tally::default()).expect("nothing is wrong here");
}

/// The same of a store that is wrong in the two owners.
#[test]
fn wrong_owners_are_caught() {
    let seeds: Vec<u64> = (0..2_000).collect();
    for wrong in WRONG_OWNERS {
        let stores = [&Second as &dyn Store, leak(Stepwise(wrong))];
        let Err(text) = compare_seeds(&seeds, |_| stores, &mut Tally::default()) else {
            panic!("{wrong:?} was not caught");
        };
        println!("{wrong:?}: {text}");
    }
    let stores = [&Second as &dyn Store, leak(Stepwise(WrongOwner::Nothing))];
    compare_seeds(&seeds[..500], |_| stores, &mut Tally::default()).expect("nothing is wrong here");
}

#[test]
fn wrong_pairings_are_caught() {
    let seeds: Vec<u64> = (0..1_000).collect();
    for wrong in WRONG_PAIRINGS {
        let stores = [&Second as &dyn Store, leak(wrong)];
        let Err(text) = compare_seeds(&seeds, |_| stores, &mut Tally::default()) else {
            panic!("{wrong:?} was not caught");
        };
        println!("{wrong:?}: {text}");
    }
}

/// A store that reads the byte after what it is lent, the image or the group, and one that reads the byte before it.
struct Overreaching {
    after: bool,
}

impl Overreaching {
    fn byte_beside(&self, lent: &[u8]) -> u8 {
        let bytes = lent.as_ptr();
        let beside = if self.after { bytes.wrapping_add(lent.len()) } else { bytes.wrapping_sub(1) };
        // SAFETY: none; this is the fault that the guard is there for.
        unsafe { beside.read_volatile() }
    }
}

impl Store for Overreaching {
    fn format(&self, _: &mut [u8], _: u16, _: bool) -> u8 {
        SIZE
    }
    fn recover(&self, _: &mut [u8], _: u16, _: u16) -> Stepped {
        Stepped::refused(SIZE)
    }
    fn write(&self, _: &mut [u8], _: u16, _: bool, _: u16, _: u8, _: u16) -> Stepped {
        Stepped::refused(SIZE)
    }
    fn write_group(&self, _: &mut [u8], _: u16, _: bool, group: &[u8], _: u16) -> Stepped {
        Stepped::refused(self.byte_beside(group))
    }
    fn read(&self, image: &[u8], _: u16, _: bool, _: u16) -> Reading {
        Reading { number: OK, value: self.byte_beside(image) }
    }
    fn blank_read(&self, image: &[u8], size: u16, timer: bool, address: u16) -> Reading {
        self.read(image, size, timer, address)
    }
    fn lookup(&self, _: &[u8], _: u16) -> Pairing {
        Pairing::refused(SIZE)
    }
}

/// Reads the byte that OUTSIDE_DIES names, and dies of it.
fn overreach(side: &str) {
    let after = side.starts_with("after");
    let place = if after { Place::BeforeEndGuard } else { Place::AfterStartGuard };
    let store = Guarded::new(Overreaching { after }, place);
    if side.ends_with("the image") {
        store.read(&[255; 2_048], 1_024, false, 0);
    } else {
        store.write_group(&mut [255; 2_048], 1_024, false, &[5, 0, 65], 0);
    }
}

/// The process that dies is this test program again, told by OUTSIDE_DIES which byte to read.
#[test]
fn the_guards_are_felt() {
    if let Ok(side) = std::env::var("OUTSIDE_DIES") {
        return overreach(&side);
    }
    for side in ["after the image", "before the image", "after the group", "before the group"] {
        let program = std::env::current_exe().unwrap();
        let mut command = Command::new(program);
        let output =
            command.args(["the_guards_are_felt", "--exact", "--nocapture"]).env("OUTSIDE_DIES", side).output().unwrap();
        let errors = String::from_utf8_lossy(&output.stderr);
        let died = !output.status.success() && errors.contains("memory outside the lent bytes was touched");
        assert!(died, "a read of the byte {side} lived");
    }
}
