//! The power-cut run: histories of writes and group writes in which power fails at every step of every examined one, in
//! several ways, and then in the recoveries after it. Demand 3 is tested through the store's own reads, blank reads and
//! lookups. Each history is of one chip, whose page size all its calls name, and most are of both owners: each write is
//! by the owner of its addresses.
//!
//! The steps come from a plan, the second implementation's; that the store under test does the same steps is tested by
//! its image after each allowance. A broken store that this catches: a move that erases the old pages before the done
//! word (clause 1). `broken_stores_are_caught` and `wrong_groups_are_caught` have one for each clause of demand 3,
//! `wrong_chips_are_caught` some that are wrong in the larger chip alone, and `wrong_owners_are_caught` some that are
//! wrong in the two owners; there the plan is the broken store's own, so that only the clauses can catch it.
//! ISTROVELL_SEED runs one history alone.

use std::collections::BTreeMap;
use std::time::Instant;

use outside::broken::{Broken, Eager, WrongChip, WrongGroup, WrongOwner, WrongPairing, WRONG_PAIRINGS, WRONG_WEARS};
use outside::failing::*;
use outside::guard::{note_seed, Guarded, Place};
use outside::images::{addresses_of, fill_active, some_addresses, some_change, some_value};
use outside::page::*;
use outside::rng::{asked_for, Rng};
use outside::rules::*;
use outside::word::*;
use outside::*;

/// The store under test.
#[cfg(feature = "library")]
const SUBJECT: library::Library = library::Library;
#[cfg(not(feature = "library"))]
const SUBJECT: Second = Second;

/// What a store can get wrong.
#[derive(Clone, Copy, Debug, PartialEq, Eq, PartialOrd, Ord)]
enum Clause {
    /// Every other address answers as before.
    Others,
    /// A written address answers as before or with its new value.
    Written,
    /// The addresses of a group answer all as before or all with their new values.
    Half,
    /// If a failure at one step leaves the new value, a failure at any later step leaves it too.
    Later,
    /// What a finished write puts at an address, a read finds; a finished recovery leaves nothing to recover.
    Finished,
    /// Blank reads and the pairing lookup say what the reads say.
    Blank,
    /// The other owner's read and blank read of a written address answer OWNER.
    Owner,
    /// The image and the answer after each allowance are those of the plan.
    Steps,
}

type Outcome<T> = Result<T, (Clause, String)>;

#[derive(Clone, Copy)]
struct History {
    seed: u64,
    pages: usize,
    /// It says which chip it is, too. Where there are groups, most writes are group writes.
    edition: Edition,
    /// How many addresses are held from the start.
    held: usize,
    /// How many of the addresses are the timer's, if that is not left to chance.
    timers: Option<usize>,
    /// How many writes are examined.
    examined: usize,
    /// Whether pages are filled at one go between the examined writes, or by a few single writes.
    fast: bool,
    /// Whether only moves are examined.
    only_moves: bool,
    /// How many ways of failing are tried at each step.
    ways: usize,
    /// How many other addresses are read each time.
    watched: usize,
    /// How worn the store is at the start, if it is not as a format leaves it.
    worn: Option<Worn>,
}

impl History {
    fn chip(&self) -> Chip {
        Chip::of(self.edition)
    }
}

#[derive(Clone, Copy)]
struct Worn {
    /// The greatest wear that a page has.
    greatest: u16,
    /// How many cleared pages have no wear word: what a loose contact leaves, and more.
    lost: usize,
}

const fn worn(greatest: u16, lost: usize) -> Option<Worn> {
    Some(Worn { greatest, lost })
}

impl Worn {
    /// Gives each page the greatest wear or one or two less, then takes the wear words from the cleared ones that are to
    /// have none.
    fn wear_out(self, image: &mut [u8], chip: Chip) {
        let edition = edition(image, chip);
        for (index, page) in chip.pages_mut(image).enumerate() {
            page[WEAR_OFFSET..WEAR_OFFSET + 4].copy_from_slice(&wear_word(self.greatest - index as u16 % 3, edition));
        }
        for (page, _) in cleared_pages(image, chip).into_iter().take(self.lost) {
            image[chip.page_range(page)].fill(255);
        }
    }
}

#[derive(Default)]
struct Report {
    failures: BTreeMap<(&'static str, Failing), u64>,
    /// Of the failures, those in a group write, and those on the larger chip.
    failed_groups: u64,
    failed_on_larger: u64,
    recoveries: BTreeMap<&'static str, u64>,
    /// Examined writes and group writes, by page size, by what they do and by pages.
    writes: BTreeMap<(u16, Way, usize), u64>,
    group_writes: BTreeMap<(u16, Way, usize), u64>,
    /// Examined writes and group writes, by owner, by whether it is a group and by what they do, where both owners hold
    /// something.
    by_owner: BTreeMap<(bool, bool, Way), u64>,
    /// Failures in writes of the handset and of the timer, where both owners hold something.
    failed_by_owner: [u64; 2],
    /// Group writes that stand on both sides of the middle of a larger page.
    over_the_middle: u64,
    left_old: u64,
    left_new: u64,
    /// How often the history went on from an open group in a full page.
    went_on_dead: u64,
    reads: u64,
    /// Lookups that found a pairing code, as they had to.
    codes: u64,
    lost: BTreeMap<Clause, u64>,
    first_lost: Option<String>,
}

/// What a write does.
#[derive(Clone, Copy, Debug, PartialEq, Eq, PartialOrd, Ord)]
enum Way {
    Stays,
    Appends,
    OpensAPage,
    Moves,
}

fn way(chip: Chip, steps: &[Step]) -> Way {
    match steps.first() {
        None => Way::Stays,
        _ if steps.iter().any(|step| matches!(step, Step::Erase { .. })) => Way::Moves,
        Some(step) if step.bytes().start % chip.page_bytes == OPENING_OFFSET => Way::OpensAPage,
        Some(_) => Way::Appends,
    }
}

/// Whether a write stands on both sides of the middle of a larger page.
fn is_over_the_middle(chip: Chip, steps: &[Step]) -> bool {
    let sides = steps.iter().map(|step| step.bytes().start % chip.page_bytes >= SMALLER.page_bytes);
    way(chip, steps) == Way::Appends && sides.clone().any(|behind| behind) && sides.clone().any(|behind| !behind)
}

/// Whether a recovery begins with the mark that abandons: it programs no other slot.
fn abandons(chip: Chip, steps: &[Step]) -> bool {
    matches!(steps[0], Step::Program { offset, .. } if offset % chip.page_bytes >= slot_offset(0))
}

impl Report {
    fn failed_writes(&self) -> u64 {
        self.failures.values().sum()
    }

    fn lose(&mut self, (clause, text): (Clause, String)) {
        *self.lost.entry(clause).or_default() += 1;
        self.first_lost.get_or_insert(format!("{clause:?}: {text}"));
    }

    fn print(&self) {
        println!("  examined writes, by page size, by what they do and by pages: {:?}", self.writes);
        println!("  examined group writes: {:?}", self.group_writes);
        println!("  failed writes, groups among them: {}", self.failed_writes());
        println!("  of these on the larger chip: {}", self.failed_on_larger);
        let [handset, timer] = self.failed_by_owner;
        println!("  of these where both owners hold settings: {handset} of the handset's, {timer} of the timer's");
        println!("  group writes over the middle of a larger page: {}", self.over_the_middle);
        for ((step, failing), count) in &self.failures {
            println!("    {step:7} {failing:?}: {count}");
        }
        println!("  recoveries: {:?}", self.recoveries);
        println!("  left the old values {}, left the new values {}", self.left_old, self.left_new);
        println!("  went on from an open group in a full page {}", self.went_on_dead);
        println!("  reads {}, lookups that found a pairing code {}", self.reads, self.codes);
        let lost: u64 = self.lost.values().sum();
        println!("  lost: {lost}");
        let by_half = self.lost.get(&Clause::Half).unwrap_or(&0);
        println!("  {} group writes failed, {lost} lost, {by_half} seen by half", self.failed_groups);
    }
}

struct Run<'a> {
    store: &'a dyn Store,
    plan: &'a dyn Plan,
    history: History,
    chip: Chip,
    rng: Rng,
    pool: Vec<u16>,
    /// What each held address is to answer.
    model: BTreeMap<u16, u8>,
    report: &'a mut Report,
}

/// A write or group write in which power fails.
#[derive(Clone, Debug)]
struct Written {
    settings: Vec<Changed>,
    grouped: bool,
}

/// What an address answers before and after.
#[derive(Clone, Copy, Debug)]
struct Changed {
    address: u16,
    old: Reading,
    new: Reading,
}

impl Written {
    fn names(&self, address: u16) -> bool {
        self.settings.iter().any(|changed| changed.address == address)
    }
}

/// What the written addresses are to answer.
#[derive(Clone, Copy, Debug)]
enum Expected {
    Old,
    New,
    Either,
}

/// What a failure and the recoveries after it left: an image, whether it has the new values, and whether a group is open
/// where there is no slot for the mark that abandons.
struct Left {
    image: Vec<u8>,
    new: bool,
    dead: bool,
}

impl Left {
    fn of(image: Vec<u8>, chip: Chip, new: bool) -> Left {
        let active = used_pages(&image, chip).first().map(|active| page_at(&image, chip, active.page));
        let dead = active.is_some_and(|active| has_open_group(active, edition(&image, chip)));
        Left { image, new, dead }
    }
}

fn held_or_not(value: Option<&u8>) -> Reading {
    value.map_or(Reading::refused(NOT_HELD), |&value| Reading { number: OK, value })
}

/// The image after each number of steps, from none to all.
fn stages(image: &[u8], steps: &[Step]) -> Vec<Vec<u8>> {
    let mut stages = vec![image.to_vec()];
    for &step in steps {
        let mut next = stages[stages.len() - 1].clone();
        do_step(&mut next, step);
        stages.push(next);
    }
    stages
}

fn demand(holds: bool, clause: Clause, text: impl FnOnce() -> String) -> Outcome<()> {
    if holds {
        Ok(())
    } else {
        Err((clause, text()))
    }
}

impl Run<'_> {
    /// Stops when something was lost: from then on the model says nothing.
    fn go(&mut self) {
        let mut image = vec![0x5A; self.history.pages * self.chip.page_bytes];
        let begun = self.begin(&mut image).and_then(|()| self.wear_out(&mut image));
        if let Err(lost) = begun {
            return self.report.lose(lost);
        }
        let mut examined = 0;
        while examined < self.history.examined && self.report.lost.is_empty() {
            self.fast_forward(&mut image);
            let change = self.some_change(&image);
            let steps = self.steps(&image, &change);
            if self.history.only_moves && way(self.chip, &steps) != Way::Moves {
                self.change_quietly(&mut image, &change);
            } else {
                image = self.examine_change(&image, &change, &steps);
                examined += 1;
            }
        }
    }

    /// The size that all calls name.
    fn page_size(&self) -> u16 {
        self.chip.page_size()
    }

    fn begin(&mut self, image: &mut [u8]) -> Outcome<()> {
        let second_edition = self.history.edition == Edition::Second;
        let mut planned = image.to_vec();
        for step in self.plan.format_steps(image, self.chip, second_edition).expect("the size is right") {
            do_step(&mut planned, step);
        }
        let number = self.store.format(image, self.page_size(), second_edition);
        demand(number == OK && image == planned, Clause::Steps, || format!("format answers {number}"))?;
        for index in 0..self.history.held {
            let value = some_value(&mut self.rng);
            self.change_quietly(image, &Change::Single((self.pool[index], value)));
        }
        Ok(())
    }

    /// Wears the store as the history says, and lets power fail at every step of the recovery that it needs then, and in
    /// those after it. Every address answers as before.
    fn wear_out(&mut self, image: &mut [u8]) -> Outcome<()> {
        let Some(worn) = self.history.worn else {
            return Ok(());
        };
        worn.wear_out(image, self.chip);
        let steps = self.recovery_steps(image)?;
        let address = self.rng.pick(&self.pool);
        let same = held_or_not(self.model.get(&address));
        let written = Written { settings: vec![Changed { address, old: same, new: same }], grouped: false };
        for allowance in 0..steps.len() {
            self.check_recovery(&mut image.to_vec(), &steps, allowance as u16)?;
        }
        let stages = stages(image, &steps);
        for (at, &step) in steps.iter().enumerate() {
            for failing in self.ways_to_fail(step) {
                let mut left = stages[at].clone();
                fail(&mut left, step, failing, &mut self.rng);
                *self.report.recoveries.entry("of a worn store, failing at each step").or_default() += 1;
                let found = self.check_answers(&left, &written, Expected::Either)?;
                self.recover_troubled(&mut left, &written, found)?;
            }
        }
        self.finish_recovery(image)?;
        self.check_answers(image, &written, Expected::Either).map(|_| ())
    }

    /// Three digits of a pairing code are held, and power fails at every step of the write of the last.
    fn complete_a_code(&mut self, last: LastDigit) -> Outcome<()> {
        let mut image = vec![0x5A; last.pages * self.chip.page_bytes];
        self.begin(&mut image)?;
        let address = self.pool.remove(last.place);
        for other in self.pool.clone() {
            self.change_quietly(&mut image, &Change::Single((other, last.digit)));
        }
        self.fill_if(last.full, &mut image);
        let change = Change::Single((address, last.digit));
        let steps = self.steps(&image, &change);
        assert_eq!(steps.len(), last.steps, "{last:?}");
        self.examine_change(&image, &change, &steps);
        Ok(())
    }

    /// A code is written as a group, over another or where there was none, and power fails at every step.
    fn write_a_code(&mut self, code: Code) -> Outcome<()> {
        let mut image = vec![0x5A; code.pages * self.chip.page_bytes];
        self.begin(&mut image)?;
        self.fill_if(code.full, &mut image);
        let steps = self.steps(&image, &code.change());
        assert_eq!(steps.len(), code.steps, "{code:?}");
        self.examine_change(&image, &code.change(), &steps);
        Ok(())
    }

    fn fill_if(&mut self, full: bool, image: &mut [u8]) {
        if full {
            let addresses: Vec<u16> = self.model.keys().copied().collect();
            fill_active(image, self.chip, self.chip.slots(), &addresses, &mut self.rng);
            self.model = held(image, self.chip);
        }
    }

    fn steps(&self, image: &[u8], change: &Change) -> Vec<Step> {
        let steps = self.plan.change_steps(image, self.chip, change.timer(), change);
        steps.expect("the plan accepts the writes of a history")
    }

    /// Now and then it has the values already held, and takes no step.
    fn some_change(&mut self, image: &[u8]) -> Change {
        let mut change = some_change(image, self.chip, &self.pool, &mut self.rng);
        if self.rng.one_in(20) {
            for (address, value) in change.settings_mut() {
                *value = self.model.get(address).copied().unwrap_or(*value);
            }
        }
        change
    }

    /// Does all steps of the plan, without a failure.
    fn change_quietly(&mut self, image: &mut [u8], change: &Change) {
        for step in self.steps(image, change) {
            do_step(image, step);
        }
        self.model.extend(change.settings().iter().copied());
    }

    /// Goes on to where the next page is needed, or some writes nearer to it, or to the middle of a larger page.
    fn fast_forward(&mut self, image: &mut [u8]) {
        if self.history.fast && self.rng.one_in(2) {
            let addresses: Vec<u16> = self.model.keys().copied().collect();
            let mut free = free_slots(page_at(image, self.chip, active_page(image, self.chip).page));
            if self.chip == LARGER && free.start < SMALLER.slots() && self.rng.one_in(2) {
                free.end = SMALLER.slots();
            }
            let left = if self.history.edition.has_groups() { 12 } else { 3 };
            let count = free.len().saturating_sub(self.rng.below(left));
            fill_active(image, self.chip, count, &addresses, &mut self.rng);
            self.model = held(image, self.chip);
        } else if !self.history.fast {
            for _ in 0..self.rng.below(4) {
                let change = self.some_change(image);
                if matches!(way(self.chip, &self.steps(image, &change)), Way::Stays | Way::Appends) {
                    self.change_quietly(image, &change);
                }
            }
        }
    }

    /// Power fails at every step of this change. Gives the image from which the history goes on: that of the finished
    /// write, or one that a failure and its recoveries left.
    fn examine_change(&mut self, image: &[u8], change: &Change, steps: &[Step]) -> Vec<u8> {
        let changed = |&(address, value): &Setting| {
            let old = held_or_not(self.model.get(&address));
            Changed { address, old, new: Reading { number: OK, value } }
        };
        let grouped = matches!(change, Change::Group(_));
        let written = Written { settings: change.settings().iter().map(changed).collect(), grouped };
        self.count_change(change, steps);
        let stages = stages(image, steps);
        if let Err(lost) = self.check_allowances(change, &written, &stages) {
            self.report.lose(lost);
        }
        let mut next = Left::of(stages[steps.len()].clone(), self.chip, true);
        let mut new_before = None;
        for (at, &step) in steps.iter().enumerate() {
            let left = self.examine_step(&stages[at], step, at, &written, new_before);
            if left.iter().any(|left| left.new) {
                new_before = new_before.or(Some(at));
            }
            for left in left {
                // What stands behind a dead group is to be met too, and there are few.
                let chances = if left.dead { 2 } else { 2 * self.history.ways * steps.len() };
                if self.rng.one_in(chances) {
                    next = left;
                }
            }
        }
        self.report.went_on_dead += u64::from(next.dead);
        if next.new {
            self.model.extend(change.settings().iter().copied());
        }
        next.image
    }

    /// Power fails in this step in each way. Gives what the failures left; those that lost something are reported.
    fn examine_step(
        &mut self,
        before: &[u8],
        step: Step,
        at: usize,
        written: &Written,
        new_before: Option<usize>,
    ) -> Vec<Left> {
        let mut all_left = Vec::new();
        for failing in self.ways_to_fail(step) {
            let mut image = before.to_vec();
            fail(&mut image, step, failing, &mut self.rng);
            self.count_failure(step, failing, written);
            let outcome =
                self.examine_failure(&mut image, written).and_then(|new| later(new, new_before).map(|()| new));
            match outcome {
                Ok(new) => all_left.push(Left::of(image, self.chip, new)),
                Err((clause, text)) => self
                    .report
                    .lose((clause, format!("{text}, after {failing:?} in step {at}, {step:?}, of {written:?}"))),
            }
        }
        all_left
    }

    fn ways_to_fail(&mut self, step: Step) -> Vec<Failing> {
        let mut ways = failings(step).to_vec();
        self.rng.shuffle(&mut ways[2..]);
        ways.truncate(self.history.ways);
        ways
    }

    fn count_change(&mut self, change: &Change, steps: &[Step]) {
        let kind = (self.page_size(), way(self.chip, steps), self.history.pages);
        let counts = match change {
            Change::Single(_) => &mut self.report.writes,
            Change::Group(_) => &mut self.report.group_writes,
        };
        *counts.entry(kind).or_default() += 1;
        if self.both_hold() {
            let kind = (change.timer(), matches!(change, Change::Group(_)), way(self.chip, steps));
            *self.report.by_owner.entry(kind).or_default() += 1;
        }
        self.report.over_the_middle += u64::from(is_over_the_middle(self.chip, steps));
    }

    fn both_hold(&self) -> bool {
        [false, true].iter().all(|&timer| held_by(&self.model, timer) > 0)
    }

    fn count_failure(&mut self, step: Step, failing: Failing, written: &Written) {
        let name = if matches!(step, Step::Erase { .. }) { "erase" } else { "program" };
        *self.report.failures.entry((name, failing)).or_default() += 1;
        self.report.failed_groups += u64::from(written.grouped);
        let timer = is_timers(written.settings[0].address);
        self.report.failed_by_owner[usize::from(timer)] += u64::from(self.both_hold());
        self.report.failed_on_larger += u64::from(self.chip == LARGER);
    }

    /// The store does the plan's steps, and what it finished it finds.
    fn check_allowances(&mut self, change: &Change, written: &Written, stages: &[Vec<u8>]) -> Outcome<()> {
        let steps = stages.len() - 1;
        self.check_answers(&stages[0], written, Expected::Old)?;
        self.check_answers(&stages[steps], written, Expected::New)?;
        for allowance in (0..=steps).chain([usize::from(u16::MAX)]) {
            let done = allowance.min(steps);
            let mut after = stages[0].clone();
            let answer = self.store.change(&mut after, self.page_size(), change.timer(), change, allowance as u16);
            let expected = Stepped { number: OK, finished: done == steps, steps: done as u16 };
            let same = answer == expected && after == stages[done];
            demand(same, Clause::Steps, || {
                format!("allowance {allowance}: {answer:?} for {expected:?}, or another image")
            })?;
        }
        Ok(())
    }

    /// The clauses on an image that a failure left, and after each of several recoveries, the last of which finishes. Says
    /// whether the new values are there.
    fn examine_failure(&mut self, image: &mut [u8], written: &Written) -> Outcome<bool> {
        let new = self.check_answers(image, written, Expected::Either)?;
        self.recover_troubled(image, written, new)?;
        if new {
            self.report.left_new += 1;
        } else {
            self.report.left_old += 1;
        }
        Ok(new)
    }

    /// Recoveries that change no answer, the last of which finishes.
    fn recover_troubled(&mut self, image: &mut [u8], written: &Written, new: bool) -> Outcome<()> {
        for _ in 0..self.rng.below(3) {
            self.fail_in_a_recovery(image)?;
            let still = self.check_answers(image, written, Expected::Either)?;
            demand(still == new, Clause::Written, || format!("a recovery turned new {new} into new {still}"))?;
        }
        self.finish_recovery(image)?;
        let still = self.check_answers(image, written, Expected::Either)?;
        demand(still == new, Clause::Written, || format!("the last recovery turned new {new} into new {still}"))
    }

    /// Reads the written addresses, as many others as the history says, and one of each owner that was never written.
    /// Says whether the new values are there.
    fn check_answers(&mut self, image: &[u8], written: &Written, expected: Expected) -> Outcome<bool> {
        let start = self.rng.below(self.pool.len());
        let never = [0..32_768, 32_768..65_535].map(|mut own| own.find(|address| !self.pool.contains(address)));
        let never = never.into_iter().flatten();
        let others =
            (0..self.pool.len().min(self.history.watched)).map(|index| self.pool[(start + index) % self.pool.len()]);
        let others: Vec<u16> = others.chain(never).filter(|&address| !written.names(address)).collect();
        for address in others {
            let before = held_or_not(self.model.get(&address));
            let answer = self.read(image, address);
            demand(answer == before, Clause::Others, || format!("{address} answered {before:?}, now {answer:?}"))?;
        }
        let (old, new) = self.check_written(image, written)?;
        let (right, clause) = match expected {
            Expected::Old => (old, Clause::Written),
            Expected::New => (new, Clause::Finished),
            Expected::Either => (true, Clause::Written),
        };
        demand(right, clause, || format!("{written:?} is not {expected:?}"))?;
        Ok(new)
    }

    /// The read of its owner.
    fn read(&mut self, image: &[u8], address: u16) -> Reading {
        self.report.reads += 1;
        self.store.read(image, self.page_size(), is_timers(address), address)
    }

    /// All the written addresses answer as before, or all with their new values, or both if these are the same.
    fn check_written(&mut self, image: &[u8], written: &Written) -> Outcome<(bool, bool)> {
        let mut answers = BTreeMap::new();
        for changed in &written.settings {
            let answer = self.read(image, changed.address);
            demand(answer == changed.old || answer == changed.new, Clause::Written, || {
                format!("the written address {} answers {answer:?}", changed.address)
            })?;
            answers.insert(changed.address, answer);
        }
        let all = |wanted: fn(&Changed) -> Reading| {
            written.settings.iter().all(|changed| answers[&changed.address] == wanted(changed))
        };
        let (old, new) = (all(|changed| changed.old), all(|changed| changed.new));
        demand(old || new, Clause::Half, || format!("half of a group is there: {answers:?}"))?;
        self.check_blank(image, &answers)?;
        Ok((old, new))
    }

    /// The lookup takes the written addresses as they read now, and the others as before. So a code that was whole stays
    /// whole, and one that the write completes is whole exactly if the new values are there.
    fn check_blank(&mut self, image: &[u8], written: &BTreeMap<u16, Reading>) -> Outcome<()> {
        for (&address, read) in written {
            let (size, timer) = (self.page_size(), is_timers(address));
            let blank = self.store.blank_read(image, size, timer, address);
            demand(blank == Reading { number: OK, value: read.value }, Clause::Blank, || {
                format!("the written address {address} answers {read:?}, and blank {blank:?}")
            })?;
            let to_other =
                [self.store.read(image, size, !timer, address), self.store.blank_read(image, size, !timer, address)];
            demand(to_other == [Reading::refused(OWNER); 2], Clause::Owner, || {
                format!("the written address {address} answers the other owner {to_other:?}")
            })?;
        }
        let reads = |address| written.get(&address).copied().unwrap_or_else(|| held_or_not(self.model.get(&address)));
        let code = [16, 17, 18, 19].map(reads);
        let paired = code.iter().all(|read| read.number == OK);
        let found = self.store.lookup(image, self.page_size());
        demand(found == Pairing { number: OK, paired, digits: code.map(|read| read.value) }, Clause::Blank, || {
            format!("the code reads {code:?}, and the lookup finds {found:?}")
        })?;
        self.report.codes += u64::from(paired);
        Ok(())
    }

    fn recovery_steps(&self, image: &[u8]) -> Outcome<Vec<Step>> {
        self.plan
            .recovery_steps(image, self.chip)
            .map_err(|number| (Clause::Others, format!("recovery is refused with {number}")))
    }

    /// A recovery that is cut, by its allowance or by a failing step.
    fn fail_in_a_recovery(&mut self, image: &mut [u8]) -> Outcome<()> {
        let steps = self.recovery_steps(image)?;
        if steps.is_empty() {
            return Ok(());
        }
        let at = self.rng.below(steps.len());
        if self.rng.one_in(2) {
            *self.report.recoveries.entry("cut by allowance").or_default() += 1;
            return self.check_recovery(image, &steps, at as u16);
        }
        let name = if at < 2 && abandons(self.chip, &steps) {
            "with a failing abandon mark"
        } else {
            "with another failing step"
        };
        *self.report.recoveries.entry(name).or_default() += 1;
        steps[..at].iter().for_each(|&step| do_step(image, step));
        fail_somehow(image, steps[at], &mut self.rng);
        Ok(())
    }

    /// A recovery that finishes leaves nothing to recover, and a store that accepts a write.
    fn finish_recovery(&mut self, image: &mut [u8]) -> Outcome<()> {
        let steps = self.recovery_steps(image)?;
        *self.report.recoveries.entry("finished").or_default() += 1;
        self.check_recovery(image, &steps, u16::MAX)?;
        let left = self.recovery_steps(image)?;
        demand(left.is_empty(), Clause::Finished, || format!("a finished recovery leaves {left:?}"))?;
        let setting = (self.rng.pick(&self.pool), some_value(&mut self.rng));
        let change =
            if self.history.edition.has_groups() { Change::Group(vec![setting]) } else { Change::Single(setting) };
        let number = self.store.change(&mut image.to_vec(), self.page_size(), change.timer(), &change, 0).number;
        demand(number == OK, Clause::Finished, || format!("after a finished recovery {change:?} answers {number}"))
    }

    /// The store's recovery, which does the plan's steps.
    fn check_recovery(&mut self, image: &mut [u8], steps: &[Step], allowance: u16) -> Outcome<()> {
        let done = steps.len().min(usize::from(allowance));
        let mut planned = image.to_vec();
        steps[..done].iter().for_each(|&step| do_step(&mut planned, step));
        let answer = self.store.recover(image, self.page_size(), allowance);
        let expected = Stepped { number: OK, finished: done == steps.len(), steps: done as u16 };
        demand(answer == expected && image == planned, Clause::Steps, || {
            format!("recovery with allowance {allowance}: {answer:?}")
        })
    }
}

/// Clause 3: `new_before` is the first step before this one in which a failure left the new value.
fn later(new: bool, new_before: Option<usize>) -> Outcome<()> {
    demand(new || new_before.is_none(), Clause::Later, || {
        format!("old, though a failure in step {new_before:?} left new")
    })
}

/// So many addresses of the timer and so many of the handset, in any order.
fn of_both(timers: usize, handsets: usize, rng: &mut Rng) -> Vec<u16> {
    let mut addresses = [addresses_of(true, timers, rng), addresses_of(false, handsets, rng)].concat();
    rng.shuffle(&mut addresses);
    addresses
}

fn run(history: History, store: &dyn Store, plan: &dyn Plan, report: &mut Report) {
    note_seed(history.seed);
    let mut rng = Rng::new(history.seed);
    // Two addresses more than are held at first, so that some writes are the first of their address.
    let count = (history.held + 2).min(MOST_HELD);
    let pool = match history.timers {
        Some(timers) => of_both(timers, count - timers, &mut rng),
        None => some_addresses(&mut rng, count),
    };
    let lost_before = report.lost.clone();
    Run { store, plan, history, chip: history.chip(), rng, pool, model: BTreeMap::new(), report }.go();
    if report.lost != lost_before {
        println!("lost something with ISTROVELL_SEED={}: {:?}", history.seed, report.first_lost);
    }
}

const PLAIN_RUN: History = History {
    seed: 0,
    pages: 2,
    edition: Edition::First,
    held: 6,
    timers: None,
    examined: 0,
    fast: false,
    only_moves: false,
    ways: 10,
    watched: 12,
    worn: None,
};
const FAST: History = History { examined: 60, fast: true, ..PLAIN_RUN };
const MOVE: History = History { examined: 1, only_moves: true, ..FAST };

/// The first one wears out, the second has worn out, and in the third wears are far from it.
const WORN: [History; 3] = [
    History { seed: 13, pages: 5, held: 8, examined: 25, worn: worn(65_534, 3), ..FAST },
    History { seed: 14, pages: 8, held: 10, examined: 10, watched: 6, worn: worn(65_535, 6), ..MOVE },
    History { seed: 15, pages: 32, held: 5, examined: 20, ways: 6, watched: 4, worn: worn(9, 20), ..FAST },
];

const HISTORIES: [History; 11] = [
    History { seed: 1, examined: 300, ..PLAIN_RUN },
    History { seed: 2, held: 12, ..FAST },
    History { seed: 3, pages: 3, examined: 400, ..PLAIN_RUN },
    History { seed: 4, pages: 3, held: 20, ..FAST },
    History { seed: 5, pages: 8, held: 10, watched: 6, ..FAST },
    History { seed: 6, pages: 32, held: 5, examined: 90, ways: 6, watched: 4, ..FAST },
    History { seed: 7, pages: 2, held: 192, ..MOVE },
    History { seed: 8, pages: 3, held: 192, ways: 5, ..MOVE },
    History { seed: 9, pages: 32, held: 10, ways: 6, watched: 5, ..MOVE },
    History { seed: 10, pages: 8, held: 10, examined: 10, watched: 6, ..MOVE },
    History { seed: 11, pages: 32, held: 192, ways: 3, watched: 3, ..MOVE },
];

/// Most writes are group writes in the second edition.
const IN_GROUPS: History = History { edition: Edition::Second, ..PLAIN_RUN };
const GROUPED: [History; 9] = [
    History { seed: 21, examined: 50, ..IN_GROUPS },
    History { seed: 22, held: 12, examined: 15, fast: true, ..IN_GROUPS },
    History { seed: 23, pages: 3, examined: 50, ..IN_GROUPS },
    History { seed: 24, pages: 3, held: 20, examined: 18, fast: true, ..IN_GROUPS },
    History { seed: 25, pages: 8, held: 10, examined: 16, watched: 6, fast: true, ..IN_GROUPS },
    History { seed: 26, pages: 32, held: 5, examined: 30, ways: 4, watched: 4, fast: true, ..IN_GROUPS },
    History { seed: 27, pages: 2, held: 190, examined: 1, ways: 3, fast: true, only_moves: true, ..IN_GROUPS },
    History {
        seed: 28,
        pages: 32,
        held: 10,
        examined: 1,
        ways: 4,
        watched: 4,
        fast: true,
        only_moves: true,
        ..IN_GROUPS
    },
    History { seed: 29, pages: 5, held: 8, examined: 10, fast: true, worn: worn(65_534, 3), ..IN_GROUPS },
];

/// On the larger chip, where there are groups: pages are filled over their middle, opened and moved, and wear out.
const ON_LARGER: History = History { edition: Edition::Third, ..PLAIN_RUN };
const LARGER_CHIP: [History; 8] = [
    History { seed: 41, examined: 40, ..ON_LARGER },
    History { seed: 42, held: 12, examined: 16, fast: true, ..ON_LARGER },
    History { seed: 43, pages: 3, held: 8, examined: 20, ways: 8, fast: true, ..ON_LARGER },
    History { seed: 44, pages: 8, held: 10, examined: 12, ways: 6, watched: 4, fast: true, ..ON_LARGER },
    History { seed: 45, pages: 32, held: 5, examined: 20, ways: 3, watched: 3, fast: true, ..ON_LARGER },
    History { seed: 46, pages: 2, held: 190, examined: 1, ways: 3, fast: true, only_moves: true, ..ON_LARGER },
    History {
        seed: 51,
        pages: 32,
        held: 10,
        examined: 1,
        ways: 3,
        watched: 3,
        fast: true,
        only_moves: true,
        ..ON_LARGER
    },
    History { seed: 48, pages: 5, held: 8, examined: 6, fast: true, worn: worn(65_534, 3), ..ON_LARGER },
];

/// Both owners have their part of the store for sure: half of it, or as much as one of them may hold and what is left.
const TWO_OWNERS: [History; 6] = [
    History { seed: 71, held: 12, timers: Some(7), examined: 40, ..FAST },
    History { seed: 72, held: 14, timers: Some(8), examined: 16, fast: true, ..IN_GROUPS },
    History { seed: 73, pages: 3, held: 14, timers: Some(8), examined: 14, fast: true, ..IN_GROUPS },
    History { seed: 74, held: 192, timers: Some(128), ways: 5, ..MOVE },
    History { seed: 78, held: 190, timers: Some(64), examined: 1, ways: 3, fast: true, only_moves: true, ..IN_GROUPS },
    History { seed: 76, held: 14, timers: Some(8), examined: 10, fast: true, ..ON_LARGER },
];

/// What it takes to catch a store that is wrong in groups.
const GROUPS_IN_FEW_WAYS: History =
    History { seed: 31, held: 4, examined: 200, ways: 5, watched: 3, fast: true, ..IN_GROUPS };

/// A write that completes a pairing code.
#[derive(Clone, Copy, Debug)]
struct LastDigit {
    /// Which of the four digits it is, counted from 0.
    place: usize,
    digit: u8,
    pages: usize,
    /// Whether the active page is full.
    full: bool,
    steps: usize,
}

/// Each place and each end, into the free slot, into a new page, and by a move.
fn last_digits() -> Vec<LastDigit> {
    let mut all = Vec::new();
    for (pages, full, steps) in [(2, false, 2), (3, true, 4), (2, true, 2 * 4 + 4 + 3)] {
        for (place, digit) in (0..4).flat_map(|place| [0, 7, 255].map(|digit| (place, digit))) {
            all.push(LastDigit { place, digit, pages, full, steps });
        }
    }
    all
}

/// A group write of a pairing code.
#[derive(Clone, Copy, Debug)]
struct Code {
    digits: [u8; 4],
    pages: usize,
    /// How many of the digits are held before, with other values than these.
    held: usize,
    /// Whether the active page is full.
    full: bool,
    steps: usize,
}

impl Code {
    /// Not by rising address, because a group need not be.
    fn change(self) -> Change {
        let [first, second, third, fourth] = self.digits;
        Change::Group(vec![(18, third), (16, first), (19, fourth), (17, second)])
    }
}

/// Over no code, a part of one and a whole one; from the free slot on, into a new page, and by a move.
fn codes() -> Vec<Code> {
    let mut all = Vec::new();
    for (digits, held) in [([7, 1, 3, 9], 0), ([0, 0, 0, 0], 1), ([255, 0, 255, 8], 3), ([0, 255, 7, 0], 4)] {
        for (pages, full, steps) in [(2, false, 12), (3, true, 14), (2, true, 2 * (4 + 1) + 4 + 3)] {
            all.push(Code { digits, pages, held, full, steps });
        }
    }
    all
}

/// A run of this length and edition that begins with these addresses, of which the first are held.
fn run_alone(
    store: &dyn Store,
    history: History,
    pool: Vec<u16>,
    examine: impl FnOnce(&mut Run) -> Outcome<()>,
) -> Report {
    let mut report = Report::default();
    let (chip, rng) = (history.chip(), Rng::new(history.seed));
    let mut run = Run { store, plan: &Second, history, chip, rng, pool, model: BTreeMap::new(), report: &mut report };
    if let Err(lost) = examine(&mut run) {
        report.lose(lost);
    }
    report
}

fn complete_a_code(last: LastDigit, edition: Edition, store: &dyn Store) -> Report {
    let history = History { pages: last.pages, held: 0, edition, ..PLAIN_RUN };
    run_alone(store, history, (16..20).collect(), |run| run.complete_a_code(last))
}

/// Beside the digits an address of the timer is held, so that a page can be filled where no digit is.
fn write_a_code(code: Code, edition: Edition, store: &dyn Store) -> Report {
    let history = History { pages: code.pages, held: 1 + code.held, edition, ..PLAIN_RUN };
    run_alone(store, history, vec![40_000, 16, 17, 18, 19], |run| run.write_a_code(code))
}

#[test]
fn power_cuts_lose_nothing() {
    let mut report = Report::default();
    let guarded = [Place::AfterStartGuard, Place::BeforeEndGuard].map(|place| Guarded::new(SUBJECT, place));
    let all = HISTORIES.into_iter().chain(WORN).chain(GROUPED).chain(LARGER_CHIP).chain(TWO_OWNERS);
    let asked: Vec<History> = all.clone().filter(|history| asked_for(history.seed)).collect();
    for &history in &asked {
        let begin = Instant::now();
        let before = report.failed_writes();
        run(history, &guarded[(history.seed % 2) as usize], &Second, &mut report);
        let failed = report.failed_writes() - before;
        let seconds = begin.elapsed().as_secs_f64();
        let size = history.chip().page_size();
        println!("history {}: {} pages of {size}, {failed} failed writes, {seconds:.1} s", history.seed, history.pages);
    }
    report.print();
    assert_eq!(report.first_lost, None);
    if asked.len() == all.count() {
        assert!(report.failed_writes() >= 20_000 && report.failed_groups >= 10_000 && report.failed_on_larger >= 5_000);
        for (size, counts) in [(1_024, &report.writes), (1_024, &report.group_writes), (2_048, &report.group_writes)] {
            assert!([2, 3, 8, 32].iter().all(|&pages| counts.contains_key(&(size, Way::Appends, pages))));
            assert!([3, 8, 32].iter().all(|&pages| counts.contains_key(&(size, Way::OpensAPage, pages))));
            assert!([2, 3, 32].iter().all(|&pages| counts.contains_key(&(size, Way::Moves, pages))));
        }
        assert!([2, 3].iter().all(|&pages| report.writes.contains_key(&(2_048, Way::Appends, pages))));
        assert!(report.recoveries.contains_key("with a failing abandon mark"));
        assert!(report.went_on_dead > 0 && report.codes > 0 && report.over_the_middle > 0);
        for (timer, grouped) in [(false, false), (false, true), (true, false), (true, true)] {
            for way in [Way::Appends, Way::OpensAPage, Way::Moves] {
                assert!(report.by_owner.contains_key(&(timer, grouped, way)), "{timer} {grouped} {way:?}");
            }
        }
        assert!(report.failed_by_owner.iter().all(|&failed| failed >= 10_000), "{:?}", report.failed_by_owner);
    }
}

/// Both are left by failures in each such write.
#[test]
fn a_code_is_completed_or_not() {
    for edition in [Edition::First, Edition::Third] {
        for last in last_digits() {
            let report = complete_a_code(last, edition, &SUBJECT);
            assert_eq!(report.first_lost, None, "{last:?}");
            assert!(report.left_old > 0 && report.left_new > 0 && report.codes > 0, "{last:?}");
        }
    }
}

/// The lookup gives the old code or the new one, and failures in each such write leave both.
#[test]
fn a_code_written_as_a_group_is_old_or_new() {
    for edition in [Edition::Second, Edition::Third] {
        for code in codes() {
            let report = write_a_code(code, edition, &SUBJECT);
            assert_eq!(report.first_lost, None, "{code:?}");
            assert!(report.left_old > 0 && report.left_new > 0 && report.codes > 0, "{code:?}");
        }
    }
}

/// With its own plan a broken store is caught by the clause it breaks; with the second implementation's plan by its
/// steps, or by the same clause if it does the same steps and reads them otherwise.
#[test]
fn broken_stores_are_caught() {
    let history = History { seed: 12, examined: 300, ..PLAIN_RUN };
    let caught = [
        (Broken::EraseFirst, Clause::Others),
        (Broken::OldAfterNew, Clause::Finished),
        (Broken::ReceivingIsCurrent, Clause::Others),
        (Broken::ExclusiveOr, Clause::Written),
        (Broken::OldPagesCount, Clause::Others),
        (Broken::Wavering, Clause::Later),
    ];
    for (broken, clause) in caught {
        let mut report = Report::default();
        run(history, &Stepwise(broken), &broken, &mut report);
        println!("{broken:?}: {:?}", report.lost);
        assert!(report.lost.contains_key(&clause), "{broken:?} was not caught by {clause:?}");
        let mut report = Report::default();
        run(history, &Stepwise(broken), &Second, &mut report);
        assert!(
            report.lost.contains_key(&clause) || report.lost.contains_key(&Clause::Steps),
            "{broken:?}: {:?}",
            report.lost
        );
    }
    let mut report = Report::default();
    run(history, &Eager, &Second, &mut report);
    assert!(report.lost.contains_key(&Clause::Steps), "Eager was not caught");
}

/// No clause of demand 3 speaks of wear, so only the second implementation's steps catch a wrong one.
#[test]
fn wrong_wears_are_caught() {
    for broken in WRONG_WEARS {
        let mut report = Report::default();
        WORN.into_iter().for_each(|history| run(history, &Stepwise(broken), &Second, &mut report));
        assert!(report.lost.contains_key(&Clause::Steps), "{broken:?} was not caught");
    }
}

/// With the right steps and other answers: demand 3 is about the answers too.
#[test]
fn wrong_pairings_are_caught() {
    for wrong in WRONG_PAIRINGS {
        let clause = if wrong == WrongPairing::BlankIsHeld { Clause::Steps } else { Clause::Blank };
        let caught = last_digits()
            .into_iter()
            .find(|&last| complete_a_code(last, Edition::First, &wrong).lost.contains_key(&clause));
        assert!(caught.is_some(), "{wrong:?} was not caught by {clause:?}");
    }
}

/// With their own plan and by a clause that they break, as the broken stores are. A finished write that is lost shows in
/// whatever the history examines next.
#[test]
fn wrong_groups_are_caught() {
    const A_WRITE_IS_LOST: &[Clause] = &[Clause::Others, Clause::Written, Clause::Finished];
    let caught: [(WrongGroup, &[Clause]); 11] = [
        (WrongGroup::NoMarks, &[Clause::Half]),
        (WrongGroup::OpenCounts, &[Clause::Half]),
        (WrongGroup::AbandonedCounts, &[Clause::Half]),
        (WrongGroup::FewSlotsWithoutMarks, &[Clause::Half]),
        (WrongGroup::Split, &[Clause::Half]),
        (WrongGroup::ClosesInstead, &[Clause::Written]),
        (WrongGroup::NoAbandon, &[Clause::Finished]),
        (WrongGroup::DeadIsUnclean, &[Clause::Finished]),
        (WrongGroup::RenewsFirst, &[Clause::Finished]),
        (WrongGroup::OpenIsNothing, A_WRITE_IS_LOST),
        (WrongGroup::GoesOn, A_WRITE_IS_LOST),
    ];
    for (wrong, clauses) in caught {
        let plans: [&dyn Plan; 2] = [&wrong, &Second];
        let [own, other] = plans.map(|plan| {
            let mut report = Report::default();
            for pages in [3, 2] {
                run(History { pages, ..GROUPS_IN_FEW_WAYS }, &Stepwise(wrong), plan, &mut report);
            }
            report.lost
        });
        println!("{wrong:?}: {own:?}, by the other plan {other:?}");
        assert!(clauses.iter().any(|clause| own.contains_key(clause)), "{wrong:?} was not caught by {clauses:?}");
        let by_the_same = clauses.iter().any(|clause| other.contains_key(clause));
        assert!(by_the_same || other.contains_key(&Clause::Steps), "{wrong:?}: {other:?}");
    }
}

/// With their own plan, and by whatever clause: a store that puts records where it doesn't look for them loses them. Most
/// others lose nothing by themselves, and only the comparison and the rules show them.
#[test]
fn wrong_chips_are_caught() {
    let caught =
        [WrongChip::LastNotSearched, WrongChip::BackNotSearched, WrongChip::GroupEndsAt252, WrongChip::NoMarks];
    let history = History { seed: 49, pages: 3, held: 4, examined: 100, ways: 4, watched: 6, fast: true, ..ON_LARGER };
    for wrong in caught {
        let plans: [&dyn Plan; 2] = [&wrong, &Second];
        let [own, other] = plans.map(|plan| {
            let mut report = Report::default();
            run(history, &Stepwise(wrong), plan, &mut report);
            report.lost
        });
        println!("{wrong:?}: {own:?}, by the other plan {other:?}");
        assert!(!own.is_empty() && !other.is_empty(), "{wrong:?} was not caught");
    }
    let mut report = Report::default();
    run(history, &Stepwise(WrongChip::Nothing), &WrongChip::Nothing, &mut report);
    assert_eq!(report.first_lost, None);
}

/// With their own plan: a move that leaves the other's settings behind loses them, and reads of the other's addresses
/// answer.
#[test]
fn wrong_owners_are_caught() {
    const LOST: &[Clause] = &[Clause::Others, Clause::Written, Clause::Finished];
    let caught: [(WrongOwner, &[Clause]); 5] = [
        (WrongOwner::MovesOwnAlone, LOST),
        (WrongOwner::TwinsAnswer, LOST),
        (WrongOwner::ReadsIgnoreOwner, &[Clause::Owner]),
        (WrongOwner::BlankReadsIgnoreOwner, &[Clause::Owner]),
        (WrongOwner::BlankOfOtherIs0, &[Clause::Owner]),
    ];
    let in_few_ways = History { seed: 61, held: 12, timers: Some(7), examined: 40, ways: 3, fast: true, ..PLAIN_RUN };
    for (wrong, clauses) in caught {
        for edition in EDITIONS {
            let mut report = Report::default();
            run(History { edition, ..in_few_ways }, &Stepwise(wrong), &wrong, &mut report);
            println!("{wrong:?}: {:?}", report.lost);
            let is_caught = clauses.iter().any(|clause| report.lost.contains_key(clause));
            assert!(is_caught, "{wrong:?} was not caught by {clauses:?} in {edition:?}");
        }
    }
    for edition in EDITIONS {
        let mut report = Report::default();
        run(History { edition, ..in_few_ways }, &Stepwise(WrongOwner::Nothing), &WrongOwner::Nothing, &mut report);
        assert_eq!(report.first_lost, None);
    }
}
