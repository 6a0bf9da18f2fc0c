//! Two programs on one store, the handset and the glaze timer, over long histories: writes of either, finished,
//! stopped, cut by a failing step or refused, and the recoveries after them.
//!
//! The numbers are tested against what the rule says in words: neither comes to hold more than 128, a write that leaves
//! its owner with at most 64 always has room, and nobody writes or reads what is the other's. Then pairs of histories
//! with the same writes of one owner and different ones of the other: every read of the one answers the same in both.
//!
//! Broken stores that these catch: one whose limit is 129, one that counts the other's addresses, one that finds the
//! other's value under an address of its own, and more in the last tests, each with its own plan. ISTROVELL_SEED runs
//! one history alone.

use std::collections::BTreeMap;

use outside::broken::WrongOwner;
use outside::failing::fail_somehow;
use outside::guard::{note_seed, Guarded, Place};
use outside::images::{addresses_of, some_group_size, some_value};
use outside::page::*;
use outside::rng::{asked_for, Rng};
use outside::rules::*;
use outside::word::*;
use outside::*;

/// The store under test.
#[cfg(feature = "library")]
const SUBJECT: library::Library = library::Library;
#[cfg(not(feature = "library"))]
const SUBJECT: Second = Second;

/// What a store can get wrong.
#[derive(Clone, Copy, Debug, PartialEq, Eq)]
enum Clause {
    /// Neither comes to hold more than 128, nor both more than 192.
    Limit,
    /// A write that leaves its owner with at most 64 is not told NO ROOM.
    Room,
    /// A call answers the number that the rule says.
    Number,
    /// A setting is found by its owner as it was written, or as before in a write that was cut; a group whole or not at
    /// all.
    Found,
    /// Nobody reads the other's addresses.
    Owner,
    /// Reads of an owner depend on its own writes alone.
    Alike,
}

type Outcome<T> = Result<T, (Clause, String)>;

fn demand(holds: bool, clause: Clause, text: impl FnOnce() -> String) -> Outcome<()> {
    if holds {
        Ok(())
    } else {
        Err((clause, text()))
    }
}

const BOTH: [bool; 2] = [false, true];

/// How a change ended.
#[derive(Clone, Copy, Debug, PartialEq, Eq, PartialOrd, Ord)]
enum End {
    Refused(u8),
    Finished,
    /// Stopped or cut, with the old values or with the new.
    Old,
    New,
}

/// One store, and what the calls on it say.
struct Shared<'a> {
    store: &'a dyn Store,
    plan: &'a dyn Plan,
    chip: Chip,
    image: Vec<u8>,
    /// What each held address is to answer.
    model: BTreeMap<u16, u8>,
    /// What each owner held at first: by calls none, but bytes may have come from elsewhere.
    first: [usize; 2],
    rng: Rng,
}

impl Shared<'_> {
    fn size(&self) -> u16 {
        self.chip.page_size()
    }

    fn held_by(&self, timer: bool) -> usize {
        self.model.keys().filter(|&&address| (address > 32_767) == timer).count()
    }

    /// The number that the rule gives the change in a store that is clean, in words.
    fn number_for(&self, timer: bool, change: &Change) -> u8 {
        let settings = change.settings();
        let new = self.new_in(change);
        if settings.iter().any(|&(address, _)| address == 65_535) {
            ADDRESS
        } else if settings.iter().any(|&(address, _)| (address > 32_767) != timer) {
            OWNER
        } else if new > 0 && (self.held_by(timer) + new > 128 || self.model.len() + new > 192) {
            NO_ROOM
        } else {
            OK
        }
    }

    fn new_in(&self, change: &Change) -> usize {
        change.settings().iter().filter(|(address, _)| !self.model.contains_key(address)).count()
    }

    /// The change, by this owner, in a store that is clean: it is finished, stopped or cut. What was stopped or cut
    /// waits for recovery.
    fn attempt(&mut self, timer: bool, change: &Change, cut: bool) -> Outcome<End> {
        let mut after = self.image.clone();
        let answer = self.store.change(&mut after, self.size(), timer, change, u16::MAX);
        let then = self.held_by(timer) + self.new_in(change);
        let by_rule = self.number_for(timer, change);
        let what = || format!("{answer:?} to {change:?} by the timer: {timer}, which then holds {then}");
        let began_within = self.first.iter().all(|&first| first <= 128);
        demand(answer.number != NO_ROOM || then > 64 || !began_within, Clause::Room, what)?;
        let beyond = self.new_in(change) > 0 && then > 128 || self.model.len() + self.new_in(change) > 192;
        demand(answer.number != OK || !beyond, Clause::Limit, what)?;
        demand(answer.number == by_rule && answer.finished == (by_rule == OK), Clause::Number, what)?;
        if answer.number != OK {
            demand(after == self.image, Clause::Found, what)?;
            return Ok(End::Refused(answer.number));
        }
        if !cut || answer.steps == 0 {
            self.image = after;
            self.model.extend(change.settings().iter().copied());
            return Ok(End::Finished);
        }
        self.cut(timer, change, answer.steps);
        let new = self.is_new(change)?;
        if new {
            self.model.extend(change.settings().iter().copied());
        }
        Ok(if new { End::New } else { End::Old })
    }

    /// Stops the change after some of its steps, or lets power fail in one: in the last ones often, where old turns
    /// new.
    fn cut(&mut self, timer: bool, change: &Change, steps: u16) {
        let steps = usize::from(steps);
        let at = if self.rng.one_in(2) { self.rng.below(steps) } else { steps - 1 - self.rng.below(steps.min(10)) };
        if self.rng.one_in(2) {
            self.store.change(&mut self.image, self.chip.page_size(), timer, change, at as u16);
            return;
        }
        let plan = self.plan.change_steps(&self.image, self.chip, timer, change).expect("the change was accepted");
        plan[..at].iter().for_each(|&step| do_step(&mut self.image, step));
        fail_somehow(&mut self.image, plan[at], &mut self.rng);
    }

    /// Whether the new values are there: all or none.
    fn is_new(&self, change: &Change) -> Outcome<bool> {
        let (mut old, mut new) = (true, true);
        for &(address, value) in change.settings() {
            let reading = self.store.read(&self.image, self.size(), address > 32_767, address);
            old &= reading == held_or_not(self.model.get(&address));
            new &= reading == Reading { number: OK, value };
        }
        demand(old || new, Clause::Found, || format!("{change:?} is neither there nor not"))?;
        Ok(new)
    }

    /// Recoveries that power cuts, and at last one that finishes.
    fn recover(&mut self) -> Outcome<()> {
        while self.rng.one_in(2) {
            let steps = self.plan.recovery_steps(&self.image, self.chip);
            let steps = steps.map_err(|number| (Clause::Found, format!("recovery is refused with {number}")))?;
            if !steps.is_empty() {
                let at = self.rng.below(steps.len());
                steps[..at].iter().for_each(|&step| do_step(&mut self.image, step));
                fail_somehow(&mut self.image, steps[at], &mut self.rng);
            }
        }
        let answer = self.store.recover(&mut self.image, self.chip.page_size(), u16::MAX);
        demand(answer.number == OK && answer.finished, Clause::Found, || format!("recovery: {answer:?}"))
    }

    /// What both owners are answered at this address.
    fn check(&self, address: u16) -> Outcome<()> {
        let timer = address > 32_767;
        let read = |timer| self.store.read(&self.image, self.size(), timer, address);
        let blank_read = |timer| self.store.blank_read(&self.image, self.size(), timer, address);
        let expected = held_or_not(self.model.get(&address));
        demand(read(timer) == expected, Clause::Found, || format!("{address} is to be {expected:?}"))?;
        let blank = Reading { number: OK, value: expected.value };
        demand(blank_read(timer) == blank, Clause::Found, || format!("{address} is to be {blank:?} if blank"))?;
        let refused = [read(!timer), blank_read(!timer)] == [Reading::refused(OWNER); 2];
        demand(refused, Clause::Owner, || format!("{address} answers the other owner"))
    }
}

fn held_or_not(value: Option<&u8>) -> Reading {
    value.map_or(Reading::refused(NOT_HELD), |&value| Reading { number: OK, value })
}

fn formatted(store: &dyn Store, edition: Edition, pages: usize) -> Vec<u8> {
    let chip = Chip::of(edition);
    let mut image = vec![0x5A; pages * chip.page_bytes];
    assert_eq!(store.format(&mut image, chip.page_size(), edition == Edition::Second), OK);
    image
}

/// Settings of this pool, of which some have their held values: one, or where there are groups often several.
fn some_change(shared: &mut Shared, pool: &[u16]) -> Change {
    let grouped = edition(&shared.image, shared.chip).has_groups() && shared.rng.one_in(2);
    let count = if grouped { some_group_size(99, &mut shared.rng) } else { 1 };
    let mut addresses = pool.to_vec();
    shared.rng.shuffle(&mut addresses);
    addresses.truncate(count);
    let mut settings = Vec::new();
    let all_held = shared.rng.one_in(8);
    for address in addresses {
        let value = some_value(&mut shared.rng);
        let held = shared.model.get(&address).filter(|_| all_held || shared.rng.one_in(8));
        settings.push((address, held.copied().unwrap_or(value)));
    }
    if grouped {
        Change::Group(settings)
    } else {
        Change::Single(settings[0])
    }
}

/// Puts an address that is not the owner's into the change, with its held value if it has one.
fn spoil(shared: &mut Shared, change: &mut Change, pool_of_other: &[u16]) {
    let foreign = shared.rng.pick(pool_of_other);
    let address = if shared.rng.one_in(5) { 65_535 } else { foreign };
    let settings = change.settings_mut();
    let place = shared.rng.below(settings.len());
    settings[place] = (address, shared.model.get(&address).copied().unwrap_or(settings[place].1));
}

/// How often each end was met, by owner, and what the owners came to hold at most, each and both.
#[derive(Debug, Default)]
struct Met {
    ends: BTreeMap<(bool, End), u64>,
    most: [usize; 2],
    most_of_both: usize,
}

impl Met {
    fn count(&mut self, shared: &Shared, timer: bool, end: End) {
        *self.ends.entry((timer, end)).or_default() += 1;
        for timer in BOTH {
            let most = &mut self.most[usize::from(timer)];
            *most = shared.held_by(timer).max(*most);
        }
        self.most_of_both = shared.model.len().max(self.most_of_both);
    }

    fn assert_complete(&self, timer: bool) {
        let refused = [ADDRESS, OWNER, NO_ROOM].map(End::Refused);
        for end in refused.into_iter().chain([End::Finished, End::Old, End::New]) {
            assert!(self.ends.contains_key(&(timer, end)), "{end:?} by the timer: {timer}");
        }
    }
}

#[derive(Clone, Copy)]
struct History {
    seed: u64,
    edition: Edition,
    pages: usize,
    changes: usize,
    /// Of ten changes so many are the timer's.
    by_timer: usize,
    /// What the handset and the timer hold at first.
    first: [usize; 2],
}

/// More addresses of each owner than it may hold, the border among them.
fn pools(rng: &mut Rng) -> [Vec<u16>; 2] {
    [(false, 32_767), (true, 32_768)].map(|(timer, border)| {
        let mut pool = addresses_of(timer, 150, rng);
        pool.retain(|&address| address != border);
        pool.push(border);
        pool
    })
}

/// A store that may be from before the rule: it holds so many of the first addresses of each pool, with value 1.
fn holding(history: History, store: &dyn Store, pools: &[Vec<u16>; 2]) -> (Vec<u8>, BTreeMap<u16, u8>) {
    let mut image = formatted(store, history.edition, history.pages);
    let mut model = BTreeMap::new();
    for (pool, count) in pools.iter().zip(history.first) {
        for &address in &pool[..count] {
            let at = slot_offset(model.len());
            image[at..at + 4].copy_from_slice(&record(address, 1));
            model.insert(address, 1);
        }
    }
    (image, model)
}

/// Both owners write in turn, and all that they are answered is as the rule says.
fn run(history: History, store: &dyn Store, plan: &dyn Plan, met: &mut Met) -> Outcome<()> {
    note_seed(history.seed);
    let mut rng = Rng::new(history.seed);
    let pools = pools(&mut rng);
    let (image, model) = holding(history, store, &pools);
    let chip = Chip::of(history.edition);
    let mut shared = Shared { store, plan, chip, image, model, first: history.first, rng };
    for done in 0..history.changes {
        let timer = shared.rng.below(10) < history.by_timer;
        let [own, others] = [timer, !timer].map(|timer| &pools[usize::from(timer)]);
        let mut change = some_change(&mut shared, own);
        if shared.rng.one_in(12) {
            spoil(&mut shared, &mut change, others);
        }
        let cut = shared.rng.one_in(3);
        let end = shared.attempt(timer, &change, cut)?;
        met.count(&shared, timer, end);
        let mut watched = vec![shared.rng.pick(own), shared.rng.pick(others)];
        watched.extend(change.settings().iter().map(|&(address, _)| address).filter(|&address| address != 65_535));
        if done % 100 == 99 {
            watched.extend(pools.concat());
        }
        watched.iter().try_for_each(|&address| shared.check(address))?;
        if cut {
            shared.recover()?;
            watched.iter().try_for_each(|&address| shared.check(address))?;
        }
        for timer in BOTH {
            let (most, holds) = (history.first[usize::from(timer)].max(128), shared.held_by(timer));
            demand(holds <= most, Clause::Limit, || format!("{holds} are held by the timer: {timer}"))?;
        }
    }
    Ok(())
}

const OF_BOTH: History =
    History { seed: 1, edition: Edition::First, pages: 2, changes: 700, by_timer: 5, first: [0, 0] };

/// From a format on: as much of one as of the other, most of the one and most of the other, in each form of the pages.
fn histories() -> Vec<History> {
    let mut all = Vec::new();
    for edition in EDITIONS {
        for (pages, by_timer) in [(2, 5), (2, 1), (2, 9), (3, 1), (3, 9), (5, 5)] {
            all.push(History { seed: 100 + all.len() as u64, edition, pages, by_timer, ..OF_BOTH });
        }
    }
    all
}

/// From a store on that was there before the rule, in which an owner has its 128 or more.
fn older_histories() -> Vec<History> {
    let mut all = Vec::new();
    for edition in EDITIONS {
        for first in [[128, 64], [64, 128], [140, 20], [20, 140], [129, 0], [0, 150]] {
            all.push(History { seed: 200 + all.len() as u64, edition, changes: 250, first, ..OF_BOTH });
        }
    }
    all
}

#[test]
fn neither_comes_to_hold_more_than_128() {
    let guarded = [Place::AfterStartGuard, Place::BeforeEndGuard].map(|place| Guarded::new(SUBJECT, place));
    for (all, most) in [(histories(), [128, 128]), (older_histories(), [140, 150])] {
        let mut met = Met::default();
        let asked: Vec<History> = all.iter().copied().filter(|history| asked_for(history.seed)).collect();
        for &history in &asked {
            let outcome = run(history, &guarded[(history.seed % 2) as usize], &Second, &mut met);
            assert_eq!(outcome, Ok(()), "ISTROVELL_SEED={}", history.seed);
        }
        println!("{met:?}");
        if asked.len() == all.len() {
            BOTH.into_iter().for_each(|timer| met.assert_complete(timer));
            assert_eq!((met.most, met.most_of_both), (most, 192));
        }
    }
}

/// Two histories with the same writes of one owner, all of them finished, and different ones of the other.
#[derive(Clone, Copy)]
struct Pair {
    seed: u64,
    edition: Edition,
    pages: usize,
    /// Whose writes are the same.
    timer: bool,
    writes: usize,
    /// Whether every address of the owner is read at the end.
    all_read: bool,
}

/// The owner has 64 addresses, so that there is always room for it. Of the other's, some are 32,768 on or back from
/// these.
fn run_pair(pair: Pair, store: &dyn Store, plan: &dyn Plan, met: &mut Met) -> Outcome<()> {
    note_seed(pair.seed);
    let mut rng = Rng::new(pair.seed);
    let (timer, chip) = (pair.timer, Chip::of(pair.edition));
    let own = addresses_of(timer, 64, &mut rng);
    let beside = |address: &u16| Some(address ^ 32_768).filter(|&twin| twin != 65_535);
    let mut others = addresses_of(!timer, 150, &mut rng);
    others.extend(own.iter().filter_map(beside));
    others.sort();
    others.dedup();
    let own_or_not: Vec<u16> = own.iter().copied().chain(others.iter().filter_map(beside)).collect();
    let mut runs = [1, 2].map(|which| {
        let image = formatted(store, pair.edition, pair.pages);
        let rng = Rng::new(pair.seed + (which << 32));
        Shared { store, plan, chip, image, model: BTreeMap::new(), first: [0, 0], rng }
    });
    for _ in 0..pair.writes {
        let read: Vec<u16> = (0..20).map(|_| rng.pick(&own_or_not)).collect();
        for (shared, most) in runs.iter_mut().zip([3, 8]) {
            // The last of these may be cut, and is then left so while the owner reads.
            for _ in 0..shared.rng.below(most) {
                shared.recover()?;
                let mut change = some_change(shared, &others);
                if shared.rng.one_in(8) {
                    spoil(shared, &mut change, &own);
                }
                let cut = shared.rng.one_in(3);
                let end = shared.attempt(!timer, &change, cut)?;
                met.count(shared, !timer, end);
            }
        }
        read.iter().try_for_each(|&address| alike(&runs, timer, address))?;
        runs.iter_mut().try_for_each(Shared::recover)?;
        let change = some_change(&mut runs[0], &own);
        for shared in &mut runs {
            let end = shared.attempt(timer, &change, false)?;
            demand(end == End::Finished, Clause::Room, || format!("{change:?}: {end:?}"))?;
        }
        let written = change.settings().iter().map(|(address, _)| address);
        read.iter().chain(written).try_for_each(|&address| alike(&runs, timer, address))?;
    }
    own_or_not.iter().try_for_each(|&address| alike(&runs, timer, address))?;
    if pair.all_read {
        let first = if timer { 32_768 } else { 0 };
        (0..32_768).map(|index| first | index).try_for_each(|address| alike(&runs, timer, address))?;
    }
    Ok(())
}

/// The owner is answered the same in both runs, at 65,535 too.
fn alike(runs: &[Shared; 2], timer: bool, address: u16) -> Outcome<()> {
    let [one, other] = [&runs[0], &runs[1]].map(|shared| {
        let read = shared.store.read(&shared.image, shared.size(), timer, address);
        (read, shared.store.blank_read(&shared.image, shared.size(), timer, address))
    });
    demand(one == other, Clause::Alike, || format!("{address} answers {one:?} in one run, {other:?} in the other"))?;
    let expected = held_or_not(runs[0].model.get(&address));
    let right = one.0 == expected || address == 65_535 && one.0.number == ADDRESS;
    demand(right, Clause::Found, || format!("{address} answers {one:?}"))
}

const OF_ONE: Pair = Pair { seed: 1, edition: Edition::First, pages: 2, timer: false, writes: 80, all_read: false };

fn pairs() -> Vec<Pair> {
    let mut all = Vec::new();
    for edition in EDITIONS {
        for (pages, timer) in [(2, false), (2, true), (3, false), (3, true)] {
            let all_read = edition == Edition::Second && pages == 2;
            all.push(Pair { seed: 300 + all.len() as u64, edition, pages, timer, all_read, ..OF_ONE });
        }
    }
    all
}

#[test]
fn reads_depend_on_the_own_writes_alone() {
    let mut met = Met::default();
    let asked: Vec<Pair> = pairs().into_iter().filter(|pair| asked_for(pair.seed)).collect();
    for &pair in &asked {
        assert_eq!(run_pair(pair, &SUBJECT, &Second, &mut met), Ok(()), "ISTROVELL_SEED={}", pair.seed);
    }
    println!("{met:?}");
    if asked.len() == pairs().len() {
        BOTH.into_iter().for_each(|timer| met.assert_complete(timer));
        assert_eq!(met.most, [128, 128]);
    }
}

/// The clause that first catches this store, with its own plan.
fn caught_by(wrong: WrongOwner, history: History) -> Option<Clause> {
    run(history, &Stepwise(wrong), &wrong, &mut Met::default()).err().map(|(clause, _)| clause)
}

#[test]
fn wrong_owners_are_caught() {
    let caught: [(WrongOwner, [usize; 2], Clause); 24] = [
        (WrongOwner::LimitAt129, [0, 0], Clause::Limit),
        (WrongOwner::TotalAlone, [0, 0], Clause::Limit),
        (WrongOwner::LimitAlone, [0, 0], Clause::Limit),
        (WrongOwner::HandsetLimitAlone, [0, 0], Clause::Limit),
        (WrongOwner::TimerLimitAlone, [0, 0], Clause::Limit),
        (WrongOwner::NewCountAsOne, [0, 0], Clause::Limit),
        (WrongOwner::BeyondIsFree, [129, 0], Clause::Limit),
        (WrongOwner::CountsBoth, [0, 0], Clause::Room),
        (WrongOwner::CountsOther, [0, 0], Clause::Room),
        (WrongOwner::LimitAt127, [0, 0], Clause::Number),
        (WrongOwner::HeldCountAsNew, [0, 0], Clause::Number),
        (WrongOwner::BeyondIsFixed, [129, 0], Clause::Number),
        (WrongOwner::LimitBeforeHeld, [129, 0], Clause::Number),
        (WrongOwner::BeyondIsDamaged, [129, 0], Clause::Number),
        (WrongOwner::HandsetHas32768, [0, 0], Clause::Owner),
        (WrongOwner::TimerHas32767, [0, 0], Clause::Owner),
        (WrongOwner::OwnerBeforeAddress, [0, 0], Clause::Number),
        (WrongOwner::HeldBeforeOwner, [0, 0], Clause::Number),
        (WrongOwner::FirstAddressTested, [0, 0], Clause::Number),
        (WrongOwner::WritesIgnoreOwner, [0, 0], Clause::Number),
        (WrongOwner::TwinsAnswer, [0, 0], Clause::Found),
        (WrongOwner::MovesOwnAlone, [0, 0], Clause::Found),
        (WrongOwner::ReadsIgnoreOwner, [0, 0], Clause::Owner),
        (WrongOwner::BlankOfOtherIs0, [0, 0], Clause::Owner),
    ];
    for (wrong, first, clause) in caught {
        let caught_by = |seed: u64| {
            let by_timer = [1, 9, 5][(seed % 3) as usize];
            caught_by(wrong, History { seed, edition: Edition::Second, by_timer, first, ..OF_BOTH })
        };
        let seed = (0..12).find(|&seed| caught_by(seed) == Some(clause));
        println!("{wrong:?}: by {clause:?}, seed {seed:?}");
        assert!(seed.is_some(), "{wrong:?} was not caught by {clause:?}");
    }
    for edition in EDITIONS {
        assert_eq!(caught_by(WrongOwner::Nothing, History { edition, ..OF_BOTH }), None);
    }
}

/// A store in which the reads of an owner depend on the other's writes.
#[test]
fn reads_that_depend_on_others_are_caught() {
    for wrong in [WrongOwner::TwinsAnswer, WrongOwner::MovesOwnAlone] {
        for edition in EDITIONS {
            for timer in BOTH {
                let outcomes = (0..6).map(|seed| {
                    let pair = Pair { seed, edition, timer, ..OF_ONE };
                    run_pair(pair, &Stepwise(wrong), &wrong, &mut Met::default()).err().map(|(clause, _)| clause)
                });
                let outcomes: Vec<Option<Clause>> = outcomes.collect();
                assert!(outcomes.contains(&Some(Clause::Alike)), "{wrong:?} in {edition:?}: {outcomes:?}");
            }
        }
    }
    let pair = Pair { edition: Edition::Second, ..OF_ONE };
    assert_eq!(run_pair(pair, &Stepwise(WrongOwner::Nothing), &WrongOwner::Nothing, &mut Met::default()), Ok(()));
}
