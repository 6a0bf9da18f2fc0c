//! Wear where power doesn't fail: writes and group writes of either owner that finish, some of values that are held, some
//! that are refused, and recoveries between them, from a format on. After each, what docs/WEAR.md promises: the wears are at
//! most 1 apart, no used page is worn more than a cleared one, each move adds one for every page but one, to the orders too,
//! and a recovery has nothing to do. Where all writes are single ones it is known beforehand which of them move, and so how
//! many changes a store survives.
//!
//! That a page was erased is seen by its bits: only an erase makes a 1 of a 0. So the wears are tested against erases, which
//! are what a chip is rated for.
//!
//! Broken stores that this catches: one that takes the cleared page of greatest wear, one that erases the page that it
//! moves to, one whose pages keep their wear, and more in `wrong_wears_are_caught`, each by what it breaks and by nothing
//! else. ISTROVELL_SEED runs one history alone.

use std::collections::BTreeMap;

use outside::broken::{Broken, WrongChip, WrongWear};
use outside::images::{addresses_of, some_group, some_group_size, some_value};
use outside::page::*;
use outside::rng::{asked_for, Rng};
use outside::rules::*;
use outside::steps::slot_steps;
use outside::word::*;
use outside::*;

/// The stores under test: the second implementation and, where it is linked, the library.
const SUBJECTS: &[(&str, &dyn Store)] = &[
    ("the second implementation", &Second),
    #[cfg(feature = "library")]
    ("the library", &library::Library),
];

/// What a store can get wrong.
#[derive(Clone, Copy, Debug, PartialEq, Eq, PartialOrd, Ord)]
enum Clause {
    /// Every page has a wear, and no two wears are more than 1 apart.
    Apart,
    /// No used page is worn more than a cleared one.
    Cleared,
    /// The wear of a page is how often it was erased, but at most 65,535.
    Erases,
    /// A move adds one for every page but one, until a wear is 65,535.
    Sum,
    /// It adds as much to the active order and the number of cleared pages together: so orders go with the wears.
    Orders,
    /// Until then every wear is less than one more than the even share.
    Share,
    /// A recovery has nothing to do.
    Idle,
    /// As many single writes of new values lie between two moves as the first leaves slots.
    Between,
}

#[derive(Clone, Copy)]
struct History {
    seed: u64,
    edition: Edition,
    pages: usize,
    /// How many addresses are written to, half of them the timer's.
    addresses: usize,
    /// Whether one is written after the other, or any.
    in_turn: bool,
    /// Whether there are group writes.
    grouped: bool,
    /// Whether most of each page is filled at one go: a store of many pages is slow.
    fast: bool,
    /// The wear of every page at first, if it is not as a format leaves it.
    worn: Option<u16>,
    moves: u64,
}

const SINGLES: History = History {
    seed: 0,
    edition: Edition::First,
    pages: 2,
    addresses: 20,
    in_turn: false,
    grouped: false,
    fast: false,
    worn: None,
    moves: 12,
};

#[derive(Debug, Default)]
struct Tally {
    /// By the handset and by the timer.
    writes: [u64; 2],
    group_writes: [u64; 2],
    held_values: u64,
    refused: BTreeMap<u8, u64>,
    recoveries: u64,
    /// By page size and pages.
    moves: BTreeMap<(u16, usize), u64>,
}

/// A store from its format on, and what is seen of it.
struct Watched<'a> {
    store: &'a dyn Store,
    history: History,
    chip: Chip,
    image: Vec<u8>,
    rng: Rng,
    pool: Vec<u16>,
    /// What each held address has.
    model: BTreeMap<u16, u8>,
    /// How often each page was erased.
    erases: Vec<u64>,
    first_sum: u64,
    moves: u64,
    /// Writes of new values.
    changes: u64,
    /// How many of these are to follow before the next one moves, if all are single ones.
    left: Option<u64>,
    /// What was broken, and how it was first.
    lost: BTreeMap<Clause, String>,
    tally: Tally,
}

impl<'a> Watched<'a> {
    fn format(history: History, store: &'a dyn Store) -> Watched<'a> {
        let chip = Chip::of(history.edition);
        let mut rng = Rng::new(history.seed);
        let timers = history.addresses / 2;
        let mut pool =
            [addresses_of(false, history.addresses - timers, &mut rng), addresses_of(true, timers, &mut rng)].concat();
        rng.shuffle(&mut pool);
        let mut image = vec![rng.byte(); history.pages * chip.page_bytes];
        assert_eq!(store.format(&mut image, chip.page_size(), history.edition == Edition::Second), OK);
        if let Some(worn) = history.worn {
            let word = wear_word(worn, history.edition);
            chip.pages_mut(&mut image).for_each(|page| page[WEAR_OFFSET..OPENING_OFFSET].copy_from_slice(&word));
        }
        let erases = vec![u64::from(history.worn.unwrap_or(1)); history.pages];
        Watched {
            store,
            history,
            chip,
            image,
            rng,
            pool,
            model: BTreeMap::new(),
            first_sum: erases.iter().sum(),
            erases,
            moves: 0,
            changes: 0,
            left: (!history.grouped).then_some(((history.pages - 1) * chip.slots()) as u64),
            lost: BTreeMap::new(),
            tally: Tally::default(),
        }
    }

    fn demand(&mut self, holds: bool, clause: Clause, text: impl FnOnce() -> String) {
        if !holds {
            let when = format!("after {} moves and {} changes", self.moves, self.changes);
            self.lost.entry(clause).or_insert_with(|| format!("{}, {when}", text()));
        }
    }

    /// Makes the call, and counts the erases of it. Says whether there was one.
    fn call(&mut self, call: impl FnOnce(&dyn Store, &mut [u8], u16) -> Stepped) -> (Stepped, bool) {
        let before = self.image.clone();
        let answer = call(self.store, &mut self.image, self.chip.page_size());
        let mut erased = false;
        for (page, erases) in self.erases.iter_mut().enumerate() {
            let [old, new] = [&before, &self.image].map(|image| page_at(image, self.chip, page));
            if old != new && old.iter().zip(new).any(|(old, new)| new & !old != 0) {
                *erases += 1;
                erased = true;
            }
        }
        (answer, erased)
    }

    /// A write that finishes.
    fn change(&mut self, change: &Change) {
        let timer = change.timer();
        let (answer, erased) = self.call(|store, image, size| store.change(image, size, timer, change, u16::MAX));
        assert!(answer.number == OK && answer.finished, "{change:?} is answered {answer:?}");
        let counts = match change {
            Change::Single(_) => &mut self.tally.writes,
            Change::Group(_) => &mut self.tally.group_writes,
        };
        counts[usize::from(timer)] += 1;
        let is_new = change.settings().iter().any(|(address, value)| self.model.get(address) != Some(value));
        self.model.extend(change.settings().iter().copied());
        self.changes += u64::from(is_new);
        self.tally.held_values += u64::from(!is_new);
        if erased {
            self.moved(is_new);
        } else if is_new {
            self.pass();
        }
        self.check();
    }

    /// A write of a new value that doesn't move.
    fn pass(&mut self) {
        self.demand(self.left != Some(0), Clause::Between, || "a write is to move and doesn't".into());
        self.left = self.left.map(|left| left.saturating_sub(1));
    }

    fn moved(&mut self, is_new: bool) {
        let left = self.left;
        let due = is_new && left.is_none_or(|left| left == 0);
        self.demand(due, Clause::Between, || format!("a write moves, and {left:?} are to come before"));
        let (slots, held) = (self.chip.slots(), self.model.len());
        self.left = left.map(|_| (slots - held + (self.history.pages - 2) * slots) as u64);
        self.moves += 1;
        *self.tally.moves.entry((self.chip.page_size(), self.history.pages)).or_default() += 1;
    }

    /// What is promised after each write.
    fn check(&mut self) {
        let edition = self.history.edition;
        let wears = self.chip.pages(&self.image).map(|page| wear(page, edition).map(u64::from));
        let Some(wears) = wears.collect::<Option<Vec<u64>>>() else {
            return self.demand(false, Clause::Apart, || "a page has no wear".into());
        };
        let (pages, sum) = (wears.len() as u64, wears.iter().sum::<u64>());
        let [least, greatest] = [wears.iter().min(), wears.iter().max()].map(|wear| *wear.expect("there are pages"));
        self.demand(greatest - least <= 1, Clause::Apart, || format!("wears {wears:?}"));
        let (used, cleared) = (used_pages(&self.image, self.chip), cleared_pages(&self.image, self.chip));
        let most_used = used.iter().map(|used| wears[used.page]).max();
        let least_cleared = cleared.iter().map(|&(page, _)| wears[page]).min();
        let text = || format!("used to {most_used:?}, cleared from {least_cleared:?}");
        self.demand(most_used <= least_cleared, Clause::Cleared, text);
        let order = used.iter().map(|used| u64::from(used.order)).max().expect("a page is used");
        let by_moves = (self.moves + 1) * (pages - 1);
        let text = || format!("order {order} and {} cleared, not {by_moves} together", cleared.len());
        self.demand(order + cleared.len() as u64 == by_moves, Clause::Orders, text);
        let erases = self.erases.iter().map(|&erases| erases.min(65_535)).collect::<Vec<u64>>();
        self.demand(wears == erases, Clause::Erases, || format!("wears {wears:?}, erases {erases:?}"));
        if self.erases.iter().all(|&erases| erases < 65_535) {
            let by_moves = self.first_sum + self.moves * (pages - 1);
            self.demand(sum == by_moves, Clause::Sum, || format!("wears {wears:?}, not {by_moves} together"));
            self.demand(pages * greatest < by_moves + pages, Clause::Share, || format!("wears {wears:?}"));
        }
    }

    fn recover(&mut self) {
        let (answer, _) = self.call(|store, image, size| store.recover(image, size, u16::MAX));
        self.tally.recoveries += 1;
        let idle = answer == Stepped { number: OK, finished: true, steps: 0 };
        self.demand(idle, Clause::Idle, || format!("recovery answers {answer:?}"));
    }

    /// A write that is to be refused.
    fn refuse(&mut self) {
        let (address, value) = (self.rng.pick(&self.pool), some_value(&mut self.rng));
        let (timer, single) = (is_timers(address), Change::Single((address, value)));
        let (timer, change, number) = match self.rng.below(4) {
            0 => (!timer, single, OWNER),
            1 => (timer, Change::Single((NO_ADDRESS, value)), ADDRESS),
            2 if self.model.len() == MOST_HELD => {
                let new = (0..NO_ADDRESS).find(|address| !self.model.contains_key(address)).expect("192 are held");
                (is_timers(new), Change::Single((new, value)), NO_ROOM)
            }
            _ => (timer, Change::Group(vec![(address, value); 2]), GROUP),
        };
        let before = self.image.clone();
        let (answer, _) = self.call(|store, image, size| store.change(image, size, timer, &change, u16::MAX));
        assert!(answer == Stepped::refused(number) && self.image == before, "{change:?} is answered {answer:?}");
        *self.tally.refused.entry(number).or_default() += 1;
    }

    /// An address and another value than it has.
    fn new_setting(&mut self) -> Setting {
        let place = if self.history.in_turn { self.changes as usize } else { self.rng.below(self.pool.len()) };
        let address = self.pool[place % self.pool.len()];
        let any = some_value(&mut self.rng);
        let value = match self.model.get(&address) {
            Some(&held) if held == any => any.wrapping_add(1),
            _ => any,
        };
        (address, value)
    }

    fn new_change(&mut self) -> Change {
        let (address, value) = self.new_setting();
        if !self.history.grouped || self.rng.one_in(3) {
            return Change::Single((address, value));
        }
        let free = free_slots(page_at(&self.image, self.chip, active_page(&self.image, self.chip).page)).len();
        let count = some_group_size(free, &mut self.rng);
        Change::Group(some_group(&self.pool, is_timers(address), count, &mut self.rng))
    }

    /// Some settings with the values that they have.
    fn held_change(&mut self) -> Change {
        let address = self.rng.pick(&self.pool);
        let of_owner = |held: &(&u16, &u8)| owns(is_timers(address), *held.0);
        let mut held: Vec<Setting> = self.model.iter().filter(of_owner).map(|(&at, &value)| (at, value)).collect();
        self.rng.shuffle(&mut held);
        match held.first() {
            None => self.new_change(),
            Some(_) if self.history.grouped => Change::Group(held.into_iter().take(MOST_IN_A_GROUP).collect()),
            Some(&setting) => Change::Single(setting),
        }
    }

    /// What single writes of new values would do with the free slots of the active page but the last few.
    fn fill(&mut self, last: usize) {
        let active = active_page(&self.image, self.chip).page;
        let free = free_slots(page_at(&self.image, self.chip, active));
        for slot in free.start..free.end.saturating_sub(last) {
            let (address, value) = self.new_setting();
            let steps = slot_steps(self.chip, active, slot, record(address, value));
            steps.into_iter().for_each(|step| do_step(&mut self.image, step));
            self.model.insert(address, value);
            self.changes += 1;
            self.pass();
        }
    }

    /// Any of what a history has.
    fn turn(&mut self) {
        if self.history.fast {
            let last = self.rng.below(if self.history.grouped { 12 } else { 3 });
            self.fill(last);
        }
        match self.rng.below(8) {
            0 => self.refuse(),
            1 => {
                let change = self.held_change();
                self.change(&change);
            }
            _ => {
                let change = self.new_change();
                self.change(&change);
            }
        }
        self.recover();
    }

    fn run(history: History, store: &'a dyn Store) -> Watched<'a> {
        let mut watched = Watched::format(history, store);
        while watched.moves < history.moves {
            watched.turn();
        }
        watched
    }
}

/// Changes settings until a page has been erased more often than this. Gives how many changes no page was, and what was
/// broken.
fn survived(history: History, rated: u64, store: &dyn Store) -> (u64, BTreeMap<Clause, String>) {
    let mut watched = Watched::format(history, store);
    loop {
        if history.fast {
            watched.fill(1);
        }
        let before = watched.changes;
        let change = watched.new_change();
        watched.change(&change);
        if watched.erases.iter().any(|&erases| erases > rated) {
            return (before, watched.lost);
        }
    }
}

fn run_all(histories: &[History], name: &str, store: &dyn Store) -> Tally {
    let mut tally = Tally::default();
    for &history in histories.iter().filter(|history| asked_for(history.seed)) {
        let watched = Watched::run(history, store);
        assert!(watched.lost.is_empty(), "{name}, ISTROVELL_SEED={}: {:?}", history.seed, watched.lost);
        tally.add(watched.tally);
    }
    tally
}

impl Tally {
    fn add(&mut self, other: Tally) {
        for timer in 0..2 {
            self.writes[timer] += other.writes[timer];
            self.group_writes[timer] += other.group_writes[timer];
        }
        self.held_values += other.held_values;
        self.recoveries += other.recoveries;
        other.refused.into_iter().for_each(|(number, count)| *self.refused.entry(number).or_default() += count);
        other.moves.into_iter().for_each(|(store, count)| *self.moves.entry(store).or_default() += count);
    }

    fn print(&self, name: &str) {
        let [writes, group_writes] = [self.writes, self.group_writes].map(|counts| counts.iter().sum::<u64>());
        let refused: u64 = self.refused.values().sum();
        println!(
            "{name}: {writes} writes and {group_writes} group writes, {} of them of held values",
            self.held_values
        );
        println!("  {refused} refused, {} recoveries, none with anything to do", self.recoveries);
        println!("  moves, by page size and pages: {:?}", self.moves);
    }

    fn is_complete(&self) -> bool {
        let by_both = |counts: [u64; 2]| counts.iter().all(|&count| count > 0);
        let refused = [ADDRESS, OWNER, GROUP, NO_ROOM].iter().all(|number| self.refused.contains_key(number));
        by_both(self.writes) && by_both(self.group_writes) && self.held_values > 0 && refused
    }
}

/// Singles, and where there are groups both: few pages, in which every write is the store's, and many, in which few are.
fn histories() -> Vec<History> {
    let mut all = Vec::new();
    for edition in EDITIONS {
        for pages in [2, 3, 4, 5, 8, 32] {
            for grouped in [false, true] {
                if grouped && !edition.has_groups() {
                    continue;
                }
                let addresses = [192, 20, 64, 3, 150, 192][all.len() % 6];
                let fast = pages > 5 || pages > 3 && edition == Edition::Third;
                let moves = match pages {
                    32 => 4,
                    8 => 12,
                    _ => 8,
                };
                all.push(History {
                    seed: all.len() as u64,
                    edition,
                    pages,
                    addresses,
                    grouped,
                    fast,
                    moves,
                    ..SINGLES
                });
            }
        }
    }
    // Every page of 32 is moved to, and some twice.
    all.push(History { seed: 90, pages: 32, addresses: 40, fast: true, moves: 40, ..SINGLES });
    all
}

#[test]
fn wears_are_at_most_1_apart() {
    let histories = histories();
    for &(name, store) in SUBJECTS {
        let tally = run_all(&histories, name, store);
        tally.print(name);
        assert!(tally.is_complete() || histories.iter().any(|history| !asked_for(history.seed)));
    }
}

/// All pages come to the last wear, and stay there.
#[test]
fn wears_end_at_65_535() {
    for &(name, store) in SUBJECTS {
        for edition in EDITIONS {
            for (pages, worn) in [(2, 65_533), (3, 65_530), (3, 65_534), (5, 65_533), (8, 65_532), (5, 65_535)] {
                let fast = pages > 3;
                let history = History {
                    seed: 91,
                    edition,
                    pages,
                    fast,
                    worn: Some(worn),
                    grouped: edition.has_groups(),
                    ..SINGLES
                };
                let watched = Watched::run(history, store);
                assert!(watched.lost.is_empty(), "{name}, {pages} pages from {worn} on: {:?}", watched.lost);
                let all_last = |page| wear(page, edition) == Some(65_535);
                assert!(watched.chip.pages(&watched.image).all(all_last), "{name}, {pages} pages from {worn} on");
            }
        }
    }
}

/// What the box says: so many changes leave no page erased more than `rated` times.
fn on_the_box(chip: Chip, pages: usize, held: usize, rated: u64) -> u64 {
    let (pages, slots, held) = (pages as u64, chip.slots() as u64, held as u64);
    let moves = pages * (rated - 1) / (pages - 1);
    (pages - 1) * slots + moves * (1 + (slots - held) + (pages - 2) * slots)
}

/// The next change is one too many where all are held before the first move. Where they come to be held later, no fewer
/// survive.
#[test]
fn the_box_is_right() {
    let stores = [
        (Edition::First, 2, 192, 5),
        (Edition::First, 2, 192, 20),
        (Edition::Second, 2, 1, 5),
        (Edition::First, 3, 64, 20),
        (Edition::Second, 4, 10, 5),
        (Edition::First, 5, 192, 5),
        (Edition::First, 8, 64, 20),
        (Edition::Second, 32, 192, 5),
        (Edition::Third, 2, 192, 20),
        (Edition::Third, 3, 64, 5),
        (Edition::Third, 8, 192, 5),
    ];
    for (edition, pages, addresses, rated) in stores {
        let (chip, fast) = (Chip::of(edition), pages > 4 || edition == Edition::Third);
        let by_box = on_the_box(chip, pages, addresses, rated);
        println!("{pages} pages of {}, {addresses} held: {by_box} changes within {rated} erases", chip.page_bytes);
        for &(name, store) in SUBJECTS {
            for in_turn in [true, false] {
                let history = History { seed: 92, edition, pages, addresses, in_turn, fast, ..SINGLES };
                let (survived, lost) = survived(history, rated, store);
                assert_eq!(lost, BTreeMap::new(), "{name}");
                assert!(survived == by_box || !in_turn && survived > by_box, "{name}: {survived} changes");
            }
        }
    }
}

/// These stores come short of what the box says.
#[test]
fn a_wrong_box_is_caught() {
    let (pages, addresses, rated) = (4, 20, 5);
    let history = History { seed: 93, pages, addresses, in_turn: true, ..SINGLES };
    let by_box = on_the_box(SMALLER, pages, addresses, rated);
    let survive = |wrong| survived(history, rated, &Stepwise(wrong)).0;
    assert_eq!(survive(WrongWear::Nothing), by_box);
    for wrong in [
        WrongWear::GreatestTaken,
        WrongWear::FirstTaken,
        WrongWear::MovesEarly,
        WrongWear::TargetErased,
        WrongWear::TargetCounted,
        WrongWear::WearKept,
    ] {
        println!("{wrong:?}: {} of {by_box} changes", survive(wrong));
        assert!(survive(wrong) < by_box, "{wrong:?}");
    }
}

/// Each store breaks these clauses and no other.
#[test]
fn wrong_wears_are_caught() {
    let history = History { seed: 93, edition: Edition::Second, pages: 4, in_turn: true, moves: 8, ..SINGLES };
    let is_caught = |name: &dyn std::fmt::Debug, store: &dyn Store, history: History, clauses: &[Clause]| {
        let lost = Watched::run(history, store).lost;
        println!("{name:?}: {lost:?}");
        assert_eq!(lost.into_keys().collect::<Vec<Clause>>(), clauses, "{name:?}");
    };
    let caught: [(WrongWear, &[Clause]); 9] = [
        (WrongWear::Nothing, &[]),
        (WrongWear::GreatestTaken, &[Clause::Apart, Clause::Cleared, Clause::Share]),
        (WrongWear::FirstTaken, &[Clause::Apart, Clause::Cleared, Clause::Share]),
        (WrongWear::MovesEarly, &[Clause::Apart, Clause::Orders, Clause::Share, Clause::Between]),
        (WrongWear::HeldTakesASlot, &[Clause::Between]),
        (WrongWear::TargetErased, &[Clause::Sum, Clause::Share]),
        (WrongWear::TargetCounted, &[Clause::Erases, Clause::Sum, Clause::Share]),
        (WrongWear::WearKept, &[Clause::Erases, Clause::Sum]),
        (WrongWear::LastLeft, &[Clause::Apart, Clause::Sum, Clause::Orders, Clause::Idle]),
    ];
    for (wrong, clauses) in caught {
        is_caught(&wrong, &Stepwise(wrong), history, clauses);
    }
    let (wraps, every) = (Broken::WearWraps, Broken::GreatestForEveryPage);
    let last = History { worn: Some(65_533), ..history };
    is_caught(&wraps, &Stepwise(wraps), last, &[Clause::Apart, Clause::Cleared, Clause::Erases]);
    is_caught(&every, &Stepwise(every), history, &[Clause::Apart, Clause::Erases, Clause::Sum, Clause::Share]);
    let (less, on_larger) = (WrongChip::OneSlotLess, History { edition: Edition::Third, moves: 3, ..history });
    is_caught(&less, &Stepwise(less), on_larger, &[Clause::Between]);
}
