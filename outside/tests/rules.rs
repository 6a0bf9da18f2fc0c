//! Single rules of document 01 beyond its examples, and of wishes 1, 2, 4, 6, 7 and 12 of document 02, on every store
//! at hand and in every form of the pages that has them.
//!
//! Broken stores that these catch: one that takes a receiving page for current, one whose check counts the low half of
//! each byte twice, those of which only the wear is wrong, those that are wrong in groups or editions alone, in the
//! larger chip or in page sizes alone, in the two owners alone, and in wish 6 alone, see the last tests.

use std::panic::{catch_unwind, AssertUnwindSafe};

use outside::broken::{Broken, WrongChip, WrongGroup, WrongOwner};
use outside::broken::{WRONG_CHIPS, WRONG_GROUPS, WRONG_OWNERS, WRONG_PAIRINGS, WRONG_WEARS};
use outside::images::WRONG_SIZES;
use outside::page::*;
use outside::rules::*;
use outside::word::*;
use outside::*;

fn on_every_store(rule: impl Fn(&dyn Store)) {
    rule(&Second);
    rule(&Stepwise(Second));
    #[cfg(feature = "library")]
    rule(&library::Library);
}

/// In each of these forms.
fn in_forms(forms: &[Form], rule: impl Fn(&dyn Store, Form)) {
    forms.iter().for_each(|&form| on_every_store(|store| rule(store, form)));
}

/// The form of a page: its size and its edition, which says which chip it is.
#[derive(Clone, Copy, Debug, PartialEq)]
struct Form(Edition);

const FIRST: Form = Form(Edition::First);
const SECOND: Form = Form(Edition::Second);
const THIRD: Form = Form(Edition::Third);
const FORMS: [Form; 3] = [FIRST, SECOND, THIRD];
const WITH_GROUPS: [Form; 2] = [SECOND, THIRD];

impl Form {
    fn chip(self) -> Chip {
        Chip::of(self.0)
    }

    /// The page size that calls name.
    fn size(self) -> u16 {
        self.chip().page_size()
    }

    fn slots(self) -> usize {
        self.chip().slots()
    }

    fn wear(self, wear: u16) -> Word {
        wear_word(wear, self.0)
    }

    /// A page with these header words and these words in its first slots, all else 255.
    fn page_of(self, wear: Word, opening: Word, done: Word, slots: &[Word]) -> Vec<u8> {
        let mut page = [wear, opening, done].concat();
        page.extend(slots.concat());
        page.resize(self.chip().page_bytes, 255);
        page
    }

    fn filled_with(self, byte: u8) -> Vec<u8> {
        vec![byte; self.chip().page_bytes]
    }

    fn cleared(self, wear: u16) -> Vec<u8> {
        self.page_of(self.wear(wear), BLANK, BLANK, &[])
    }

    fn plain(self, order: u32, slots: &[Word]) -> Vec<u8> {
        self.page_of(self.wear(1), order_word(order, PLAIN), BLANK, slots)
    }

    fn moved(self, order: u32, slots: &[Word]) -> Vec<u8> {
        self.page_of(self.wear(1), order_word(order, RECEIVING), done_word(order), slots)
    }

    fn receiving(self, order: u32, slots: &[Word]) -> Vec<u8> {
        self.page_of(self.wear(1), order_word(order, RECEIVING), BLANK, slots)
    }

    /// A page that is neither used nor cleared, with this wear word.
    fn unclean(self, wear: Word) -> Vec<u8> {
        self.page_of(wear, order_word(0, 0), BLANK, &[])
    }

    fn reads(self, store: &dyn Store, pages: &[Vec<u8>], address: u16) -> (u8, u8) {
        let answer = store.read(&pages.concat(), self.size(), is_timers(address), address);
        (answer.number, answer.value)
    }

    fn page_at(self, image: &[u8], page: usize) -> &[u8] {
        page_at(image, self.chip(), page)
    }

    /// A write of all its steps, by the owner of the address or of the first address, and a recovery.
    fn write(self, store: &dyn Store, image: &mut [u8], address: u16, value: u8) -> Stepped {
        store.write(image, self.size(), is_timers(address), address, value, u16::MAX)
    }

    fn recover(self, store: &dyn Store, image: &mut [u8]) -> Stepped {
        store.recover(image, self.size(), u16::MAX)
    }

    fn write_group(self, store: &dyn Store, image: &mut [u8], settings: &[Setting]) -> Stepped {
        let change = Change::Group(settings.to_vec());
        store.change(image, self.size(), change.timer(), &change, u16::MAX)
    }
}

fn done(steps: u16) -> Stepped {
    Stepped { number: OK, finished: true, steps }
}

/// The 0 bits of each half of a byte, as README.md prints them for the bench.
fn printed_counts() -> Vec<u8> {
    let rows = include_str!("../../README.md").lines().filter_map(|line| line.strip_prefix("| 0 bits |"));
    rows.flat_map(|row| row.split('|').filter_map(|cell| cell.trim().parse().ok())).collect()
}

/// A check by hand is the sum of the six counts. Each byte stands once in each of the three places of a record.
fn checks_by_hand(store: &dyn Store, form: Form) {
    let counts = printed_counts();
    assert_eq!(counts.len(), 16);
    for (place, byte) in (0..3).flat_map(|place| (0..=255).map(move |byte| (place, byte))) {
        let mut bytes = [0x05, 0x00, 0x41];
        bytes[place] = byte;
        let halves = bytes.iter().flat_map(|byte| [byte / 16, byte % 16]);
        let check: u8 = halves.map(|half| counts[usize::from(half)]).sum();
        let (address, value) = (u16::from_le_bytes([bytes[0], bytes[1]]), bytes[2]);
        let with = |check| [form.plain(0, &[[bytes[0], bytes[1], bytes[2], check]]), form.cleared(1)];
        assert_eq!(form.reads(store, &with(check), address), (OK, value), "{bytes:?} with check {check}");
        for wrong in [check.wrapping_sub(1), check + 1] {
            assert_eq!(form.reads(store, &with(wrong), address), (NOT_HELD, 0), "{bytes:?} with check {wrong}");
        }
        let mut image = [form.plain(0, &[]), form.cleared(1)].concat();
        assert_eq!(form.write(store, &mut image, address, value), done(2));
        assert!(image == with(check).concat(), "{bytes:?} written");
    }
}

#[test]
fn a_check_by_hand_is_that_of_every_store() {
    in_forms(&[FIRST, THIRD], checks_by_hand);
}

#[test]
fn page_states() {
    for form in FORMS {
        let state = |page: Vec<u8>| state(&page, form.0);
        let page_of = |wear, opening, done, slots: &[Word]| form.page_of(wear, opening, done, slots);
        let wear = form.wear(9);
        let opening = order_word(6, RECEIVING);
        assert_eq!(state(form.cleared(9)), State::Cleared { wear: 9 });
        assert_eq!(state(page_of(wear, BLANK, BLANK, &[BLANK, [255, 255, 255, 254]])), State::Bad);
        for at in [4, 1_023, form.chip().page_bytes - 1] {
            let mut page = form.cleared(9);
            page[at] = 254;
            assert_eq!(state(page), State::Bad, "byte {at} in {form:?}");
        }
        assert_eq!(state(page_of(BLANK, BLANK, BLANK, &[])), State::Bad);
        assert_eq!(state(page_of([9, 0, 255, 255], order_word(6, PLAIN), BLANK, &[])), State::Bad);
        for third_byte in [0, 1, 2, 3, 4, 255].into_iter().filter(|&third_byte| third_byte != form.0 as u8) {
            assert_eq!(state(page_of(sound_word([9, 0, third_byte]), BLANK, BLANK, &[])), State::Bad);
            assert_eq!(state(page_of(sound_word([9, 0, third_byte]), order_word(6, PLAIN), BLANK, &[])), State::Bad);
        }
        for half_written_or_spoiled in [[25, 0, 255, 255], [25, 0, 0, 255]] {
            assert_eq!(state(page_of(wear, half_written_or_spoiled, BLANK, &[])), State::Bad);
        }
        for done in [BLANK, [0; 4], [27, 0, 255, 255], done_word(6), done_word(7)] {
            assert_eq!(state(page_of(wear, order_word(6, PLAIN), done, &[])), State::Open { order: 6, kind: PLAIN });
        }
        assert_eq!(state(page_of(wear, opening, done_word(6), &[])), State::Open { order: 6, kind: RECEIVING });
        for done in [BLANK, done_word(7), opening, order_word(6, 0), [27, 0, 255, 255], [27, 0, 0, 255]] {
            assert_eq!(state(page_of(wear, opening, done, &[])), State::Receiving);
        }
        assert_eq!(state(page_of(wear, order_word(6, 0), BLANK, &[])), State::Bad);
        assert_eq!(state(page_of(wear, order_word(6, DONE), done_word(6), &[])), State::Bad);
    }
}

/// Recovery makes these pages, behind an open one, cleared pages of these wears.
fn recovery_gives<const N: usize>(store: &dyn Store, form: Form, open: u16, pages: [Vec<u8>; N], wears: [u16; N]) {
    let open = form.page_of(form.wear(open), order_word(0, PLAIN), BLANK, &[]);
    let is_cleared = |page: &&Vec<u8>| matches!(state(page, form.0), State::Cleared { .. });
    let renewed = (N - pages.iter().filter(is_cleared).count()) as u16;
    let mut image = [vec![open.clone()], pages.to_vec()].concat().concat();
    let after = [vec![open], wears.map(|wear| form.cleared(wear)).to_vec()].concat().concat();
    assert_eq!(form.recover(store, &mut image), done(3 * renewed));
    assert!(image == after, "{wears:?}");
    assert_eq!(store.recover(&mut image, form.size(), 0), done(0));
}

#[test]
fn a_page_that_has_a_wear_gets_one_more() {
    in_forms(&FORMS, |store, form| {
        let pages = [0, 9, 65_534, 65_535].map(|wear| form.unclean(form.wear(wear)));
        recovery_gives(store, form, 1, pages, [1, 10, 65_535, 65_535]);
    });
}

/// Wish 1: one more than the greatest sound wear word in the image just before its erase, at most 65,535.
fn lost_wears(store: &dyn Store, form: Form) {
    let receiving = || form.page_of(form.wear(9), order_word(1, RECEIVING), BLANK, &[]);
    let blank = || form.unclean(BLANK);
    // X8.
    recovery_gives(store, form, 7, [receiving(), blank(), blank()], [10, 11, 12]);
    // A half-written wear word, a spoiled one and one of another edition are none.
    let another = if form == SECOND { 1 } else { 2 };
    let without = [[9, 0, 255, 255], [1, 0, form.0 as u8, 25], sound_word([9, 0, another])];
    recovery_gives(store, form, 7, without.map(|wear| form.unclean(wear)), [8, 9, 10]);
    // The wear of a page counts in whatever state it is, also before the page's turn.
    recovery_gives(store, form, 7, [blank(), form.cleared(20)], [21, 20]);
    recovery_gives(store, form, 7, [blank(), receiving(), blank()], [10, 10, 11]);
    recovery_gives(store, form, 0, [blank(), blank()], [1, 2]);
    // The last wear.
    recovery_gives(store, form, 65_533, [blank(), blank(), blank()], [65_534, 65_535, 65_535]);
    recovery_gives(store, form, 65_535, [blank(), form.unclean(form.wear(3)), blank()], [65_535, 4, 65_535]);
}

#[test]
fn a_page_without_a_wear_gets_one_more_than_the_greatest() {
    in_forms(&FORMS, lost_wears);
}

#[test]
fn a_new_page_is_the_least_worn_and_lowest() {
    in_forms(&FORMS, |store, form| {
        let full = form.plain(0, &vec![record(5, 1); form.slots()]);
        let cleared = |wear| form.cleared(wear);
        let mut image = [cleared(4), cleared(3), full, cleared(3), cleared(65_535)].concat();
        assert_eq!(form.write(store, &mut image, 5, 2), done(4));
        let opened = form.page_of(form.wear(3), order_word(1, PLAIN), BLANK, &[record(5, 2)]);
        assert_eq!(form.page_at(&image, 1), opened);
    });
}

#[test]
fn only_used_pages_answer() {
    in_forms(&FORMS, |store, form| {
        let reads = |pages: &[Vec<u8>], address| form.reads(store, pages, address);
        let old = form.plain(3, &[record(5, 1)]);
        let receiving = form.receiving(9, &[record(5, 7), record(6, 7)]);
        let cleared = form.cleared(1);
        // A lower order than the base doesn't count, the base order itself and greater ones do.
        assert_eq!(reads(&[old.clone(), form.moved(4, &[]), cleared.clone()], 5), (NOT_HELD, 0));
        let moved = form.moved(4, &[record(5, 3)]);
        assert_eq!(reads(&[form.plain(5, &[record(5, 2)]), moved, cleared.clone()], 5), (OK, 2));
        assert_eq!(reads(&[old.clone(), receiving.clone(), cleared.clone()], 5), (OK, 1));
        assert_eq!(reads(&[old.clone(), receiving, cleared.clone()], 6), (NOT_HELD, 0));
        let older = form.plain(2, &[record(5, 8), record(6, 8)]);
        assert_eq!(reads(&[old.clone(), older, cleared.clone()], 6), (OK, 8));
        assert_eq!(reads(&[old.clone(), old, cleared], 5), (DAMAGED, 0));
    });
}

/// The addresses of the handset and of the timer in turn: 0, 32,768, 1, 32,769 and so on.
fn of_both(index: u16) -> u16 {
    index / 2 + 32_768 * (index % 2)
}

#[test]
fn tests_go_in_order() {
    in_forms(&FORMS, |store, form| {
        let number = |pages: &[Vec<u8>], address, value| form.write(store, &mut pages.concat(), address, value).number;
        let (plain, cleared) = (|order, slots: &[Word]| form.plain(order, slots), form.cleared(1));
        let full_of = |held: u16| -> Vec<Word> {
            (0..form.slots() as u16).map(|slot| record(of_both(slot.min(held - 1)), 1)).collect()
        };
        let (full_of_192, full_of_193) = (full_of(192), full_of(193));
        let but_the_last = &full_of_192[..form.slots() - 1];
        let bad = form.filled_with(0);
        assert_eq!(number(&[cleared.clone(), bad.clone()], NO_ADDRESS, 1), NO_STORE);
        assert_eq!(number(&[plain(0, &full_of_193), bad.clone()], NO_ADDRESS, 1), DAMAGED);
        assert_eq!(number(&[plain(0, &[]), bad.clone()], NO_ADDRESS, 1), UNCLEAN);
        assert_eq!(number(&[plain(0, &full_of_192), bad], 0, 1), UNCLEAN);
        assert_eq!(number(&[plain(LAST_ORDER, &full_of_192), cleared.clone()], NO_ADDRESS, 1), ADDRESS);
        assert_eq!(number(&[plain(LAST_ORDER, &full_of_192), cleared.clone()], 500, 1), NO_ROOM);
        assert_eq!(number(&[plain(LAST_ORDER, &full_of_192), cleared.clone()], 0, 2), ORDER_END);
        assert_eq!(number(&[plain(LAST_ORDER, &full_of_192), cleared.clone()], 0, 1), OK);
        assert_eq!(number(&[plain(LAST_ORDER, but_the_last), cleared.clone()], 0, 2), OK);
        assert_eq!(number(&[plain(LAST_ORDER - 1, &full_of_192), cleared], 0, 2), OK);
    });
}

/// A store that holds these digits of a pairing code, and nothing where there is none.
fn with_code(form: Form, code: [Option<u8>; 4]) -> Vec<u8> {
    let digits = (16..).zip(code).filter_map(|(address, digit)| Some(record(address, digit?)));
    [form.plain(0, &digits.collect::<Vec<Word>>()), form.cleared(1)].concat()
}

/// Wish 6: a code is whole if its four addresses are held, whatever their values. Each place is not held, holds 0, holds
/// 255 and holds a digit of its own, beside each of these in the other places.
fn codes(store: &dyn Store, form: Form) {
    for case in 0..256 {
        let code = [0, 1, 2, 3].map(|place| [None, Some(0), Some(255), Some(6 + place)][case >> (2 * place) & 3]);
        let digits = code.map(|digit| digit.unwrap_or(0));
        let paired = code.iter().all(|digit| digit.is_some());
        let answer = store.lookup(&with_code(form, code), form.size());
        assert_eq!(answer, Pairing { number: OK, paired, digits }, "{code:?}");
    }
}

#[test]
fn pairing_is_found_only_whole() {
    in_forms(&FORMS, codes);
}

/// Wish 6: blank reads as 0, and a read tells an address that holds 0 from one that isn't held. So does a write, which
/// changes the one and not the other.
fn blanks(store: &dyn Store, form: Form) {
    let size = form.size();
    let mut image = [form.plain(0, &[record(5, 0), record(6, 255), record(7, 65)]), form.cleared(1)].concat();
    for (address, number, value) in [(5, OK, 0), (6, OK, 255), (7, OK, 65), (8, NOT_HELD, 0), (65_534, NOT_HELD, 0)] {
        assert_eq!(
            store.read(&image, size, is_timers(address), address),
            Reading { number, value },
            "read of {address}"
        );
        assert_eq!(
            store.blank_read(&image, size, is_timers(address), address),
            Reading { number: OK, value },
            "blank read of {address}"
        );
    }
    for (address, steps) in [(5, 0), (8, 2), (8, 0)] {
        assert_eq!(form.write(store, &mut image, address, 0), done(steps));
        assert_eq!(store.read(&image, size, is_timers(address), address), Reading { number: OK, value: 0 });
        assert_eq!(store.blank_read(&image, size, is_timers(address), address), Reading { number: OK, value: 0 });
    }
}

#[test]
fn blank_reads_as_0() {
    in_forms(&FORMS, blanks);
}

/// Each image has a whole code in a page, so that a digit or a value that is found in spite of the refusal shows.
#[test]
fn a_refusal_answers_nothing_else() {
    let code: Vec<Word> = (16..20).map(|address| record(address, 9)).collect();
    let too_many: Vec<Word> = (0..193).map(|address| record(address, 9)).collect();
    in_forms(&FORMS, |store, form| {
        let (size, with_code, cleared) = (form.size(), form.plain(0, &code), form.cleared(1));
        for (number, image) in [
            (SIZE, [with_code.clone(), cleared.clone(), vec![255]].concat()),
            (SIZE, with_code.clone()),
            (NO_STORE, [form.receiving(0, &code), cleared.clone()].concat()),
            (DAMAGED, [with_code.clone(), with_code.clone(), cleared.clone()].concat()),
            (DAMAGED, [with_code.clone(), form.plain(1, &[])].concat()),
            (DAMAGED, [form.plain(0, &too_many), cleared.clone()].concat()),
        ] {
            for (address, timer) in
                [16, 300, NO_ADDRESS].into_iter().flat_map(|address| BOTH_OWNERS.map(|timer| (address, timer)))
            {
                assert_eq!(store.read(&image, size, timer, address), Reading { number, value: 0 });
                assert_eq!(store.blank_read(&image, size, timer, address), Reading { number, value: 0 });
            }
            assert_eq!(store.lookup(&image, size), Pairing { number, paired: false, digits: [0; 4] });
        }
        let good = [with_code, cleared].concat();
        for timer in BOTH_OWNERS {
            assert_eq!(store.read(&good, size, timer, NO_ADDRESS), Reading { number: ADDRESS, value: 0 });
            assert_eq!(store.blank_read(&good, size, timer, NO_ADDRESS), Reading { number: ADDRESS, value: 0 });
        }
        assert_eq!(store.lookup(&good, size), Pairing { number: OK, paired: true, digits: [9; 4] });
    });
}

// Wish 4: groups and editions. a and b are records of 5 and 6.

const A: Word = [0x05, 0x00, 0x41, 0x14];
const B: Word = [0x06, 0x00, 0x42, 0x14];
const HALF_WRITTEN: Word = [0x05, 0x00, 0xFF, 0xFF];
const SPOILED: Word = [0x05, 0x00, 0x43, 0x14];

fn o(records: u8) -> Word {
    record(NO_ADDRESS, records)
}

fn c(records: u8) -> Word {
    record(NO_ADDRESS, 128 + records)
}

fn ab() -> Word {
    record(NO_ADDRESS, 0)
}

const NONE: &[u16] = &[];
const ONLY_A: &[u16] = &[5];
const ONLY_B: &[u16] = &[6];
const BOTH: &[u16] = &[5, 6];

/// Slots of an active page of the second edition, of which addresses the records count, and whether a group is open.
fn slots_with_groups() -> Vec<(Vec<Word>, &'static [u16], bool)> {
    vec![
        // Groups that count, and what stands outside.
        (vec![o(2), A, B, c(2)], BOTH, false),
        (vec![o(1), A, c(1), B], BOTH, false),
        (vec![B, o(1), A, c(1)], BOTH, false),
        (vec![o(1), A, c(1), o(1), B, c(1)], BOTH, false),
        (vec![o(8), A, B, B, B, B, B, B, A, c(8)], BOTH, false),
        (vec![c(2), A, ab(), B], BOTH, false),
        (vec![A, c(1), B, c(8)], BOTH, false),
        // Open ones.
        (vec![o(2)], NONE, true),
        (vec![o(2), A], NONE, true),
        (vec![o(2), A, B], NONE, true),
        (vec![A, o(1), B], ONLY_A, true),
        (vec![o(2), A, B, SPOILED], NONE, true),
        (vec![o(1), A, c(1), o(1), B], ONLY_A, true),
        (vec![o(1), BLANK, A], NONE, true),
        // Those that don't count: closed by another number, with too few records or too many.
        (vec![o(2), A, B, c(1)], NONE, false),
        (vec![o(2), A, B, c(3)], NONE, false),
        (vec![o(1), A, B, c(1)], NONE, false),
        (vec![o(2), A, c(2)], NONE, false),
        (vec![o(1), c(1), A], ONLY_A, false),
        // With something else inside, in the place of a record, beside as many as there should be, and at the end.
        (vec![o(2), A, SPOILED, c(2)], NONE, false),
        (vec![o(2), A, BLANK, c(2)], NONE, false),
        (vec![o(2), A, HALF_WRITTEN, c(2)], NONE, false),
        (vec![o(2), A, SPOILED, B, c(2)], NONE, false),
        (vec![o(2), A, BLANK, B, c(2)], NONE, false),
        (vec![o(2), HALF_WRITTEN, A, B, c(2)], NONE, false),
        (vec![o(2), A, B, SPOILED, c(2)], NONE, false),
        (vec![o(2), A, B, BLANK, c(2)], NONE, false),
        // Abandoned, also with all its records; and what stands behind.
        (vec![o(2), ab(), A], ONLY_A, false),
        (vec![o(2), A, ab(), B], ONLY_B, false),
        (vec![o(2), A, B, ab()], NONE, false),
        (vec![o(2), A, ab(), B, c(2)], ONLY_B, false),
        (vec![o(1), ab(), o(1), A, c(1)], ONLY_A, false),
        // A mark that opens inside begins nothing.
        (vec![o(2), A, o(1), B, c(1)], NONE, false),
        (vec![o(3), A, o(1), B, c(3)], NONE, false),
        (vec![o(2), A, o(2), B, c(2)], NONE, false),
        (vec![o(1), o(1), A, c(1), B], ONLY_B, false),
        (vec![o(1), o(1), A], NONE, true),
        // Values that no mark has.
        (vec![record(NO_ADDRESS, 9), A], ONLY_A, false),
        (vec![record(NO_ADDRESS, 127), A], ONLY_A, false),
        (vec![record(NO_ADDRESS, 128), A], ONLY_A, false),
        (vec![o(1), A, record(NO_ADDRESS, 128), B], NONE, true),
        (vec![o(1), A, record(NO_ADDRESS, 137), B], NONE, true),
        (vec![o(1), A, record(NO_ADDRESS, 255), c(1)], NONE, false),
    ]
}

/// Which of the two addresses are held.
fn found(store: &dyn Store, form: Form, image: &[u8]) -> Vec<u16> {
    let mut found = Vec::new();
    for (address, value) in [(5, 0x41), (6, 0x42)] {
        match store.read(image, form.size(), is_timers(address), address) {
            Reading { number: OK, value: read } if read == value => found.push(address),
            answer => assert_eq!(answer, Reading::refused(NOT_HELD)),
        }
    }
    found
}

/// What counts in the active page, and that only an open group with a free slot waits for recovery; at the beginning of the
/// page, and at the place where a page of the smaller chip would end.
fn counting(store: &dyn Store, form: Form) {
    let befores = if form == THIRD { vec![0, 251, 253] } else { vec![0] };
    for ((slots, counted, open), before) in
        slots_with_groups().into_iter().flat_map(|row| befores.iter().map(move |&before| (row.clone(), before)))
    {
        let slots = [vec![SPOILED; before], slots].concat();
        let mut image = [form.plain(0, &slots), form.cleared(1), form.cleared(1)].concat();
        assert_eq!(found(store, form, &image), counted, "{slots:?}");
        let write = form.write(store, &mut image.clone(), 7, 1);
        assert_eq!(write.number, if open { UNCLEAN } else { OK }, "{slots:?}");
        assert_eq!(form.recover(store, &mut image), done(if open { 2 } else { 0 }), "{slots:?}");
        let abandoned = if open { vec![ab()] } else { Vec::new() };
        assert_eq!(form.page_at(&image, 0), form.plain(0, &[slots.clone(), abandoned].concat()), "{slots:?}");
        assert_eq!(found(store, form, &image), counted, "{slots:?}");
        assert_eq!(form.write(store, &mut image, 7, 1).number, OK, "{slots:?}");
        assert_eq!(store.read(&image, form.size(), false, 7), Reading { number: OK, value: 1 }, "{slots:?}");
    }
}

/// In the first edition each record counts, and there is nothing to wait for.
fn counting_all(store: &dyn Store) {
    for (slots, ..) in slots_with_groups() {
        let both = BOTH.iter().copied().filter(|&address| slots.contains(if address == 5 { &A } else { &B }));
        let mut image = [FIRST.plain(0, &slots), FIRST.cleared(1)].concat();
        assert_eq!(found(store, FIRST, &image), both.collect::<Vec<u16>>(), "{slots:?} in edition 1");
        assert_eq!(FIRST.write(store, &mut image, 7, 1).number, OK, "{slots:?} in edition 1");
    }
}

#[test]
fn the_records_of_a_whole_group_count() {
    in_forms(&WITH_GROUPS, counting);
    on_every_store(counting_all);
}

/// The slots at the end of a full page: an open group there is dead, and so is one in an older page.
fn dead_groups(store: &dyn Store, form: Form) {
    let cleared = form.cleared(1);
    for (slots, counted, open) in slots_with_groups().into_iter().filter(|(slots, ..)| slots.last() != Some(&BLANK)) {
        let full = [vec![SPOILED; form.slots() - slots.len()], slots.clone()].concat();
        let mut image = [form.plain(3, &full), cleared.clone(), cleared.clone()].concat();
        assert_eq!(found(store, form, &image), counted, "{slots:?}, open {open}");
        assert_eq!(store.recover(&mut image, form.size(), 0), done(0), "{slots:?}");
        assert_eq!(form.write(store, &mut image, 7, 1), done(4));
        assert_eq!(form.page_at(&image, 1), form.plain(4, &[record(7, 1)]), "{slots:?}");
        assert_eq!(found(store, form, &image), counted, "{slots:?}");
        let goes_on = store.read(&image, form.size(), false, 7);
        assert_eq!(goes_on, Reading { number: OK, value: 1 }, "a group goes on: {slots:?}");
        assert_eq!(form.write(store, &mut image, 7, 2), done(2));
        let pages = [form.plain(3, &[o(1), A]), form.plain(4, &[c(1)]), cleared.clone()];
        assert_eq!(found(store, form, &pages.concat()), NONE, "a group is closed in another page");
    }
}

#[test]
fn a_group_stays_in_its_page() {
    in_forms(&WITH_GROUPS, dead_groups);
}

/// Records of a group count where they stand, among those outside.
fn order_in_groups(store: &dyn Store, form: Form) {
    let values = |slots: &[Word]| form.reads(store, &[form.plain(0, slots), form.cleared(1)], 5);
    assert_eq!(values(&[record(5, 1), o(1), record(5, 2), c(1)]), (OK, 2));
    assert_eq!(values(&[o(1), record(5, 2), c(1), record(5, 3)]), (OK, 3));
    assert_eq!(values(&[record(5, 1), o(2), record(5, 2), record(5, 3), c(2)]), (OK, 3));
    assert_eq!(values(&[record(5, 1), o(2), record(5, 2), c(2)]), (OK, 1));
    assert_eq!(values(&[record(5, 1), ab()]), (OK, 1));
    let older = form.plain(0, &[o(1), record(5, 2), c(1)]);
    let newer = form.plain(1, &[o(1), record(5, 4), ab()]);
    assert_eq!(form.reads(store, &[newer, older, form.cleared(1)], 5), (OK, 2));
}

#[test]
fn groups_count_where_they_stand() {
    in_forms(&WITH_GROUPS, order_in_groups);
}

/// The two editions of the smaller chip.
fn editions(store: &dyn Store) {
    let reads = |pages: &[Vec<u8>], address| FIRST.reads(store, pages, address);
    // Format gives the edition that it is told, whatever stood there.
    for (form, second_edition) in [(FIRST, false), (SECOND, true)] {
        for before in [FIRST.plain(3, &[A]), SECOND.plain(3, &[A]), FIRST.filled_with(0x5A)] {
            let mut image = [before.clone(), before].concat();
            assert_eq!(store.format(&mut image, 1_024, second_edition), OK);
            assert!(image == [form.plain(0, &[]), form.cleared(1)].concat(), "{form:?}");
        }
    }
    // The open page of lowest index says which edition is read, and in it which pages are used.
    let [first, other] = [FIRST.plain(0, &[record(5, 1)]), SECOND.plain(1, &[record(5, 2)])];
    let bad = FIRST.filled_with(0);
    assert_eq!(reads(&[first.clone(), other.clone(), FIRST.cleared(1)], 5), (OK, 1));
    assert_eq!(reads(&[other.clone(), first.clone(), FIRST.cleared(1)], 5), (OK, 2));
    assert_eq!(reads(&[SECOND.cleared(1), bad, first.clone(), other.clone()], 5), (OK, 1));
    assert_eq!(reads(&[SECOND.receiving(9, &[]), first.clone(), other.clone()], 5), (OK, 1));
    assert_eq!(reads(&[SECOND.plain(0, &[]), first.clone(), FIRST.cleared(1)], 5), (NOT_HELD, 0));
    // With two pages of two editions none is damaged, and no page is cleared.
    assert_eq!(reads(&[other.clone(), FIRST.plain(1, &[record(5, 1)])], 5), (OK, 2));
    // No other edition is read, and alone it is no store.
    for third_byte in [0, 3, 255] {
        let unread = FIRST.page_of(sound_word([1, 0, third_byte]), order_word(0, PLAIN), BLANK, &[record(5, 9)]);
        assert_eq!(reads(&[unread.clone(), FIRST.cleared(1)], 5), (NO_STORE, 0));
        assert_eq!(reads(&[unread, other.clone(), SECOND.cleared(1)], 5), (OK, 2));
    }
    // A page of the other edition has no wear, and is renewed with the store's.
    let unclean = FIRST.unclean(FIRST.wear(30));
    let mut image = [SECOND.plain(0, &[]), FIRST.cleared(9), unclean, SECOND.cleared(4)].concat();
    assert_eq!(FIRST.write(store, &mut image, 5, 1), Stepped::refused(UNCLEAN));
    assert_eq!(FIRST.recover(store, &mut image), done(6));
    assert!(
        image == [vec![SECOND.plain(0, &[])], [5, 6, 4].map(|wear| SECOND.cleared(wear)).to_vec()].concat().concat()
    );
    // The edition is that at the call, also where the page that says it is renewed first, and then another.
    for [form, other] in [[FIRST, SECOND], [SECOND, FIRST]] {
        let used = form.moved(4, &[record(5, 7)]);
        let old = [form.plain(3, &[]), other.plain(9, &[record(5, 8)])];
        let mut image = [old.concat(), used.clone(), form.cleared(2)].concat();
        assert_eq!(store.read(&image, 1_024, false, 5), Reading { number: OK, value: 7 });
        assert_eq!(form.recover(store, &mut image), done(6));
        assert!(image == [form.cleared(2), form.cleared(3), used, form.cleared(2)].concat(), "{form:?}");
    }
    // A move renews with the store's edition too.
    let full = [vec![A], vec![B; SECOND.slots() - 1]].concat();
    let mut image = [SECOND.plain(0, &full), SECOND.cleared(1)].concat();
    assert_eq!(SECOND.write(store, &mut image, 5, 1), done(11));
    assert!(image == [SECOND.cleared(2), SECOND.moved(1, &[B, record(5, 1)])].concat());
}

#[test]
fn a_store_has_one_edition() {
    on_every_store(editions);
}

/// A store that holds so many addresses of the handset, from 0 on, and so many of the timer, from 32,768 on, each with
/// value 1; so many slots are free.
fn holding(form: Form, order: u32, [handset, timer]: [u16; 2], free: usize) -> [Vec<u8>; 2] {
    let addresses = (0..handset).chain(32_768..32_768 + timer);
    let mut slots: Vec<Word> = addresses.map(|address| record(address, 1)).collect();
    slots.resize(form.slots() - free, SPOILED);
    [form.plain(order, &slots), form.cleared(1)]
}

/// The same with so many addresses of both, as many of the one as of the other.
fn with_free_slots(form: Form, order: u32, held: u16, free: usize) -> [Vec<u8>; 2] {
    holding(form, order, [held - held / 2, held / 2], free)
}

fn answers_to_groups(store: &dyn Store, form: Form) {
    let number = |pages: &[Vec<u8>], group: &[Setting]| form.write_group(store, &mut pages.concat(), group).number;
    let bytes =
        |pages: &[Vec<u8>], group: &[u8]| store.write_group(&mut pages.concat(), form.size(), false, group, 9).number;
    let with_free_slots = |order, held, free| with_free_slots(form, order, held, free);
    let empty = [form.plain(0, &[]), form.cleared(1)];
    let new: Vec<Setting> = (300..309).map(|address| (address, 7)).collect();
    // 9, by length: only 3, 6 and so on to 24 bytes are a group.
    for length in (0..=40).chain([255, 256, 300, 765, 768, 771, 3_072]) {
        let group: Vec<u8> = (0..length).map(|at| [at as u8, (at / 256) as u8, 9][at % 3]).collect();
        let expected = if length % 3 == 0 && (3..=24).contains(&length) { OK } else { GROUP };
        assert_eq!(bytes(&empty, &group), expected, "{length} bytes");
    }
    // 9, by an address that is named twice, with one value or two, side by side or not.
    assert_eq!(number(&empty, &[(5, 1), (5, 2)]), GROUP);
    assert_eq!(number(&empty, &[(5, 1), (6, 2), (5, 1)]), GROUP);
    assert_eq!(number(&empty, &[&new[..7], &[(300, 7)]].concat()), GROUP);
    // Which comes first: 1, 2, 3, 4, then 9, then 5, 6 and 7.
    let no_address = [(5, 1), (NO_ADDRESS, 1)];
    let twice = [(NO_ADDRESS, 1), (NO_ADDRESS, 2)];
    assert_eq!(number(&empty[..1], &twice), SIZE);
    assert_eq!(number(&[form.cleared(1), form.cleared(1)], &twice), NO_STORE);
    assert_eq!(number(&[form.plain(0, &[]), form.plain(0, &[]), form.cleared(1)], &twice), DAMAGED);
    assert_eq!(number(&with_free_slots(0, 193, 0), &twice), DAMAGED);
    assert_eq!(number(&[form.plain(0, &[]), form.filled_with(0)], &twice), UNCLEAN);
    assert_eq!(number(&[form.plain(0, &[o(1)]), form.cleared(1)], &twice), UNCLEAN);
    assert_eq!(number(&empty, &twice), GROUP);
    assert_eq!(number(&empty, &[&new[..], &[(NO_ADDRESS, 1)]].concat()), GROUP);
    assert_eq!(number(&empty, &no_address), ADDRESS);
    assert_eq!(number(&empty, &[(NO_ADDRESS, 1), (5, 1)]), ADDRESS);
    assert_eq!(number(&with_free_slots(LAST_ORDER, 192, 0), &no_address), ADDRESS);
    assert_eq!(number(&with_free_slots(LAST_ORDER, 192, 0), &new[..1]), NO_ROOM);
    // 6 counts the addresses that aren't held.
    for (held, count, expected) in [(184, 8, OK), (185, 8, NO_ROOM), (190, 2, OK), (191, 2, NO_ROOM), (192, 1, NO_ROOM)]
    {
        assert_eq!(number(&with_free_slots(0, held, 20), &new[..count]), expected, "{count} new beside {held}");
        assert_eq!(number(&with_free_slots(0, held, 0), &new[..count]), expected, "{count} new beside {held}, a move");
    }
    assert_eq!(number(&with_free_slots(0, 191, 20), &[(300, 7), (0, 2)]), OK);
    assert_eq!(number(&with_free_slots(0, 191, 20), &[(0, 2), (300, 7), (301, 7)]), NO_ROOM);
    assert_eq!(number(&with_free_slots(0, 192, 20), &[(0, 2), (1, 2), (2, 1)]), OK);
    // 7 asks for the slots of the group.
    for (free, expected) in [(5, OK), (4, ORDER_END), (3, ORDER_END), (1, ORDER_END), (0, ORDER_END)] {
        assert_eq!(number(&with_free_slots(LAST_ORDER, 9, free), &new[..3]), expected, "{free} free slots");
        assert_eq!(number(&with_free_slots(LAST_ORDER - 1, 9, free), &new[..3]), OK, "{free} free slots");
    }
    // A group whose values are all held is tested for neither, and has no steps.
    for held in [(0..8), (7..8), (3..6)] {
        let group: Vec<Setting> = held.map(|address| (address, 1)).collect();
        let mut image = with_free_slots(LAST_ORDER, 192, 0).concat();
        assert_eq!(form.write_group(store, &mut image, &group), done(0));
    }
    assert_eq!(number(&with_free_slots(LAST_ORDER, 192, 0), &[(0, 1), (1, 2)]), ORDER_END);
}

/// 9, by the edition: the first has no groups.
fn first_edition_and_groups(store: &dyn Store) {
    let number = |pages: &[Vec<u8>], group: &[Setting]| FIRST.write_group(store, &mut pages.concat(), group).number;
    let no_address = [(5, 1), (NO_ADDRESS, 1)];
    assert_eq!(number(&[FIRST.plain(0, &[]), FIRST.cleared(1)], &[(5, 1)]), GROUP);
    assert_eq!(number(&[FIRST.plain(0, &[A]), FIRST.cleared(1)], &[(5, 0x41)]), GROUP);
    assert_eq!(number(&[FIRST.plain(0, &[]), FIRST.cleared(1)], &no_address), GROUP);
    assert_eq!(number(&[FIRST.plain(0, &[]), SECOND.cleared(1)], &[(5, 1)]), UNCLEAN);
    assert_eq!(number(&[SECOND.plain(0, &[]), FIRST.cleared(1)], &[(5, 1), (5, 2)]), UNCLEAN);
}

#[test]
fn groups_are_tested_in_order() {
    in_forms(&WITH_GROUPS, answers_to_groups);
    on_every_store(first_edition_and_groups);
}

/// Where the words of a group stand, in a page, in a new one and after a move, whatever the allowance.
fn placing(store: &dyn Store, form: Form) {
    let group = [(9, 3), (5, 0x41), (7, 1)];
    let records = [record(9, 3), record(5, 0x41), record(7, 1)];
    let words = [vec![o(3)], records.to_vec(), vec![c(3)]].concat();
    let writes = |before: Vec<u8>, after: Vec<u8>, steps: u16| {
        let mut image = before.clone();
        assert_eq!(form.write_group(store, &mut image, &group), done(steps));
        assert!(image == after, "{steps} steps");
        for allowance in 0..steps {
            let mut image = before.clone();
            let answer = store.write_group(&mut image, form.size(), false, &group_bytes(&group), allowance);
            assert_eq!(answer, Stepped { number: OK, finished: false, steps: allowance });
            let read = |image: &[u8], address| store.read(image, form.size(), is_timers(address), address);
            assert_eq!(read(&image, 7).number, NOT_HELD, "after {allowance} of {steps} steps");
            assert_eq!(read(&image, 5), read(&before, 5));
            assert_eq!(read(&image, 9), read(&before, 9));
        }
    };
    // 5 has its value already and is written all the same. Five slots are enough, and four are as good as none.
    let held = [A, record(9, 2)];
    let filled = |free: usize| [vec![SPOILED; form.slots() - 2 - free], held.to_vec()].concat();
    for free in [5, 6, 100, (form.slots() - 251).max(5)] {
        let after = [filled(free), words.clone()].concat();
        let cleared = form.cleared(1);
        let before = [form.plain(0, &filled(free)), cleared.clone()].concat();
        writes(before, [form.plain(0, &after), cleared].concat(), 10);
    }
    for free in [4, 3, 2, 1, 0] {
        let full = form.plain(0, &filled(free));
        let new_page = form.page_of(form.wear(3), order_word(1, PLAIN), BLANK, &words);
        let [worn, least] = [form.cleared(4), form.cleared(3)];
        writes(
            [full.clone(), worn.clone(), least.clone()].concat(),
            [full.clone(), worn.clone(), new_page].concat(),
            12,
        );
        // In a move the done word is the moment of the new values, and the renewals follow it.
        let moved_to = form.page_of(form.wear(3), order_word(1, RECEIVING), done_word(1), &records);
        let mut image = [full.clone(), least.clone()].concat();
        assert_eq!(form.write_group(store, &mut image, &group), done(2 * 3 + 4 + 3));
        assert!(image == [form.cleared(2), moved_to].concat(), "a move with {free} free slots");
    }
    // A group of one has its marks too.
    let mut image = [form.plain(0, &[]), form.cleared(1)].concat();
    assert_eq!(form.write_group(store, &mut image, &[(7, 1)]), done(6));
    assert_eq!(form.page_at(&image, 0), form.plain(0, &[o(1), record(7, 1), c(1)]));
    // A move copies the other addresses by rising address, before the group's in the order given.
    let others = [record(8, 8), record(2, 2), record(5, 1), record(9, 9)];
    let full = [vec![SPOILED; form.slots() - 4], others.to_vec()].concat();
    let mut image = [form.plain(6, &full), form.cleared(1)].concat();
    assert_eq!(form.write_group(store, &mut image, &group), done(2 * 5 + 4 + 3));
    let moved_to = form.moved(7, &[vec![record(2, 2), record(8, 8)], records.to_vec()].concat());
    assert!(image == [form.cleared(2), moved_to].concat());
}

#[test]
fn a_group_stands_in_one_page() {
    in_forms(&WITH_GROUPS, placing);
}

/// Recovery abandons an open group first, in the free slot, and then renews, in the order of the pages.
fn abandoning(store: &dyn Store, form: Form) {
    let bad = form.filled_with(0);
    let before = [bad.clone(), form.plain(0, &[o(2), A]), bad.clone()].concat();
    let abandoned = form.plain(0, &[o(2), A, ab()]);
    let stages = [
        (0, before.clone()),
        (1, before.clone()),
        (2, [bad.clone(), abandoned.clone(), bad.clone()].concat()),
        (5, [form.cleared(2), abandoned.clone(), bad].concat()),
        (8, [form.cleared(2), abandoned, form.cleared(3)].concat()),
    ];
    for (allowance, after) in stages {
        let mut image = before.clone();
        let answer = store.recover(&mut image, form.size(), allowance);
        assert_eq!(answer, Stepped { number: OK, finished: allowance == 8, steps: allowance });
        assert!(image == after, "after {allowance} steps");
    }
    // The last slot is a free one; and where a mark was spoiled the next is taken.
    let last = [vec![SPOILED; form.slots() - 3], vec![o(1), A]].concat();
    let mut image = [form.plain(0, &last), form.cleared(1)].concat();
    assert_eq!(form.recover(store, &mut image), done(2));
    assert_eq!(slot_word(form.page_at(&image, 0), form.slots() - 1), ab());
    let mut image = [form.plain(0, &[o(1), A, [0xFF, 0xFF, 0x20, 0x08]]), form.cleared(1)].concat();
    assert_eq!(form.recover(store, &mut image), done(2));
    assert_eq!(slot_word(form.page_at(&image, 0), 3), ab());
    assert_eq!(form.recover(store, &mut image), done(0));
}

#[test]
fn recovery_abandons_first() {
    in_forms(&WITH_GROUPS, abandoning);
}

/// The listing counts what is half-written and spoiled in place: of marks only those that open inside a group.
#[test]
fn the_listing_counts_groups() {
    let counted = |form: Form, slots: &[Word]| {
        let text = String::from_utf8(listing(&[form.plain(0, slots), form.cleared(1)].concat())).unwrap();
        text.lines().next().unwrap().split_once(" held ").unwrap().1.to_string()
    };
    let in_second = |slots: &[Word]| counted(SECOND, slots);
    assert_eq!(in_second(&[o(2), A, B, c(2)]), "2 half 0 spoiled 0");
    assert_eq!(counted(FIRST, &[o(2), A, B, c(2), ab()]), "2 half 0 spoiled 3");
    assert_eq!(in_second(&[o(2), A, o(1), B, c(1)]), "0 half 0 spoiled 1");
    assert_eq!(in_second(&[o(2), o(1), A, o(2), B]), "0 half 0 spoiled 2");
    assert_eq!(in_second(&[c(1), ab(), A, c(2)]), "1 half 0 spoiled 0");
    assert_eq!(in_second(&[o(2), A, HALF_WRITTEN, SPOILED, BLANK, c(2)]), "0 half 1 spoiled 1");
    assert_eq!(in_second(&[9, 128, 137, 255].map(|value| record(NO_ADDRESS, value))), "0 half 0 spoiled 4");
    assert_eq!(in_second(&[o(1), record(NO_ADDRESS, 9), c(1)]), "0 half 0 spoiled 1");
    // The slots of a page of the other edition don't count.
    let pages = [SECOND.plain(0, &[A]), FIRST.plain(1, &[SPOILED, B]), SECOND.cleared(1)].concat();
    assert_eq!(listing(&pages), b"pages 3 used 1 cleared 1 order 0 held 1 half 0 spoiled 0\n5 65\n");
}

// Wish 12: page sizes, and the larger chip.

/// A call, of which only the number is looked at.
type Number<'a> = &'a dyn Fn(&mut [u8]) -> u8;

/// The numbers that the calls give, both formats first, each on a copy of the image; refused calls leave it as it is.
fn numbers(store: &dyn Store, image: &[u8], size: u16) -> [u8; 8] {
    let calls: [Number; 8] = [
        &|image| store.format(image, size, false),
        &|image| store.format(image, size, true),
        &|image| store.recover(image, size, u16::MAX).number,
        &|image| store.write(image, size, false, 5, 1, u16::MAX).number,
        &|image| store.write_group(image, size, false, &[5, 0, 1], u16::MAX).number,
        &|image| store.read(image, size, false, 5).number,
        &|image| store.blank_read(image, size, false, 5).number,
        &|image| store.lookup(image, size).number,
    ];
    calls.map(|call| {
        let mut copy = image.to_vec();
        let number = call(&mut copy);
        assert!(number == OK || copy == image, "refused with {number} at {size}, yet the image changed");
        number
    })
}

/// Any size but two is refused, whatever the image.
fn sizes(store: &dyn Store) {
    for form in FORMS {
        let image = [form.plain(0, &[A]), form.cleared(1), form.cleared(1), form.cleared(1)].concat();
        for size in WRONG_SIZES {
            assert_eq!(numbers(store, &image, size), [SIZE; 8], "{size}");
            assert_eq!(numbers(store, &[], size), [SIZE; 8], "{size} and no bytes");
        }
        for size in (0..=u16::MAX).filter(|size| ![1_024, 2_048].contains(size)) {
            assert_eq!(store.read(&image, size, false, 5), Reading::refused(SIZE), "{size}");
        }
        assert_eq!(store.read(&image, form.size(), false, 5), Reading { number: OK, value: 0x41 });
        // At the other size the page is bad.
        assert_eq!(store.read(&image, 3_072 - form.size(), false, 5), Reading::refused(NO_STORE));
    }
}

/// Lengths, and whether they are of 2 to 32 whole pages at 1,024 and at 2,048.
const LENGTHS: [(usize, bool, bool); 21] = [
    (0, false, false),
    (1_023, false, false),
    (1_024, false, false),
    (2_047, false, false),
    (2_048, true, false),
    (2_049, false, false),
    (3_072, true, false),
    (4_095, false, false),
    (4_096, true, true),
    (4_097, false, false),
    (5_120, true, false),
    (6_144, true, true),
    (32_768, true, true),
    (33_792, false, false),
    (34_816, false, true),
    (64_512, false, false),
    (65_536, false, true),
    (65_537, false, false),
    (67_584, false, false),
    (69_632, false, false),
    (131_072, false, false),
];

/// The named size measures.
fn lengths(store: &dyn Store) {
    for (length, at_smaller, at_larger) in LENGTHS {
        for (size, right) in [(1_024, at_smaller), (2_048, at_larger)] {
            let [other, format] = if right { [NO_STORE, OK] } else { [SIZE, SIZE] };
            let expected = [format, format, other, other, other, other, other, other];
            assert_eq!(numbers(store, &vec![255; length], size), expected, "{length} bytes at {size}");
        }
    }
}

#[test]
fn the_named_size_measures() {
    on_every_store(sizes);
    on_every_store(lengths);
}

/// A larger page has 509 slots, and all of it is one page.
fn slots_of_larger(store: &dyn Store) {
    let cleared = || THIRD.cleared(1);
    let taken = |count: usize| vec![SPOILED; count];
    assert_eq!((FIRST.slots(), SECOND.slots(), THIRD.slots()), (253, 253, 509));
    for slot in 0..509 {
        let older = [vec![record(5, 1); slot], vec![A]].concat();
        assert_eq!(THIRD.reads(store, &[THIRD.plain(0, &older), cleared()], 5), (OK, 0x41), "slot {slot}");
        // The record goes to the free slot, which is this one.
        let mut image = [THIRD.plain(0, &taken(slot)), cleared()].concat();
        assert_eq!(THIRD.write(store, &mut image, 5, 0x41), done(2), "slot {slot}");
        assert!(image == [THIRD.plain(0, &[taken(slot), vec![A]].concat()), cleared()].concat(), "slot {slot}");
        assert_eq!(image[12 + 4 * slot..][..4], A);
        assert_eq!(store.read(&image, 2_048, false, 5), Reading { number: OK, value: 0x41 }, "slot {slot}");
    }
    // With slot 508 taken a page is full, and not before.
    let full = THIRD.plain(0, &[taken(508), vec![A]].concat());
    let mut image = [full.clone(), cleared(), cleared()].concat();
    assert_eq!(THIRD.write(store, &mut image, 6, 0x42), done(4));
    assert!(image == [full.clone(), THIRD.plain(1, &[B]), cleared()].concat());
    let mut image = [full, cleared()].concat();
    assert_eq!(THIRD.write(store, &mut image, 6, 0x42), done(2 * 2 + 4 + 3));
    assert!(image == [THIRD.cleared(2), THIRD.moved(1, &[A, B])].concat());
    // A group may stand anywhere, over offset 1,024 too.
    for before in (240..260).chain([503, 504, 505]) {
        let mut image = [THIRD.plain(0, &taken(before)), cleared()].concat();
        assert_eq!(THIRD.write_group(store, &mut image, &[(5, 0x41), (6, 0x42)]), done(8), "behind {before} slots");
        let words = [taken(before), vec![o(2), A, B, c(2)]].concat();
        assert!(image == [THIRD.plain(0, &words), cleared()].concat(), "behind {before} slots");
        assert_eq!(found(store, THIRD, &image), BOTH, "behind {before} slots");
    }
    // One byte that isn't 255 is enough for a page that isn't cleared, and an erase is of all its bytes.
    for at in [4, 12, 1_023, 1_024, 1_025, 2_047] {
        let mut odd = cleared();
        odd[at] = 254;
        let mut image = [THIRD.plain(0, &[]), odd].concat();
        assert_eq!(THIRD.write(store, &mut image, 5, 1), Stepped::refused(UNCLEAN), "byte {at}");
        assert_eq!(THIRD.recover(store, &mut image), done(3), "byte {at}");
        assert!(image == [THIRD.plain(0, &[]), THIRD.cleared(2)].concat(), "byte {at}");
    }
    let mut image = [THIRD.plain(0, &[]), THIRD.filled_with(0)].concat();
    assert_eq!(THIRD.recover(store, &mut image), done(3));
    assert!(image == [THIRD.plain(0, &[]), THIRD.cleared(2)].concat());
}

#[test]
fn a_larger_page_has_509_slots() {
    on_every_store(slots_of_larger);
}

/// The one edition of the larger chip is 3, and format isn't told.
fn edition_of_larger(store: &dyn Store) {
    for second_edition in [false, true] {
        for before in
            [THIRD.plain(3, &[A]), [FIRST.plain(3, &[A]), SECOND.plain(3, &[A])].concat(), THIRD.filled_with(0)]
        {
            let mut image = [before.clone(), before].concat();
            assert_eq!(store.format(&mut image, 2_048, second_edition), OK);
            assert!(image == [THIRD.plain(0, &[]), THIRD.cleared(1)].concat(), "told {second_edition}");
            assert_eq!(image[..8], [0x01, 0x00, 0x03, 0x15, 0x01, 0x00, 0x00, 0x17]);
        }
    }
    for third_byte in [0, 1, 2, 4, 255] {
        let wear = |wear| sound_word([wear, 0, third_byte]);
        let unread = THIRD.page_of(wear(9), order_word(7, PLAIN), BLANK, &[record(5, 9)]);
        let not_cleared = THIRD.page_of(wear(9), BLANK, BLANK, &[]);
        assert_eq!(THIRD.reads(store, &[unread.clone(), not_cleared.clone()], 5), (NO_STORE, 0), "{third_byte}");
        assert_eq!(THIRD.reads(store, &[unread.clone(), THIRD.cleared(1)], 5), (NO_STORE, 0), "{third_byte}");
        // Such a page has no wear, and is renewed with the edition that there is.
        let open = THIRD.plain(0, &[A]);
        let mut image = [unread, open.clone(), not_cleared].concat();
        assert_eq!(store.read(&image, 2_048, false, 5), Reading { number: OK, value: 0x41 }, "{third_byte}");
        assert_eq!(THIRD.write(store, &mut image, 5, 1), Stepped::refused(UNCLEAN), "{third_byte}");
        assert_eq!(THIRD.recover(store, &mut image), done(6), "{third_byte}");
        assert!(image == [THIRD.cleared(2), open, THIRD.cleared(3)].concat(), "{third_byte}");
    }
}

#[test]
fn the_larger_chip_has_one_edition() {
    on_every_store(edition_of_larger);
}

/// Writes at 2,048 may make what is a page's header at 1,024: slots 253 to 255, in the middle of a page. Whoever names
/// 1,024 then finds a store in the rest of that page, and a recovery there takes the other half away.
fn records_that_pass_for_a_header(store: &dyn Store) {
    let mut image = THIRD.filled_with(0).repeat(2);
    assert_eq!(store.format(&mut image, 2_048, false), OK);
    (0..253).for_each(|count| assert_eq!(THIRD.write(store, &mut image, 5, count), done(2)));
    for (address, value) in [(1, 1), (1, 0), (7, 200), (9, 33)] {
        assert_eq!(
            store.read(&image, 1_024, false, 9),
            Reading::refused(if address < 7 { NO_STORE } else { NOT_HELD })
        );
        assert_eq!(THIRD.write(store, &mut image, address, value), done(2));
    }
    let middle = [FIRST.wear(1), order_word(0, PLAIN), record(7, 200), record(9, 33)].concat();
    assert_eq!(image[1_024..][..16], middle);
    for (address, at_smaller, at_larger) in [(5, None, Some(252)), (1, None, Some(0)), (9, Some(33), Some(33))] {
        for (size, held) in [(1_024, at_smaller), (2_048, at_larger)] {
            let expected = held.map_or(Reading::refused(NOT_HELD), |value| Reading { number: OK, value });
            assert_eq!(store.read(&image, size, is_timers(address), address), expected, "{address} at {size}");
        }
    }
    assert_eq!(FIRST.write(store, &mut image, 9, 34), Stepped::refused(UNCLEAN));
    assert_eq!(FIRST.recover(store, &mut image), done(9));
    assert_eq!(store.read(&image, 2_048, false, 5), Reading::refused(NO_STORE));
}

#[test]
fn records_may_pass_for_a_header() {
    on_every_store(records_that_pass_for_a_header);
}

// Wish 7: the handset has the addresses 0 to 32,767, the glaze timer 32,768 to 65,534, and neither may come to hold
// more than 128.

const HANDSET: bool = false;
const TIMER: bool = true;
const BOTH_OWNERS: [bool; 2] = [HANDSET, TIMER];

/// A write of one setting, or of a group, by the owner that is named, of all its steps.
fn by(store: &dyn Store, form: Form, timer: bool, image: &mut [u8], settings: &[Setting]) -> Stepped {
    let change = match *settings {
        [setting] => Change::Single(setting),
        _ => Change::Group(settings.to_vec()),
    };
    store.change(image, form.size(), timer, &change, u16::MAX)
}

/// Each address is one owner's: only this one writes and reads it, held or not.
fn whose_addresses(store: &dyn Store, form: Form) {
    let size = form.size();
    let ends = [0, 1, 16, 19, 255, 256, 32_766, 32_767, 32_768, 32_769, 32_784, 33_023, 65_533, 65_534];
    for address in (0..65_535).step_by(1_789).chain(ends) {
        let timer = address > 32_767;
        let mut image = [form.plain(0, &[]), form.cleared(1)].concat();
        for (value, steps) in [(0, 2), (0, 0), (9, 2), (9, 0)] {
            let before = image.clone();
            for other in [value, 7] {
                let answer = by(store, form, !timer, &mut image, &[(address, other)]);
                assert_eq!(answer, Stepped::refused(OWNER), "{other} at {address}");
            }
            assert!(image == before, "{address}");
            assert_eq!(by(store, form, timer, &mut image, &[(address, value)]), done(steps), "{value} at {address}");
            assert_eq!(store.read(&image, size, timer, address), Reading { number: OK, value });
            assert_eq!(store.blank_read(&image, size, timer, address), Reading { number: OK, value });
            assert_eq!(store.read(&image, size, !timer, address), Reading::refused(OWNER), "{address}");
            assert_eq!(store.blank_read(&image, size, !timer, address), Reading::refused(OWNER), "{address}");
            // The address of the other 32,768 on or back is not held.
            if address != 32_767 {
                let twin = address ^ 32_768;
                assert_eq!(store.read(&image, size, !timer, twin), Reading::refused(NOT_HELD), "{twin}");
                assert_eq!(store.blank_read(&image, size, !timer, twin), Reading { number: OK, value: 0 }, "{twin}");
                assert_eq!(store.read(&image, size, timer, twin), Reading::refused(OWNER), "{twin}");
                assert_eq!(store.blank_read(&image, size, timer, twin), Reading::refused(OWNER), "{twin}");
            }
        }
    }
}

/// OWNER comes behind ADDRESS, and before everything that a value, or the settings that there are, can make of it.
fn order_of_owner(store: &dyn Store, form: Form) {
    let cleared = || form.cleared(1);
    for (timer, own, foreign) in [(HANDSET, 5, 40_000), (TIMER, 40_000, 5)] {
        let write = |pages: &[Vec<u8>], address, value| {
            let mut image = pages.concat();
            by(store, form, timer, &mut image, &[(address, value)]).number
        };
        let read = |pages: &[Vec<u8>], address| {
            let readings = [
                store.read(&pages.concat(), form.size(), timer, address),
                store.blank_read(&pages.concat(), form.size(), timer, address),
            ];
            readings.map(|reading| reading.number)
        };
        let unclean = [form.plain(0, &[record(foreign, 1)]), form.filled_with(0)];
        for (pages, of_write, of_read) in [
            (vec![form.plain(0, &[])], SIZE, SIZE),
            (vec![cleared(), cleared()], NO_STORE, NO_STORE),
            (vec![form.plain(0, &[]), form.plain(0, &[]), cleared()], DAMAGED, DAMAGED),
            (holding(form, 0, [97, 96], 0).to_vec(), DAMAGED, DAMAGED),
            (unclean.to_vec(), UNCLEAN, OWNER),
            (vec![form.plain(0, &[]), cleared()], OWNER, OWNER),
            (vec![form.plain(0, &[record(foreign, 1)]), cleared()], OWNER, OWNER),
        ] {
            assert_eq!(write(&pages, foreign, 1), of_write, "by the timer: {timer}");
            assert_eq!(read(&pages, foreign), [of_read; 2], "by the timer: {timer}");
        }
        // 65,535 is the address of neither.
        assert_eq!(write(&[form.plain(0, &[]), cleared()], NO_ADDRESS, 1), ADDRESS);
        assert_eq!(read(&[form.plain(0, &[]), cleared()], NO_ADDRESS), [ADDRESS; 2]);
        // Where there is no room for the address of the other, nor an order for its page.
        for held in [[96, 96], [128, 0], [0, 128], [150, 0], [0, 150]] {
            for order in [0, LAST_ORDER] {
                assert_eq!(write(&holding(form, order, held, 0), foreign, 1), OWNER, "{held:?}");
            }
        }
        let full = [form.plain(LAST_ORDER, &vec![record(foreign, 1); form.slots()]), cleared()];
        for value in [1, 2] {
            assert_eq!(write(&full, foreign, value), OWNER);
        }
        assert_eq!(write(&full, own, 1), ORDER_END);
        // NO ROOM by the limit comes before ORDER END.
        let at_the_limit = holding(form, LAST_ORDER, if timer { [0, 128] } else { [128, 0] }, 0);
        assert_eq!(write(&at_the_limit, if timer { 50_000 } else { 500 }, 1), NO_ROOM);
    }
}

/// What is held, the owner's first and then the other's, and the answer to a write of so many new addresses of the
/// owner beside as many that it holds.
const AT_THE_LIMIT: [([u16; 2], u16, u16, u8); 47] = [
    // One address.
    ([0, 0], 1, 0, OK),
    ([126, 0], 1, 0, OK),
    ([127, 0], 1, 0, OK),
    ([128, 0], 1, 0, NO_ROOM),
    ([129, 0], 1, 0, NO_ROOM),
    ([150, 0], 1, 0, NO_ROOM),
    ([191, 0], 1, 0, NO_ROOM),
    ([192, 0], 1, 0, NO_ROOM),
    ([127, 63], 1, 0, OK),
    ([127, 64], 1, 0, OK),
    ([128, 63], 1, 0, NO_ROOM),
    ([128, 64], 1, 0, NO_ROOM),
    ([100, 91], 1, 0, OK),
    ([100, 92], 1, 0, NO_ROOM),
    ([127, 65], 1, 0, NO_ROOM),
    ([0, 128], 1, 0, OK),
    ([63, 128], 1, 0, OK),
    ([64, 128], 1, 0, NO_ROOM),
    ([0, 129], 1, 0, OK),
    ([0, 191], 1, 0, OK),
    ([0, 192], 1, 0, NO_ROOM),
    // What is held may change, however much that is.
    ([128, 0], 0, 1, OK),
    ([129, 0], 0, 1, OK),
    ([192, 0], 0, 1, OK),
    ([128, 64], 0, 1, OK),
    ([64, 128], 0, 1, OK),
    // A group.
    ([120, 0], 8, 0, OK),
    ([121, 0], 8, 0, NO_ROOM),
    ([121, 0], 7, 1, OK),
    ([126, 0], 2, 0, OK),
    ([126, 0], 3, 0, NO_ROOM),
    ([126, 0], 2, 6, OK),
    ([126, 0], 3, 5, NO_ROOM),
    ([127, 0], 1, 7, OK),
    ([127, 0], 2, 6, NO_ROOM),
    ([128, 0], 0, 8, OK),
    ([128, 0], 1, 7, NO_ROOM),
    ([129, 0], 0, 8, OK),
    ([129, 0], 1, 7, NO_ROOM),
    ([190, 0], 0, 8, OK),
    ([190, 0], 2, 0, NO_ROOM),
    ([120, 64], 8, 0, OK),
    ([120, 65], 8, 0, NO_ROOM),
    ([56, 128], 8, 0, OK),
    ([57, 128], 8, 0, NO_ROOM),
    ([0, 150], 8, 0, OK),
    ([0, 185], 8, 0, NO_ROOM),
];

/// The rows of one address or, where there are groups, all. Each is of the handset and of the timer, and the write goes
/// to a free slot or moves.
fn limits(store: &dyn Store, form: Form) {
    let rows = AT_THE_LIMIT.into_iter().filter(|&(_, new, held, _)| form.0.has_groups() || new + held == 1);
    for ((held, new, changed, number), timer) in rows.flat_map(|row| BOTH_OWNERS.map(|timer| (row, timer))) {
        let first = if timer { 32_768 } else { 0 };
        let others = if timer { [held[1], held[0]] } else { held };
        let mut settings: Vec<Setting> = (0..new).map(|index| (first + 300 + index, 7)).collect();
        settings.extend((0..changed).map(|index| (first + held[0] - 1 - index, 7)));
        let row = format!("{held:?}, {new} new, {changed} held, by the timer: {timer}");
        for free in [20, 0] {
            let before = holding(form, 3, others, free).concat();
            let mut image = before.clone();
            let answer = by(store, form, timer, &mut image, &settings);
            assert_eq!(answer.number, number, "{row}");
            assert!(number == OK || image == before, "{row}");
            for &(address, value) in &settings {
                let reading = store.read(&image, form.size(), timer, address);
                assert!(number != OK || reading == Reading { number: OK, value }, "{row}: {reading:?}");
            }
        }
        // A store of which one owner holds more than 128 is none the less one.
        let image = holding(form, 3, others, 20).concat();
        assert_eq!(store.recover(&mut image.clone(), form.size(), 0), done(0), "{row}");
        assert_eq!(store.lookup(&image, form.size()).number, OK, "{row}");
        if held[0] > 0 {
            let last = first + held[0] - 1;
            assert_eq!(store.read(&image, form.size(), timer, last), Reading { number: OK, value: 1 }, "{row}");
            // Its own value is accepted, also where there is neither a free slot nor an order.
            let mut image = holding(form, LAST_ORDER, others, 0).concat();
            assert_eq!(by(store, form, timer, &mut image, &[(last, 1)]), done(0), "{row}");
        }
    }
}

/// As neither comes to hold more than 128, an owner that then holds at most 64 always has room.
fn room_for_64(store: &dyn Store, form: Form) {
    for (timer, others) in BOTH_OWNERS.into_iter().flat_map(|timer| [0, 1, 64, 127, 128].map(|others| (timer, others)))
    {
        let first = if timer { 32_768 } else { 0 };
        for own in [0, 1, 55, 56, 62, 63] {
            let mut image = holding(form, 0, if timer { [others, own] } else { [own, others] }, 20).concat();
            let new = if form.0.has_groups() { (64 - own).min(8) } else { 1 };
            let settings: Vec<Setting> = (0..new).map(|index| (first + 300 + index, 7)).collect();
            let answer = by(store, form, timer, &mut image, &settings);
            assert!(answer.number == OK && answer.finished, "{own} beside {others}: {answer:?}");
        }
    }
}

/// One address of the other in a group is enough, in whatever place and with whatever value.
fn owners_of_groups(store: &dyn Store, form: Form) {
    for (timer, first, foreign) in [(HANDSET, 0, 32_768), (TIMER, 32_768, 0)] {
        let image = holding(form, 0, [20, 20], 20).concat();
        let number = |settings: &[Setting]| {
            let mut copy = image.clone();
            let group = group_bytes(settings);
            let answer = store.write_group(&mut copy, form.size(), timer, &group, u16::MAX);
            assert!(answer.number == OK || copy == image, "{settings:?}");
            answer.number
        };
        for (count, value) in (1..=8).flat_map(|count| [(count, 1), (count, 2)]) {
            let own: Vec<Setting> = (first..first + count).map(|address| (address, value)).collect();
            assert_eq!(number(&own), OK);
            for place in 0..usize::from(count) {
                let with = |address, value| {
                    let mut group = own.clone();
                    group[place] = (address, value);
                    group
                };
                // Held with this value, held with another, and new.
                for (address, value) in [(foreign + 9, 1), (foreign + 9, 2), (foreign + 300, 1)] {
                    assert_eq!(number(&with(address, value)), OWNER, "{address} in place {place} of {count}");
                }
                // ADDRESS comes first, in whatever place it is, and GROUP before it.
                for other in (0..usize::from(count)).filter(|&other| other != place) {
                    let mut group = with(foreign + 9, 1);
                    group[other].0 = NO_ADDRESS;
                    assert_eq!(number(&group), ADDRESS, "places {place} and {other} of {count}");
                    group[other].0 = foreign + 9;
                    assert_eq!(number(&group), GROUP, "places {place} and {other} of {count}");
                }
            }
        }
        let nine: Vec<Setting> = (foreign..foreign + 9).map(|address| (address, 1)).collect();
        assert_eq!(number(&nine), GROUP);
        assert_eq!(number(&nine[..8]), OWNER);
        // Without room, and in a store that waits for recovery.
        let full = holding(form, LAST_ORDER, [96, 96], 0);
        let new = [(first, 2), (foreign + 300, 1)];
        let answer = store.write_group(&mut full.concat(), form.size(), timer, &group_bytes(&new), 9);
        assert_eq!(answer, Stepped::refused(OWNER));
        let cut = [form.plain(0, &[o(1)]), form.cleared(1)];
        let answer = store.write_group(&mut cut.concat(), form.size(), timer, &group_bytes(&new), 9);
        assert_eq!(answer, Stepped::refused(UNCLEAN));
    }
}

/// The first edition has no groups, whoever asks.
fn owners_in_first_edition(store: &dyn Store) {
    let image = [FIRST.plain(0, &[]), FIRST.cleared(1)].concat();
    for timer in BOTH_OWNERS {
        for address in [5, 40_000] {
            let answer = store.write_group(&mut image.clone(), 1_024, timer, &group_bytes(&[(address, 1)]), 9);
            assert_eq!(answer, Stepped::refused(GROUP));
        }
    }
}

/// A move carries what both hold, by rising address, whoever writes; and so does the search in what it leaves.
fn both_are_moved(store: &dyn Store, form: Form) {
    let held = [record(40_000, 4), record(7, 1), record(32_768, 3), record(32_767, 2), record(65_534, 5)];
    let full = [vec![SPOILED; form.slots() - 5], held.to_vec()].concat();
    let before = [form.plain(6, &full), form.cleared(1)].concat();
    let [at_7, at_32767, at_32768, at_40000, at_65534] =
        [record(7, 1), record(32_767, 2), record(32_768, 3), record(40_000, 4), record(65_534, 5)];
    for (setting, moved) in [
        ((7, 9), [at_32767, at_32768, at_40000, at_65534, record(7, 9)]),
        ((40_000, 9), [at_7, at_32767, at_32768, at_65534, record(40_000, 9)]),
    ] {
        let mut image = before.clone();
        assert_eq!(form.write(store, &mut image, setting.0, setting.1), done(2 * 5 + 4 + 3));
        assert!(image == [form.cleared(2), form.moved(7, &moved)].concat(), "{setting:?}");
        for (address, value) in [(7, 1), (32_767, 2), (32_768, 3), (40_000, 4), (65_534, 5)] {
            let value = if address == setting.0 { setting.1 } else { value };
            assert_eq!(form.reads(store, &[image.clone()], address), (OK, value), "{address} after {setting:?}");
        }
    }
    if form.0.has_groups() {
        let mut image = before;
        assert_eq!(form.write_group(store, &mut image, &[(65_534, 8), (32_768, 9)]), done(2 * 5 + 4 + 3));
        let moved = [at_7, at_32767, at_40000, record(65_534, 8), record(32_768, 9)];
        assert!(image == [form.cleared(2), form.moved(7, &moved)].concat());
    }
}

/// The pairing code is the handset's. The lookup names nobody and finds it, whatever stands 32,768 further on.
fn whose_code(store: &dyn Store, form: Form) {
    let records: Vec<Word> = (32_784..32_788).map(|address| record(address, 8)).collect();
    let mut image = [form.plain(0, &records), form.cleared(1)].concat();
    assert_eq!(store.lookup(&image, form.size()), Pairing { number: OK, paired: false, digits: [0; 4] });
    for (address, digit) in [(16, 7), (17, 1), (18, 3), (19, 9)] {
        assert_eq!(by(store, form, TIMER, &mut image, &[(address, digit)]), Stepped::refused(OWNER));
        assert_eq!(by(store, form, HANDSET, &mut image, &[(address, digit)]), done(2));
    }
    assert_eq!(store.lookup(&image, form.size()), Pairing { number: OK, paired: true, digits: [7, 1, 3, 9] });
}

const OF_OWNERS: [RuleOfForm; 6] = [whose_addresses, order_of_owner, limits, room_for_64, both_are_moved, whose_code];

#[test]
fn two_owners_share_a_store() {
    in_forms(&FORMS, |store, form| OF_OWNERS.iter().for_each(|rule| rule(store, form)));
    in_forms(&WITH_GROUPS, owners_of_groups);
    on_every_store(owners_in_first_edition);
}

fn is_caught(rule: impl Fn()) -> bool {
    catch_unwind(AssertUnwindSafe(rule)).is_err()
}

#[test]
fn broken_stores_are_caught() {
    let pages = [FIRST.plain(3, &[record(5, 1)]), FIRST.receiving(9, &[record(5, 7)]), FIRST.cleared(1)];
    assert_eq!(FIRST.reads(&Second, &pages, 5), (OK, 1));
    let broken = Stepwise(Broken::ReceivingIsCurrent);
    assert!(is_caught(|| assert_eq!(FIRST.reads(&broken, &pages, 5), (OK, 1))));
    for form in FORMS {
        assert!(is_caught(|| checks_by_hand(&Stepwise(Broken::LowHalfTwice), form)));
        for broken in WRONG_WEARS {
            assert!(is_caught(|| lost_wears(&Stepwise(broken), form)), "{broken:?}");
        }
        for wrong in WRONG_PAIRINGS {
            assert!([codes, blanks].iter().any(|rule| is_caught(|| rule(&wrong, form))), "{wrong:?}");
        }
    }
}

type Rule = fn(&dyn Store);
type RuleOfForm = fn(&dyn Store, Form);

const OF_GROUPS: [RuleOfForm; 6] = [counting, dead_groups, order_in_groups, answers_to_groups, placing, abandoning];

/// What only the smaller chip has is caught there, and all else on both.
#[test]
fn wrong_groups_are_caught() {
    let of_editions: [Rule; 3] = [counting_all, editions, first_edition_and_groups];
    let passes = |store: &dyn Store| {
        of_editions.iter().for_each(|rule| rule(store));
        WITH_GROUPS.into_iter().for_each(|form| OF_GROUPS.iter().for_each(|rule| rule(store, form)));
    };
    passes(&Stepwise(WrongGroup::Nothing));
    for wrong in WRONG_GROUPS {
        let store = Stepwise(wrong);
        let in_form = |form| OF_GROUPS.iter().any(|rule| is_caught(|| rule(&store, form)));
        let by_editions = of_editions.iter().any(|rule| is_caught(|| rule(&store)));
        assert!(by_editions || WITH_GROUPS.into_iter().all(in_form), "{wrong:?}");
    }
}

#[test]
fn wrong_chips_are_caught() {
    let of_chips: [Rule; 6] =
        [editions, sizes, lengths, slots_of_larger, edition_of_larger, records_that_pass_for_a_header];
    let passes = |store: &dyn Store| {
        of_chips.iter().for_each(|rule| rule(store));
        OF_GROUPS.iter().for_each(|rule| rule(store, THIRD));
    };
    passes(&Stepwise(WrongChip::Nothing));
    for wrong in WRONG_CHIPS {
        let store = Stepwise(wrong);
        assert!(is_caught(|| passes(&store)), "{wrong:?}");
    }
}

/// All that has nothing to do with groups is caught in every form.
#[test]
fn wrong_owners_are_caught() {
    let of_groups = [
        WrongOwner::OwnerBeforeGroup,
        WrongOwner::FirstAddressTested,
        WrongOwner::LastAddressTested,
        WrongOwner::OneOwnSuffices,
        WrongOwner::HeldCountAsNew,
        WrongOwner::NewCountAsOne,
    ];
    let passes = |store: &dyn Store, form: Form| {
        OF_OWNERS.iter().for_each(|rule| rule(store, form));
        if form.0.has_groups() {
            owners_of_groups(store, form);
        } else {
            owners_in_first_edition(store);
        }
    };
    FORMS.into_iter().for_each(|form| passes(&Stepwise(WrongOwner::Nothing), form));
    for wrong in WRONG_OWNERS {
        let store = Stepwise(wrong);
        let forms: &[Form] = if of_groups.contains(&wrong) { &WITH_GROUPS } else { &FORMS };
        for &form in forms {
            assert!(is_caught(|| passes(&store, form)), "{wrong:?} in {form:?}");
        }
    }
}
