//! The twelve examples of docs/FORMAT.md, and what it says of broken words (X2, X9), of pairing codes (X10) and of
//! groups (X11 to X13), on every store at hand; in each edition that has the example, the larger chip's too, of which
//! one page is worked by hand; and the handset and the glaze timer in one store.
//!
//! Broken stores that these catch: one with an exclusive-or check (examples 1 to 4), some that are wrong in groups (X11
//! to X13), some that are wrong in the larger chip, and some that are wrong in the two owners, see the last test.

use std::panic::{catch_unwind, AssertUnwindSafe};

use outside::broken::{Broken, WrongChip, WrongGroup, WrongOwner};
use outside::guard::{Guarded, Place};
use outside::page::*;
use outside::rules::*;
use outside::steps::slot_steps;
use outside::word::*;
use outside::*;

/// The words of example 5.
const HALF_WRITTEN: Word = [0x05, 0x00, 0xFF, 0xFF];
const SPOILED: Word = [0x05, 0x00, 0x43, 0x14];
const LAST_DONE: Word = [0xFF, 0xFF, 0xFF, 0x00];

/// The marks of X1.
const OPENS_4: Word = [0xFF, 0xFF, 0x04, 0x07];
const CLOSES_4: Word = [0xFF, 0xFF, 0x84, 0x06];
const ABANDONS: Word = [0xFF, 0xFF, 0x00, 0x08];

/// A store that formats in one edition, and whose calls all name the page size of its chip. Each address is written and
/// read by its owner, and a group by the owner of its first address.
#[derive(Clone, Copy)]
struct InEdition<'a> {
    store: &'a dyn Store,
    edition: Edition,
}

impl InEdition<'_> {
    fn chip(self) -> Chip {
        Chip::of(self.edition)
    }
    fn size(self) -> u16 {
        self.chip().page_size()
    }
    fn format(self, image: &mut [u8]) -> u8 {
        self.store.format(image, self.size(), self.edition == Edition::Second)
    }
    fn recover(self, image: &mut [u8], allowance: u16) -> Stepped {
        self.store.recover(image, self.size(), allowance)
    }
    fn write(self, image: &mut [u8], address: u16, value: u8, allowance: u16) -> Stepped {
        self.store.write(image, self.size(), is_timers(address), address, value, allowance)
    }
    fn write_group(self, image: &mut [u8], group: &[u8], allowance: u16) -> Stepped {
        self.store.write_group(image, self.size(), Change::group(group).timer(), group, allowance)
    }
    fn read(self, image: &[u8], address: u16) -> Reading {
        self.store.read(image, self.size(), is_timers(address), address)
    }
    fn blank_read(self, image: &[u8], address: u16) -> Reading {
        self.store.blank_read(image, self.size(), is_timers(address), address)
    }
    fn lookup(self, image: &[u8]) -> Pairing {
        self.store.lookup(image, self.size())
    }

    fn formatted(self, pages: usize) -> Vec<u8> {
        let mut image = vec![0; pages * self.chip().page_bytes];
        assert_eq!(self.format(&mut image), OK);
        image
    }

    fn write_all(self, image: &mut [u8], address: u16, value: u8) {
        let answer = self.write(image, address, value, u16::MAX);
        assert!(answer.number == OK && answer.finished, "write ({address}, {value}): {answer:?}");
    }

    fn put(self, image: &mut [u8], page: usize, offset: usize, word: Word) {
        let at = self.chip().page_range(page).start + offset;
        image[at..at + 4].copy_from_slice(&word);
    }

    fn word_in(self, image: &[u8], page: usize, offset: usize) -> Word {
        word_at(page_at(image, self.chip(), page), offset)
    }
}

const WITH_GROUPS: [Edition; 2] = [Edition::Second, Edition::Third];

fn on_every_store(editions: &[Edition], example: impl Fn(InEdition)) {
    for &edition in editions {
        let example = |store: &dyn Store| example(InEdition { store, edition });
        example(&Second);
        example(&Stepwise(Second));
        #[cfg(feature = "library")]
        {
            example(&Guarded::new(library::Library, Place::AfterStartGuard));
            example(&Guarded::new(library::Library, Place::BeforeEndGuard));
        }
        example(&Guarded::new(Second, Place::AfterStartGuard));
        example(&Guarded::new(Second, Place::BeforeEndGuard));
    }
}

fn held_value(value: u8) -> Reading {
    Reading { number: OK, value }
}

const NOT_HELD_ANSWER: Reading = Reading { number: NOT_HELD, value: 0 };

fn records(store: InEdition) {
    for (address, value, word) in
        [(5, 65, [0x05, 0x00, 0x41, 0x14]), (0, 0, [0x00, 0x00, 0x00, 0x18]), (65_534, 255, [0xFE, 0xFF, 0xFF, 0x01])]
    {
        let mut image = store.formatted(2);
        store.write_all(&mut image, address, value);
        assert_eq!(store.word_in(&image, 0, slot_offset(0)), word);
        assert_eq!(store.read(&image, address), held_value(value));
    }
}

/// X1: the records.
#[test]
fn examples_1_and_2_records() {
    assert_eq!(record(5, 65), [0x05, 0x00, 0x41, 0x14]);
    assert!(is_sound(record(5, 65)));
    assert_eq!(record(0, 0), [0x00, 0x00, 0x00, 0x18]);
    assert_eq!(record(65_534, 255), [0xFE, 0xFF, 0xFF, 0x01]);
    on_every_store(&EDITIONS, records);
}

/// X1: the wear words.
#[test]
fn example_3_wear_words() {
    assert_eq!(wear_word(1, Edition::First), [0x01, 0x00, 0x01, 0x16]);
    assert_eq!(wear_word(258, Edition::First), [0x02, 0x01, 0x01, 0x15]);
    assert_eq!(wear_word(1, Edition::Second), [0x01, 0x00, 0x02, 0x16]);
    assert_eq!(wear_word(1, Edition::Third), [0x01, 0x00, 0x03, 0x15]);
    assert_eq!(wear_word(258, Edition::Third), [0x02, 0x01, 0x03, 0x14]);
    on_every_store(&EDITIONS, |store| {
        let [wear_1, wear_258] = match store.edition {
            Edition::First => [[0x01, 0x00, 0x01, 0x16], [0x02, 0x01, 0x01, 0x15]],
            Edition::Second => [[0x01, 0x00, 0x02, 0x16], [0x02, 0x01, 0x02, 0x15]],
            Edition::Third => [[0x01, 0x00, 0x03, 0x15], [0x02, 0x01, 0x03, 0x14]],
        };
        let mut image = store.formatted(3);
        assert_eq!(store.word_in(&image, 1, WEAR_OFFSET), wear_1);
        store.put(&mut image, 2, WEAR_OFFSET, wear_word(257, store.edition));
        store.put(&mut image, 2, OPENING_OFFSET, order_word(0, RECEIVING));
        assert_eq!(store.recover(&mut image, u16::MAX), Stepped { number: OK, finished: true, steps: 3 });
        assert_eq!(store.word_in(&image, 2, WEAR_OFFSET), wear_258);
    });
}

/// X1: the opening words, and the done word.
#[test]
fn example_4_opening_and_done_words() {
    assert_eq!(order_word(0, PLAIN), [0x01, 0x00, 0x00, 0x17]);
    assert_eq!(order_word(1, RECEIVING), [0x06, 0x00, 0x00, 0x16]);
    assert_eq!(done_word(1), [0x07, 0x00, 0x00, 0x15]);
    on_every_store(&EDITIONS, |store| {
        let mut image = filled_with_two(store, 2);
        assert_eq!(store.word_in(&image, 0, OPENING_OFFSET), [0x01, 0x00, 0x00, 0x17]);
        store.write_all(&mut image, 5, 99);
        assert_eq!(store.word_in(&image, 1, OPENING_OFFSET), [0x06, 0x00, 0x00, 0x16]);
        assert_eq!(store.word_in(&image, 1, DONE_OFFSET), [0x07, 0x00, 0x00, 0x15]);
    });
}

/// X1 and X2: the broken words.
#[test]
fn example_5_half_written_and_spoiled_words() {
    let words = [
        (HALF_WRITTEN, Condition::HalfWritten, Slot::HalfWritten),
        (SPOILED, Condition::Spoiled, Slot::Spoiled),
        ([0x05, 0x00, 0xFF, 0x14], Condition::Spoiled, Slot::Spoiled),
        ([0x05, 0x00, 0x43, 0xFF], Condition::Spoiled, Slot::Spoiled),
        (LAST_DONE, Condition::Sound, Slot::Spoiled),
        (BLANK, Condition::Blank, Slot::Blank),
        (record(5, 65), Condition::Sound, Slot::Record { address: 5, value: 65 }),
    ];
    for (word, elsewhere, in_slot) in words {
        assert_eq!(condition(word), elsewhere, "{word:?}");
        assert!(EDITIONS.iter().all(|&edition| slot_in(word, edition) == in_slot), "{word:?}");
    }
    assert_eq!(done_word(LAST_ORDER), LAST_DONE);
    on_every_store(&EDITIONS, |store| {
        for broken in [HALF_WRITTEN, SPOILED, LAST_DONE] {
            let mut image = store.formatted(2);
            store.put(&mut image, 0, slot_offset(0), broken);
            assert_eq!(store.read(&image, 5), NOT_HELD_ANSWER);
            assert_eq!(store.read(&image, 65_535), Reading { number: ADDRESS, value: 0 });
            store.write_all(&mut image, 5, 65);
            assert_eq!(store.word_in(&image, 0, slot_offset(0)), broken);
            assert_eq!(store.word_in(&image, 0, slot_offset(1)), record(5, 65));
        }
        let mut image = store.formatted(2);
        store.put(&mut image, 0, OPENING_OFFSET, order_word(LAST_ORDER, RECEIVING));
        assert_eq!(store.read(&image, 5), Reading { number: NO_STORE, value: 0 });
        store.put(&mut image, 0, DONE_OFFSET, LAST_DONE);
        assert_eq!(store.read(&image, 5), NOT_HELD_ANSWER);
        for count in 0..store.chip().slots() {
            store.write_all(&mut image, 5, count as u8);
        }
        assert_eq!(store.write(&mut image, 5, 9, u16::MAX), Stepped::refused(ORDER_END));
        assert_eq!(store.write(&mut image, 5, 252, 0), Stepped { number: OK, finished: true, steps: 0 });
    });
}

/// X7: SIZE.
#[test]
fn example_6_sizes() {
    on_every_store(&EDITIONS, |store| {
        let lengths = match store.size() {
            1_024 => [0, 1_024, 2_049, 33_792, 65_536],
            _ => [0, 2_048, 3_072, 4_097, 67_584],
        };
        for length in lengths {
            let mut image = vec![255; length];
            assert_eq!(store.format(&mut image), SIZE);
            assert_eq!(store.recover(&mut image, 9), Stepped::refused(SIZE));
            assert_eq!(store.write(&mut image, 65_535, 1, 9), Stepped::refused(SIZE));
            assert_eq!(store.write_group(&mut image, &[], 9), Stepped::refused(SIZE));
            assert_eq!(store.read(&image, 65_535), Reading::refused(SIZE));
            assert_eq!(store.blank_read(&image, 0), Reading::refused(SIZE));
            assert_eq!(store.lookup(&image), Pairing::refused(SIZE));
            assert!(image.iter().all(|&byte| byte == 255));
        }
    });
    for length in [0, 1_024, 2_049, 33_792, 65_536] {
        assert_eq!(listing(&vec![255; length]), b"refused 1\n");
    }
}

/// X7: NO STORE, and nothing held.
#[test]
fn example_7_no_store_and_nothing_held() {
    on_every_store(&EDITIONS, |store| {
        let mut image = vec![255; 2 * store.chip().page_bytes];
        assert_eq!(store.recover(&mut image, 9), Stepped::refused(NO_STORE));
        assert_eq!(store.write(&mut image, 5, 65, 9), Stepped::refused(NO_STORE));
        assert_eq!(store.write_group(&mut image, &[5, 0, 65], 9), Stepped::refused(NO_STORE));
        assert_eq!(store.read(&image, 0), Reading::refused(NO_STORE));
        assert_eq!(store.blank_read(&image, 65_535), Reading::refused(NO_STORE));
        assert_eq!(store.lookup(&image), Pairing::refused(NO_STORE));
        assert_eq!(listing(&image), b"refused 2\n");
        let image = store.formatted(2);
        assert_eq!(store.read(&image, 0), NOT_HELD_ANSWER);
        assert_eq!(store.blank_read(&image, 0), held_value(0));
        assert_eq!(store.lookup(&image), Pairing { number: OK, paired: false, digits: [0; 4] });
    });
}

/// X7: a write stopped after 1 step, and finished.
#[test]
fn example_8_allowance_1_and_2() {
    on_every_store(&EDITIONS, |store| {
        let mut image = store.formatted(2);
        assert_eq!(store.write(&mut image, 5, 65, 1), Stepped { number: OK, finished: false, steps: 1 });
        assert_eq!(store.read(&image, 5), NOT_HELD_ANSWER);
        let mut image = store.formatted(2);
        assert_eq!(store.write(&mut image, 5, 65, 2), Stepped { number: OK, finished: true, steps: 2 });
        assert_eq!(store.read(&image, 5), held_value(65));
    });
}

/// X7: DAMAGED and UNCLEAN.
#[test]
fn example_9_damaged_and_unclean() {
    on_every_store(&EDITIONS, |store| {
        let mut image = store.formatted(2);
        store.put(&mut image, 1, OPENING_OFFSET, order_word(0, PLAIN));
        assert_eq!(store.recover(&mut image, 9), Stepped::refused(DAMAGED));
        assert_eq!(store.write(&mut image, 5, 65, 9), Stepped::refused(DAMAGED));
        assert_eq!(store.write_group(&mut image, &[5, 0, 65], 9), Stepped::refused(DAMAGED));
        assert_eq!(store.read(&image, 0), Reading::refused(DAMAGED));
        if store.chip() == SMALLER {
            assert_eq!(listing(&image), b"refused 3\n");
        }
        let mut image = store.formatted(3);
        store.put(&mut image, 2, WEAR_OFFSET, BLANK);
        assert_eq!(store.write(&mut image, 0, 1, 9), Stepped::refused(UNCLEAN));
        assert_eq!(store.read(&image, 0), NOT_HELD_ANSWER);
    });
}

/// X7: the 192nd address, and one more.
#[test]
fn example_10_192_addresses() {
    on_every_store(&EDITIONS, |store| {
        let mut image = store.formatted(2);
        of_both(192).for_each(|address| store.write_all(&mut image, address, 7));
        let full = image.clone();
        for new in [96, 32_864] {
            assert_eq!(store.write(&mut image, new, 7, u16::MAX), Stepped::refused(NO_ROOM));
            assert_eq!(image, full);
        }
        for held in [95, 32_863] {
            store.write_all(&mut image, held, 8);
            assert_eq!(store.read(&image, held), held_value(8));
        }
    });
}

/// So many addresses, of the handset and of the timer in turn: 0, 32,768, 1, 32,769 and so on. Neither may hold all of
/// 192.
fn of_both(count: u16) -> impl Iterator<Item = u16> {
    (0..count).map(|index| index / 2 + 32_768 * (index % 2))
}

/// Addresses 5 and 7 are held, and the slots of page 0 are filled.
fn filled_with_two(store: InEdition, pages: usize) -> Vec<u8> {
    let mut image = store.formatted(pages);
    store.write_all(&mut image, 7, 200);
    (1..store.chip().slots()).for_each(|count| store.write_all(&mut image, 5, count as u8));
    image
}

/// X4, X6: a move and a new page, stopped behind each step.
#[test]
fn example_11_a_move_and_a_new_page() {
    on_every_store(&EDITIONS, |store| {
        for (pages, steps, last_old) in [(2, 11, 7), (3, 4, 3)] {
            let full = filled_with_two(store, pages);
            let old = store.read(&full, 5).value;
            for allowance in 0..=steps {
                let mut image = full.clone();
                let answer = store.write(&mut image, 5, 1, allowance);
                assert_eq!(answer, Stepped { number: OK, finished: allowance == steps, steps: allowance });
                let reads = if allowance <= last_old { old } else { 1 };
                assert_eq!(store.read(&image, 5), held_value(reads), "{pages} pages cut after {allowance}");
                assert_eq!(store.read(&image, 7), held_value(200));
            }
            let answer = store.write(&mut full.clone(), 5, 1, u16::MAX);
            assert_eq!(answer, Stepped { number: OK, finished: true, steps });
        }
    });
}

/// X5: the page that the move of X4 leaves, and the one that it renews.
#[test]
fn the_page_that_a_move_leaves() {
    on_every_store(&[Edition::First], |store| {
        let mut image = store.formatted(2);
        (0..251).for_each(|count| store.write_all(&mut image, 7, count));
        store.write_all(&mut image, 5, 65);
        store.write_all(&mut image, 7, 200);
        assert_eq!(store.write(&mut image, 5, 66, u16::MAX), Stepped { number: OK, finished: true, steps: 11 });
        let moved_to = [
            0x01, 0x00, 0x01, 0x16, 0x06, 0x00, 0x00, 0x16, 0x07, 0x00, 0x00, 0x15, //
            0x07, 0x00, 0xC8, 0x12, 0x05, 0x00, 0x42, 0x14,
        ];
        assert_eq!(image[1_024..1_044], moved_to);
        assert_eq!(image[..4], [0x02, 0x00, 0x01, 0x16]);
        assert!(image[4..1_024].iter().chain(&image[1_044..]).all(|&byte| byte == 255));
    });
}

fn image_of_example_12() -> Vec<u8> {
    let page_0 = [
        0x01, 0x00, 0x01, 0x16, 0x01, 0x00, 0x00, 0x17, 0xFF, 0xFF, 0xFF, 0xFF, //
        0x05, 0x00, 0x41, 0x14, 0x07, 0x00, 0xC8, 0x12, 0x05, 0x00, 0x42, 0x14,
    ];
    let mut image = vec![255; 2_048];
    image[..page_0.len()].copy_from_slice(&page_0);
    image[1_024..1_028].copy_from_slice(&[0x01, 0x00, 0x01, 0x16]);
    image
}

/// X3: an image and its listing.
#[test]
fn example_12_the_listing() {
    let image = image_of_example_12();
    assert_eq!(listing(&image), b"pages 2 used 1 cleared 1 order 0 held 2 half 0 spoiled 0\n5 66\n7 200\n");
    on_every_store(&[Edition::First], |store| {
        // The same image comes of three writes, and reads as it is listed.
        let mut written = store.formatted(2);
        [(5, 65), (7, 200), (5, 66)].iter().for_each(|&(address, value)| store.write_all(&mut written, address, value));
        assert_eq!(written, image);
        assert_eq!(store.read(&image, 5), held_value(66));
        assert_eq!(store.read(&image, 7), held_value(200));
    });
}

/// X9: the slots of used pages count, and no other word.
#[test]
fn broken_words_counted() {
    let store = InEdition { store: &Second, edition: Edition::First };
    let mut image = store.formatted(2);
    for (slot, word) in [HALF_WRITTEN, SPOILED, LAST_DONE].into_iter().enumerate() {
        store.put(&mut image, 0, slot_offset(slot), word);
    }
    assert_eq!(listing(&image), b"pages 2 used 1 cleared 1 order 0 held 0 half 1 spoiled 2\n");
    store.put(&mut image, 1, OPENING_OFFSET, order_word(1, RECEIVING));
    store.put(&mut image, 1, DONE_OFFSET, done_word(1));
    assert_eq!(states(&image, SMALLER)[0], State::Open { order: 0, kind: PLAIN });
    assert_eq!(listing(&image), b"pages 2 used 1 cleared 0 order 1 held 0 half 0 spoiled 0\n");
}

/// X10: the digits before the code is whole may be those of a whole one.
#[test]
fn pairing_codes() {
    let rows = [
        (16, 0, false, [0, 0, 0, 0]),
        (17, 255, false, [0, 255, 0, 0]),
        (19, 0, false, [0, 255, 0, 0]),
        (18, 7, true, [0, 255, 7, 0]),
        (18, 0, true, [0, 255, 0, 0]),
    ];
    on_every_store(&EDITIONS, |store| {
        let mut image = store.formatted(2);
        assert_eq!(store.lookup(&image), Pairing { number: OK, paired: false, digits: [0, 0, 0, 0] });
        for (address, value, paired, digits) in rows {
            store.write_all(&mut image, address, value);
            assert_eq!(store.lookup(&image), Pairing { number: OK, paired, digits }, "{value} at {address}");
        }
    });
}

/// X1: the marks, which are spoiled in the first edition.
#[test]
fn marks() {
    for (word, mark) in [(OPENS_4, Mark::Opens(4)), (CLOSES_4, Mark::Closes(4)), (ABANDONS, Mark::Abandons)] {
        assert_eq!(mark_word(mark), word);
        assert_eq!(EDITIONS.map(|edition| slot_in(word, edition)), [Slot::Spoiled, Slot::Mark(mark), Slot::Mark(mark)]);
    }
}

/// X11: the page after a code is written as one, and what each stop leaves.
fn code_written_as_one(store: InEdition) {
    let group = [0x10, 0x00, 0x07, 0x11, 0x00, 0x01, 0x12, 0x00, 0x03, 0x13, 0x00, 0x09];
    let [third_byte, check] = if store.edition == Edition::Third { [0x03, 0x15] } else { [0x02, 0x16] };
    let page_0 = [
        0x01, 0x00, third_byte, check, 0x01, 0x00, 0x00, 0x17, 0xFF, 0xFF, 0xFF, 0xFF, //
        0xFF, 0xFF, 0x04, 0x07, 0x10, 0x00, 0x07, 0x14, 0x11, 0x00, 0x01, 0x15, //
        0x12, 0x00, 0x03, 0x14, 0x13, 0x00, 0x09, 0x13, 0xFF, 0xFF, 0x84, 0x06,
    ];
    let formatted = store.formatted(2);
    let mut written = formatted.clone();
    assert_eq!(store.write_group(&mut written, &group, 12), Stepped { number: OK, finished: true, steps: 12 });
    assert_eq!(written[..page_0.len()], page_0);
    assert!(written[page_0.len()..store.chip().page_bytes].iter().all(|&byte| byte == 255));
    assert_eq!(store.lookup(&written), Pairing { number: OK, paired: true, digits: [7, 1, 3, 9] });
    let free_slots = [0, 0, 1, 2, 2, 3, 3, 4, 4, 5, 5, 5];
    for (stopped, slot) in free_slots.into_iter().enumerate() {
        let mut image = formatted.clone();
        let answer = store.write_group(&mut image, &group, stopped as u16);
        assert_eq!(answer, Stepped { number: OK, finished: false, steps: stopped as u16 });
        assert_eq!(store.lookup(&image), Pairing { number: OK, paired: false, digits: [0; 4] });
        assert!((16..20).all(|address| store.read(&image, address) == NOT_HELD_ANSWER));
        let number = store.write(&mut image.clone(), 5, 1, 0).number;
        if stopped < 2 {
            assert!(image == formatted && number == OK, "stopped after {stopped}");
            continue;
        }
        assert_eq!(number, UNCLEAN, "stopped after {stopped}");
        assert_eq!(store.recover(&mut image, u16::MAX), Stepped { number: OK, finished: true, steps: 2 });
        assert_eq!(store.word_in(&image, 0, slot_offset(slot)), ABANDONS, "stopped after {stopped}");
    }
}

#[test]
fn a_code_written_as_one() {
    on_every_store(&WITH_GROUPS, code_written_as_one);
}

/// The slots of a row of X12.
fn slots_of(row: &str) -> Vec<Word> {
    let word = |name: &str| match name {
        "o1" => mark_word(Mark::Opens(1)),
        "o2" => mark_word(Mark::Opens(2)),
        "c1" => mark_word(Mark::Closes(1)),
        "c2" => mark_word(Mark::Closes(2)),
        "ab" => ABANDONS,
        "a" => record(5, 65),
        "b" => record(7, 200),
        "sp" => SPOILED,
        "--" => BLANK,
        _ => panic!("{name} is in no row"),
    };
    row.split(' ').map(word).collect()
}

/// X12: which records of a page count, whether the store then is clean, and how many slots the listing calls spoiled.
fn groups_that_dont_count(store: InEdition) {
    let rows = [
        ("o2 a b c2", "a b", true, 0),
        ("o1 a c1 b", "a b", true, 0),
        ("o2 a b", "", false, 0),
        ("o2 a b c1", "", true, 0),
        ("o1 a b c1", "", true, 0),
        ("o2 a c2", "", true, 0),
        ("o2 a sp c2", "", true, 1),
        ("o2 a -- c2", "", true, 0),
        ("o2 a b sp c2", "", true, 1),
        ("o2 a ab b", "b", true, 0),
        ("o2 a o1 b c1", "", true, 1),
        ("c2 a ab b", "a b", true, 0),
        ("o2 a b sp", "", false, 1),
    ];
    for (row, counted, clean, spoiled) in rows {
        let mut image = store.formatted(2);
        for (slot, word) in slots_of(row).into_iter().enumerate() {
            store.put(&mut image, 0, slot_offset(slot), word);
        }
        for (name, address, value) in [("a", 5, 65), ("b", 7, 200)] {
            let answer = if counted.contains(name) { held_value(value) } else { NOT_HELD_ANSWER };
            assert_eq!(store.read(&image, address), answer, "{name} in {row}");
        }
        let held = counted.split_whitespace().count();
        let line = format!("pages 2 used 1 cleared 1 order 0 held {held} half 0 spoiled {spoiled}\n");
        assert!(store.chip() == LARGER || listing(&image).starts_with(line.as_bytes()), "{row}");
        let number = if clean { OK } else { UNCLEAN };
        assert_eq!(store.write(&mut image, 9, 1, u16::MAX).number, number, "{row}");
    }
}

#[test]
fn groups_that_dont_count_on_every_store() {
    on_every_store(&WITH_GROUPS, groups_that_dont_count);
}

/// X13.
fn answers_to_groups(store: InEdition) {
    let number = |image: &[u8], group: &[Setting]| {
        let mut image = image.to_vec();
        store.write_group(&mut image, &group_bytes(group), u16::MAX).number
    };
    let formatted = store.formatted(2);
    let in_first = InEdition { edition: Edition::First, ..store };
    let nine: Vec<Setting> = (0..9).map(|address| (address, 1)).collect();
    assert_eq!(in_first.write_group(&mut in_first.formatted(2), &[5, 0, 1], u16::MAX), Stepped::refused(GROUP));
    assert_eq!(number(&formatted, &[]), GROUP);
    assert_eq!(store.write_group(&mut formatted.clone(), &[5, 0], u16::MAX), Stepped::refused(GROUP));
    assert_eq!(number(&formatted, &nine), GROUP);
    assert_eq!(number(&formatted, &[(5, 1), (5, 2)]), GROUP);
    assert_eq!(number(&formatted, &[(5, 1), (65_535, 2)]), ADDRESS);
    let mut image = formatted.clone();
    for steps in [6, 0] {
        let answer = store.write_group(&mut image, &[5, 0, 1], 65_535);
        assert_eq!(answer, Stepped { number: OK, finished: true, steps });
    }
    let mut image = formatted.clone();
    of_both(191).for_each(|address| store.write_all(&mut image, address, 7));
    assert_eq!(number(&image, &[(96, 1), (97, 1)]), NO_ROOM);
    assert_eq!(number(&image, &[(96, 1), (95, 1)]), OK);
    let mut image = formatted;
    store.put(&mut image, 1, WEAR_OFFSET, [0x01, 0x00, 0x01, 0x16]);
    assert_eq!(number(&image, &[(5, 1)]), UNCLEAN);
    assert_eq!(store.read(&image, 5), NOT_HELD_ANSWER);
}

#[test]
fn answers_to_groups_on_every_store() {
    on_every_store(&WITH_GROUPS, answers_to_groups);
}

/// A store in which 64 was written to address 5, and then 65 as far as the first step, where power failed.
fn cut_after_the_first_step(store: InEdition) -> Vec<u8> {
    let mut image = store.formatted(2);
    store.write_all(&mut image, 5, 64);
    assert_eq!(store.write(&mut image, 5, 65, 1), Stepped { number: OK, finished: false, steps: 1 });
    image
}

/// The torn word stands in slot 1 and is counted so until its page is erased, while address 5 gets 65 and then other
/// values.
fn stays_until_the_page_is_erased(store: InEdition, mut image: Vec<u8>, torn: Word, counted: &str) {
    let listed = |value: u8, end: &str| format!("pages 2 used 1 cleared 1 {end}\n5 {value}\n").into_bytes();
    let with_torn = format!("order 0 held 1 {counted}");
    assert_eq!(store.word_in(&image, 0, slot_offset(1)), torn);
    assert_eq!(listing(&image), listed(64, &with_torn));
    assert_eq!(store.read(&image, 5), held_value(64));
    assert_eq!(store.recover(&mut image, u16::MAX), Stepped { number: OK, finished: true, steps: 0 });
    store.write_all(&mut image, 5, 65);
    assert_eq!(store.word_in(&image, 0, slot_offset(1)), torn);
    assert_eq!(store.word_in(&image, 0, slot_offset(2)), record(5, 65));
    assert_eq!(listing(&image), listed(65, &with_torn));
    for count in 3..store.chip().slots() {
        store.write_all(&mut image, 5, count as u8);
    }
    assert_eq!(store.word_in(&image, 0, slot_offset(1)), torn);
    assert_eq!(listing(&image), listed(252, &with_torn));
    store.write_all(&mut image, 5, 253);
    assert_eq!(listing(&image), listed(253, "order 1 held 1 half 0 spoiled 0"));
}

#[test]
fn a_power_cut_after_the_first_step_leaves_a_half_written_word() {
    on_every_store(&[Edition::First], |store| {
        let image = cut_after_the_first_step(store);
        stays_until_the_page_is_erased(store, image, HALF_WRITTEN, "half 1 spoiled 0");
    });
}

/// One bit of 65 stays, and the word becomes that of X2.
#[test]
fn a_second_half_that_fails_leaves_a_spoiled_word() {
    on_every_store(&[Edition::First], |store| {
        let mut image = cut_after_the_first_step(store);
        let [_, second_half] = slot_steps(store.chip(), 0, 1, record(5, 65));
        let third_byte = second_half.bytes().start;
        fail_step(&mut image, second_half, &mut |offset| if offset == third_byte { 0x02 } else { 0 });
        stays_until_the_page_is_erased(store, image, SPOILED, "half 0 spoiled 1");
    });
}

/// The samples are what calls leave, and their listings are as stored.
#[test]
fn the_samples() {
    let code = |digits: [u8; 4]| group_bytes(&(16..).zip(digits).collect::<Vec<Setting>>());
    on_every_store(&[Edition::Second], |store| {
        let mut power_cut = image_of_example_12();
        assert_eq!(power_cut, include_bytes!("../../samples/example12.bin"));
        assert_eq!(listing(&power_cut), include_bytes!("../../samples/example12.txt"));
        assert_eq!(store.write(&mut power_cut, 7, 201, 1).steps, 1);
        assert_eq!(power_cut, include_bytes!("../../samples/power_cut.bin"));
        assert_eq!(listing(&power_cut), include_bytes!("../../samples/power_cut.txt"));
        let mut paired = store.formatted(2);
        assert_eq!(store.write_group(&mut paired, &code([7, 1, 3, 9]), u16::MAX).steps, 12);
        assert_eq!(store.write_group(&mut paired, &code([5, 8, 2, 6]), 5).steps, 5);
        assert_eq!(paired, include_bytes!("../../samples/paired.bin"));
        assert_eq!(listing(&paired), include_bytes!("../../samples/paired.txt"));
        assert_eq!(store.lookup(&paired), Pairing { number: OK, paired: true, digits: [7, 1, 3, 9] });
    });
}

/// The numbers of steps that docs/FORMAT.md names: the same on both chips.
#[test]
fn step_counts() {
    on_every_store(&[Edition::First, Edition::Third], |store| {
        let chip = store.chip();
        for pages in [2, 3, 32] {
            let mut image = store.formatted(pages);
            assert_eq!(format_steps(&image, chip, store.edition).unwrap().len(), 3 * pages + 2);
            let pool: Vec<u16> = of_both(192).collect();
            pool.iter().for_each(|&address| store.write_all(&mut image, address, 7));
            let mut rng = outside::rng::Rng::new(1);
            while cleared_pages(&image, chip).len() > 1 {
                outside::images::fill_active(&mut image, chip, chip.slots(), &pool, &mut rng);
                let other = store.read(&image, 9).value ^ 1;
                assert_eq!(store.write(&mut image, 9, other, u16::MAX).steps, 4);
            }
            outside::images::fill_active(&mut image, chip, chip.slots(), &pool, &mut rng);
            let other = store.read(&image, 9).value ^ 1;
            let longest = 388 + 3 * (pages as u16 - 1);
            let answer = store.write(&mut image, 9, other, u16::MAX);
            assert_eq!(answer, Stepped { number: OK, finished: true, steps: longest });
        }
    });
}

/// X14: a larger page as it comes of writes, worked by hand: the first word, the one at offset 1,024, and the last.
fn a_larger_page(store: InEdition) {
    let mut image = store.formatted(3);
    assert_eq!(image[..12], [0x01, 0x00, 0x03, 0x15, 0x01, 0x00, 0x00, 0x17, 0xFF, 0xFF, 0xFF, 0xFF]);
    assert_eq!(image[2_048..2_056], [0x01, 0x00, 0x03, 0x15, 0xFF, 0xFF, 0xFF, 0xFF]);
    assert_eq!(image[4_096..4_104], [0x01, 0x00, 0x03, 0x15, 0xFF, 0xFF, 0xFF, 0xFF]);
    for count in 0..252 {
        store.write_all(&mut image, 7, count);
    }
    store.write_all(&mut image, 7, 200);
    assert_eq!(image[1_020..1_028], [0x07, 0x00, 0xC8, 0x12, 0xFF, 0xFF, 0xFF, 0xFF]);
    store.write_all(&mut image, 5, 65);
    assert_eq!(image[1_020..1_032], [0x07, 0x00, 0xC8, 0x12, 0x05, 0x00, 0x41, 0x14, 0xFF, 0xFF, 0xFF, 0xFF]);
    // Slot 253 has the record, and 255 slots are free behind it.
    for count in 0..254 {
        store.write_all(&mut image, 7, count);
    }
    assert_eq!(image[2_044..2_048], [0xFF; 4]);
    store.write_all(&mut image, 7, 200);
    assert_eq!(image[2_044..2_052], [0x07, 0x00, 0xC8, 0x12, 0x01, 0x00, 0x03, 0x15]);
    assert_eq!([5, 7].map(|address| store.read(&image, address)), [held_value(65), held_value(200)]);
    // The next one opens page 1.
    assert_eq!(store.write(&mut image, 5, 66, u16::MAX), Stepped { number: OK, finished: true, steps: 4 });
    let opened = [0x01, 0x00, 0x03, 0x15, 0x05, 0x00, 0x00, 0x16, 0xFF, 0xFF, 0xFF, 0xFF, 0x05, 0x00, 0x42, 0x14];
    assert_eq!(image[2_048..2_064], opened);
    // At 1,024 there is no store: page 0 has the third byte 3, and page 1 begins with a record.
    assert_eq!(store.store.read(&image, 1_024, false, 5), Reading::refused(NO_STORE));
    assert!([0, 1, 512, 1_023, 2_047, 4_096]
        .iter()
        .all(|&size| { store.store.read(&image, size, false, 5) == Reading::refused(SIZE) }));
}

#[test]
fn a_larger_page_by_hand() {
    on_every_store(&[Edition::Third], a_larger_page);
}

// The handset has the addresses 0 to 32,767, the glaze timer 32,768 to 65,534.

const HANDSET: bool = false;
const TIMER: bool = true;

/// X15: who may write and read what.
fn two_owners(store: InEdition) {
    let size = store.size();
    let mut image = store.formatted(2);
    let rows = [
        (HANDSET, 32_767, 65, Stepped { number: OK, finished: true, steps: 2 }),
        (HANDSET, 32_768, 66, Stepped::refused(OWNER)),
        (TIMER, 32_768, 66, Stepped { number: OK, finished: true, steps: 2 }),
        (TIMER, 32_767, 67, Stepped::refused(OWNER)),
        // Not even the value that is there already.
        (TIMER, 32_767, 65, Stepped::refused(OWNER)),
        (HANDSET, 32_768, 66, Stepped::refused(OWNER)),
        (HANDSET, 32_767, 65, Stepped { number: OK, finished: true, steps: 0 }),
        (TIMER, 65_534, 68, Stepped { number: OK, finished: true, steps: 2 }),
        (HANDSET, 65_534, 68, Stepped::refused(OWNER)),
        // 65,535 is nobody's.
        (TIMER, 65_535, 69, Stepped::refused(ADDRESS)),
        (HANDSET, 65_535, 69, Stepped::refused(ADDRESS)),
    ];
    for (timer, address, value, answer) in rows {
        let before = image.clone();
        let row = format!("{value} at {address}, by the timer: {timer}");
        assert_eq!(store.store.write(&mut image, size, timer, address, value, u16::MAX), answer, "{row}");
        assert!(answer.steps > 0 || image == before, "{row}");
    }
    let rows = [
        (HANDSET, 32_767, held_value(65), held_value(65)),
        (TIMER, 32_767, Reading::refused(OWNER), Reading::refused(OWNER)),
        (TIMER, 32_768, held_value(66), held_value(66)),
        (HANDSET, 32_768, Reading::refused(OWNER), Reading::refused(OWNER)),
        (HANDSET, 0, NOT_HELD_ANSWER, held_value(0)),
        (TIMER, 0, Reading::refused(OWNER), Reading::refused(OWNER)),
        (TIMER, 65_534, held_value(68), held_value(68)),
        (TIMER, 65_535, Reading::refused(ADDRESS), Reading::refused(ADDRESS)),
        (HANDSET, 65_535, Reading::refused(ADDRESS), Reading::refused(ADDRESS)),
    ];
    for (timer, address, read, blank_read) in rows {
        assert_eq!(store.store.read(&image, size, timer, address), read, "{address}, by the timer: {timer}");
        assert_eq!(
            store.store.blank_read(&image, size, timer, address),
            blank_read,
            "{address}, by the timer: {timer}"
        );
    }
}

/// The 129th address of an owner is refused, and one that it holds may change; the other can fill what is left of 192.
fn an_owner_at_its_limit(store: InEdition) {
    for (first, first_of_other) in [(0, 32_768), (32_768, 0)] {
        let mut image = store.formatted(2);
        (first..first + 128).for_each(|address| store.write_all(&mut image, address, 7));
        assert_eq!(store.write(&mut image, first + 128, 7, u16::MAX), Stepped::refused(NO_ROOM));
        store.write_all(&mut image, first + 127, 8);
        (first_of_other..first_of_other + 64).for_each(|address| store.write_all(&mut image, address, 9));
        assert_eq!(store.write(&mut image, first_of_other + 64, 9, u16::MAX), Stepped::refused(NO_ROOM));
        store.write_all(&mut image, first_of_other + 63, 10);
        assert_eq!(store.read(&image, first + 127), held_value(8));
        assert_eq!(store.read(&image, first_of_other + 63), held_value(10));
    }
}

/// One address of the other is enough, in whatever place; and the limit counts what is new.
fn groups_of_an_owner(store: InEdition) {
    let number = |image: &[u8], timer, group: &[Setting]| {
        let mut image = image.to_vec();
        store.store.write_group(&mut image, store.size(), timer, &group_bytes(group), u16::MAX).number
    };
    let mut image = store.formatted(2);
    assert_eq!(number(&image, HANDSET, &[(5, 1), (32_767, 2)]), OK);
    assert_eq!(number(&image, TIMER, &[(32_768, 1), (65_534, 2)]), OK);
    assert_eq!(number(&image, TIMER, &[(5, 1), (32_767, 2)]), OWNER);
    assert_eq!(number(&image, HANDSET, &[(32_768, 1), (5, 2), (6, 3)]), OWNER);
    assert_eq!(number(&image, HANDSET, &[(5, 1), (32_768, 2), (6, 3)]), OWNER);
    assert_eq!(number(&image, HANDSET, &[(5, 1), (6, 2), (32_768, 3)]), OWNER);
    assert_eq!(number(&image, HANDSET, &[(32_768, 1), (65_535, 2)]), ADDRESS);
    assert_eq!(number(&image, HANDSET, &[(32_768, 1), (32_768, 2)]), GROUP);
    (0..126).for_each(|address| store.write_all(&mut image, address, 7));
    assert_eq!(number(&image, HANDSET, &[(126, 1), (127, 1)]), OK);
    assert_eq!(number(&image, HANDSET, &[(126, 1), (127, 1), (128, 1)]), NO_ROOM);
    assert_eq!(number(&image, HANDSET, &[(126, 1), (127, 1), (125, 1), (124, 1)]), OK);
    assert_eq!(number(&image, TIMER, &[(40_000, 1), (40_001, 1), (40_002, 1)]), OK);
}

#[test]
fn two_owners_of_one_store() {
    on_every_store(&EDITIONS, two_owners);
    on_every_store(&EDITIONS, an_owner_at_its_limit);
    on_every_store(&WITH_GROUPS, groups_of_an_owner);
}

#[test]
fn broken_stores_are_caught() {
    let is_caught = |store: &dyn Store, edition: Edition, example: fn(InEdition)| {
        catch_unwind(AssertUnwindSafe(|| example(InEdition { store, edition }))).is_err()
    };
    assert!(EDITIONS.iter().all(|&edition| is_caught(&Stepwise(Broken::ExclusiveOr), edition, records)));
    let of_groups = [code_written_as_one, groups_that_dont_count, answers_to_groups];
    for wrong in [WrongGroup::NoMarks, WrongGroup::OpenCounts, WrongGroup::RepeatedTaken] {
        let store = Stepwise(wrong);
        let is_caught = |edition| of_groups.iter().any(|&example| is_caught(&store, edition, example));
        assert!(WITH_GROUPS.into_iter().all(is_caught), "{wrong:?}");
    }
    assert!(!is_caught(&Stepwise(WrongChip::Nothing), Edition::Third, a_larger_page));
    for wrong in [
        WrongChip::SlotsOfSmaller,
        WrongChip::OneSlotLess,
        WrongChip::LastNotSearched,
        WrongChip::FreeEndAt252,
        WrongChip::ThreeAtSmaller,
        WrongChip::TwoInsteadOfThree,
        WrongChip::FormatsFirst,
        WrongChip::Takes4096AsLarger,
    ] {
        assert!(is_caught(&Stepwise(wrong), Edition::Third, a_larger_page), "{wrong:?}");
    }
    let of_owners = [two_owners, an_owner_at_its_limit, groups_of_an_owner];
    let catches = |wrong, edition| of_owners.iter().any(|&example| is_caught(&Stepwise(wrong), edition, example));
    assert!(WITH_GROUPS.into_iter().all(|edition| !catches(WrongOwner::Nothing, edition)));
    for wrong in [
        WrongOwner::HandsetHas32768,
        WrongOwner::TimerHas32767,
        WrongOwner::BorderOneOn,
        WrongOwner::Swapped,
        WrongOwner::OwnerBeforeAddress,
        WrongOwner::OwnerBeforeGroup,
        WrongOwner::HeldBeforeOwner,
        WrongOwner::FirstAddressTested,
        WrongOwner::LastAddressTested,
        WrongOwner::OneOwnSuffices,
        WrongOwner::WritesIgnoreOwner,
        WrongOwner::LimitAt127,
        WrongOwner::LimitAt129,
        WrongOwner::TotalAlone,
        WrongOwner::LimitAlone,
        WrongOwner::CountsBoth,
        WrongOwner::CountsOther,
        WrongOwner::HeldCountAsNew,
        WrongOwner::NewCountAsOne,
        WrongOwner::ReadsIgnoreOwner,
        WrongOwner::BlankReadsIgnoreOwner,
        WrongOwner::BlankOfOtherIs0,
        WrongOwner::NotHeldBeforeOwner,
    ] {
        assert!(WITH_GROUPS.into_iter().all(|edition| catches(wrong, edition)), "{wrong:?}");
    }
}
