//! What the papers say where a reader may expect otherwise, tried on every store at hand: README.md, docs/FIRMWARE.md and
//! docs/WEAR.md name these cases, and include/istrovell.h has their conditions.

use outside::rules::*;
use outside::word::*;
use outside::*;

const HANDSET: bool = false;
const TIMER: bool = true;
const ALL: u16 = u16::MAX;

fn on_every_store(says: impl Fn(&dyn Store)) {
    says(&Second);
    says(&Stepwise(Second));
    #[cfg(feature = "library")]
    says(&library::Library);
}

/// A page of 1,024 bytes with these words, all else 255.
fn page_of(words: &[Word]) -> Vec<u8> {
    let mut page = words.concat();
    page.resize(1_024, 255);
    page
}

/// A store of the first edition, of two pages, that holds these settings.
fn holding(settings: impl Iterator<Item = Setting>) -> Vec<u8> {
    let header = [wear_word(1, Edition::First), order_word(0, PLAIN), BLANK];
    let records = settings.map(|(address, value)| record(address, value));
    let words: Vec<Word> = header.into_iter().chain(records).collect();
    [page_of(&words), page_of(&[wear_word(1, Edition::First)])].concat()
}

fn finished(steps: u16) -> Stepped {
    Stepped { number: OK, finished: true, steps }
}

fn found(value: u8) -> Reading {
    Reading { number: OK, value }
}

/// The wears of the pages, and which of them a write opens or moves to that finds no free slot.
fn wears_and_next(store: &dyn Store, image: &[u8]) -> (Vec<u16>, usize) {
    let wears = image.chunks(1_024).map(|page| u16::from_le_bytes([page[0], page[1]])).collect();
    let mut image = image.to_vec();
    loop {
        let before = image.clone();
        let other = store.read(&image, 1_024, HANDSET, 7).value ^ 1;
        assert_eq!(store.write(&mut image, 1_024, HANDSET, 7, other, ALL).number, OK);
        let opened = |page: usize| before[page * 1_024 + 4] == 255 && image[page * 1_024 + 4] != 255;
        if let Some(page) = (0..image.len() / 1_024).find(|&page| opened(page)) {
            return (wears, page);
        }
    }
}

/// A store of so many pages in which a move was cut right behind its first erase, and then recovered.
fn after_a_lost_wear(store: &dyn Store, pages: usize) -> Vec<u8> {
    let mut image = vec![255; pages * 1_024];
    assert_eq!(store.format(&mut image, 1_024, false), OK);
    for value in (0..=255).cycle() {
        let before = image.clone();
        let answer = store.write(&mut image, 1_024, HANDSET, 7, value, ALL);
        if answer.steps > 4 {
            // The opening word, one record and the done word are 6 steps; the erase of page 0 is the seventh.
            image = before;
            let stopped = Stepped { number: OK, finished: false, steps: 7 };
            assert_eq!(store.write(&mut image, 1_024, HANDSET, 7, value, 7), stopped);
            assert!(image[..1_024].iter().all(|&byte| byte == 255));
            assert_eq!(store.recover(&mut image, 1_024, ALL), finished(3 * (pages as u16 - 1)));
            return image;
        }
    }
    unreachable!()
}

#[test]
fn a_page_that_lost_its_wear_may_be_the_next_one_taken() {
    on_every_store(|store| {
        assert_eq!(wears_and_next(store, &after_a_lost_wear(store, 3)), (vec![2, 2, 1], 0));
        assert_eq!(wears_and_next(store, &after_a_lost_wear(store, 2)), (vec![2, 1], 0));
    });
}

#[test]
fn a_store_from_before_there_were_owners_has_them_now() {
    on_every_store(|store| {
        let image = holding([(40_000, 7)].into_iter());
        assert_eq!(store.read(&image, 1_024, HANDSET, 40_000), Reading::refused(OWNER));
        assert_eq!(store.read(&image, 1_024, TIMER, 40_000), found(7));
        assert_eq!(store.blank_read(&image, 1_024, TIMER, 40_001), found(0));
    });
}

#[test]
fn a_65th_address_may_find_no_room() {
    on_every_store(|store| {
        let own = || (0..64).map(|address| (address, 1));
        let mut alone = holding(own());
        let mut beside = holding(own().chain((0..128).map(|address| (32_768 + address, 1))));
        assert_eq!(store.write(&mut alone, 1_024, HANDSET, 64, 1, ALL), finished(2));
        assert_eq!(store.read(&alone, 1_024, HANDSET, 64), found(1));
        assert_eq!(store.write(&mut beside, 1_024, HANDSET, 64, 1, ALL), Stepped::refused(NO_ROOM));
        assert_eq!(store.read(&beside, 1_024, HANDSET, 64), Reading::refused(NOT_HELD));
    });
}

#[test]
fn an_owner_over_its_limit_may_change_what_it_holds() {
    on_every_store(|store| {
        let mut image = holding((0..130).map(|address| (address, 1)));
        assert_eq!(store.write(&mut image, 1_024, HANDSET, 5, 2, ALL), finished(2));
        assert_eq!(store.write(&mut image, 1_024, HANDSET, 130, 2, ALL), Stepped::refused(NO_ROOM));
    });
}

#[test]
fn a_cut_recovery_may_change_a_setting_of_a_mixed_image() {
    on_every_store(|store| {
        let mut image = [
            page_of(&[wear_word(1, Edition::Second), order_word(3, PLAIN)]),
            page_of(&[wear_word(1, Edition::First), order_word(9, PLAIN), BLANK, record(5, 8)]),
            page_of(&[wear_word(1, Edition::Second), order_word(4, RECEIVING), done_word(4), record(5, 7)]),
            page_of(&[wear_word(1, Edition::Second)]),
        ]
        .concat();
        assert_eq!(store.read(&image, 1_024, HANDSET, 5), found(7));
        assert_eq!(store.recover(&mut image, 1_024, 1), Stepped { number: OK, finished: false, steps: 1 });
        assert_eq!(store.read(&image, 1_024, HANDSET, 5), found(8));
    });
}
