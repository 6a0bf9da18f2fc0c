//! The image makers make what the comparison is meant to meet, on either chip.
//!
//! Broken makers that this catches: one whose stores all have few addresses, so that DAMAGED by 193 is never met, one
//! that draws every value alike, so that hardly a setting is 0 or 255, and one that draws every address alike, so that
//! no owner holds more than 128.

use std::collections::BTreeMap;

use outside::cases::{note, note_editions, note_groups, note_other_size, note_owners, note_slots, rare, Counts};
use outside::images::{chip_of, image, image_of};
use outside::page::*;
use outside::rules::*;
use outside::word::*;

fn look_at_pages(image: &[u8], chip: Chip, counts: &mut Counts) {
    let edition = edition(image, chip);
    for page in chip.pages(image) {
        let state = state(page, edition);
        let wear = wear(page, edition);
        let done = word_at(page, DONE_OFFSET);
        let opening = order_and_kind_in(word_at(page, OPENING_OFFSET));
        note(counts, "page of wear 0", wear == Some(0));
        note(counts, "page of wear 65,534", wear == Some(65_534));
        note(counts, "page of wear 65,535", wear == Some(65_535));
        note(counts, "sound wear word with another third byte", is_sound(word_at(page, 0)) && wear.is_none());
        note(counts, "opening word of kind 0", opening.is_some_and(|(_, kind)| kind == 0));
        note(counts, "opening word of kind 3", opening.is_some_and(|(_, kind)| kind == DONE));
        note(counts, "open page of order 4,194,303", matches!(state, State::Open { order: LAST_ORDER, .. }));
        note(counts, "receiving page", state == State::Receiving);
        note(counts, "receiving page, sound done word", state == State::Receiving && is_sound(done));
        note(
            counts,
            "plain page, done word not blank",
            matches!(state, State::Open { kind: PLAIN, .. }) && !is_blank(done),
        );
        note(counts, "page of 255 only", page.iter().all(|&byte| byte == 255));
    }
}

/// What the listing's count of broken words depends on, in a store that is accepted.
fn look_at_slots(image: &[u8], chip: Chip, counts: &mut Counts) {
    let used = used_pages(image, chip);
    let states = states(image, chip);
    for (index, page) in chip.pages(image).enumerate() {
        let is_used = used.iter().any(|used| used.page == index);
        let is_old = !is_used && matches!(states[index], State::Open { .. });
        let not_active = is_used && index != used[0].page;
        let words: Vec<Word> = slot_words(page).collect();
        let any = |wanted: fn(Word) -> bool| words.iter().any(|&word| wanted(word));
        let half_written = any(|word| condition(word) == Condition::HalfWritten);
        let spoiled = any(|word| condition(word) == Condition::Spoiled);
        let third_byte_255 = any(|word| condition(word) == Condition::Spoiled && word[2] == 255);
        let fourth_byte_255 = any(|word| condition(word) == Condition::Spoiled && word[3] == 255);
        let no_address = any(|word| is_sound(word) && word[..2] == [255, 255]);
        let blank_between = words[..free_slots(page).start].contains(&BLANK);
        let done = condition(word_at(page, DONE_OFFSET));
        note(counts, "used page, half-written slot", is_used && half_written);
        note(counts, "used page, spoiled slot", is_used && spoiled);
        note(counts, "used page, spoiled slot with third byte 255", is_used && third_byte_255);
        note(counts, "used page, spoiled slot with fourth byte 255", is_used && fourth_byte_255);
        note(counts, "used page, sound slot with address 65,535", is_used && no_address);
        note(counts, "used page, blank slot between others", is_used && blank_between);
        note(counts, "used page, half-written done word", is_used && done == Condition::HalfWritten);
        note(counts, "used page, spoiled done word", is_used && done == Condition::Spoiled);
        note(counts, "used page that is not active, half-written slot", not_active && half_written);
        note(counts, "used page that is not active, spoiled slot", not_active && spoiled);
        note(counts, "open page that is not used, half-written slot", is_old && half_written);
        note(counts, "open page that is not used, spoiled slot", is_old && spoiled);
    }
    let (half_written, spoiled) = broken_words(image, chip);
    note(counts, "more than 255 half-written slots", half_written > 255);
    note(counts, "more than 255 spoiled slots", spoiled > 255);
}

/// What the pairing lookup depends on, in a store that is accepted.
fn look_at_code(image: &[u8], chip: Chip, counts: &mut Counts) {
    const WITHOUT: [&str; 4] = [
        "code without its first digit",
        "code without its second digit",
        "code without its third digit",
        "code without its fourth digit",
    ];
    let code = [16, 17, 18, 19].map(|address| value(image, chip, address));
    let [has_0, has_255] = [0, 255].map(|digit| code.contains(&Some(digit)));
    let digits = code.iter().flatten().count();
    note(counts, "no digit of a code", digits == 0);
    for (digit, name) in code.iter().zip(WITHOUT) {
        note(counts, name, digits == 3 && digit.is_none());
    }
    note(counts, "code of three digits, none of them 0 or 255", digits == 3 && !has_0 && !has_255);
    note(counts, "whole code, no digit 0 or 255", digits == 4 && !has_0 && !has_255);
    note(counts, "whole code with a digit 0 and none 255", digits == 4 && has_0 && !has_255);
    note(counts, "whole code with a digit 255 and none 0", digits == 4 && has_255 && !has_0);
    note(counts, "whole code of four digits 0", code == [Some(0); 4]);
    note(counts, "whole code of four digits 255", code == [Some(255); 4]);
}

fn look_at_store(image: &[u8], chip: Chip, counts: &mut Counts) {
    let used = used_pages(image, chip);
    let open = states(image, chip).iter().filter(|state| matches!(state, State::Open { .. })).count();
    note(counts, "two used pages of one order", used.windows(2).any(|pair| pair[0].order == pair[1].order));
    note(counts, "every page used", used.len() == page_count(image, chip));
    note(counts, "old open page", open > used.len());
    if test_store(image, chip).is_err() {
        let sound = used.len() < page_count(image, chip) && !used.windows(2).any(|pair| pair[0].order == pair[1].order);
        note(counts, "193 held", sound && held(image, chip).len() == 193);
        return;
    }
    look_at_slots(image, chip, counts);
    look_at_code(image, chip, counts);
    note_groups(image, chip, counts);
    note_slots(image, chip, counts);
    note_owners(image, chip, counts);
    let cleared = cleared_pages(image, chip);
    let full = free_slots(page_at(image, chip, active_page(image, chip).page)).is_empty();
    let clean = unclean_pages(image, chip).is_empty();
    let least = cleared.iter().map(|&(_, wear)| wear).min();
    let ties = cleared.iter().filter(|&&(_, wear)| Some(wear) == least).count();
    note(counts, "191 held", held(image, chip).len() == 191);
    note(counts, "192 held", held(image, chip).len() == 192);
    note(counts, "active page full, one page cleared", full && clean && cleared.len() == 1);
    note(counts, "active page full, a tie of least wear", full && clean && cleared.len() > 1 && ties > 1);
    note(counts, "active page full, no tie", full && clean && cleared.len() > 1 && ties == 1);
    note(counts, "active page full, 192 held", full && clean && held(image, chip).len() == 192);
    note(counts, "gap in the orders", used.windows(2).any(|pair| pair[0].order > pair[1].order + 1));
    note(counts, "pages not in the order of their index", used.windows(2).any(|pair| pair[0].page < pair[1].page));
    let edition = edition(image, chip);
    let wear_of = |page| wear(page_at(image, chip, page), edition);
    let unworn: Vec<usize> = (0..page_count(image, chip)).filter(|&page| wear_of(page).is_none()).collect();
    if unworn.len() > 1 {
        let unclean = unclean_pages(image, chip);
        let greatest = greatest_wear(image, chip, edition);
        let of_used = used.iter().filter_map(|used| wear_of(used.page)).max();
        let worn_first = unclean[0] < unworn[1] && !unworn.contains(&unclean[0]);
        note(counts, "several pages without a wear", true);
        note(counts, "several pages without a wear, greatest 65,533", greatest == 65_533);
        note(counts, "several pages without a wear, greatest 65,534", greatest == 65_534);
        note(counts, "several pages without a wear, greatest 65,535", greatest == 65_535);
        note(counts, "several pages without a wear, greatest not used", Some(greatest) > of_used);
        note(counts, "several pages without a wear, one with a wear renewed first", worn_first);
    }
    for (pages, name) in [(2, "2 pages"), (3, "3 pages"), (8, "8 pages"), (31, "31 pages"), (32, "32 pages")] {
        note(counts, name, page_count(image, chip) == pages);
    }
}

/// Lengths of each chip that are to be met, and are SIZE.
const WRONG_LENGTHS: [&[usize]; 2] = [
    &[0, 1, 1_023, 1_024, 1_025, 2_047, 2_049, 32_769, 33_792, 65_536],
    &[0, 1, 1_024, 2_047, 2_048, 2_049, 3_072, 4_097, 65_535, 65_537, 67_584, 131_072],
];

/// How many seeds of each chip are looked at, and how often each case is to be met.
const SEEDS: [u64; 2] = [5_000, 4_000];
const LEAST: [u64; 2] = [5, 3];

#[test]
fn the_makers_make_every_case() {
    for (index, chip) in CHIPS.into_iter().enumerate() {
        let mut counts = Counts::new();
        let mut wrong_lengths = BTreeMap::new();
        for image in (0..SEEDS[index]).map(|seed| image_of(chip, seed)) {
            note_other_size(&image, chip, &mut counts);
            if test_size(&image, chip).is_err() {
                *wrong_lengths.entry(image.len()).or_insert(0) += 1;
                continue;
            }
            look_at_pages(&image, chip, &mut counts);
            look_at_store(&image, chip, &mut counts);
            note_editions(&image, chip, &mut counts);
        }
        println!("at {}, wrong lengths: {wrong_lengths:?}", chip.page_size());
        for (name, count) in &counts {
            println!("{count:6} {name}");
        }
        assert!(WRONG_LENGTHS[index].iter().all(|length| wrong_lengths.contains_key(length)));
        let rare = rare(&counts, LEAST[index]);
        assert!(rare.is_empty(), "hardly met at {}: {rare:?}", chip.page_size());
    }
}

/// About a quarter of the seeds is the larger chip's.
#[test]
fn both_chips_have_their_share() {
    let larger = (0..20_000).filter(|&seed| chip_of(seed) == LARGER).count();
    assert!((4_000..6_000).contains(&larger), "{larger} of 20,000");
}

/// Each end is the value of more than one setting in twenty. Of values drawn alike it is that of one in 256.
#[test]
fn the_ends_are_common_values() {
    let accepted = (0..1_000).map(image).filter(|(chip, image)| test_store(image, *chip).is_ok());
    let values: Vec<u8> = accepted.flat_map(|(chip, image)| held(&image, chip).into_values()).collect();
    for end in [0, 255] {
        let count = values.iter().filter(|&&value| value == end).count();
        println!("{count} of {} settings are {end}", values.len());
        assert!(count * 20 > values.len());
    }
}

#[test]
fn a_seed_determines_its_image() {
    assert!((0..200).all(|seed| image(seed) == image(seed)));
}
