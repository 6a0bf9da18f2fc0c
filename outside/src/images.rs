//! Images for the tests, each determined by its seed.

use crate::failing::fail_somehow;
use crate::page::*;
use crate::rng::Rng;
use crate::rules::*;
use crate::steps::*;
use crate::word::*;
use crate::{format, recover, write, write_group};

/// Lengths that no store of the smaller chip has, and none of the larger.
const WRONG_LENGTHS: [&[usize]; 2] = [
    &[0, 1, 2, 3, 512, 1023, 1024, 1025, 2047, 2049, 3071, 3073, 32_767, 32_769, 33_792, 34_816, 65_536],
    &[
        0, 1, 1024, 2047, 2048, 2049, 3072, 4095, 4097, 5120, 33_792, 64_512, 65_535, 65_537, 66_560, 67_584, 69_632,
        131_072,
    ],
];
/// Page sizes that no chip has.
pub const WRONG_SIZES: [u16; 18] =
    [0, 1, 4, 8, 256, 512, 1_023, 1_025, 1_026, 1_536, 2_047, 2_049, 2_050, 3_072, 4_096, 8_192, 32_768, 65_535];
const WEARS: [u16; 9] = [0, 1, 1, 2, 3, 258, 65_533, 65_534, 65_535];
const HELD_COUNTS: [usize; 16] = [0, 1, 2, 5, 20, 60, 128, 129, 140, 191, 191, 192, 192, 193, 194, 230];

/// Addresses of the handset and of the timer that are often picked: the pairing code, the ends of bytes and the border.
/// The timer's are those of the handset 32,768 further on, but for the last.
const SPECIAL: [[u16; 8]; 2] =
    [[0, 16, 17, 18, 19, 255, 256, 32_767], [32_768, 32_784, 32_785, 32_786, 32_787, 33_023, 33_024, 65_534]];

/// The chip and the image of this seed.
pub fn image(seed: u64) -> (Chip, Vec<u8>) {
    let chip = chip_of(seed);
    (chip, image_of(chip, seed))
}

/// The larger chip has fewer seeds, because its images are slow.
pub fn chip_of(seed: u64) -> Chip {
    // Another number than the one that the image is made from.
    if Rng::new(seed ^ 1 << 40).one_in(4) {
        LARGER
    } else {
        SMALLER
    }
}

/// The image of this seed on this chip.
pub fn image_of(chip: Chip, seed: u64) -> Vec<u8> {
    let mut rng = Rng::new(seed);
    let rng = &mut rng;
    let mut image = match rng.below(100) {
        0..=24 => worn(chip, rng),
        25..=29 => paired(chip, rng),
        30..=53 => sensible(chip, rng),
        54..=59 => at_the_limit(chip, rng),
        60..=61 => of_both_chips(rng),
        62..=66 => worn_unevenly(chip, rng),
        67..=77 => wild(chip, rng),
        78..=79 if chip == LARGER => passing_for_headers(rng),
        78..=79 => of_two_editions(chip, rng),
        80..=89 => flipped(chip, rng),
        90..=94 if chip == SMALLER || rng.one_in(2) => random_bytes(chip, rng),
        _ => wrong_length(chip, rng),
    };
    if rng.one_in(10) {
        mix_editions(&mut image, chip, rng);
    }
    image
}

/// Small stores most often, because they are fast. 16 pages of the larger chip are as long as 32 of the smaller.
fn some_page_count(chip: Chip, rng: &mut Rng) -> usize {
    let place = rng.below(100);
    if chip == LARGER {
        return match place {
            0..=59 => 2,
            60..=91 => 3,
            92..=95 => 4 + rng.below(4),
            96..=97 => 8,
            98 => rng.pick(&[16, 17, 31]),
            _ => 32,
        };
    }
    match place {
        0..=53 => 2,
        54..=86 => 3,
        87..=90 => 4 + rng.below(4),
        91..=96 => 8,
        97 => 31,
        _ => 32,
    }
}

/// Distinct addresses of this owner, the special ones often among them.
pub fn addresses_of(timer: bool, count: usize, rng: &mut Rng) -> Vec<u16> {
    let mut addresses = SPECIAL[usize::from(timer)].to_vec();
    rng.shuffle(&mut addresses);
    if rng.one_in(3) {
        addresses.clear();
    }
    addresses.truncate(count);
    let first = if timer { FIRST_OF_TIMER } else { 0 };
    while addresses.len() < count {
        let address = first + if rng.one_in(2) { rng.below(300) } else { rng.below(32_767) } as u16;
        if !addresses.contains(&address) {
            addresses.push(address);
        }
    }
    addresses
}

/// How many of so many addresses are to be one owner's: of many, often about as many as it may come to hold.
fn some_share(count: usize, rng: &mut Rng) -> usize {
    let any = rng.below(count + 1);
    let about_the_limit = MOST_HELD_BY_OWNER - 4 + rng.below(8);
    let often = if about_the_limit > count { any } else { about_the_limit };
    rng.pick(&[count, count / 2, any, often, often, often])
}

/// Distinct addresses, so many of one owner and so many of the other, in any order.
fn shared_addresses(share: usize, rest: usize, rng: &mut Rng) -> Vec<u16> {
    let timer = rng.one_in(2);
    let mut addresses = [addresses_of(timer, share, rng), addresses_of(!timer, rest, rng)].concat();
    rng.shuffle(&mut addresses);
    addresses
}

/// Distinct addresses, of neither owner more than it may come to hold.
pub fn some_addresses(rng: &mut Rng, count: usize) -> Vec<u16> {
    let most = MOST_HELD_BY_OWNER.min(count);
    let share = some_share(count, rng).clamp(count - most, most);
    shared_addresses(share, count - share, rng)
}

/// Distinct addresses, of which one owner may have too many.
fn any_addresses(rng: &mut Rng, count: usize) -> Vec<u16> {
    let share = some_share(count, rng);
    shared_addresses(share, count - share, rng)
}

/// A value for a setting, often one of the ends: 0 is what blank reads as, and 255 what it read as once.
pub fn some_value(rng: &mut Rng) -> u8 {
    let any = rng.byte();
    rng.pick(&[0, 255, any, any, any, any, any, any])
}

/// The same, but not the value that the address has.
fn another_value(held: Option<u8>, rng: &mut Rng) -> u8 {
    let value = some_value(rng);
    if held == Some(value) {
        value.wrapping_add(1)
    } else {
        value
    }
}

/// How many settings to write as a group: often as many as just fit into these free slots, or just don't.
pub fn some_group_size(free: usize, rng: &mut Rng) -> usize {
    match free {
        1..=10 if !rng.one_in(4) => (free + 1).saturating_sub(rng.below(4)).clamp(1, MOST_IN_A_GROUP),
        _ => 1 + rng.below(MOST_IN_A_GROUP),
    }
}

/// So many settings of different addresses of the pool that are this owner's, or fewer if it has fewer.
pub fn some_group(pool: &[u16], timer: bool, count: usize, rng: &mut Rng) -> Vec<Setting> {
    let mut addresses: Vec<u16> = pool.iter().copied().filter(|&address| owns(timer, address)).collect();
    rng.shuffle(&mut addresses);
    addresses.truncate(count);
    addresses.into_iter().map(|address| (address, some_value(rng))).collect()
}

// Worn stores: what our own calls leave, with failing steps among them.

fn worn(chip: Chip, rng: &mut Rng) -> Vec<u8> {
    let pages = some_page_count(chip, rng);
    let mut image = formatted(chip, pages, rng);
    let count = rng.pick(&[2, 5, 12, 40, 192]);
    let pool = some_addresses(rng, count);
    for _ in 0..1 + rng.below(pages + 4) {
        let slots = chip.slots();
        let count = if rng.one_in(3) { rng.below(slots) } else { slots - rng.below(12) };
        fill_active(&mut image, chip, count, &pool, rng);
        for _ in 0..1 + rng.below(3) {
            let change = some_change(&image, chip, &pool, rng);
            if !troubled_change(&mut image, chip, &change, rng) {
                return image;
            }
        }
    }
    image
}

/// What a format leaves; on the smaller chip in either edition.
fn formatted(chip: Chip, pages: usize, rng: &mut Rng) -> Vec<u8> {
    let mut image = vec![rng.byte(); pages * chip.page_bytes];
    format(&mut image, chip.page_size(), rng.one_in(2));
    image
}

/// A single setting or, where there are groups, most often a group; of one owner.
pub fn some_change(image: &[u8], chip: Chip, pool: &[u16], rng: &mut Rng) -> Change {
    let address = rng.pick(pool);
    if !edition(image, chip).has_groups() || rng.one_in(4) {
        return Change::Single((address, some_value(rng)));
    }
    let free = free_slots(page_at(image, chip, active_page(image, chip).page)).len();
    let count = some_group_size(free, rng);
    Change::Group(some_group(pool, is_timers(address), count, rng))
}

/// What writes to the pool's addresses would do with `count` slots, each by the owner of its address, as far as the
/// active page has room; groups are among them where there are any. Each changes a value, because a write of held
/// values takes no slot.
pub fn fill_active(image: &mut [u8], chip: Chip, count: usize, pool: &[u16], rng: &mut Rng) {
    let mut values = held(image, chip);
    let has_groups = edition(image, chip).has_groups();
    let active = active_page(image, chip).page;
    let mut free = free_slots(page_at(image, chip, active));
    free.end = free.end.min(free.start + count);
    while !free.is_empty() {
        let grouped = has_groups && rng.one_in(20);
        let count = 1 + rng.below(MOST_IN_A_GROUP);
        let address = rng.pick(pool);
        let mut settings = if grouped { some_group(pool, is_timers(address), count, rng) } else { vec![(address, 0)] };
        let (address, value) = &mut settings[0];
        *value = another_value(values.get(address).copied(), rng);
        let (single, group) = (Change::Single(settings[0]), Change::Group(settings));
        let change = if grouped && group.words().len() <= free.len() { group } else { single };
        let steps = slots_steps(chip, active, free.start, &change.words());
        steps.iter().for_each(|&step| do_step(image, step));
        free.start += change.words().len();
        values.extend(change.settings().iter().copied());
    }
}

/// A change in which power may fail, and recoveries in which it may. False if the image was left unrecovered.
fn troubled_change(image: &mut [u8], chip: Chip, change: &Change, rng: &mut Rng) -> bool {
    let Ok(steps) = change_steps(image, chip, change.timer(), change) else {
        return false;
    };
    if rng.one_in(2) || steps.is_empty() {
        steps.iter().for_each(|&step| do_step(image, step));
        return true;
    }
    let at = if rng.one_in(2) { rng.below(steps.len()) } else { steps.len() - 1 - rng.below(steps.len().min(12)) };
    cut(image, &steps, at, rng);
    while !rng.one_in(3) {
        let steps = recovery_steps(image, chip).expect("a failed write leaves a store that recovers");
        if !steps.is_empty() {
            let at = rng.below(steps.len());
            cut(image, &steps, at, rng);
        }
    }
    !rng.one_in(6) && recover(image, chip.page_size(), u16::MAX).finished
}

/// A worn store that was then paired, if it took the writes: often with one digit four times, or with some left out.
fn paired(chip: Chip, rng: &mut Rng) -> Vec<u8> {
    let mut image = worn(chip, rng);
    let any = some_value(rng);
    let usual = rng.pick(&[0, 255, any]);
    let mut code = Vec::new();
    for address in 16..20 {
        let digit = if rng.one_in(8) { some_value(rng) } else { usual };
        if !rng.one_in(6) {
            code.push((address, digit));
        }
    }
    if edition(&image, chip).has_groups() && rng.one_in(2) {
        write_group(&mut image, chip.page_size(), false, &group_bytes(&code), u16::MAX);
    } else {
        for (address, digit) in code {
            write(&mut image, chip.page_size(), false, address, digit, u16::MAX);
        }
    }
    image
}

/// A store of the larger chip whose writes, all of them finished, made what at 1,024 is the header of an open page: in the
/// middle of a larger page one of the smaller chip begins.
fn passing_for_headers(rng: &mut Rng) -> Vec<u8> {
    let pages = some_page_count(LARGER, rng);
    let mut image = formatted(LARGER, pages, rng);
    let pool = some_addresses(rng, 20);
    for order in 0..1 + rng.below(pages) as u32 {
        let taken = free_slots(page_at(&image, LARGER, active_page(&image, LARGER).page)).start;
        fill_active(&mut image, LARGER, SMALLER.slots().saturating_sub(taken), &pool, rng);
        let kind = rng.pick(&[PLAIN, PLAIN, RECEIVING]);
        let wear = wear_word(300 + order as u16, rng.pick(SMALLER.editions));
        for [low, high, value, _] in [wear, order_word(order, kind), done_word(order)] {
            let address = u16::from_le_bytes([low, high]);
            write(&mut image, LARGER.page_size(), is_timers(address), address, value, u16::MAX);
        }
        let count = if rng.one_in(4) { rng.below(LARGER.slots()) } else { LARGER.slots() };
        fill_active(&mut image, LARGER, count, &pool, rng);
        let change = some_change(&image, LARGER, &pool, rng);
        troubled_change(&mut image, LARGER, &change, rng);
        if recover(&mut image, LARGER.page_size(), u16::MAX).number != OK {
            break;
        }
    }
    image
}

/// Does the steps before `at`; power fails in that one.
fn cut(image: &mut [u8], steps: &[Step], at: usize, rng: &mut Rng) {
    steps[..at].iter().for_each(|&step| do_step(image, step));
    fail_somehow(image, steps[at], rng);
}

// Crafted pages. They are made in the chip's first edition and then, as often as not, put into its second, if it has one.

fn put(page: &mut [u8], offset: usize, word: Word) {
    page[offset..offset + 4].copy_from_slice(&word);
}

fn cleared_page(chip: Chip, rng: &mut Rng) -> Vec<u8> {
    let mut page = vec![255; chip.page_bytes];
    put(&mut page, WEAR_OFFSET, wear_word(rng.pick(&WEARS), chip.editions[0]));
    page
}

/// An open page without records; of a plain page the third header word may be anything.
fn open_page(chip: Chip, order: u32, kind: u32, rng: &mut Rng) -> Vec<u8> {
    let mut page = cleared_page(chip, rng);
    put(&mut page, OPENING_OFFSET, order_word(order, kind));
    if kind == RECEIVING {
        put(&mut page, DONE_OFFSET, done_word(order));
    } else if rng.one_in(5) {
        put(&mut page, DONE_OFFSET, odd_done_word(order, rng));
    }
    page
}

/// A third header word that is not the matching done word, except now and then.
fn odd_done_word(order: u32, rng: &mut Rng) -> Word {
    match rng.below(6) {
        0 => done_word(order),
        1 => done_word(order ^ 1),
        2 => order_word(order, RECEIVING),
        3 => done_word(some_order(rng)),
        4 => torn_word(done_word(order), rng),
        _ => some_word(rng),
    }
}

fn some_order(rng: &mut Rng) -> u32 {
    match rng.below(8) {
        0..=3 => rng.below(5) as u32,
        4 => LAST_ORDER,
        5 => LAST_ORDER - rng.below(3) as u32,
        6 => 16_383 + rng.below(3) as u32,
        _ => rng.below(LAST_ORDER as usize + 1) as u32,
    }
}

fn some_word(rng: &mut Rng) -> Word {
    (rng.draw() as u32).to_le_bytes()
}

/// The word with some of its 0 bits set, as power may leave it: spoiled most often.
fn torn_word(word: Word, rng: &mut Rng) -> Word {
    let stays = some_word(rng);
    let at = rng.below(4);
    let mut torn = word;
    if rng.one_in(2) {
        torn[at] |= stays[at];
    } else {
        (0..4).for_each(|byte| torn[byte] |= stays[byte]);
    }
    torn
}

/// The word after the first of its two steps.
fn half_written_word(word: Word) -> Word {
    [word[0], word[1], 255, 255]
}

/// The pages in the first edition, or in the second if there is one: then those that were to be of the second are of the
/// first.
fn in_some_edition(chip: Chip, pages: Vec<Vec<u8>>, rng: &mut Rng) -> Vec<u8> {
    let mut image = pages.concat();
    if let ([first, second], true) = (chip.editions, rng.one_in(2)) {
        for page in chip.pages_mut(&mut image) {
            swap_editions(page, *first, *second);
        }
    }
    image
}

fn swap_editions(page: &mut [u8], first: Edition, second: Edition) {
    if let Some(wear) = wear(page, first) {
        put(page, WEAR_OFFSET, wear_word(wear, second));
    } else if let Some(wear) = wear(page, second) {
        put(page, WEAR_OFFSET, wear_word(wear, first));
    }
}

/// Gives some of the wear words, or all, another third byte: often that of another edition, of this chip or of none.
fn mix_editions(image: &mut [u8], chip: Chip, rng: &mut Rng) {
    let rarity = rng.pick(&[1, 3, 3, 3]);
    for page in chip.pages_mut(image) {
        let [low, high, third, _] = word_at(page, WEAR_OFFSET);
        if is_sound(word_at(page, WEAR_OFFSET)) && rng.one_in(rarity) {
            let other = match third {
                _ if rng.one_in(4) => rng.pick(&[0, 3, 255]),
                1 | 2 => third ^ 3,
                _ => rng.pick(&[1, 2]),
            };
            put(page, WEAR_OFFSET, sound_word([low, high, other]));
        }
    }
}

fn pool_record(pool: &[u16], rng: &mut Rng) -> Word {
    if pool.is_empty() {
        return no_mark(rng);
    }
    record(rng.pick(pool), some_value(rng))
}

/// A sound word with address 65,535 and a value that no mark has.
fn no_mark(rng: &mut Rng) -> Word {
    let low = 9 + rng.below(120) as u8;
    let high = 137 + rng.below(119) as u8;
    record(NO_ADDRESS, rng.pick(&[9, 128, 137, 255, low, high]))
}

/// What stands in a slot that no address of the pool has to have.
fn filler_word(pool: &[u16], rng: &mut Rng) -> Word {
    match rng.below(20) {
        0 => no_mark(rng),
        1 | 2 => torn_word(pool_record(pool, rng), rng),
        3 => BLANK,
        4 => half_written_word(pool_record(pool, rng)),
        _ => pool_record(pool, rng),
    }
}

fn some_size(rng: &mut Rng) -> u8 {
    1 + rng.below(MOST_IN_A_GROUP) as u8
}

/// A group that counts or, as often, one that something is wrong with.
fn group_words(pool: &[u16], rng: &mut Rng) -> Vec<Word> {
    let size = some_size(rng);
    let opens = mark_word(Mark::Opens(size));
    let mut inside: Vec<Word> = (0..size).map(|_| pool_record(pool, rng)).collect();
    let mut end = vec![mark_word(Mark::Closes(size))];
    let place = rng.below(inside.len());
    match rng.below(20) {
        0 => end = vec![mark_word(Mark::Closes(some_size(rng)))],
        1 => drop(inside.pop()),
        2 => inside.push(pool_record(pool, rng)),
        3 => inside[place] = broken_word(pool, rng),
        4 => inside.insert(place, broken_word(pool, rng)),
        5 => inside.push(broken_word(pool, rng)),
        6 => {
            inside.truncate(place + rng.below(2));
            end = vec![mark_word(Mark::Abandons)];
        }
        7 => inside.insert(place, mark_word(Mark::Opens(some_size(rng)))),
        8 => inside[place] = mark_word(Mark::Opens(some_size(rng))),
        9 => end.clear(),
        10 => return vec![rng.pick(&[mark_word(Mark::Abandons), end[0]])],
        _ => {}
    }
    [vec![opens], inside, end].concat()
}

/// What is no record: spoiled, half-written or blank, or with a value that no mark has.
fn broken_word(pool: &[u16], rng: &mut Rng) -> Word {
    match rng.below(4) {
        0 => torn_word(pool_record(pool, rng), rng),
        1 => half_written_word(pool_record(pool, rng)),
        2 => BLANK,
        _ => no_mark(rng),
    }
}

/// The beginning of a group, as far as a cut or a full page lets it come.
fn begun_group(pool: &[u16], rng: &mut Rng) -> Vec<Word> {
    let size = some_size(rng);
    let mut words = vec![mark_word(Mark::Opens(size))];
    words.extend((0..rng.below(usize::from(size) + 1)).map(|_| pool_record(pool, rng)));
    words.extend((0..rng.below(3)).map(|_| broken_word(pool, rng)));
    words
}

/// Fills the slots before `count`. Some pages have no group, some have few and some many; now and then one is open at the
/// end.
fn fill_slots(page: &mut [u8], count: usize, pool: &[u16], rng: &mut Rng) {
    let rarity = rng.pick(&[None, None, Some(80), Some(15)]);
    let mut words = Vec::new();
    while words.len() < count {
        match rarity {
            Some(rarity) if rng.one_in(rarity) => words.extend(group_words(pool, rng)),
            _ => words.push(filler_word(pool, rng)),
        }
    }
    words.truncate(count);
    let begun = begun_group(pool, rng);
    if begun.len() <= count && rng.one_in(6) {
        words.splice(count - begun.len().., begun);
    }
    for (slot, word) in words.into_iter().enumerate() {
        put(page, slot_offset(slot), word);
    }
}

/// The slots of a page, of these first ones, in which a record counts in every edition.
fn counting_slots(page: &[u8], count: usize) -> Vec<usize> {
    let slots = slots(page, Edition::Second);
    let groups = groups(&slots);
    let is_free = |&slot: &usize| {
        !matches!(slots[slot], Slot::Mark(_)) && !groups.iter().any(|group| group.inside(slots.len()).contains(&slot))
    };
    (0..count).filter(is_free).collect()
}

/// A store as the rules want it, but with orders, wears, counts and other pages at their ends.
fn sensible(chip: Chip, rng: &mut Rng) -> Vec<u8> {
    let pages = some_page_count(chip, rng);
    let pages = sensible_pages(chip, pages, rng);
    in_some_edition(chip, pages, rng)
}

fn sensible_pages(chip: Chip, pages: usize, rng: &mut Rng) -> Vec<Vec<u8>> {
    let used = if rng.one_in(2) { pages - 1 } else { 1 + rng.below(pages - 1) };
    let orders = rising_orders(used, rng);
    let based = rng.one_in(2);
    let mut all = used_pages_of(chip, &orders, based, rng);
    while all.len() < pages {
        all.push(if rng.one_in(4) { other_page(chip, orders[0], based, rng) } else { cleared_page(chip, rng) });
    }
    rng.shuffle(&mut all);
    all
}

/// A store of the larger chip in the second halves of whose pages stand the pages of one of the smaller chip, or pages of
/// one order. So the slots of the one have the other's headers; but a page that is cleared at 2,048 stays so, as often as not.
fn of_both_chips(rng: &mut Rng) -> Vec<u8> {
    let count = rng.pick(&[2, 2, 3, 3, 4, 16]);
    let mut pages = sensible_pages(LARGER, count, rng);
    let others = match rng.below(6) {
        0 => wild_pages(SMALLER, count, rng),
        1 => {
            let order = some_order(rng);
            vec![used_pages_of(SMALLER, &[order], false, rng).concat(); count]
        }
        _ => sensible_pages(SMALLER, count, rng),
    };
    let others = in_some_edition(SMALLER, others, rng);
    for (page, other) in pages.iter_mut().zip(SMALLER.pages(&others)) {
        let stays = matches!(state(page, Edition::Third), State::Cleared { .. }) && rng.one_in(2);
        if !stays {
            page[SMALLER.page_bytes..].copy_from_slice(other);
        }
    }
    pages.concat()
}

fn rising_orders(count: usize, rng: &mut Rng) -> Vec<u32> {
    let gaps: Vec<u32> = (1..count).map(|_| if rng.one_in(4) { 1 + rng.below(5) as u32 } else { 1 }).collect();
    let span: u32 = gaps.iter().sum();
    let highest_first = LAST_ORDER - span;
    let mut order = rng.pick(&[0, 0, 1, 5, 300, 100_000, highest_first - 1, highest_first]);
    let mut orders = vec![order];
    for gap in gaps {
        order += gap;
        orders.push(order);
    }
    orders
}

/// Pages of these orders that together hold one of the counts in HELD_COUNTS, and of either owner any part of it.
fn used_pages_of(chip: Chip, orders: &[u32], based: bool, rng: &mut Rng) -> Vec<Vec<u8>> {
    let held = rng.pick(&HELD_COUNTS);
    let pool = any_addresses(rng, held);
    pages_holding(chip, orders, based, &pool, rng)
}

/// Pages of these orders that together hold the addresses of the pool, if they have room for them.
fn pages_holding(chip: Chip, orders: &[u32], based: bool, pool: &[u16], rng: &mut Rng) -> Vec<Vec<u8>> {
    let mut all = Vec::new();
    let mut places = Vec::new();
    for (index, &order) in orders.iter().enumerate() {
        let kind = if index == 0 && based || rng.one_in(30) { RECEIVING } else { PLAIN };
        let mut page = open_page(chip, order, kind, rng);
        let count = match rng.below(8) {
            0 => rng.pick(&[0, 1, 100, SMALLER.slots() - 1, SMALLER.slots()]),
            1 | 2 => chip.slots() - 1 - rng.below(12),
            _ => chip.slots(),
        };
        fill_slots(&mut page, count, pool, rng);
        places.extend(counting_slots(&page, count).into_iter().map(|slot| (index, slot)));
        all.push(page);
    }
    rng.shuffle(&mut places);
    for (&address, (index, slot)) in pool.iter().zip(places) {
        put(&mut all[index], slot_offset(slot), record(address, some_value(rng)));
    }
    all
}

/// A store without unclean pages in which one owner holds about as many as it may, and both together often 191 or 192.
fn at_the_limit(chip: Chip, rng: &mut Rng) -> Vec<u8> {
    let about = 120 + rng.below(12);
    let own = rng.pick(&[127, 127, 128, 128, 129, about]);
    let any = own + rng.below(MOST_HELD + 1 - own);
    let total = rng.pick(&[own, 191, 192, any, any]);
    let pool = shared_addresses(own, total - own, rng);
    let pages = 2 + rng.below(2);
    let orders = rising_orders(1 + rng.below(pages - 1), rng);
    let based = rng.one_in(2);
    let mut all = pages_holding(chip, &orders, based, &pool, rng);
    while all.len() < pages {
        all.push(cleared_page(chip, rng));
    }
    rng.shuffle(&mut all);
    in_some_edition(chip, all, rng)
}

/// A page that is neither used nor cleared: an old one, a receiving one or a bad one.
fn other_page(chip: Chip, lowest: u32, based: bool, rng: &mut Rng) -> Vec<u8> {
    let count = rng.below(chip.slots() + 1);
    let pool = some_addresses(rng, 20);
    let mut page = match rng.below(4) {
        0 if based && lowest > 0 => {
            let order = rng.below(lowest as usize) as u32;
            let kind = rng.pick(&[PLAIN, RECEIVING]);
            open_page(chip, order, kind, rng)
        }
        1 => receiving_page(chip, rng),
        _ => bad_page(chip, rng),
    };
    if count > 0 && !rng.one_in(4) {
        fill_slots(&mut page, count, &pool, rng);
    }
    page
}

fn receiving_page(chip: Chip, rng: &mut Rng) -> Vec<u8> {
    let order = some_order(rng);
    let mut page = open_page(chip, order, RECEIVING, rng);
    let done = if rng.one_in(2) { BLANK } else { odd_done_word(order, rng) };
    put(&mut page, DONE_OFFSET, done);
    page
}

/// A page without a sound wear word.
fn unworn_page(chip: Chip, rng: &mut Rng) -> Vec<u8> {
    let order = some_order(rng);
    let mut page = open_page(chip, order, PLAIN, rng);
    match rng.below(4) {
        0 => page.fill(255),
        1 => page.fill(0),
        2 => put(&mut page, WEAR_OFFSET, BLANK),
        _ => {
            let others: Vec<u8> = [0, 1, 2, 3, 255].into_iter().filter(|&third| third != page[2]).collect();
            put(&mut page, WEAR_OFFSET, sound_word([1, 0, rng.pick(&others)]));
        }
    }
    page
}

fn bad_page(chip: Chip, rng: &mut Rng) -> Vec<u8> {
    if rng.one_in(2) {
        return unworn_page(chip, rng);
    }
    let order = some_order(rng);
    let mut page = open_page(chip, order, PLAIN, rng);
    match rng.below(4) {
        0 => put(&mut page, OPENING_OFFSET, order_word(order, 0)),
        1 => put(&mut page, OPENING_OFFSET, order_word(order, DONE)),
        2 => put(&mut page, OPENING_OFFSET, BLANK),
        _ => {
            page = cleared_page(chip, rng);
            let offset = 4 + rng.below(chip.page_bytes - 4);
            page[offset] ^= 1 << rng.below(8);
        }
    }
    page
}

/// A store in which several pages have no sound wear word, and no wear is above one that is picked.
fn worn_unevenly(chip: Chip, rng: &mut Rng) -> Vec<u8> {
    let pages = if rng.one_in(20) { 32 } else { 4 + rng.below(5) };
    let used = 1 + rng.below(pages - 3);
    let orders = rising_orders(used, rng);
    let based = rng.one_in(2);
    let mut all = used_pages_of(chip, &orders, based, rng);
    while all.len() < pages {
        all.push(match rng.below(4) {
            _ if all.len() + 2 >= pages => unworn_page(chip, rng),
            0 => cleared_page(chip, rng),
            1 => other_page(chip, orders[0], based, rng),
            _ => unworn_page(chip, rng),
        });
    }
    let greatest = rng.pick(&[0, 7, 258, 65_532, 65_533, 65_534, 65_535]);
    for page in &mut all {
        if let Some(wear) = wear(page, chip.editions[0]) {
            put(page, WEAR_OFFSET, wear_word(wear.min(greatest), chip.editions[0]));
        }
    }
    rng.shuffle(&mut all);
    in_some_edition(chip, all, rng)
}

/// Pages that know nothing of each other: equal orders, no open page, every page used.
fn wild(chip: Chip, rng: &mut Rng) -> Vec<u8> {
    let pages = some_page_count(chip, rng);
    let pages = wild_pages(chip, pages, rng);
    in_some_edition(chip, pages, rng)
}

fn wild_pages(chip: Chip, pages: usize, rng: &mut Rng) -> Vec<Vec<u8>> {
    let pool = some_addresses(rng, 30);
    let mut all = Vec::new();
    for _ in 0..pages {
        let order = some_order(rng);
        let count = rng.below(chip.slots() + 1);
        let mut page = match rng.below(8) {
            0..=2 => cleared_page(chip, rng),
            3 | 4 => open_page(chip, order, PLAIN, rng),
            5 => open_page(chip, order, RECEIVING, rng),
            6 => receiving_page(chip, rng),
            _ => bad_page(chip, rng),
        };
        if open_by_itself(&page, chip).is_some() {
            fill_slots(&mut page, count, &pool, rng);
        }
        all.push(page);
    }
    all
}

/// A store whose edition is that of an old page, in front of an open page of the other edition. While a recovery renews the
/// one and then the other, the lowest open page is of the other edition.
fn of_two_editions(chip: Chip, rng: &mut Rng) -> Vec<u8> {
    let pages = 4 + rng.below(4);
    let used = 1 + rng.below(pages - 3);
    let mut orders = rising_orders(used, rng);
    if orders[0] == 0 {
        orders.iter_mut().for_each(|order| *order += 1);
    }
    let mut others = used_pages_of(chip, &orders, true, rng);
    while others.len() < pages - 2 {
        others.push(cleared_page(chip, rng));
    }
    rng.shuffle(&mut others);
    let old_order = rng.below(orders[0] as usize) as u32;
    let old = open_page(chip, old_order, PLAIN, rng);
    let order = some_order(rng);
    let mut of_other = open_page(chip, order, PLAIN, rng);
    put(&mut of_other, WEAR_OFFSET, wear_word(rng.pick(&WEARS), chip.editions[1]));
    in_some_edition(chip, [vec![old, of_other], others].concat(), rng)
}

/// A good image with a few bits flipped, in the headers most often.
fn flipped(chip: Chip, rng: &mut Rng) -> Vec<u8> {
    let mut image = if rng.one_in(2) { worn(chip, rng) } else { sensible(chip, rng) };
    for _ in 0..1 + rng.below(4) {
        let page = rng.below(page_count(&image, chip));
        let within = if rng.one_in(4) { rng.below(chip.page_bytes) } else { rng.below(16) };
        image[chip.page_range(page).start + within] ^= 1 << rng.below(8);
    }
    image
}

fn random_bytes(chip: Chip, rng: &mut Rng) -> Vec<u8> {
    let length = some_page_count(chip, rng) * chip.page_bytes;
    let manner = rng.below(3);
    let image: Vec<u8> =
        (0..length).map(|_| if manner == 1 { rng.byte() | rng.byte() | rng.byte() } else { rng.byte() }).collect();
    if manner != 2 {
        return image;
    }
    // Random slots under sound headers.
    let mut pages: Vec<Vec<u8>> = chip.pages(&image).map(<[u8]>::to_vec).collect();
    for page in &mut pages {
        let order = some_order(rng);
        page[..12].copy_from_slice(&open_page(chip, order, PLAIN, rng)[..12]);
    }
    pages.pop();
    pages.push(cleared_page(chip, rng));
    in_some_edition(chip, pages, rng)
}

/// A good image cut or lengthened to a length that no store has.
fn wrong_length(chip: Chip, rng: &mut Rng) -> Vec<u8> {
    let mut image = sensible(chip, rng);
    let [smaller, larger] = WRONG_LENGTHS;
    image.resize(rng.pick(if chip == LARGER { larger } else { smaller }), 255);
    image
}
