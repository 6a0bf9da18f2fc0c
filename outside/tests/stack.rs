//! The stack that each exported call uses: at most 4 KB, on images of 2 and of 32 pages of either chip.
//!
//! A call runs on a stack of its own that was painted before; how far down it changed the paint is what it used. Two
//! paints, because a byte that is written with the paint's own value shows nothing. For x86-64 and aarch64 on Linux.
//!
//! A broken library that this catches: one that keeps a copy of a few pages on its stack (`a_deep_call_is_felt`).

#![cfg(all(feature = "library", any(target_arch = "x86_64", target_arch = "aarch64"), unix))]

use std::arch::asm;

use outside::images::{fill_active, image_of, some_addresses};
use outside::page::*;
use outside::rng::Rng;
use outside::rules::*;
use outside::word::*;
use outside::*;

const MOST_STACK: usize = 4_096;
const STACK_BYTES: usize = 1 << 18;
const PAINTS: [u8; 2] = [0xA5, 0x5A];

// Declared here only for their addresses: `library` has their types.
extern "C" {
    fn istrovell_format();
    fn istrovell_recover();
    fn istrovell_write();
    fn istrovell_write_group();
    fn istrovell_read();
    fn istrovell_blank_read();
    fn istrovell_lookup();
}

type Function = unsafe extern "C" fn();

const NAMES: [&str; 7] = ["format", "recovery", "write", "group write", "read", "blank read", "lookup"];

/// What follows pointer and length in a call: the page size first. Both writes have a fifth word, their allowance,
/// which is the seventh argument.
#[derive(Clone, Copy)]
struct Rest {
    words: [u64; 4],
    fifth: Option<u64>,
}

fn up_to_four(words: [u64; 4]) -> Rest {
    Rest { words, fifth: None }
}

fn five(words: [u64; 4], fifth: u64) -> Rest {
    Rest { words, fifth: Some(fifth) }
}

/// The exports, each with what follows pointer and length in its call.
fn calls(chip: Chip, setting: Setting, group: &[u8]) -> [(Function, Rest); 7] {
    let (address, value, all) = (u64::from(setting.0), u64::from(setting.1), u64::from(u16::MAX));
    let (group, group_length) = (group.as_ptr() as u64, group.len() as u64);
    let (size, timer) = (u64::from(chip.page_size()), u64::from(is_timers(setting.0)));
    [
        (istrovell_format, up_to_four([size, 1, 0, 0])),
        (istrovell_recover, up_to_four([size, all, 0, 0])),
        (istrovell_write, five([size, timer, address, value], all)),
        (istrovell_write_group, five([size, timer, group, group_length], all)),
        (istrovell_read, up_to_four([size, timer, address, 0])),
        (istrovell_blank_read, up_to_four([size, timer, address, 0])),
        (istrovell_lookup, up_to_four([size, 0, 0, 0])),
    ]
}

/// Eight settings of this owner that change something: of held addresses, and of others if there are fewer.
fn eight_settings(image: &[u8], chip: Chip, timer: bool) -> Vec<Setting> {
    let held = if test_store(image, chip).is_ok() { held(image, chip) } else { Default::default() };
    let others = (0..65_535).filter(|address| !held.contains_key(address)).map(|address| (address, 1));
    let changed = held.iter().map(|(&address, value)| (address, value.wrapping_add(1)));
    changed.chain(others).filter(|&(address, _)| owns(timer, address)).take(MOST_IN_A_GROUP).collect()
}

/// Calls the function on the stack that ends at `top`; gives the answer's register.
///
/// # Safety
/// The function takes pointer, length and at most five more words, a group's pointer and length among them, which live
/// through the call; it answers in one register; the stack is large, aligned to 16, and for this call alone.
#[cfg(target_arch = "x86_64")]
unsafe fn call_at(mut top: *mut u128, function: Function, image: &mut [u8], rest: Rest) -> u64 {
    // A seventh argument is on the stack, just above the return address; the stack stays aligned to 16.
    if let Some(fifth) = rest.fifth {
        top = top.sub(1);
        top.write(u128::from(fifth));
    }
    let answer: u64;
    asm!(
        "mov r12, rsp",
        "mov rsp, {top}",
        "call {function}",
        "mov rsp, r12",
        top = in(reg) top,
        function = in(reg) function,
        in("rdi") image.as_mut_ptr(),
        in("rsi") image.len(),
        in("rdx") rest.words[0],
        in("rcx") rest.words[1],
        in("r8") rest.words[2],
        in("r9") rest.words[3],
        lateout("rax") answer,
        out("r12") _,
        clobber_abi("C"),
    );
    answer
}

#[cfg(target_arch = "aarch64")]
unsafe fn call_at(top: *mut u128, function: Function, image: &mut [u8], rest: Rest) -> u64 {
    let answer: u64;
    asm!(
        "mov x20, sp",
        "mov sp, {top}",
        "blr {function}",
        "mov sp, x20",
        top = in(reg) top,
        function = in(reg) function,
        in("x0") image.as_mut_ptr(),
        in("x1") image.len(),
        in("x2") rest.words[0],
        in("x3") rest.words[1],
        in("x4") rest.words[2],
        in("x5") rest.words[3],
        in("x6") rest.fifth.unwrap_or(0),
        lateout("x0") answer,
        out("x20") _,
        clobber_abi("C"),
    );
    answer
}

/// The answer's register and the stack used; on x86-64 the return address is part of it, and a seventh argument.
fn call_on(stack: &mut [u128], paint: u8, function: Function, image: &mut [u8], rest: Rest) -> (u64, usize) {
    let bytes = std::mem::size_of_val(stack);
    stack.fill(u128::from_ne_bytes([paint; 16]));
    // SAFETY: the exports, and `deep`, are such functions; `image` lives through the call, and the stack is ours.
    let answer = unsafe { call_at(stack.as_mut_ptr_range().end, function, image, rest) };
    let untouched = stack.iter().flat_map(|word| word.to_ne_bytes()).take_while(|&byte| byte == paint).count();
    assert!(untouched > 0, "the stack overflowed");
    (answer, bytes - untouched)
}

/// The answer's first byte, its number, and the stack that the call uses on this image.
fn used(stack: &mut [u128], function: Function, image: &[u8], rest: Rest) -> (u8, usize) {
    let measured = PAINTS.map(|paint| call_on(stack, paint, function, &mut image.to_vec(), rest));
    let [number, other] = measured.map(|(answer, _)| answer as u8);
    assert_eq!(number, other);
    (number, measured[0].1.max(measured[1].1))
}

fn painted_stack() -> Vec<u128> {
    vec![0; STACK_BYTES / 16]
}

/// Images of this many pages of the chip: the first of the seeds that have it, and a store before each kind of write.
fn images_of(chip: Chip, pages: usize, count: usize) -> Vec<Vec<u8>> {
    let is_of = |image: &Vec<u8>| image.len() == pages * chip.page_bytes;
    let mut images: Vec<Vec<u8>> = (0..).map(|seed| image_of(chip, seed)).filter(is_of).take(count).collect();
    images.extend(chip.editions.iter().flat_map(|&edition| full_stores(pages, edition)));
    images
}

/// A store of 192 addresses, of both owners, with one page used and full, and so on to all but one: the last write
/// moves.
fn full_stores(pages: usize, edition: Edition) -> Vec<Vec<u8>> {
    let chip = Chip::of(edition);
    let size = chip.page_size();
    let mut rng = Rng::new(pages as u64);
    let addresses = some_addresses(&mut rng, MOST_HELD);
    let mut image = vec![0; pages * chip.page_bytes];
    format(&mut image, size, edition == Edition::Second);
    for &address in &addresses {
        assert!(write(&mut image, size, is_timers(address), address, rng.byte(), u16::MAX).finished);
    }
    let mut images = Vec::new();
    for _ in 1..pages {
        fill_active(&mut image, chip, chip.slots(), &addresses, &mut rng);
        images.push(image.clone());
        let (timer, address) = (is_timers(addresses[0]), addresses[0]);
        let value = read(&image, size, timer, address).value.wrapping_add(1);
        assert!(write(&mut image, size, timer, address, value, u16::MAX).finished);
    }
    images
}

#[test]
fn each_call_uses_at_most_4_kb() {
    let mut stack = painted_stack();
    for (chip, pages, count) in [(SMALLER, 2, 300), (SMALLER, 32, 40), (LARGER, 2, 200), (LARGER, 32, 20)] {
        let size = chip.page_size();
        let mut most = [0; 7];
        let mut numbers = [[false; NUMBERS]; 7];
        for (index, image) in images_of(chip, pages, count).into_iter().enumerate() {
            let settings = eight_settings(&image, chip, index % 2 == 1);
            let group = group_bytes(&settings);
            for (call, (function, rest)) in calls(chip, settings[0], &group).into_iter().enumerate() {
                let (number, depth) = used(&mut stack, function, &image, rest);
                assert!(depth <= MOST_STACK, "{} at {pages} pages of {size} used {depth} bytes of stack", NAMES[call]);
                most[call] = depth.max(most[call]);
                numbers[call][usize::from(number)] = true;
            }
        }
        assert!(numbers.iter().all(|numbers| numbers[usize::from(OK)]), "a call was never accepted");
        assert!(numbers[3][usize::from(DAMAGED)] && numbers[3][usize::from(UNCLEAN)]);
        assert!(chip == LARGER || numbers[3][usize::from(GROUP)]);
        println!("bytes of stack at {pages} pages of {size}: {:?}", NAMES.iter().zip(most).collect::<Vec<_>>());
    }
}

/// Moves at 32 pages are among the images: the longest calls there are, the group write's as long as the write's.
#[test]
fn the_longest_writes_are_measured() {
    for edition in [Edition::Second, Edition::Third] {
        let chip = Chip::of(edition);
        let image = full_stores(32, edition).pop().unwrap();
        for timer in [false, true] {
            let settings = eight_settings(&image, chip, timer);
            for change in [Change::Single(settings[0]), Change::Group(settings)] {
                assert_eq!(change_steps(&image, chip, timer, &change).unwrap().len(), 481);
            }
        }
    }
}

/// An allowance that came across wrongly would make a write of another length.
#[test]
fn the_seventh_argument_comes_across() {
    let mut stack = painted_stack();
    for edition in [Edition::Second, Edition::Third] {
        let chip = Chip::of(edition);
        let image = full_stores(2, edition).pop().unwrap();
        let settings = eight_settings(&image, chip, true);
        let group = group_bytes(&settings);
        for index in [2, 3] {
            for allowance in [0, 1, 7, 390] {
                let (function, rest) = calls(chip, settings[0], &group)[index];
                let mut lent = image.clone();
                let (answer, _) = call_on(&mut stack, PAINTS[0], function, &mut lent, five(rest.words, allowance));
                // Number OK, not finished, and as many steps as were allowed.
                assert_eq!(answer & 0xFFFF_FFFF, allowance << 16, "{} of {allowance} steps", NAMES[index]);
                let change = [Change::Single(settings[0]), Change::Group(settings.clone())][index - 2].clone();
                let mut after = image.clone();
                let steps = change_steps(&image, chip, true, &change).unwrap();
                steps[..allowance as usize].iter().for_each(|&step| do_step(&mut after, step));
                assert!(lent == after, "{} of {allowance} steps", NAMES[index]);
            }
        }
    }
}

unsafe extern "C" fn deep() {
    let mut bytes = [0u8; 2 * MOST_STACK];
    std::hint::black_box(&mut bytes);
}

#[test]
fn a_deep_call_is_felt() {
    let (_, depth) = used(&mut painted_stack(), deep, &[], up_to_four([0; 4]));
    assert!(depth > 2 * MOST_STACK, "{depth}");
}
