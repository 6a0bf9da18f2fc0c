//! The second implementation behind the same C exports as the library: `include/istrovell.h` serves both.

use std::slice::{from_raw_parts, from_raw_parts_mut};

use outside::Store;

#[repr(C)]
pub struct Stepped {
    number: u8,
    finished: bool,
    steps: u16,
}

#[repr(C)]
pub struct Reading {
    number: u8,
    value: u8,
}

#[repr(C)]
pub struct Pairing {
    number: u8,
    paired: bool,
    digits: [u8; 4],
}

fn stepped(answer: outside::Stepped) -> Stepped {
    Stepped { number: answer.number, finished: answer.finished, steps: answer.steps }
}

fn reading(answer: outside::Reading) -> Reading {
    Reading { number: answer.number, value: answer.value }
}

/// # Safety
/// Here and below: `image` points to `length` bytes that live through the call and are lent to it alone.
#[no_mangle]
pub unsafe extern "C" fn istrovell_format(image: *mut u8, length: usize, page_size: u16, second_edition: bool) -> u8 {
    outside::Second.format(from_raw_parts_mut(image, length), page_size, second_edition)
}

/// # Safety
/// As `istrovell_format`.
#[no_mangle]
pub unsafe extern "C" fn istrovell_recover(image: *mut u8, length: usize, page_size: u16, allowance: u16) -> Stepped {
    stepped(outside::Second.recover(from_raw_parts_mut(image, length), page_size, allowance))
}

/// # Safety
/// As `istrovell_format`.
#[no_mangle]
pub unsafe extern "C" fn istrovell_write(
    image: *mut u8,
    length: usize,
    page_size: u16,
    timer: bool,
    address: u16,
    value: u8,
    allowance: u16,
) -> Stepped {
    stepped(outside::Second.write(from_raw_parts_mut(image, length), page_size, timer, address, value, allowance))
}

/// # Safety
/// As `istrovell_format`; and `group` points to `group_length` bytes, outside the image, that live through the call.
#[no_mangle]
pub unsafe extern "C" fn istrovell_write_group(
    image: *mut u8,
    length: usize,
    page_size: u16,
    timer: bool,
    group: *const u8,
    group_length: usize,
    allowance: u16,
) -> Stepped {
    let group = from_raw_parts(group, group_length);
    stepped(outside::Second.write_group(from_raw_parts_mut(image, length), page_size, timer, group, allowance))
}

/// # Safety
/// As `istrovell_format`.
#[no_mangle]
pub unsafe extern "C" fn istrovell_read(
    image: *const u8,
    length: usize,
    page_size: u16,
    timer: bool,
    address: u16,
) -> Reading {
    reading(outside::Second.read(from_raw_parts(image, length), page_size, timer, address))
}

/// # Safety
/// As `istrovell_format`.
#[no_mangle]
pub unsafe extern "C" fn istrovell_blank_read(
    image: *const u8,
    length: usize,
    page_size: u16,
    timer: bool,
    address: u16,
) -> Reading {
    reading(outside::Second.blank_read(from_raw_parts(image, length), page_size, timer, address))
}

/// # Safety
/// As `istrovell_format`.
#[no_mangle]
pub unsafe extern "C" fn istrovell_lookup(image: *const u8, length: usize, page_size: u16) -> Pairing {
    let answer = outside::Second.lookup(from_raw_parts(image, length), page_size);
    Pairing { number: answer.number, paired: answer.paired, digits: answer.digits }
}
