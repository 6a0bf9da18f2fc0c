//! The library under test, through its C exports.

use crate::{Pairing, Reading, Stepped, Store};

#[repr(C)]
struct CReading {
    number: u8,
    value: u8,
}

#[repr(C)]
struct CStepped {
    number: u8,
    finished: u8,
    steps: u16,
}

#[repr(C)]
struct CPairing {
    number: u8,
    paired: u8,
    digit0: u8,
    digit1: u8,
    digit2: u8,
    digit3: u8,
}

extern "C" {
    fn istrovell_format(image: *mut u8, length: usize, page_size: u16, second_edition: bool) -> u8;
    fn istrovell_recover(image: *mut u8, length: usize, page_size: u16, allowance: u16) -> CStepped;
    fn istrovell_write(
        image: *mut u8,
        length: usize,
        page_size: u16,
        timer: bool,
        address: u16,
        value: u8,
        allowance: u16,
    ) -> CStepped;
    fn istrovell_write_group(
        image: *mut u8,
        length: usize,
        page_size: u16,
        timer: bool,
        group: *const u8,
        group_length: usize,
        allowance: u16,
    ) -> CStepped;
    fn istrovell_read(image: *const u8, length: usize, page_size: u16, timer: bool, address: u16) -> CReading;
    fn istrovell_blank_read(image: *const u8, length: usize, page_size: u16, timer: bool, address: u16) -> CReading;
    fn istrovell_lookup(image: *const u8, length: usize, page_size: u16) -> CPairing;
}

#[derive(Clone, Copy, Debug, Default)]
pub struct Library;

// SAFETY of every call below: pointer and length are those of a slice that lives through the call, and of two slices neither
// lies in the other.
impl Store for Library {
    fn format(&self, image: &mut [u8], page_size: u16, second_edition: bool) -> u8 {
        unsafe { istrovell_format(image.as_mut_ptr(), image.len(), page_size, second_edition) }
    }
    fn recover(&self, image: &mut [u8], page_size: u16, allowance: u16) -> Stepped {
        stepped(unsafe { istrovell_recover(image.as_mut_ptr(), image.len(), page_size, allowance) })
    }
    fn write(&self, image: &mut [u8], page_size: u16, timer: bool, address: u16, value: u8, allowance: u16) -> Stepped {
        stepped(unsafe {
            istrovell_write(image.as_mut_ptr(), image.len(), page_size, timer, address, value, allowance)
        })
    }
    fn write_group(&self, image: &mut [u8], page_size: u16, timer: bool, group: &[u8], allowance: u16) -> Stepped {
        let (bytes, length) = (group.as_ptr(), group.len());
        stepped(unsafe {
            istrovell_write_group(image.as_mut_ptr(), image.len(), page_size, timer, bytes, length, allowance)
        })
    }
    fn read(&self, image: &[u8], page_size: u16, timer: bool, address: u16) -> Reading {
        reading(unsafe { istrovell_read(image.as_ptr(), image.len(), page_size, timer, address) })
    }
    fn blank_read(&self, image: &[u8], page_size: u16, timer: bool, address: u16) -> Reading {
        reading(unsafe { istrovell_blank_read(image.as_ptr(), image.len(), page_size, timer, address) })
    }
    fn lookup(&self, image: &[u8], page_size: u16) -> Pairing {
        pairing(unsafe { istrovell_lookup(image.as_ptr(), image.len(), page_size) })
    }
}

fn reading(answer: CReading) -> Reading {
    Reading { number: answer.number, value: answer.value }
}

fn stepped(answer: CStepped) -> Stepped {
    Stepped { number: answer.number, finished: truth(answer.finished), steps: answer.steps }
}

fn pairing(answer: CPairing) -> Pairing {
    let digits = [answer.digit0, answer.digit1, answer.digit2, answer.digit3];
    Pairing { number: answer.number, paired: truth(answer.paired), digits }
}

/// A truth value crosses as 0 or 1; anything else would be a third answer.
fn truth(byte: u8) -> bool {
    assert!(byte <= 1, "a truth value came as {byte}");
    byte == 1
}
