//! An image, and a group, lent between unreadable pages: a store that touches a byte before or after it dies at once.

use std::cell::RefCell;
use std::ffi::{c_int, c_void};
use std::sync::atomic::{AtomicU64, Ordering};

use crate::{Pairing, Reading, Stepped, Store};

extern "C" {
    fn mmap(
        address: *mut c_void,
        length: usize,
        protection: c_int,
        flags: c_int,
        file: c_int,
        offset: i64,
    ) -> *mut c_void;
    fn mprotect(address: *mut c_void, length: usize, protection: c_int) -> c_int;
    fn munmap(address: *mut c_void, length: usize) -> c_int;
    fn getpagesize() -> c_int;
    fn signal(number: c_int, handler: usize) -> usize;
    fn write(file: c_int, bytes: *const c_void, length: usize) -> isize;
    fn abort() -> !;
}

// Linux.
const NO_ACCESS: c_int = 0;
const READ_AND_WRITE: c_int = 1 | 2;
const PRIVATE_ANONYMOUS: c_int = 2 | 0x20;
const SEGMENTATION_FAULT: c_int = 11;
const BUS_ERROR: c_int = 7;

/// No image of the tests is longer: 32 pages of the larger chip have half of it.
pub const MOST_BYTES: usize = 128 * 1024;
/// What stands beside the image on the side without the guard, and how far.
const FENCE: u8 = 0xA7;
const FENCE_BYTES: usize = 64;

/// Which guard the image, and the group, touches.
#[derive(Clone, Copy, Debug, PartialEq, Eq)]
pub enum Place {
    AfterStartGuard,
    BeforeEndGuard,
}

/// Readable bytes between two unreadable memory pages.
struct Region {
    whole: *mut u8,
    guard: usize,
    inner: usize,
}

impl Region {
    fn new() -> Region {
        // SAFETY: a fresh private mapping, of which only the inner part is made readable.
        unsafe {
            let guard = getpagesize() as usize;
            let inner = (MOST_BYTES + FENCE_BYTES).div_ceil(guard) * guard;
            let whole = mmap(std::ptr::null_mut(), inner + 2 * guard, NO_ACCESS, PRIVATE_ANONYMOUS, -1, 0) as *mut u8;
            assert!(whole as isize != -1, "mmap failed");
            assert!(mprotect(whole.add(guard).cast(), inner, READ_AND_WRITE) == 0, "mprotect failed");
            Region { whole, guard, inner }
        }
    }

    fn bytes(&mut self) -> &mut [u8] {
        // SAFETY: the inner part is mapped, readable and writable as long as self lives.
        unsafe { std::slice::from_raw_parts_mut(self.whole.add(self.guard), self.inner) }
    }

    /// The first or the last `length` bytes, and the fence beside them.
    fn lend(&mut self, length: usize, place: Place) -> (&mut [u8], &mut [u8]) {
        assert!(length <= MOST_BYTES);
        let inner = self.inner;
        let bytes = self.bytes();
        match place {
            Place::AfterStartGuard => {
                let (lent, rest) = bytes.split_at_mut(length);
                (lent, &mut rest[..FENCE_BYTES])
            }
            Place::BeforeEndGuard => {
                let (rest, lent) = bytes.split_at_mut(inner - length);
                let fence = rest.len() - FENCE_BYTES;
                (lent, &mut rest[fence..])
            }
        }
    }

    /// Lends the call a copy of the bytes, between the guards, and takes back what it made of them.
    fn lend_copy<A>(&mut self, bytes: &mut [u8], place: Place, call: impl FnOnce(&mut [u8]) -> A) -> A {
        let (lent, fence) = self.lend(bytes.len(), place);
        lent.copy_from_slice(bytes);
        fence.fill(FENCE);
        let answer = call(lent);
        assert!(fence.iter().all(|&byte| byte == FENCE), "a byte beside the lent ones was changed");
        bytes.copy_from_slice(lent);
        answer
    }

    /// For bytes that are only to be read: not even a library that casts the const away may change one.
    fn show_copy<A>(&mut self, bytes: &[u8], place: Place, call: impl FnOnce(&[u8]) -> A) -> A {
        let mut copy = bytes.to_vec();
        let answer = self.lend_copy(&mut copy, place, |lent| call(lent));
        assert!(copy == bytes, "bytes that are only to be read were changed");
        answer
    }
}

impl Drop for Region {
    fn drop(&mut self) {
        // SAFETY: the mapping made in new, which nothing borrows any more.
        unsafe { munmap(self.whole.cast(), self.inner + 2 * self.guard) };
    }
}

/// A store whose every call gets the image, and the group, between guards, at the place named.
pub struct Guarded<S> {
    store: S,
    place: Place,
    for_images: RefCell<Region>,
    for_groups: RefCell<Region>,
}

impl<S: Store> Guarded<S> {
    pub fn new(store: S, place: Place) -> Guarded<S> {
        report_the_seed_on_a_fault();
        let [for_images, for_groups] = [Region::new(), Region::new()].map(RefCell::new);
        Guarded { store, place, for_images, for_groups }
    }

    fn call<A>(&self, image: &mut [u8], call: impl FnOnce(&S, &mut [u8]) -> A) -> A {
        self.for_images.borrow_mut().lend_copy(image, self.place, |lent| call(&self.store, lent))
    }

    fn look<A>(&self, image: &[u8], call: impl FnOnce(&S, &[u8]) -> A) -> A {
        self.for_images.borrow_mut().show_copy(image, self.place, |lent| call(&self.store, lent))
    }
}

impl<S: Store> Store for Guarded<S> {
    fn format(&self, image: &mut [u8], page_size: u16, second_edition: bool) -> u8 {
        self.call(image, |store, lent| store.format(lent, page_size, second_edition))
    }
    fn recover(&self, image: &mut [u8], page_size: u16, allowance: u16) -> Stepped {
        self.call(image, |store, lent| store.recover(lent, page_size, allowance))
    }
    fn write(&self, image: &mut [u8], page_size: u16, timer: bool, address: u16, value: u8, allowance: u16) -> Stepped {
        self.call(image, |store, lent| store.write(lent, page_size, timer, address, value, allowance))
    }
    fn write_group(&self, image: &mut [u8], page_size: u16, timer: bool, group: &[u8], allowance: u16) -> Stepped {
        self.for_groups.borrow_mut().show_copy(group, self.place, |group| {
            self.call(image, |store, lent| store.write_group(lent, page_size, timer, group, allowance))
        })
    }
    fn read(&self, image: &[u8], page_size: u16, timer: bool, address: u16) -> Reading {
        self.look(image, |store, lent| store.read(lent, page_size, timer, address))
    }
    fn blank_read(&self, image: &[u8], page_size: u16, timer: bool, address: u16) -> Reading {
        self.look(image, |store, lent| store.blank_read(lent, page_size, timer, address))
    }
    fn lookup(&self, image: &[u8], page_size: u16) -> Pairing {
        self.look(image, |store, lent| store.lookup(lent, page_size))
    }
}

static SEED: AtomicU64 = AtomicU64::new(u64::MAX);

/// Notes which seed runs, because a fault leaves no time to return it.
pub fn note_seed(seed: u64) {
    SEED.store(seed, Ordering::Relaxed);
}

fn report_the_seed_on_a_fault() {
    // SAFETY: the handler only loads an atomic, writes to the standard error and ends the process.
    unsafe {
        signal(SEGMENTATION_FAULT, on_fault as *const () as usize);
        signal(BUS_ERROR, on_fault as *const () as usize);
    }
}

extern "C" fn on_fault(_signal: c_int) {
    let mut text = *b"\nmemory outside the lent bytes was touched, seed                      \n";
    let mut seed = SEED.load(Ordering::Relaxed);
    let mut end = text.len() - 1;
    loop {
        end -= 1;
        text[end] = b'0' + (seed % 10) as u8;
        seed /= 10;
        if seed == 0 {
            break;
        }
    }
    // SAFETY: a plain write of our own bytes, then the end.
    unsafe {
        write(2, text.as_ptr().cast(), text.len());
        abort()
    }
}
