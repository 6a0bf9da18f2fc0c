//! Wears a store out by the steps of the second implementation, for `bench/wear`. All changes are single writes of new
//! values, of either owner in turn.
//!
//! `survive PAGES PAGE_SIZE HELD RATED` changes one of HELD settings after the other until a page is erased more than RATED
//! times, and prints how many changes none was, and the greatest wear after these and after the next.
//! `trace PAGES PAGE_SIZE HELD WRITES` prints how many writes there were and the wear of each page, at first, whenever a
//! wear is another, and at last. With SEED WRITES MOVES behind it, power fails in one of so many writes and of so many moves;
//! then a recovery follows, and the write again if it left the old value.

use outside::failing::fail_somehow;
use outside::page::*;
use outside::rng::Rng;
use outside::rules::*;
use outside::steps::*;
use outside::word::Edition;
use outside::{format, recover};

/// Of so many writes power fails in one, and of so many moves.
struct Failures {
    writes: usize,
    moves: usize,
    rng: Rng,
}

struct Worn {
    chip: Chip,
    edition: Edition,
    image: Vec<u8>,
    held: u64,
}

impl Worn {
    fn new(pages: u64, page_size: u64, held: u64) -> Worn {
        let chip = chip_named(page_size as u16).expect("a page has 1,024 or 2,048 bytes");
        let mut image = vec![255; pages as usize * chip.page_bytes];
        assert_eq!(format(&mut image, chip.page_size(), false), OK);
        Worn { chip, edition: chip.told(false), image, held }
    }

    /// The steps of change number `number`, from 0 on. Each setting has 0 first, and one more in each round.
    fn steps(&self, number: u64) -> Vec<Step> {
        let (round, place) = (number / self.held, (number % self.held) as u16);
        let address = place / 2 + if place % 2 == 1 { FIRST_OF_TIMER } else { 0 };
        accepted_steps(&self.image, self.chip, &Change::Single((address, round as u8)))
    }

    fn wears(&self) -> Vec<u16> {
        self.chip.pages(&self.image).map(|page| wear(page, self.edition).expect("a recovery has finished")).collect()
    }

    fn greatest(&self) -> u16 {
        greatest_wear(&self.image, self.chip, self.edition)
    }
}

fn survive(mut worn: Worn, rated: u64) {
    for changes in 0.. {
        let before = worn.greatest();
        for step in worn.steps(changes) {
            do_step(&mut worn.image, step);
        }
        if u64::from(worn.greatest()) > rated {
            return println!("{changes} {before} {}", worn.greatest());
        }
    }
}

fn trace(mut worn: Worn, writes: u64, mut failures: Option<Failures>) {
    let (mut number, mut last) = (0, Vec::new());
    for done in 0.. {
        if worn.wears() != last || done == writes {
            last = worn.wears();
            println!("{done} {}", last.iter().map(u16::to_string).collect::<Vec<String>>().join(" "));
        }
        if done == writes {
            return;
        }
        let steps = worn.steps(number);
        let failing = failures.as_mut().and_then(|failures| failures.next(&steps));
        steps[..failing.unwrap_or(steps.len())].iter().for_each(|&step| do_step(&mut worn.image, step));
        if let (Some(at), Some(failures)) = (failing, &mut failures) {
            fail_somehow(&mut worn.image, steps[at], &mut failures.rng);
            assert!(recover(&mut worn.image, worn.chip.page_size(), u16::MAX).finished);
        }
        // A change that is made has no steps any more.
        number += u64::from(worn.steps(number).is_empty());
    }
}

impl Failures {
    /// The step in which power fails, if it does: of a move often one of those that renew pages.
    fn next(&mut self, steps: &[Step]) -> Option<usize> {
        let first_erase = steps.iter().position(|step| matches!(step, Step::Erase { .. }));
        if !self.rng.one_in(if first_erase.is_some() { self.moves } else { self.writes }) {
            return None;
        }
        let first = first_erase.filter(|_| self.rng.one_in(2)).unwrap_or(0);
        Some(first + self.rng.below(steps.len() - first))
    }
}

fn main() {
    let words: Vec<String> = std::env::args().skip(1).collect();
    let numbers: Vec<u64> = words.iter().skip(1).map(|word| word.parse().expect("a number")).collect();
    match (words.first().map(String::as_str), &numbers[..]) {
        (Some("survive"), &[pages, page_size, held, rated]) => survive(Worn::new(pages, page_size, held), rated),
        (Some("trace"), &[pages, page_size, held, writes]) => trace(Worn::new(pages, page_size, held), writes, None),
        (Some("trace"), &[pages, page_size, held, writes, seed, of_writes, of_moves]) => {
            let failures = Failures { writes: of_writes as usize, moves: of_moves as usize, rng: Rng::new(seed) };
            trace(Worn::new(pages, page_size, held), writes, Some(failures));
        }
        _ => panic!("survive PAGES PAGE_SIZE HELD RATED, or trace PAGES PAGE_SIZE HELD WRITES [SEED WRITES MOVES]"),
    }
}
