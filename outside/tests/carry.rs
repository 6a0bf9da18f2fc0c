//! What `include/istrovell.h` tells a flash driver to do, "carrying the steps to flash": the steps that it finds by
//! comparing flash and copy, allowance by allowance, are the steps of the plan in their order, on either chip.
//!
//! A broken store that this catches: a write, or a group write, that does all its steps at allowance 1 (`Eager`).

use outside::broken::Eager;
use outside::images::{image, some_change};
use outside::page::*;
use outside::rng::{seeds, Rng};
use outside::rules::*;
use outside::*;

/// The store under test.
#[cfg(feature = "library")]
const SUBJECT: library::Library = library::Library;
#[cfg(not(feature = "library"))]
const SUBJECT: Second = Second;

/// The header's `carry`: the step that takes the flash to the copy, or none if they are the same.
fn step_between(chip: Chip, flash: &[u8], work: &[u8]) -> Option<Step> {
    let offset = (0..flash.len()).step_by(2).find(|&at| flash[at..at + 2] != work[at..at + 2])?;
    let value = u16::from_le_bytes([work[offset], work[offset + 1]]);
    if value == 65_535 {
        return Some(Step::Erase { page: offset / chip.page_bytes, page_bytes: chip.page_bytes });
    }
    Some(Step::Program { offset, value })
}

/// Carries a call to the flash as the header's loop does, beside the plan.
fn carry(chip: Chip, image: &[u8], plan: &[Step], call: impl Fn(&mut [u8], u16) -> Stepped) -> Result<(), String> {
    let mut flash = image.to_vec();
    for allowance in 1.. {
        let mut work = image.to_vec();
        let answer = call(&mut work, allowance);
        let planned = plan.get(usize::from(allowance) - 1);
        match (step_between(chip, &flash, &work), planned) {
            (None, None) if plan.is_empty() => {}
            (None, Some(&Step::Program { value: 65_535, .. })) => {}
            (None, Some(step @ Step::Erase { .. })) if flash[step.bytes()].iter().all(|&byte| byte == 255) => {}
            (Some(found), Some(&step)) if found == step => do_step(&mut flash, step),
            (found, planned) => return Err(format!("allowance {allowance}: found {found:?}, planned {planned:?}")),
        }
        if flash != work {
            return Err(format!("allowance {allowance}: more than one step"));
        }
        if answer.finished {
            return if usize::from(allowance) >= plan.len() { Ok(()) } else { Err("finished early".into()) };
        }
    }
    unreachable!("every call finishes")
}

#[derive(Default, Debug)]
struct Tally {
    recoveries: u64,
    /// By the handset and by the timer.
    writes: [u64; 2],
    group_writes: [u64; 2],
    moves: u64,
    /// Steps that change nothing: the value 65,535 programmed, or a page erased that reads 255 throughout.
    idle: u64,
}

fn carry_image(store: &dyn Store, seed: u64, tallies: &mut [Tally; 2]) -> Result<(), String> {
    let (chip, image) = image(seed);
    let tally = &mut tallies[usize::from(chip == LARGER)];
    let size = chip.page_size();
    let Ok(plan) = recovery_steps(&image, chip) else {
        return Ok(());
    };
    carry(chip, &image, &plan, |work, allowance| store.recover(work, size, allowance))?;
    tally.recoveries += 1;
    let mut recovered = image;
    recover(&mut recovered, size, u16::MAX);
    let pool: Vec<u16> = held(&recovered, chip).into_keys().chain([7, 40_000]).collect();
    let change = some_change(&recovered, chip, &pool, &mut Rng::new(seed));
    let timer = change.timer();
    if let Ok(plan) = change_steps(&recovered, chip, timer, &change) {
        carry(chip, &recovered, &plan, |work, allowance| store.change(work, size, timer, &change, allowance))?;
        let which = usize::from(timer);
        match change {
            Change::Single(_) => tally.writes[which] += 1,
            Change::Group(_) => tally.group_writes[which] += 1,
        }
        tally.moves += u64::from(plan.iter().any(|step| matches!(step, Step::Erase { .. })));
        let idle = |step: &&Step| matches!(step, Step::Program { value: 65_535, .. });
        tally.idle += plan.iter().filter(idle).count() as u64;
    }
    Ok(())
}

#[test]
fn the_header_finds_each_step() {
    let mut tallies: [Tally; 2] = Default::default();
    let seeds = seeds(1_500);
    for &seed in &seeds {
        carry_image(&SUBJECT, seed, &mut tallies).unwrap_or_else(|text| panic!("ISTROVELL_SEED={seed}: {text}"));
    }
    for (chip, tally) in CHIPS.iter().zip(&tallies) {
        println!("carried at {}: {tally:?}", chip.page_size());
        let by_both = |counts: [u64; 2]| counts.iter().all(|&count| count > 0);
        let written = by_both(tally.writes) && by_both(tally.group_writes);
        let met = tally.recoveries > 0 && written && tally.moves > 0 && tally.idle > 0;
        assert!(met || seeds.len() < 1_500);
    }
}

#[test]
fn an_eager_store_is_caught() {
    let caught = (0..100).find_map(|seed| carry_image(&Eager, seed, &mut Default::default()).err());
    println!("Eager: {}", caught.expect("a broken store passed"));
}
