//! Stores that wear their pages otherwise than is promised, each in one thing.

use super::{is_move, with_wears, WearRule};
use crate::page::*;
use crate::rules::*;
use crate::steps::*;
use crate::word::*;

#[derive(Clone, Copy, Debug, PartialEq, Eq)]
pub enum WrongWear {
    /// Nothing is wrong. It shows that no other is caught by how it is made.
    Nothing,

    // Which page is taken, and when.
    /// Of the cleared pages that of greatest wear is taken.
    GreatestTaken,
    /// Of the cleared pages the first is taken, whatever its wear.
    FirstTaken,
    /// Settings move while two pages are cleared.
    MovesEarly,
    /// A write of a held value takes a slot.
    HeldTakesASlot,

    // What a move wears.
    /// A page is erased before settings move to it, and its wear is one more.
    TargetErased,
    /// A page that settings were moved to counts that as an erase, when it is renewed.
    TargetCounted,
    /// A page that is renewed keeps its wear.
    WearKept,
    /// The last page that a move is to renew is left to the recovery.
    LastLeft,
}

impl Plan for WrongWear {
    fn recovery_steps(&self, image: &[u8], chip: Chip) -> Result<Vec<Step>, u8> {
        recovery_steps(image, chip)
    }

    fn change_steps(&self, image: &[u8], chip: Chip, timer: bool, change: &Change) -> Result<Vec<Step>, u8> {
        test_change(image, chip, timer, change)?;
        if is_held(image, chip, change) && *self != WrongWear::HeldTakesASlot {
            return Ok(Vec::new());
        }
        let moved = || [copies(image, chip, change), change.records()].concat();
        let steps = placing_steps(&self.cleared(image, chip), chip, &change.words(), moved);
        Ok(if is_move(&steps) { self.worn(image, chip, steps) } else { steps })
    }
}

impl WrongWear {
    /// The image, with its cleared pages as this store takes them.
    fn cleared(self, image: &[u8], chip: Chip) -> Vec<u8> {
        let (mut seen, edition) = (image.to_vec(), edition(image, chip));
        let mut cleared = cleared_pages(image, chip);
        for &(page, wear) in &cleared {
            let wear = match self {
                WrongWear::GreatestTaken => u16::MAX - wear,
                WrongWear::FirstTaken => 1,
                _ => wear,
            };
            seen[chip.page_range(page)][..OPENING_OFFSET].copy_from_slice(&wear_word(wear, edition));
        }
        if self == WrongWear::MovesEarly && cleared.len() == 2 {
            cleared.sort_by_key(|&(page, wear)| (wear, page));
            // With a byte that isn't 255 the page of greater wear isn't cleared, and the other is the only one.
            seen[chip.page_range(cleared[1].0).end - 1] = 0;
        }
        seen
    }

    /// The steps of a move, with the erases and the wears of this store.
    fn worn(self, image: &[u8], chip: Chip, mut steps: Vec<Step>) -> Vec<Step> {
        let rule: WearRule = match self {
            WrongWear::WearKept => |_, now, chip, edition, page| wear(page_at(now, chip, page), edition).unwrap_or(1),
            WrongWear::TargetCounted => |_, now, chip, edition, page| {
                let moved_to = matches!(state(page_at(now, chip, page), edition), State::Open { kind: RECEIVING, .. });
                next_wear(now, chip, edition, page).saturating_add(u16::from(moved_to))
            },
            _ => |_, now, chip, edition, page| next_wear(now, chip, edition, page),
        };
        match self {
            WrongWear::LastLeft => steps.truncate(steps.len() - 3),
            WrongWear::TargetErased => {
                let (page, wear) = cleared_pages(image, chip)[0];
                let renewed = renew_steps(chip, page, wear.saturating_add(1), edition(image, chip));
                steps = [&renewed[..], &steps].concat();
            }
            _ => {}
        }
        with_wears(image, chip, steps, rule)
    }
}
