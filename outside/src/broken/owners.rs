//! Stores that are wrong in the two owners alone, each in one thing.

use std::collections::BTreeMap;

use crate::page::*;
use crate::rules::*;
use crate::steps::*;
use crate::word::*;

#[derive(Clone, Copy, Debug, PartialEq, Eq)]
pub enum WrongOwner {
    /// Nothing is wrong. It shows that no other is caught by how it is made.
    Nothing,

    // Whose an address is.
    /// The handset has 32,768 too.
    HandsetHas32768,
    /// The timer has 32,767 too.
    TimerHas32767,
    /// 32,768 is the handset's, and not the timer's.
    BorderOneOn,
    /// The handset is taken for the timer, and the timer for the handset.
    Swapped,

    // OWNER.
    /// OWNER is tested before ADDRESS, in reads too: as if 65,535 were the timer's.
    OwnerBeforeAddress,
    /// OWNER is tested before GROUP.
    OwnerBeforeGroup,
    /// OWNER is tested before UNCLEAN.
    OwnerBeforeUnclean,
    /// OWNER is tested where a value isn't held: a write of what the other has already is OK.
    HeldBeforeOwner,
    /// OWNER is tested after NO ROOM.
    NoRoomBeforeOwner,
    /// OWNER is tested after ORDER END.
    OrderEndBeforeOwner,
    /// Only the first address of a group is tested for OWNER.
    FirstAddressTested,
    /// Only the last address of a group is tested for OWNER.
    LastAddressTested,
    /// A group is accepted if one of its addresses is the owner's.
    OneOwnSuffices,
    /// Writes aren't tested for OWNER.
    WritesIgnoreOwner,

    // NO ROOM, and the limit of an owner.
    /// The limit is 127.
    LimitAt127,
    /// The limit is 129.
    LimitAt129,
    /// NO ROOM is by the total alone.
    TotalAlone,
    /// NO ROOM is by the owner's limit alone.
    LimitAlone,
    /// The timer has no limit.
    HandsetLimitAlone,
    /// The handset has no limit.
    TimerLimitAlone,
    /// The limit counts the addresses of both.
    CountsBoth,
    /// The limit counts the addresses of the other.
    CountsOther,
    /// The limit counts the held addresses of a group as new ones, if it has a new one.
    HeldCountAsNew,
    /// The limit counts the new addresses of a group as one.
    NewCountAsOne,
    /// The limit is for an owner that is at it, and not for one that is beyond.
    BeyondIsFree,
    /// An owner that is beyond its limit can't change what it holds.
    BeyondIsFixed,
    /// The limit is tested where all values are held too.
    LimitBeforeHeld,
    /// The limit is tested after ORDER END.
    OrderEndBeforeLimit,
    /// A store that holds more than 128 of one owner is DAMAGED.
    BeyondIsDamaged,

    // Reads.
    /// Reads and blank reads aren't tested for OWNER.
    ReadsIgnoreOwner,
    /// Blank reads aren't tested for OWNER.
    BlankReadsIgnoreOwner,
    /// A blank read of an address of the other answers 0.
    BlankOfOtherIs0,
    /// Reads are tested for NOT HELD before OWNER.
    NotHeldBeforeOwner,
    /// An address that isn't held answers as the one 32,768 further on or back, the other's: it is told by 15 bits.
    TwinsAnswer,

    // Steps.
    /// A move copies the owner's addresses alone.
    MovesOwnAlone,
    /// A move copies the owner's addresses first.
    MovesOwnFirst,
}

pub const WRONG_OWNERS: [WrongOwner; 36] = [
    WrongOwner::HandsetHas32768,
    WrongOwner::TimerHas32767,
    WrongOwner::BorderOneOn,
    WrongOwner::Swapped,
    WrongOwner::OwnerBeforeAddress,
    WrongOwner::OwnerBeforeGroup,
    WrongOwner::OwnerBeforeUnclean,
    WrongOwner::HeldBeforeOwner,
    WrongOwner::NoRoomBeforeOwner,
    WrongOwner::OrderEndBeforeOwner,
    WrongOwner::FirstAddressTested,
    WrongOwner::LastAddressTested,
    WrongOwner::OneOwnSuffices,
    WrongOwner::WritesIgnoreOwner,
    WrongOwner::LimitAt127,
    WrongOwner::LimitAt129,
    WrongOwner::TotalAlone,
    WrongOwner::LimitAlone,
    WrongOwner::HandsetLimitAlone,
    WrongOwner::TimerLimitAlone,
    WrongOwner::CountsBoth,
    WrongOwner::CountsOther,
    WrongOwner::HeldCountAsNew,
    WrongOwner::NewCountAsOne,
    WrongOwner::BeyondIsFree,
    WrongOwner::BeyondIsFixed,
    WrongOwner::LimitBeforeHeld,
    WrongOwner::OrderEndBeforeLimit,
    WrongOwner::BeyondIsDamaged,
    WrongOwner::ReadsIgnoreOwner,
    WrongOwner::BlankReadsIgnoreOwner,
    WrongOwner::BlankOfOtherIs0,
    WrongOwner::NotHeldBeforeOwner,
    WrongOwner::TwinsAnswer,
    WrongOwner::MovesOwnAlone,
    WrongOwner::MovesOwnFirst,
];

impl Plan for WrongOwner {
    fn recovery_steps(&self, image: &[u8], chip: Chip) -> Result<Vec<Step>, u8> {
        self.test_store(image, chip)?;
        recovery_steps(image, chip)
    }

    fn change_steps(&self, image: &[u8], chip: Chip, timer: bool, change: &Change) -> Result<Vec<Step>, u8> {
        self.test(image, chip, timer, change)?;
        if is_held(image, chip, change) {
            return Ok(Vec::new());
        }
        Ok(placing_steps(image, chip, &change.words(), || self.moved_words(image, chip, timer, change)))
    }

    fn test_store(&self, seen: &[u8], chip: Chip) -> Result<(), u8> {
        test_store(seen, chip)?;
        let beyond = |timer| held_by(&held(seen, chip), timer) > MOST_HELD_BY_OWNER;
        if *self == WrongOwner::BeyondIsDamaged && (beyond(false) || beyond(true)) {
            return Err(DAMAGED);
        }
        Ok(())
    }

    fn value(&self, held: &BTreeMap<u16, u8>, timer: bool, address: u16) -> Result<Option<u8>, u8> {
        let (found, owned) = (held.get(&address).copied(), self.owns(timer, address));
        if *self == WrongOwner::OwnerBeforeAddress && !owned {
            return Err(OWNER);
        }
        test_address(address)?;
        match self {
            WrongOwner::ReadsIgnoreOwner => Ok(found),
            WrongOwner::NotHeldBeforeOwner if found.is_none() => Ok(None),
            _ if !owned => Err(OWNER),
            WrongOwner::TwinsAnswer => Ok(found.or_else(|| held.get(&(address ^ FIRST_OF_TIMER)).copied())),
            _ => Ok(found),
        }
    }

    fn blank_value(&self, held: &BTreeMap<u16, u8>, timer: bool, address: u16) -> Result<u8, u8> {
        match (self, self.value(held, timer, address)) {
            (WrongOwner::BlankOfOtherIs0, Err(OWNER)) => Ok(0),
            (WrongOwner::BlankReadsIgnoreOwner, Err(OWNER)) => Ok(held.get(&address).copied().unwrap_or(0)),
            (_, found) => Ok(found?.unwrap_or(0)),
        }
    }
}

impl WrongOwner {
    fn owns(self, timer: bool, address: u16) -> bool {
        match (self, address) {
            (WrongOwner::HandsetHas32768, 32_768) | (WrongOwner::TimerHas32767, 32_767) => true,
            (WrongOwner::BorderOneOn, 32_768) => !timer,
            (WrongOwner::Swapped, _) => !owns(timer, address),
            _ => owns(timer, address),
        }
    }

    /// The tests of a change in the order of this store.
    fn test(self, image: &[u8], chip: Chip, timer: bool, change: &Change) -> Result<(), u8> {
        // Whatever this test says, OWNER comes before it in the store of this name.
        let after = |place, test: Result<(), u8>| match test {
            Err(_) if self == place => self.test_owners(timer, change).and(test),
            _ => test,
        };
        self.test_store(image, chip)?;
        after(WrongOwner::OwnerBeforeUnclean, test_clean(image, chip))?;
        after(WrongOwner::OwnerBeforeGroup, test_group(image, chip, change))?;
        let addresses = change.settings().iter().try_for_each(|&(address, _)| test_address(address));
        after(WrongOwner::OwnerBeforeAddress, addresses)?;
        let held = held(image, chip);
        let all_held = is_held(image, chip, change);
        let has_room = self.test_room(&held, timer, change);
        let has_order = test_order(image, chip, change);
        match self {
            WrongOwner::HeldBeforeOwner if all_held => return Ok(()),
            WrongOwner::NoRoomBeforeOwner if !all_held => has_room?,
            WrongOwner::OrderEndBeforeOwner if !all_held && has_room.is_ok() => has_order?,
            _ => {}
        }
        self.test_owners(timer, change)?;
        match self {
            WrongOwner::LimitBeforeHeld if all_held && held_by(&held, timer) > MOST_HELD_BY_OWNER => {
                return Err(NO_ROOM);
            }
            _ if all_held => return Ok(()),
            WrongOwner::OrderEndBeforeLimit => has_order?,
            _ => {}
        }
        has_room.and(has_order)
    }

    fn test_owners(self, timer: bool, change: &Change) -> Result<(), u8> {
        let owned = |&(address, _): &Setting| self.owns(timer, address);
        let settings = change.settings();
        let accepted = match self {
            WrongOwner::WritesIgnoreOwner => true,
            WrongOwner::FirstAddressTested => settings.first().is_none_or(owned),
            WrongOwner::LastAddressTested => settings.last().is_none_or(owned),
            WrongOwner::OneOwnSuffices => settings.iter().any(owned),
            _ => settings.iter().all(owned),
        };
        if accepted {
            Ok(())
        } else {
            Err(OWNER)
        }
    }

    fn test_room(self, held: &BTreeMap<u16, u8>, timer: bool, change: &Change) -> Result<(), u8> {
        let named = change.settings().len();
        let new = change.settings().iter().filter(|(address, _)| !held.contains_key(address)).count();
        let too_many = self != WrongOwner::LimitAlone && new > 0 && held.len() + new > MOST_HELD;
        if too_many || self.is_beyond(held, timer, new, named) {
            return Err(NO_ROOM);
        }
        Ok(())
    }

    /// Whether the owner would be beyond its limit with so many new addresses of all that are named.
    fn is_beyond(self, held: &BTreeMap<u16, u8>, timer: bool, new: usize, named: usize) -> bool {
        let own = held_by(held, timer);
        let counted = match self {
            WrongOwner::CountsBoth => held.len(),
            WrongOwner::CountsOther => held.len() - own,
            _ => own,
        };
        let added = match self {
            WrongOwner::HeldCountAsNew => named,
            WrongOwner::NewCountAsOne => new.min(1),
            _ => new,
        };
        let limit = match self {
            WrongOwner::LimitAt127 => 127,
            WrongOwner::LimitAt129 => 129,
            _ => 128,
        };
        match self {
            WrongOwner::TotalAlone => false,
            WrongOwner::HandsetLimitAlone if timer => false,
            WrongOwner::TimerLimitAlone if !timer => false,
            WrongOwner::BeyondIsFree if own > limit => false,
            WrongOwner::BeyondIsFixed => counted + added > limit,
            _ => new > 0 && counted + added > limit,
        }
    }

    fn moved_words(self, image: &[u8], chip: Chip, timer: bool, change: &Change) -> Vec<Word> {
        let mut copies = copies(image, chip, change);
        let is_others = |word: &Word| !owns(timer, u16::from_le_bytes([word[0], word[1]]));
        match self {
            WrongOwner::MovesOwnAlone => copies.retain(|word| !is_others(word)),
            WrongOwner::MovesOwnFirst => copies.sort_by_key(is_others),
            _ => {}
        }
        [copies, change.records()].concat()
    }
}
