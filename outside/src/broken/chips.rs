//! Stores that are wrong in the larger chip or in page sizes alone, each in one thing.

use crate::page::*;
use crate::rules::*;
use crate::steps::*;
use crate::word::*;

#[derive(Clone, Copy, Debug, PartialEq, Eq)]
pub enum WrongChip {
    /// Nothing is wrong. It shows that no other is caught by how it is made.
    Nothing,

    // Slots.
    /// A larger page has 253 slots, and what is behind them isn't looked at.
    SlotsOfSmaller,
    /// A larger page has 508 slots.
    OneSlotLess,
    /// The last slot of a larger page isn't searched.
    LastNotSearched,
    /// The slots of a larger page behind slot 252 aren't searched.
    BackNotSearched,
    /// The free slots of a larger page end at slot 252.
    FreeEndAt252,
    /// A larger page is cleared if all is 255 up to offset 1,024.
    ClearedByHalf,
    /// A group of a larger page that goes on behind slot 252 doesn't count.
    GroupEndsAt252,
    /// An erase of a larger page ends at offset 1,024.
    HalfErased,

    // Editions.
    /// The third byte 3 is an edition of the smaller chip too.
    ThreeAtSmaller,
    /// The third byte 1 is an edition of the larger chip too.
    OneAtLarger,
    /// The third byte 2 is an edition of the larger chip too.
    TwoAtLarger,
    /// The edition of the larger chip is 2, not 3.
    TwoInsteadOfThree,
    /// Format gives the larger chip the first edition if it isn't told the second.
    FormatsFirst,
    /// Format gives the larger chip the second edition if it is told so.
    FormatsSecond,
    /// Format gives the smaller chip the third edition.
    FormatsThirdAtSmaller,
    /// The larger chip takes no groups.
    NoGroups,
    /// The larger chip has no marks.
    NoMarks,

    // Sizes that are named.
    /// The size isn't looked at: all pages have 1,024 bytes.
    AlwaysSmaller,
    /// The size isn't looked at: all pages have 2,048 bytes.
    AlwaysLarger,
    /// Any other size than 2,048 is taken for 1,024.
    SmallerUnless2048,
    /// Any other size than 1,024 is taken for 2,048.
    LargerUnless1024,
    /// A size is rounded down to one that there is.
    RoundedDown,
    /// A size is rounded up to one that there is.
    RoundedUp,
    /// 0 is taken for 1,024.
    ZeroIsSmaller,
    /// 4,096 is taken for 2,048.
    Takes4096AsLarger,
    /// 4,096 is taken for itself.
    Takes4096,
    /// 512 is taken for itself.
    Takes512,

    // Lengths.
    /// The length is measured by 1,024, whatever size is named.
    MeasuredBySmaller,
    /// The length is measured by 2,048, whatever size is named.
    MeasuredByLarger,
    /// One page of the larger chip is accepted.
    OnePage,
    /// 33 pages of the larger chip are accepted, and more.
    ManyPages,
    /// 33 pages of the smaller chip are accepted, and more up to 64: as many as the larger image has.
    ManySmallerPages,
    /// At most 32,768 bytes are accepted, of the larger chip too.
    MostBytesOfSmaller,
    /// What is over behind the last larger page is left out.
    RestLeftOut,
    /// The length is kept in 16 bits.
    LengthIn16Bits,
}

pub const WRONG_CHIPS: [WrongChip; 35] = [
    WrongChip::SlotsOfSmaller,
    WrongChip::OneSlotLess,
    WrongChip::LastNotSearched,
    WrongChip::BackNotSearched,
    WrongChip::FreeEndAt252,
    WrongChip::ClearedByHalf,
    WrongChip::GroupEndsAt252,
    WrongChip::HalfErased,
    WrongChip::ThreeAtSmaller,
    WrongChip::OneAtLarger,
    WrongChip::TwoAtLarger,
    WrongChip::TwoInsteadOfThree,
    WrongChip::FormatsFirst,
    WrongChip::FormatsSecond,
    WrongChip::FormatsThirdAtSmaller,
    WrongChip::NoGroups,
    WrongChip::NoMarks,
    WrongChip::AlwaysSmaller,
    WrongChip::AlwaysLarger,
    WrongChip::SmallerUnless2048,
    WrongChip::LargerUnless1024,
    WrongChip::RoundedDown,
    WrongChip::RoundedUp,
    WrongChip::ZeroIsSmaller,
    WrongChip::Takes4096AsLarger,
    WrongChip::Takes4096,
    WrongChip::Takes512,
    WrongChip::MeasuredBySmaller,
    WrongChip::MeasuredByLarger,
    WrongChip::OnePage,
    WrongChip::ManyPages,
    WrongChip::ManySmallerPages,
    WrongChip::MostBytesOfSmaller,
    WrongChip::RestLeftOut,
    WrongChip::LengthIn16Bits,
];

/// What no word of a store is: neither sound, blank nor half-written.
const SPOILED: Word = [0; 4];

/// The slot at offset 1,024 of its page.
const MIDDLE: usize = 253;
const MIDDLE_OFFSET: usize = 1_024;

const MOST_PAGES: usize = 32;

impl Plan for WrongChip {
    fn chip(&self, page_size: u16) -> Result<Chip, u8> {
        match (self, page_size) {
            (WrongChip::ThreeAtSmaller, 1_024) => Ok(Chip { editions: &EDITIONS, ..SMALLER }),
            (WrongChip::OneAtLarger, 2_048) => Ok(Chip { editions: &[Edition::Third, Edition::First], ..LARGER }),
            (WrongChip::TwoAtLarger, 2_048) => Ok(Chip { editions: &[Edition::Third, Edition::Second], ..LARGER }),
            (WrongChip::TwoInsteadOfThree, 2_048) => Ok(Chip { editions: &[Edition::Second], ..LARGER }),
            (WrongChip::AlwaysSmaller, _) => Ok(SMALLER),
            (WrongChip::AlwaysLarger, _) => Ok(LARGER),
            (WrongChip::SmallerUnless2048, _) => Ok(if page_size == 2_048 { LARGER } else { SMALLER }),
            (WrongChip::LargerUnless1024, _) => Ok(if page_size == 1_024 { SMALLER } else { LARGER }),
            (WrongChip::RoundedDown, 1_024..) => Ok(if page_size < 2_048 { SMALLER } else { LARGER }),
            (WrongChip::RoundedUp, ..=2_048) => Ok(if page_size > 1_024 { LARGER } else { SMALLER }),
            (WrongChip::ZeroIsSmaller, 0) => Ok(SMALLER),
            (WrongChip::Takes4096AsLarger, 4_096) => Ok(LARGER),
            (WrongChip::Takes4096, 4_096) => Ok(Chip { page_bytes: 4_096, ..LARGER }),
            (WrongChip::Takes512, 512) => Ok(Chip { page_bytes: 512, ..SMALLER }),
            _ => chip_named(page_size),
        }
    }

    fn format_steps(&self, image: &[u8], chip: Chip, second_edition: bool) -> Result<Vec<Step>, u8> {
        let edition = match (self, chip.page_bytes) {
            (WrongChip::FormatsFirst, 2_048) if !second_edition => Edition::First,
            (WrongChip::FormatsSecond, 2_048) if second_edition => Edition::Second,
            (WrongChip::FormatsThirdAtSmaller, 1_024) => Edition::Third,
            (WrongChip::OneAtLarger | WrongChip::TwoAtLarger, 2_048) => Edition::Third,
            _ => chip.told(second_edition),
        };
        Ok(self.done(image, format_steps(&self.seen(image, chip), chip, edition)?))
    }

    fn recovery_steps(&self, image: &[u8], chip: Chip) -> Result<Vec<Step>, u8> {
        if *self == WrongChip::SlotsOfSmaller && chip == LARGER {
            return Ok(on_larger(recovery_steps(&fronts(image), SMALLER)?));
        }
        Ok(self.done(image, recovery_steps(&self.seen(image, chip), chip)?))
    }

    fn change_steps(&self, image: &[u8], chip: Chip, timer: bool, change: &Change) -> Result<Vec<Step>, u8> {
        if *self == WrongChip::SlotsOfSmaller && chip == LARGER {
            return Ok(on_larger(change_steps(&fronts(image), SMALLER, timer, change)?));
        }
        let seen = self.seen(image, chip);
        let right = test_change(&seen, chip, timer, change);
        let refused = matches!(right, Err(SIZE | NO_STORE | DAMAGED | UNCLEAN));
        if *self == WrongChip::NoGroups && chip == LARGER && matches!(change, Change::Group(_)) && !refused {
            return Err(GROUP);
        }
        right?;
        Ok(self.done(image, accepted_steps(&seen, chip, change)))
    }

    fn seen(&self, image: &[u8], chip: Chip) -> Vec<u8> {
        let mut seen = image[..self.measured(image.len(), chip)].to_vec();
        if *self == WrongChip::OnePage && seen.len() == LARGER.page_bytes && chip == LARGER {
            seen.resize(2 * LARGER.page_bytes, 255);
        }
        if chip == LARGER && test_size(&seen, chip).is_ok() {
            LARGER.pages_mut(&mut seen).for_each(|page| self.see(page));
        }
        seen
    }
}

impl WrongChip {
    /// How many bytes of an image of this length the store takes for the image; none if it is to refuse it.
    fn measured(self, length: usize, chip: Chip) -> usize {
        let is_right = |chip: Chip| {
            length.is_multiple_of(chip.page_bytes) && (2..=MOST_PAGES).contains(&(length / chip.page_bytes))
        };
        let whole_pages = length / chip.page_bytes * chip.page_bytes;
        let most = MOST_PAGES * chip.page_bytes;
        match self {
            WrongChip::MeasuredBySmaller if !is_right(SMALLER) => 0,
            WrongChip::MeasuredBySmaller => whole_pages,
            WrongChip::MeasuredByLarger if !is_right(LARGER) => 0,
            WrongChip::MeasuredByLarger => length.min(most),
            WrongChip::ManyPages if chip == LARGER && length == whole_pages => length.min(most),
            WrongChip::ManySmallerPages if chip == SMALLER && length == whole_pages && length <= 2 * most => {
                length.min(most)
            }
            WrongChip::MostBytesOfSmaller if length > MOST_PAGES * SMALLER.page_bytes => 0,
            WrongChip::RestLeftOut if chip == LARGER => whole_pages,
            WrongChip::LengthIn16Bits => length % 65_536,
            _ => length,
        }
    }

    /// Makes a larger page say by the rules what it says to this store.
    fn see(self, page: &mut [u8]) {
        let taken = free_slots(page).start;
        let last = slot_words(page).len() - 1;
        match self {
            WrongChip::SlotsOfSmaller => page[MIDDLE_OFFSET..].fill(255),
            WrongChip::OneSlotLess if taken >= last => spoil(page, last..last + 1),
            WrongChip::LastNotSearched => spoil(page, last..taken),
            WrongChip::BackNotSearched => spoil(page, MIDDLE..taken),
            WrongChip::FreeEndAt252 if (MIDDLE..=last).contains(&taken) => spoil(page, last..last + 1),
            WrongChip::ClearedByHalf if page[OPENING_OFFSET..MIDDLE_OFFSET].iter().all(|&byte| byte == 255) => {
                page[MIDDLE_OFFSET..].fill(255);
            }
            WrongChip::GroupEndsAt252 => {
                for group in groups(&slots(page, Edition::Third)) {
                    if let (..MIDDLE, Some(end @ MIDDLE..)) = (group.begin, group.end) {
                        spoil(page, group.begin..end + 1);
                    }
                }
            }
            WrongChip::NoMarks => {
                for (place, slot) in slots(page, Edition::Third).into_iter().enumerate() {
                    if matches!(slot, Slot::Mark(_)) {
                        spoil(page, place..place + 1);
                    }
                }
            }
            _ => {}
        }
    }

    /// The steps that this store does on the image, of those by the rules.
    fn done(self, image: &[u8], mut steps: Vec<Step>) -> Vec<Step> {
        if self == WrongChip::HalfErased {
            for step in &mut steps {
                if let Step::Erase { page, page_bytes: 2_048 } = *step {
                    *step = Step::Erase { page: 2 * page, page_bytes: MIDDLE_OFFSET };
                }
            }
        }
        steps.retain(|step| step.bytes().end <= image.len());
        steps
    }
}

fn spoil(page: &mut [u8], slots: std::ops::Range<usize>) {
    for slot in slots {
        page[slot_offset(slot)..][..4].copy_from_slice(&SPOILED);
    }
}

/// The front halves of the larger pages, as pages of the smaller chip in its second edition.
fn fronts(image: &[u8]) -> Vec<u8> {
    let mut fronts = Vec::new();
    if test_size(image, LARGER).is_ok() {
        for page in LARGER.pages(image) {
            let wear = wear(page, Edition::Third).map_or(SPOILED, |wear| wear_word(wear, Edition::Second));
            fronts.extend(wear);
            fronts.extend(&page[OPENING_OFFSET..MIDDLE_OFFSET]);
        }
    }
    fronts
}

/// The steps on the front halves, as steps on the larger pages in their edition.
fn on_larger(mut steps: Vec<Step>) -> Vec<Step> {
    for step in &mut steps {
        match step {
            Step::Erase { page_bytes, .. } => *page_bytes = LARGER.page_bytes,
            Step::Program { offset, value } => {
                let (page, within) = (*offset / MIDDLE_OFFSET, *offset % MIDDLE_OFFSET);
                *offset = LARGER.page_range(page).start + within;
                if within == WEAR_OFFSET + 2 {
                    // 3 has one 0 bit less than 2.
                    let [_, check] = value.to_le_bytes();
                    *value = u16::from_le_bytes([Edition::Third as u8, check - 1]);
                }
            }
        }
    }
    steps
}
