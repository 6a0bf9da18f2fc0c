//! A small deterministic random generator (splitmix64), and the seeds a test runs.

pub struct Rng(u64);

impl Rng {
    pub fn new(seed: u64) -> Rng {
        Rng(seed.wrapping_mul(0x2545_F491_4F6C_DD1D) ^ 0x6A09_E667_F3BC_C908)
    }

    pub fn draw(&mut self) -> u64 {
        self.0 = self.0.wrapping_add(0x9E37_79B9_7F4A_7C15);
        let mut mixed = self.0;
        mixed = (mixed ^ (mixed >> 30)).wrapping_mul(0xBF58_476D_1CE4_E5B9);
        mixed = (mixed ^ (mixed >> 27)).wrapping_mul(0x94D0_49BB_1331_11EB);
        mixed ^ (mixed >> 31)
    }

    pub fn byte(&mut self) -> u8 {
        self.draw() as u8
    }

    /// From 0 to `limit` - 1.
    pub fn below(&mut self, limit: usize) -> usize {
        assert!(limit > 0);
        (self.draw() % limit as u64) as usize
    }

    pub fn one_in(&mut self, chances: usize) -> bool {
        self.below(chances) == 0
    }

    pub fn pick<T: Copy>(&mut self, choices: &[T]) -> T {
        choices[self.below(choices.len())]
    }

    pub fn shuffle<T>(&mut self, items: &mut [T]) {
        for last in (1..items.len()).rev() {
            items.swap(last, self.below(last + 1));
        }
    }
}

fn number_in(variable: &str) -> Option<u64> {
    let text = std::env::var(variable).ok()?;
    Some(text.parse().unwrap_or_else(|_| panic!("{variable} is to be a number, not {text:?}")))
}

/// The seeds to run: ISTROVELL_SEED alone, or as many as ISTROVELL_IMAGES or `default` says.
pub fn seeds(default: u64) -> Vec<u64> {
    match number_in("ISTROVELL_SEED") {
        Some(seed) => vec![seed],
        None => (0..number_in("ISTROVELL_IMAGES").unwrap_or(default)).collect(),
    }
}

/// Whether a run of its own seed was asked for, or every run.
pub fn asked_for(seed: u64) -> bool {
    number_in("ISTROVELL_SEED").is_none_or(|asked| asked == seed)
}
