//! Numbers that look random, and are the same in each run.
ghost use Rattle.std.specs.Prelude.{◌<◌};

/// A generator of numbers: a linear congruential one (Knuth's MMIX), of which the upper 31 bits are given.
#[derive(Clone, Copy)]
pub(super) struct Dice {
    state: u64,
}

impl Dice {
    /// The generator of this seed.
    pub fn new(seed: u64) -> Dice {
        let mut dice = Dice {
            state: seed.wrapping_mul(0x9E37_79B9_7F4A_7C15),
        };
        dice.roll();
        dice
    }

    /// The next number.
    fn roll(&mut self) -> u64 {
        let next = self.state.wrapping_mul(6_364_136_223_846_793_005);
        self.state = next.wrapping_add(1_442_695_040_888_963_407);
        self.state / 0x2_0000_0000
    }

    /// A number below this one.
    pub fn below(&mut self, many: u64) -> u64
        requires { 0 < many }
        ensures { result < many }
    {
        self.roll() % many
    }

    /// Whether something happens that does so many times in a hundred.
    pub fn happens(&mut self, percent: u64) -> bool {
        self.below(100) < percent
    }

    /// Any byte.
    pub fn byte(&mut self) -> u8 {
        self.below(256) as u8
    }

    /// Any two bytes.
    pub fn word(&mut self) -> u16 {
        self.below(65_536) as u16
    }
}
