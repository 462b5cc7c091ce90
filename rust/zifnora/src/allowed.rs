//! The readings that a hirer may use.

/// A set of readings, one bit each. Those that a translation does not ask for
/// say nothing.
#[derive(Clone, Copy, Debug, PartialEq, Eq)]
pub struct Allowed(u32);

impl Allowed {
    pub const NONE: Allowed = Allowed(0);
    pub const ALL: Allowed = Allowed(u32::MAX);

    /// The set with this reading too. No translation has a reading from
    /// `sizes::MOST_READINGS` on, and no set.
    pub fn with(self, reading: u16) -> Allowed {
        let bit = 1_u32.checked_shl(reading as u32).unwrap_or(0);
        Allowed(self.0 | bit)
    }

    /// Bit i is reading i, as the archive takes the set.
    pub fn bits(self) -> u32 {
        self.0
    }
}

#[cfg(test)]
mod tests {
    use super::*;
    use crate::sizes::MOST_READINGS;

    #[test]
    fn bits_are_readings() {
        assert_eq!(Allowed::NONE.bits(), 0);
        assert_eq!(Allowed::NONE.with(0).with(31).with(0).bits(), 0x8000_0001);
        assert_eq!(Allowed::NONE.with(32).with(u16::MAX), Allowed::NONE);
        let every = (0..MOST_READINGS as u16).fold(Allowed::NONE, Allowed::with);
        assert_eq!(every, Allowed::ALL);
    }
}
