//! Settings and limits (document 01, "Settings").

/// The last second of the clock.
pub const LAST_SECOND: u64 = 1_000_000_000_000;

/// Seconds, all of them.
#[derive(Clone, Copy, PartialEq, Eq, Debug)]
pub struct Settings {
    pub life: u64,
    pub grace: u64,
    pub aklife: u64,
    pub akgrace: u64,
    pub authorize: u64,
    pub reauthorize: u64,
    pub operational: u64,
    pub rekey: u64,
    pub reject: u64,
}

impl Settings {
    /// H.
    pub fn half(&self) -> u64 {
        self.life / 2
    }

    /// Question 1 of the settings.
    pub fn fits(&self) -> bool {
        let waits = [self.authorize, self.reauthorize, self.operational, self.rekey, self.reject];
        self.life.is_multiple_of(2)
            && (1_800..=604_800).contains(&self.life)
            && (300..=self.half() - 1).contains(&self.grace)
            && (86_400..=6_048_000).contains(&self.aklife)
            && (300..=self.aklife / 2).contains(&self.akgrace)
            && waits.iter().all(|w| (1..=600).contains(w))
    }
}

/// An address has 48 bits.
pub fn address_fits(address: u64) -> bool {
    address < 1 << 48
}

/// A SAID has 14 bits.
pub fn said_fits(said: u64) -> bool {
    said <= 16_383
}

/// The suite whose frames are sealed and opened here: AES of 128 bits in CBC mode.
pub const AES: u16 = 768;

/// Octets of a TEK and of a vector under a suite; 0 for a suite that is not known.
pub fn width(suite: u64) -> usize {
    match suite {
        256 => 8,
        768 => 16,
        _ => 0,
    }
}

#[cfg(test)]
mod tests {
    use super::*;

    #[test]
    fn limits() {
        let good = Settings {
            life: 1_800,
            grace: 899,
            aklife: 86_400,
            akgrace: 43_200,
            authorize: 1,
            reauthorize: 600,
            operational: 1,
            rekey: 600,
            reject: 1,
        };
        assert!(good.fits());
        let bad = [
            Settings { life: 1_801, ..good },
            Settings { life: 604_802, ..good },
            Settings { grace: 900, ..good },
            Settings { grace: 299, ..good },
            Settings { aklife: 86_399, ..good },
            Settings { akgrace: 43_201, ..good },
            Settings { reject: 0, ..good },
            Settings { rekey: 601, ..good },
        ];
        assert!(bad.iter().all(|s| !s.fits()));
        assert!(address_fits(0xffff_ffff_ffff) && !address_fits(1 << 48));
        assert!(said_fits(16_383) && !said_fits(16_384));
    }
}
