use std::fmt;

/// How many answers were compared, and how many were not the same.
#[derive(Default)]
pub struct Tally {
    pub same: u64,
    pub differ: u64,
    /// How often each number was expected, where a part counts them: what its calls came to.
    pub numbers: [u64; 10],
    /// How many notices and writes were expected to drop no block, one, and more.
    pub drops: [u64; 3],
}

impl Tally {
    const SHOWN: u64 = 10;

    /// Counts one answer; the first few that differ are shown.
    #[inline(always)]
    pub fn expect(&mut self, same: bool, show: impl FnOnce() -> String) {
        if same {
            self.same += 1;
        } else {
            self.differs(show);
        }
    }

    #[cold]
    fn differs(&mut self, show: impl FnOnce() -> String) {
        self.differ += 1;
        if self.differ <= Self::SHOWN {
            println!("DIFFERENT {}", show());
        }
    }

    pub fn add(&mut self, other: &Self) {
        self.same += other.same;
        self.differ += other.differ;
    }

    pub fn expects(&mut self, number: u64) {
        self.numbers[number as usize] += 1;
    }

    pub fn expects_dropped(&mut self, dropped: u64) {
        self.drops[dropped.min(2) as usize] += 1;
    }
}

impl fmt::Display for Tally {
    fn fmt(&self, f: &mut fmt::Formatter<'_>) -> fmt::Result {
        write!(
            f,
            "{} compared, {} different",
            self.same + self.differ,
            self.differ
        )?;
        if self.numbers != [0; 10] {
            write!(f, ", by number from 0 on {:?}", self.numbers)?;
        }
        if self.drops != [0; 3] {
            write!(f, ", dropping no block, one, more {:?}", self.drops)?;
        }
        Ok(())
    }
}
