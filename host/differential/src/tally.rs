//! Counting of what held and what did not.

/// How many comparisons held, and what was said of those that did not.
#[derive(Clone, Debug, Default)]
pub struct Tally {
    /// Comparisons that held.
    pub passed: u64,
    /// Comparisons that did not.
    pub failed: u64,
    /// What was said of the first ones that did not.
    pub said: Vec<String>,
}

/// So many failures are told in words.
const TOLD: usize = 5;

impl Tally {
    /// Counts one comparison.
    pub fn count(&mut self, outcome: Result<(), String>) {
        match outcome {
            Ok(()) => self.passed += 1,
            Err(what) => {
                self.failed += 1;
                if self.said.len() < TOLD {
                    self.said.push(what);
                }
            }
        }
    }

    /// Adds another tally.
    pub fn add(&mut self, other: Tally) {
        self.passed += other.passed;
        self.failed += other.failed;
        self.said.extend(other.said);
    }

    /// For tests: all held, and there were some.
    ///
    /// # Panics
    /// When not.
    pub fn assert(&self) {
        assert!(self.failed == 0, "{} failed: {:#?}", self.failed, self.said);
        assert!(self.passed > 0, "nothing was compared");
    }
}
