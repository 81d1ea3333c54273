//! What the measurements are to reach, and whether they do.

/// A bound that every value of some kind has to keep.
pub struct Goal {
    what: &'static str,
    bound: Bound,
    seen: Vec<(f64, String)>,
    told: usize,
    digits: usize,
}

#[derive(Clone, Copy)]
pub enum Bound {
    AtLeast(f64),
    AtMost(f64),
}

/// How many of the values that miss a goal are told, and with how many digits behind the point.
const TOLD: usize = 6;
const DIGITS: usize = 2;

impl Goal {
    pub fn new(what: &'static str, bound: Bound) -> Goal {
        Goal { what, bound, seen: Vec::new(), told: TOLD, digits: DIGITS }
    }

    /// The same goal, but all values that miss it are told, with a digit more.
    pub fn in_full(self) -> Goal {
        Goal { told: usize::MAX, digits: DIGITS + 1, ..self }
    }

    pub fn see(&mut self, value: f64, of: impl Into<String>) {
        self.seen.push((value, of.into()));
    }

    fn misses(&self, value: f64) -> bool {
        match self.bound {
            Bound::AtLeast(least) => value < least,
            Bound::AtMost(most) => value > most,
        }
    }

    pub fn is_met(&self) -> bool {
        !self.seen.iter().any(|(value, _)| self.misses(*value))
    }

    /// The verdict, with the value that is nearest to missing the goal, or those that miss it, worst first.
    pub fn verdict(&self) -> String {
        let mut seen = self.seen.clone();
        seen.sort_by(|a, b| match self.bound {
            Bound::AtLeast(_) => a.0.total_cmp(&b.0),
            Bound::AtMost(_) => b.0.total_cmp(&a.0),
        });
        let missed = seen.iter().filter(|(value, _)| self.misses(*value)).count();
        let tell = |(value, of): &(f64, String)| format!("{value:.*} {of}", self.digits);
        let told: Vec<String> = seen.iter().take(missed.clamp(1, self.told)).map(tell).collect();
        let verdict = if missed == 0 { "met" } else { "missed" };
        let count = format!("{} of {}", seen.len() - missed, seen.len());
        format!("{}: {verdict} ({count}; {})", self.what, told.join(", "))
    }
}

#[cfg(test)]
mod tests {
    use super::*;

    #[test]
    fn a_goal_is_met_if_every_value_keeps_it() {
        let mut least = Goal::new("rate", Bound::AtLeast(2.0));
        least.see(3.0, "a");
        least.see(2.0, "b");
        assert!(least.is_met());
        assert_eq!(least.verdict(), "rate: met (2 of 2; 2.00 b)");
        least.see(1.0, "c");
        least.see(1.5, "d");
        assert!(!least.is_met());
        assert_eq!(least.verdict(), "rate: missed (2 of 4; 1.00 c, 1.50 d)");
        let mut most = Goal::new("growth", Bound::AtMost(2.2));
        most.see(2.0, "a");
        most.see(2.5, "b");
        assert_eq!(most.verdict(), "growth: missed (1 of 2; 2.50 b)");
    }

    #[test]
    fn a_goal_in_full_tells_all_that_miss_it() {
        let mut most = Goal::new("times", Bound::AtMost(1.03)).in_full();
        (0..9).for_each(|at| most.see(1.031 + f64::from(at), "a"));
        most.see(1.03, "b");
        assert!(most.verdict().starts_with("times: missed (1 of 10; 9.031 a, 8.031 a, "));
        assert_eq!(most.verdict().matches(" a").count(), 9);
    }
}
