//! A failing case made smaller, as long as it fails.

/// A case that can be made smaller, and shown.
pub trait Shrink: Clone {
    fn smaller(&self) -> Vec<Self>;
    fn show(&self) -> String;
}

/// What is wrong with a case, if anything is.
pub type Check<C> = dyn Fn(&C) -> Result<(), String>;

/// The smallest that still fails of those met, with what is wrong with it.
pub fn shrink<C: Shrink>(case: C, wrong: String, check: &Check<C>) -> (C, String) {
    let mut found = (case, wrong);
    let mut tries = 20_000;
    'again: loop {
        for next in found.0.smaller() {
            tries -= 1;
            if tries == 0 {
                return found;
            }
            if let Err(wrong) = check(&next) {
                found = (next, wrong);
                continue 'again;
            }
        }
        return found;
    }
}

/// Checks a case; a failing one is made smaller and told with its seed.
pub fn hold<C: Shrink>(seed: u64, case: C, check: &Check<C>) -> Result<(), String> {
    match check(&case) {
        Ok(()) => Ok(()),
        Err(wrong) => {
            let (least, why) = shrink(case, wrong, check);
            Err(format!("seed {seed}: {why}\nthe smallest that still fails:\n{}", least.show()))
        }
    }
}
