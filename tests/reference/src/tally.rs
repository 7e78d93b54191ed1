//! Lines `ok ...` and `FAILED ...`, and their sum at the end.

#[derive(Default)]
pub struct Tally {
    passed: usize,
    failed: usize,
}

impl Tally {
    pub fn line(&mut self, good: bool, text: &str) {
        if good {
            self.passed += 1;
            println!("ok {text}");
        } else {
            self.failed += 1;
            println!("FAILED {text}");
        }
    }

    /// Prints the sum; true where nothing failed.
    pub fn end(self) -> bool {
        println!("{} passed, {} failed", self.passed, self.failed);
        self.failed == 0
    }
}
