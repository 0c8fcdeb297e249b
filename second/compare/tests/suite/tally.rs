//! How many inputs got which number.

use std::time::Instant;

pub struct Tally {
    what: &'static str,
    counts: [usize; 19],
    began: Instant,
}

impl Tally {
    pub fn new(what: &'static str) -> Tally {
        Tally {
            what,
            counts: [0; 19],
            began: Instant::now(),
        }
    }

    pub fn add(&mut self, (number, _): (u32, u32)) {
        self.counts[number as usize] += 1;
    }

    /// At least so many inputs, and each of these numbers so many times.
    /// Prints the counts.
    pub fn close(self, least: usize, numbers: &[usize], each: usize) {
        let total: usize = self.counts.iter().sum();
        let seconds = self.began.elapsed().as_secs_f64();
        println!("{}: {total} alike in {seconds:.1} s", self.what);
        for (number, &count) in self.counts.iter().enumerate() {
            if count > 0 {
                println!("  number {number:2}: {count}");
            }
        }
        assert!(total >= least, "{}: only {total}", self.what);
        for &number in numbers {
            let count = self.counts[number];
            assert!(
                count >= each,
                "{}: number {number} {count} times",
                self.what
            );
        }
    }
}
