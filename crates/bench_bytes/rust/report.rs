//! What is printed of works.

use std::hint::black_box;
use std::time::Instant;

pub struct Report {
    timed: bool,
}

fn checksum(work: &mut impl FnMut(u64) -> u64, rounds: u64) -> u64 {
    let mut sum = 0u64;
    for round in 0..rounds {
        sum = sum.wrapping_mul(0x100_0000_01b3) ^ work(black_box(round));
    }
    sum
}

fn nanoseconds(work: &mut impl FnMut(u64) -> u64, rounds: u64) -> u64 {
    let start = Instant::now();
    black_box(checksum(work, rounds));
    start.elapsed().as_nanos() as u64
}

impl Report {
    pub fn from_arguments() -> Report {
        Report { timed: std::env::args().any(|word| word == "--time") }
    }

    pub fn tell(&self, name: &str, mut work: impl FnMut(u64) -> u64) {
        if !self.timed {
            println!("{name}\t{:016x}", checksum(&mut work, 64));
            return;
        }
        let mut rounds = 1;
        while nanoseconds(&mut work, rounds) < 1_000_000 {
            rounds *= 2;
        }
        let best = (0..100).map(|_| nanoseconds(&mut work, rounds) * 10 / rounds).min().unwrap_or(0);
        println!("{name}\t{best}");
    }

    /// Tells of a run of so many rounds, the best of ten.
    #[allow(dead_code)]
    pub fn tell_run(&self, name: &str, rounds: u64, mut run: impl FnMut() -> u64) {
        let mut best = u64::MAX;
        let mut sum = 0;
        for _ in 0..10 {
            let start = Instant::now();
            sum = black_box(run());
            best = best.min(start.elapsed().as_nanos() as u64);
        }
        if self.timed {
            println!("{name}\t{}", best * 10 / rounds);
        } else {
            println!("{name}\t{sum:016x}");
        }
    }
}
