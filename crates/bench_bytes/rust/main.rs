//! The works of `bench_bytes` in plain Rust: the same checks, in the way in which one writes them without proofs.
//!
//! Prints each work's checksum, as `bench_bytes` does; with `--time`, a line with its name, a tab and the time of a turn
//! in tenths of a nanosecond, as `bench_bytes --plain` reads them.

mod codec;
mod messages;
mod names;
mod report;
mod rules;
mod samples;

use report::Report;

fn main() {
    let report = Report::from_arguments();
    names::measure(&report);
    rules::measure(&report);
    codec::measure(&report);
    messages::measure(&report);
}
