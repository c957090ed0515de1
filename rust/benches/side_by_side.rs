//! The product's time beside the plain Rust model's, in one process. The two take turns at going first, so that neither always finds the
//! caches warm; the figures are medians.

mod measured;

use std::time::Duration;

use measured::Case;

const REPETITIONS: usize = 201;

fn main() {
    println!("medians of {REPETITIONS} repetitions; one call, or one slot of a run, in nanoseconds\n");
    Case::print_head();
    measured::all().iter().for_each(report);
}

/// Measures both, each going first every other time, and prints a line.
fn report(case: &Case) {
    let many = case.many;
    let (mut product, mut model) = (Vec::new(), Vec::new());
    for repetition in 0..REPETITIONS {
        if repetition % 2 == 0 {
            product.push((case.product)(many));
            model.push((case.model)(many));
        } else {
            model.push((case.model)(many));
            product.push((case.product)(many));
        }
    }
    let each = |times| median(times).as_nanos() as f64 / many as f64;
    case.print(each(product), each(model));
}

fn median(mut times: Vec<Duration>) -> Duration {
    times.sort_unstable();
    times[times.len() / 2]
}
