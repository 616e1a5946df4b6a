//! Compares the library with the second implementation on drawn inputs.
//!
//! Usage: compare [N [SEED]]. N multiplies the number of inputs (1 where it is not given; it may be a fraction).
mod buslink;
mod buslink_sweep;
mod calls;
mod cases;
mod draft;
mod input;
mod largest;
#[path = "../../library.rs"]
mod library;
mod listings;
mod mistakes;
mod path_sweep;
mod paths;
mod random;
mod requests;
mod sheet_sweep;
mod sheets;
mod step_sweep;
mod steps;
mod strays;
mod streams;
mod sums;
mod sweep;
mod tally;
mod trees;

use random::Random;
use tally::Tally;

const SEED: u64 = 20_260_115;
const ROUNDS: f64 = 10_000.0;

fn main() {
    let mut arguments = std::env::args().skip(1);
    let times: f64 = arguments.next().map_or(1.0, |text| text.parse().expect("N is a number"));
    let seed: u64 = arguments.next().map_or(SEED, |text| text.parse().expect("SEED is a whole number"));
    let random = Random::new(seed);
    let mut tally = Tally::new();
    println!("seed {seed}, times {times}");
    cases::run(&random, &mut tally);
    if times >= 1.0 {
        sweep::run(&mut tally);
        sums::run(&mut tally);
        largest::run(&random, &mut tally);
        listings::run(&mut tally);
        sheet_sweep::run(&random, &mut tally);
        step_sweep::run(&random, &mut tally);
        path_sweep::run(&mut tally);
        buslink_sweep::run(&random, &mut tally);
    }
    for round in 0..(ROUNDS * times) as usize {
        trees::run(&random, &mut tally, round);
        sheets::run(&random, &mut tally, round);
        requests::run(&random, &mut tally);
        streams::run(&random, &mut tally);
        strays::run(&random, &mut tally);
        buslink::run(&random, &mut tally, round);
    }
    std::process::exit(if tally.report() { 0 } else { 1 });
}
