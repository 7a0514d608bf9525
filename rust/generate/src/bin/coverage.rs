//! Prints how often each call gives each number: `coverage [SEED [ROUNDS]]`.

use generate::arguments::numbers;
use generate::coverage::Coverage;
use std::process::ExitCode;

fn main() -> ExitCode {
    let Some([seed, rounds]) = numbers(std::env::args().skip(1), [1, 1000]) else {
        eprintln!("usage: coverage [SEED [ROUNDS]]");
        return ExitCode::from(2);
    };
    println!("{}", Coverage::of(seed, rounds as usize));
    ExitCode::SUCCESS
}
