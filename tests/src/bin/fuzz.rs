//! Compares drawn cases, their runs and then their misses: `fuzz [SEED [COUNT [CASE]]]`. With CASE, that case alone is run, and
//! shown.

use std::process::ExitCode;
use std::time::Instant;

use osek_tests::cases;
use osek_tests::compare::{self, hex};

fn main() -> ExitCode {
    let mut numbers = [1u64, 20_000, 0];
    let arguments: Vec<String> = std::env::args().skip(1).collect();
    for (number, argument) in numbers.iter_mut().zip(&arguments) {
        match argument.parse() {
            Ok(value) => *number = value,
            Err(_) => {
                eprintln!("usage: fuzz [SEED [COUNT [CASE]]]");
                return ExitCode::from(2);
            }
        }
    }
    let [seed, count, case] = numbers;
    let cases = if arguments.len() > 2 {
        let drawn = cases::case(seed, case);
        println!("configuration  {}\ntrace          {}", hex(&drawn.config), hex(&drawn.trace));
        println!("output         {} bytes, fill {}", drawn.out_len, drawn.fill);
        case..case + 1
    } else {
        0..count
    };
    let implementations = compare::others();
    let names: Vec<&str> = implementations.iter().map(|implementation| implementation.name).collect();
    println!("seed {seed}: {} against {}", compare::FAST.name, names.join(", "));
    let start = Instant::now();
    let compared = compare::compare(seed, cases.clone(), 2, &implementations).and_then(|coverage| {
        println!("{coverage}");
        compare::compare_misses(seed, cases, 2)
    });
    match compared {
        Ok(misses) => {
            println!("missed deadlines: {misses}\nall equal, {:.1} s", start.elapsed().as_secs_f64());
            ExitCode::SUCCESS
        }
        Err(difference) => {
            println!("{difference}");
            ExitCode::FAILURE
        }
    }
}
