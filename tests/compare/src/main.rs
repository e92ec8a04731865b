//! Compares the static library's calls (headers, setup data, agreement, grant, error reply,
//! reassembly, what a reply says was landed, ledger) and the program `replay` with a second implementation.
//! Build with EOS_LIB_DIR naming the folder of libeoswynnor.a; the program is what EOS_REPLAY names, else
//! target/bin/replay above this package. Options: --cases N (cases in each random family), --seed S,
//! --vectors FILE (else what EOS_VECTORS names).
//! One line for each family, then the numbers, goes, counts of xids passed over and forms seen and the
//! total; the first difference is printed with its input and ends the run with status 1, as does one
//! of them never seen, or a number seen that its call never gives (8 and 21 are given by none).

#[cfg(not(library))]
compile_error!("set EOS_LIB_DIR to the folder that holds libeoswynnor.a");

use compare::check::Checker;
use compare::library::Library;
use compare::{cases, program, vectors};
use std::process::ExitCode;

fn main() -> ExitCode {
    let (mut count, mut seed, mut file) = (200_000, 0x5eed, vectors::usual_file());
    let mut arguments = std::env::args().skip(1);
    while let Some(name) = arguments.next() {
        let value = arguments.next().unwrap_or_default();
        let number = value.parse::<u64>();
        match (name.as_str(), number) {
            ("--cases", Ok(number)) => count = number,
            ("--seed", Ok(number)) => seed = number,
            ("--vectors", _) => file = value,
            _ => {
                eprintln!("usage: compare [--cases N] [--seed S] [--vectors FILE]");
                return ExitCode::from(2);
            }
        }
    }
    let vectors = match vectors::load(&file) {
        Ok(vectors) => vectors,
        Err(why) => {
            eprintln!("{why}");
            return ExitCode::from(2);
        }
    };
    if let Err(why) = program::find(&program::usual_file()) {
        eprintln!("{why}");
        return ExitCode::from(2);
    }
    let mut check = Checker::new(Library, seed);
    check.loud = true;
    let outcome = vectors::run(&mut check, &vectors).and_then(|()| cases::run(&mut check, seed, count));
    check.end_family();
    if let Err(difference) = outcome {
        println!("DIFFERENCE in family: {}\n{difference}", check.name());
        return ExitCode::FAILURE;
    }
    check.seen.lines().iter().for_each(|line| println!("{line}"));
    for (what, list) in [("NEVER SEEN", check.unseen()), ("MUST NEVER BE GIVEN", check.unwanted())] {
        if !list.is_empty() {
            println!("{what}\n{}", list.join("\n"));
            return ExitCode::FAILURE;
        }
    }
    println!("{:<26}{:>10}", "total", check.total());
    ExitCode::SUCCESS
}
