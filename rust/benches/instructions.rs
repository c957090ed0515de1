//! The instructions of a call, the product's beside the plain Rust model's. They do not depend on what else the machine does. valgrind
//! counts all instructions of a process; the process is this program, made to do some calls, and then twice as many: the difference is
//! what the calls take.

mod measured;

use std::io::ErrorKind;
use std::process::{Command, ExitCode};
use std::{env, io};

use measured::Case;

/// What this program is told to make calls, with the case's number, who makes them and how many.
const MAKE: &str = "--make";

/// From some length on the C library clears and copies memory by a single instruction, which valgrind counts once for each byte. With so
/// high a threshold it goes by words, as the code that is measured does.
const TUNABLES: &str = "glibc.cpu.x86_rep_stosb_threshold=1048576:glibc.cpu.x86_rep_movsb_threshold=1048576";

fn main() -> ExitCode {
    let words: Vec<String> = env::args().skip(1).collect();
    match &words[..] {
        [make, case, who, many] if make == MAKE => make_calls(case, who, many),
        _ => return report_all(),
    }
    ExitCode::SUCCESS
}

/// Every argument is one of those that `count` writes.
fn make_calls(case: &str, who: &str, many: &str) {
    let case = &measured::all()[case.parse::<usize>().expect("a case's number")];
    let calls = if who == "product" { &case.product } else { &case.model };
    calls(many.parse().expect("a number of calls"));
}

fn report_all() -> ExitCode {
    println!("instructions of one call, or of one slot of a run; means over many\n");
    Case::print_head();
    for (number, case) in measured::all().iter().enumerate() {
        match report(number, case) {
            Ok(()) => {}
            Err(why) if why.kind() == ErrorKind::NotFound => {
                println!("valgrind is not there: no instructions were counted");
                return ExitCode::SUCCESS;
            }
            Err(why) => {
                println!("valgrind did not count: {why}");
                return ExitCode::FAILURE;
            }
        }
    }
    ExitCode::SUCCESS
}

fn report(number: usize, case: &Case) -> io::Result<()> {
    let half = case.many / 2;
    let each = |who| -> io::Result<f64> {
        let (some, twice) = (count(number, who, half)?, count(number, who, 2 * half)?);
        Ok((twice as f64 - some as f64) / half as f64)
    };
    case.print(each("product")?, each("model")?);
    Ok(())
}

/// All instructions of a process that makes so many calls.
fn count(case: usize, who: &str, many: usize) -> io::Result<u64> {
    let told = Command::new("valgrind")
        .env("GLIBC_TUNABLES", TUNABLES)
        .args(["--tool=callgrind", "--callgrind-out-file=/dev/null"])
        .arg(env::current_exe()?)
        .args([MAKE, &case.to_string(), who, &many.to_string()])
        .output()?;
    let text = String::from_utf8_lossy(&told.stderr);
    let collected = text.lines().find_map(|line| line.split_once("Collected :")?.1.trim().parse().ok());
    collected.filter(|_| told.status.success()).ok_or_else(|| io::Error::other(text.to_string()))
}
