//! The second program: a plain model of 01, with what 02 has changed, and a driver that holds the
//! library against it.

// Without the library there is no driver, and half of the model waits for it.
#![cfg_attr(not(library), allow(dead_code))]

mod draw;
#[cfg(library)]
mod driver;
mod model;
mod selftest;
mod selftest_reports;

use std::io::{self, Read, Write};
use std::process::ExitCode;

use draw::stream;
use model::{before, calls, plan, report_program, sheets};

const USAGE: &str = "\
second selftest                the model's own tests
second plan < ORDER            what plan prints for an order sheet
second move < ORDER            the pair sheet of an order sheet
second before < ORDER          the pair sheet that a move gave before W2
second report SHEET PACKETS EARLIER LATER
                               what report prints for these files
second cases COUNT SEED        a stream of cases for the product's test program
second expected < CASES        what that program has to print
second drive N SEED [FIRST]    N cases against the library (built with --cfg library)";

fn standard_input() -> Vec<u8> {
    let mut bytes = Vec::new();
    io::stdin().read_to_end(&mut bytes).expect("standard input can be read");
    bytes
}

fn print(bytes: &[u8]) -> ExitCode {
    io::stdout().write_all(bytes).expect("standard output can be written");
    ExitCode::SUCCESS
}

fn code(held: bool) -> ExitCode {
    match held {
        true => ExitCode::SUCCESS,
        false => ExitCode::FAILURE,
    }
}

fn fail(message: &str) -> ExitCode {
    eprintln!("{message}");
    ExitCode::FAILURE
}

fn main() -> ExitCode {
    let arguments: Vec<String> = std::env::args().skip(1).collect();
    let words: Vec<&str> = arguments.iter().map(String::as_str).collect();
    let numbers: Vec<u64> = words.iter().skip(1).filter_map(|word| word.parse().ok()).collect();
    match (&words[..], &numbers[..]) {
        (["selftest"], _) => code(selftest::run()),
        (["plan"], _) => print(plan::print(&standard_input()).as_bytes()),
        (["move"], _) => match calls::moved(&standard_input()) {
            Ok(pair) => print(&sheets::pair_bytes(&pair)),
            Err(refusal) => fail(&format!("refused {}", refusal.number())),
        },
        (["report", names @ ..], _) => print(report_program::print(names).as_bytes()),
        (["before"], _) => {
            let order = sheets::read_order(&standard_input()).ok();
            match order.and_then(|order| before::moved(&order.gate, &order.own)) {
                Some(pair) => print(&sheets::pair_bytes(&pair)),
                None => fail("refused"),
            }
        }
        (["cases", _, _], &[count, seed]) => print(&stream::cases(count, seed)),
        (["expected"], _) => match stream::expected(&standard_input()) {
            Some(lines) => print(lines.as_bytes()),
            None => fail("the stream of cases is not whole"),
        },
        #[cfg(library)]
        (["drive", _, _], &[count, seed]) => code(driver::run(count, seed, 0)),
        #[cfg(library)]
        (["drive", _, _, _], &[count, seed, first]) => code(driver::run(count, seed, first)),
        _ => fail(USAGE),
    }
}
