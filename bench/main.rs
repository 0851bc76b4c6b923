// The library beside plain C and safe Rust on the same input, in alternating turns of one process. Prints medians in nanoseconds a
// call and, last on each line, the library's time over that of each of the others.
mod agreeing;
mod checking;
mod editing;
mod evaluation;
mod inputs;
mod lookup;
mod measure;
mod moving;
mod origin;
mod planner;
mod plants;
mod reading;
mod report;
mod sheets;
#[path = "../include/foldplover.rs"]
mod surface;
mod table;
mod versions;

fn main() {
    let words: Vec<String> = std::env::args().skip(1).collect();
    let word = |i: usize| words.get(i).map(String::as_str);
    let number = |i: usize| words[i].parse().unwrap();
    match word(0) {
        Some("evaluation") => return evaluation::run(word(1) != Some("untimed")),
        Some("agree") => {
            lookup::agree();
            report::agree();
            return agreeing::run();
        }
        Some("names") if word(1) == Some("lookups") => return lookup::names(),
        Some("names") => return moving::names(),
        Some("lookups") => return lookup::count(number(1), number(2), number(3)),
        Some("moves") => return moving::repeat(number(1), number(2), number(3)),
        Some("reports") => return report::count(number(1), number(2), number(3)),
        _ => {}
    }
    let cpu = std::fs::read_to_string("/proc/cpuinfo").unwrap_or_default();
    let model = cpu.lines().find(|l| l.starts_with("model name")).and_then(|l| l.split(':').nth(1)).unwrap_or(" unknown");
    println!("machine:{} ({}); medians of alternating turns, ns a call", model, std::env::consts::ARCH);
    agreeing::run();
    println!();
    lookup::run();
    println!();
    table::run();
    println!();
    moving::run();
    println!();
    checking::run();
    origin::run();
    println!();
    report::run();
    editing::run();
}
