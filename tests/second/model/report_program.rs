//! What `report` prints for four files (02, W3). They are read whole here, not a block at a time.

use std::fs::File;
use std::io::Read;

use crate::model::calls;
use crate::model::refusals::Refusal;
use crate::model::reports::{self, Report};

const USAGE: &str = "usage: report SHEET PACKETS EARLIER LATER\n";

enum Failure {
    Refused(Refusal),
    CannotRead(String),
}

impl From<Refusal> for Failure {
    fn from(refusal: Refusal) -> Failure {
        Failure::Refused(refusal)
    }
}

pub fn print(words: &[&str]) -> String {
    let Ok(names) = <[&str; 4]>::try_from(words) else {
        return USAGE.to_string();
    };
    match report(names) {
        Ok(report) => lines(&report),
        Err(Failure::Refused(refusal)) => format!("refused {}\n", refusal.number()),
        Err(Failure::CannotRead(name)) => format!("cannot read {name}\n"),
    }
}

/// All files are opened before one is read; then each is read when its turn comes.
fn report(names: [&str; 4]) -> Result<Report, Failure> {
    let [sheet, packets, earlier, later] = names.map(Opened::new);
    let (mut sheet, mut packets, mut earlier, mut later) = (sheet?, packets?, earlier?, later?);
    let pair = calls::checked(&sheet.read()?)?;
    let hits = reports::hits(&pair, &earlier.read()?, &later.read()?)?;
    let counts = reports::counts(&pair, &packets.read()?)?;
    Ok(Report { counts, hits })
}

struct Opened<'n> {
    name: &'n str,
    file: File,
}

impl Opened<'_> {
    fn new(name: &str) -> Result<Opened<'_>, Failure> {
        let file = File::open(name).map_err(|_| Failure::CannotRead(name.to_string()))?;
        Ok(Opened { name, file })
    }

    fn read(&mut self) -> Result<Vec<u8>, Failure> {
        let mut bytes = Vec::new();
        let read = self.file.read_to_end(&mut bytes);
        read.map_err(|_| Failure::CannotRead(self.name.to_string()))?;
        Ok(bytes)
    }
}

pub fn lines(report: &Report) -> String {
    let counts = &report.counts;
    let gain = match counts.gain() {
        Some((before, after)) => format!("{before}/{after}"),
        None => "none".to_string(),
    };
    let totals = [
        format!("packets {}\n", counts.packets),
        format!("before {}\n", counts.before),
        format!("after {}\n", counts.after),
        format!("forwarded {}\n", counts.forwarded),
        format!("gain {gain}\n"),
    ];
    let hits = report.hits.iter().enumerate().map(|(place, hits)| format!("{place} {hits}\n"));
    totals.into_iter().chain(hits).collect()
}
