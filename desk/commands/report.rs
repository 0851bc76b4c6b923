//! `report`: what the plant's packets cost the two filters, in words and as a picture.

use crate::arguments::Arguments;
use crate::commands::{ahead, Command};
use crate::cost;
use crate::disk;
use crate::library::{self, Load, Readings, Refusal, MOST_RULES, PACKET, READING};
use crate::numbers::{counted, number};
use crate::output::{note, Output};
use crate::picture::{self, LoadLine, LoadOf, Picture};
use crate::rule::Which;
use crate::stop::{Result, Stop, DONE};
use crate::store::{Generation, Store};
use crate::text::RuleLine;

pub const REPORT: Command = Command {
    name: "report",
    takes: "F PACKETS EARLIER LATER [--of N] [--html OUT]",
    does: "reports what packets cost both filters, and the hits between two readings of the counters",
    help: "PACKETS are packet bytes, as packets writes them; EARLIER and LATER are readings of the cell filter's\n\
           counters, four bytes for each place of its list. Where there are none yet, - stands for each of\n\
           them. Prints rules tried before the move and after it, packets forwarded, the gain, and the hits\n\
           of each line. --of N reports on generation N: take the one whose list was loaded between the\n\
           readings. --html writes it as one page with pictures, the load by generation among them.",
    valued: &["--html", "--of"],
    flags: &[],
    run,
};

/// Generations in the picture, the reported one the last.
const GENERATIONS: usize = 12;

/// What is reported on.
struct Input {
    packets: Vec<u8>,
    earlier: Vec<u8>,
    later: Vec<u8>,
    /// The names of the file of packets, and of those of readings if any were given.
    packets_of: String,
    readings: Option<[String; 2]>,
}

fn run(arguments: &Arguments, output: &mut Output) -> Result<u8> {
    let [path, packets, earlier, later] = arguments.exactly()?;
    let html = arguments.option("--html");
    let html = html.map(|out| arguments.file(out, &[path, packets, earlier, later])).transpose()?;
    let store = Store::of(path.as_ref())?;
    let asked = arguments.generation()?;
    let generation = store.asked(asked)?;
    if let (None, Some(why)) = (asked, ahead(&store, &generation)) {
        note(format!("{why}; this is of the generation"));
    }
    let files = [packets, earlier, later];
    let input = Input::new(files, generation.plan.places(), arguments)?;
    let load = library::report(&generation.plan.pair, &input.packets, &input.read())
        .map_err(|refusal| refused(packets, refusal))?;
    let mut picture = picture(&store, &generation, &input, &load)?;
    print(&picture, output);
    if let Some(out) = html {
        (picture.generations, picture.left_out) =
            generations(&store, generation.head.number, &input.packets)?;
        disk::replace(out.as_ref(), picture::page(&picture).as_bytes())?;
        note(format!("{out}: written"));
    }
    Ok(DONE)
}

fn refused(packets: &str, Refusal(number): Refusal) -> Stop {
    let what = match number {
        2 => "more than 1,000,000 packets; take parts",
        3 => "the last packet is broken: packets have 13 bytes each",
        _ => "the library does not take what it was given",
    };
    Stop::Refused(format!("{packets}: refused ({number}): {what}"))
}

impl Input {
    /// Packets and readings; `-` stands for readings that are not there yet.
    fn new(files: [&str; 3], places: usize, arguments: &Arguments) -> Result<Input> {
        let [packets_of, earlier_of, later_of] = files;
        if (earlier_of == "-") != (later_of == "-") {
            return Err(arguments.usage("- stands for both readings or for none".to_string()));
        }
        let packets = disk::read(packets_of.as_ref())?;
        let readings = |name: &str| match name {
            "-" => Ok(vec![0; READING * places]),
            _ => disk::read(name.as_ref()),
        };
        let (earlier, later) = (readings(earlier_of)?, readings(later_of)?);
        for (name, has) in [(earlier_of, earlier.len()), (later_of, later.len())] {
            if has != READING * places {
                let what =
                    format!("refused (3): {has} bytes, where the cell list has {places} places");
                return Err(Stop::Refused(format!("{name}: {what}: {} bytes", READING * places)));
            }
        }
        let names = (earlier_of != "-").then(|| [earlier_of, later_of].map(str::to_string));
        Ok(Input { packets, earlier, later, packets_of: packets_of.to_string(), readings: names })
    }

    fn read(&self) -> Readings<'_> {
        Readings { earlier: &self.earlier, later: &self.later }
    }
}

/// Rules that the gate alone tried before the move: the report has both filters in one sum.
fn gate_before(generation: &Generation, packets: &[u8]) -> Result<u64> {
    let refused =
        |Refusal(number)| Stop::Refused(format!("the gate's list was refused ({number})"));
    let mut tries = 0;
    for bytes in packets.chunks(PACKET) {
        tries += library::lookup(&library::packet(bytes), &generation.plan.own_gate)
            .map_err(refused)?
            .place as u64
            + 1;
    }
    Ok(tries)
}

fn picture(store: &Store, generation: &Generation, input: &Input, load: &Load) -> Result<Picture> {
    let gate_before = gate_before(generation, &input.packets)?;
    let (lines, owners) = lines(generation, &load.hits);
    Ok(Picture {
        plant: store.text.display().to_string(),
        generation: generation.head.number,
        made: generation.head.made.clone(),
        packets: load.packets,
        forwarded: load.forwarded,
        gate_before,
        cell_before: load.before - gate_before,
        gate_after: load.packets,
        cell_after: load.after - load.packets,
        gain: load.gain,
        hits: load.hits.clone(),
        owners,
        lines,
        most: MOST_RULES,
        packets_of: input.packets_of.clone(),
        readings: input.readings.clone(),
        left_out: 0,
        generations: Vec::new(),
    })
}

/// The lines that have places in the cell list, and for each place whose it is.
fn lines(generation: &Generation, hits: &[u32]) -> (Vec<LoadLine>, Vec<usize>) {
    let (plan, policy) = (&generation.plan, &generation.policy);
    let has_places =
        |line: &&RuleLine| line.which == Which::Own || !plan.order.gate[line.places.start].allows;
    let mut with: Vec<_> = policy.lines.iter().filter(has_places).collect();
    with.sort_by_key(|line| (line.which, line.line));
    let index = |(which, place): (Which, usize)| {
        let owns = |line: &&RuleLine| line.which == which && line.places.contains(&place);
        with.iter().position(|line| owns(&line)).unwrap_or(0)
    };
    let owners: Vec<usize> = plan.owners().into_iter().map(index).collect();
    let mut lines: Vec<LoadLine> = with
        .iter()
        .map(|line| LoadLine {
            which: line.which,
            line: line.line,
            text: line.words.clone(),
            places: 0,
            most_pieces: match line.which {
                Which::Gate => {
                    let most =
                        line.places.clone().map(|at| cost::most_pieces(&plan.order.gate, at));
                    most.flatten().max().unwrap_or(0)
                }
                Which::Own => 0,
            },
            hits: 0,
        })
        .collect();
    for (&owner, &hits) in owners.iter().zip(hits) {
        lines[owner].places += 1;
        lines[owner].hits += u64::from(hits);
    }
    (lines, owners)
}

/// The load of the same packets on a generation and those before it, oldest first, and how many are left
/// out.
fn generations(store: &Store, last: u32, packets: &[u8]) -> Result<(Vec<LoadOf>, usize)> {
    let mut loads = Vec::new();
    let history = store.history()?;
    let before = history.generations().map(|(number, _)| number).filter(|number| *number <= last);
    let before: Vec<u32> = before.collect();
    for &number in before.iter().take(GENERATIONS) {
        // One that cannot be used any more has no load; log says why.
        let Ok(generation) = store.open(number) else { continue };
        let places = generation.plan.places();
        let zeros = vec![0; READING * places];
        let readings = Readings { earlier: &zeros, later: &zeros };
        if let Ok(load) = library::report(&generation.plan.pair, packets, &readings) {
            let (before, after) = (load.before, load.after);
            loads.push(LoadOf { number, places, before, after });
        }
    }
    loads.reverse();
    let left_out = before.len() - loads.len();
    Ok((loads, left_out))
}

fn print(picture: &Picture, output: &mut Output) {
    let Picture { plant, generation, packets, forwarded, .. } = picture;
    output.line(format!(
        "{plant}, generation {generation}, {}",
        counted(*packets as usize, "packet", "packets")
    ));
    for (when, gate, cell) in [
        ("before", picture.gate_before, picture.cell_before),
        ("after", picture.gate_after, picture.cell_after),
    ] {
        let (all, gate, cell) = (number(gate + cell), number(gate), number(cell));
        output.line(format!("{when:<10}{all} rules tried: gate {gate}, cell {cell}"));
    }
    output.line(format!("forwarded {}", number(*forwarded)));
    output.line(match picture.gain {
        Some((one, two)) => format!("gain      {one}/{two} (about {:.2})", one as f64 / two as f64),
        None => "gain      none".to_string(),
    });
    table(picture, output);
    let (free, most) = (picture.most.saturating_sub(picture.hits.len()), picture.most);
    output.line(format!("{} of {} places of the cell list are free", number(free), number(most)));
}

/// A row for each line of the text that has places, its columns as wide as they need to be.
fn table(picture: &Picture, output: &mut Output) {
    let mut rows = vec![["line", "places", "hits", "most pieces", "rule"].map(str::to_string)];
    for line in &picture.lines {
        let hits = if picture.readings.is_some() { number(line.hits) } else { "-".to_string() };
        let most = match line.which {
            Which::Gate => number(line.most_pieces),
            Which::Own => "own rule".to_string(),
        };
        let [line_number, places] = [line.line, line.places].map(number);
        rows.push([line_number, places, hits, most, line.text.clone()]);
    }
    let widths: Vec<usize> =
        (0..4).map(|column| rows.iter().map(|row| row[column].len()).max().unwrap_or(0)).collect();
    for row in &rows {
        let columns = widths.iter().zip(row).map(|(width, cell)| format!("  {cell:>width$}"));
        output.line(format!("{}  {}", columns.collect::<String>(), row[4]));
    }
}
