//! `order`, `packets` and `readings`: readable files into the bytes that the programs take.

use crate::arguments::Arguments;
use crate::commands::{Command, Text, NOTHING_WRITTEN};
use crate::disk::{self, Prepared};
use crate::library::{self, MOST_PACKETS};
use crate::numbers::counted;
use crate::output::{standard_output, Output};
use crate::rule::{Packet, DESTINATION_PORT, FIELDS, PROTOCOL, SOURCE_PORT};
use crate::stop::{Result, Stop, DONE};
use crate::text::{self, Names};

pub const ORDER: Command = Command {
    name: "order",
    takes: "F -o OUT",
    does: "writes the order sheet of the text F",
    help: "For the program plan and for the library's calls. A text that a move refuses has an order sheet\n\
           too, as long as its lists have no more rules than they may and end in full ones.",
    valued: &["-o"],
    flags: &[],
    run: order,
};

pub const PACKETS: Command = Command {
    name: "packets",
    takes: "LINES -o OUT",
    does: "writes the packet bytes of lines of five values, as `tshark -T fields` prints them",
    help: "A line has source, destination, source port, destination port and protocol, set apart by tabs or\n\
           blanks; between tabs an empty port is 0. A sixth value says how often the packet came. LINES may\n\
           be -, standard input; OUT may be -, standard output. What follows # is a remark.",
    valued: &["-o"],
    flags: &[],
    run: packets,
};

pub const READINGS: Command = Command {
    name: "readings",
    takes: "LINES --earlier OUT --later OUT",
    does: "writes two files of readings from lines: place, earlier reading, later reading",
    help: "The places of the cell list from 0, each on a line. What follows # is a remark.",
    valued: &["--earlier", "--later"],
    flags: &[],
    run: readings,
};

fn order(arguments: &Arguments, output: &mut Output) -> Result<u8> {
    let [path] = arguments.exactly()?;
    let out = arguments.output(arguments.needed("-o")?, &[path])?;
    let text = Text::read(path.as_ref())?;
    let sheet = library::join(&text.policy.order)
        .map_err(|refusal| text.lines().refused(refusal, NOTHING_WRITTEN))?;
    write(out, &sheet, output, "order sheet")
}

fn read(path: &str) -> Result<String> {
    let bytes = match path {
        "-" => disk::read_from(std::io::stdin())
            .map_err(|error| Stop::Files(format!("standard input: {error}")))?,
        _ => disk::read(path.as_ref())?,
    };
    String::from_utf8(bytes).map_err(|_| Stop::Text(format!("{path}: is no UTF-8 text")))
}

fn write(out: &str, bytes: &[u8], output: &mut Output, what: &str) -> Result<u8> {
    if out == "-" {
        standard_output(bytes)?;
    } else {
        disk::replace(out.as_ref(), bytes)?;
        output.line(format!("{out}: {what}, {}", counted(bytes.len(), "byte", "bytes")));
    }
    Ok(DONE)
}

/// The values of a line: between tabs if it has any, else between blanks.
fn values(line: &str) -> Vec<&str> {
    let line = line.split('#').next().unwrap_or("");
    let line = line.strip_suffix('\r').unwrap_or(line);
    match line.contains('\t') {
        true => line.trim_end().split('\t').map(str::trim).collect(),
        false => line.split_whitespace().collect(),
    }
}

/// Each line that has values, with its number; the first one at fault is named.
fn each_line(
    path: &str,
    text: &str,
    mut take: impl FnMut(&[&str]) -> std::result::Result<(), String>,
) -> Result<()> {
    for (at, line) in text.lines().enumerate() {
        let values = values(line);
        if values.iter().all(|value| value.is_empty()) {
            continue;
        }
        take(&values)
            .map_err(|what| Stop::Text(format!("{path}:{}: {what}; {NOTHING_WRITTEN}", at + 1)))?;
    }
    Ok(())
}

fn packets(arguments: &Arguments, output: &mut Output) -> Result<u8> {
    let [path] = arguments.exactly()?;
    let (out, text) = (arguments.output(arguments.needed("-o")?, &[path])?, read(path)?);
    let (names, mut bytes, mut count) = (Names::default(), Vec::new(), 0);
    each_line(path, &text, |values| {
        let (packet, times) = packet(&names, values)?;
        count += times;
        if count > MOST_PACKETS {
            return Err("more than 1,000,000 packets; take parts".to_string());
        }
        for _ in 0..times {
            bytes.extend(library::packet_bytes(&packet));
        }
        Ok(())
    })?;
    write(out, &bytes, output, &counted(count, "packet", "packets"))
}

fn packet(names: &Names, values: &[&str]) -> std::result::Result<(Packet, usize), String> {
    let times = match values {
        [_, _, _, _, _] => 1,
        [_, _, _, _, _, times] => {
            text::number(times, MOST_PACKETS as u32).map_err(|wrong| wrong.message)? as usize
        }
        _ => {
            let what = "values where a packet has five, and may have how often it came";
            return Err(format!("{} {what}", values.len()));
        }
    };
    let mut packet = [0; FIELDS];
    for (field, &word) in values[..FIELDS].iter().enumerate() {
        let span = match field {
            SOURCE_PORT | DESTINATION_PORT if word.is_empty() => Ok((0, 0)),
            SOURCE_PORT | DESTINATION_PORT => names.port(word, field).map(|ports| ports[0].span),
            PROTOCOL => names.protocol(word),
            _ => names.address(word, field),
        };
        let (low, high) = span.map_err(|wrong| wrong.message)?;
        if low != high {
            return Err(format!("`{word}` is more than one value"));
        }
        packet[field] = low;
    }
    Ok((packet, times))
}

fn readings(arguments: &Arguments, output: &mut Output) -> Result<u8> {
    let [path] = arguments.exactly()?;
    let earlier_out = arguments.file(arguments.needed("--earlier")?, &[path])?;
    let later_out = arguments.file(arguments.needed("--later")?, &[path, earlier_out])?;
    let text = read(path)?;
    let (mut earlier, mut later, mut places) = (Vec::new(), Vec::new(), 0);
    each_line(path, &text, |values| {
        let number = |word: &str| text::number(word, u32::MAX).map_err(|wrong| wrong.message);
        match values {
            [place, one, two] if number(place)? == places => {
                earlier.extend(number(one)?.to_be_bytes());
                later.extend(number(two)?.to_be_bytes());
                places += 1;
                Ok(())
            }
            _ => Err(format!("not place {places}, its earlier and its later reading")),
        }
    })?;
    // Both are written before either has its name.
    let mut prepared = Vec::new();
    for (out, bytes) in [(earlier_out, &earlier), (later_out, &later)] {
        prepared.push((out, Prepared::new(out.as_ref(), bytes)?));
    }
    for (out, file) in &mut prepared {
        file.put()?;
        file.sync()?;
        output.line(format!("{out}: {}", counted(places, "reading", "readings")));
    }
    Ok(DONE)
}
