//! The file `sum` of a generation: what it is, in lines that `sha256sum -c` passes over, and the sums
//! of its files.

use crate::store::sha256;

pub const FILES: [&str; 4] = [super::POLICY, "pair", "gate", "cell"];

/// What was current before a generation.
#[derive(Clone, Copy, PartialEq, Eq, Debug)]
pub enum After {
    Nothing,
    /// The link could not be followed.
    Unknown,
    Generation(u32),
}

pub struct Head {
    pub number: u32,
    pub after: After,
    /// The generation whose text this one takes up again.
    pub same: Option<u32>,
    pub made: String,
    pub what: String,
    pub sums: Vec<(String, String)>,
}

const NONE: &str = "none";
const UNKNOWN: &str = "unknown";

impl After {
    pub fn number(self) -> Option<u32> {
        match self {
            After::Generation(number) => Some(number),
            After::Nothing | After::Unknown => None,
        }
    }

    fn written(self) -> String {
        match self {
            After::Nothing => NONE.to_string(),
            After::Unknown => UNKNOWN.to_string(),
            After::Generation(number) => number.to_string(),
        }
    }

    fn read(word: &str) -> Option<After> {
        match word {
            NONE => Some(After::Nothing),
            UNKNOWN => Some(After::Unknown),
            _ => word.parse().ok().map(After::Generation),
        }
    }
}

impl Head {
    pub fn written(&self) -> String {
        let after = self.after.written();
        let same = self.same.map_or(NONE.to_string(), |number| number.to_string());
        let mut text =
            format!("# foldplover generation {} after {after} same {same}\n", self.number);
        text += &format!("# made {}\n# by {}\n", self.made, self.what);
        for (name, sum) in &self.sums {
            text += &format!("{sum}  {name}\n");
        }
        text += &format!("# sum {}\n", sha256::hex(text.as_bytes()));
        text
    }

    pub fn read(bytes: &[u8], number: u32) -> Result<Head, String> {
        let text = std::str::from_utf8(bytes).map_err(|error| error.to_string())?;
        let head = parsed(text).ok_or("is not the file that was written")?;
        if head.written() != text {
            return Err("is not as it was written (its own sum differs)".to_string());
        }
        // Numbers only fall from a generation to those that it names, so that a walk along them ends.
        let falls = |other: Option<u32>| other.map_or(true, |other| other < number);
        if head.number != number || !falls(head.after.number()) || !falls(head.same) {
            return Err(format!("is not that of generation {number}"));
        }
        Ok(head)
    }
}

/// The number of the generation whose `sum` this is, by its first line.
pub fn number(bytes: &[u8]) -> Option<u32> {
    parsed(std::str::from_utf8(bytes).ok()?).map(|head| head.number)
}

fn parsed(text: &str) -> Option<Head> {
    let mut lines = text.lines();
    let words: Vec<&str> = lines.next()?.split(' ').collect();
    let &["#", "foldplover", "generation", this, "after", after, "same", same] = &words[..] else {
        return None;
    };
    let made = lines.next()?.strip_prefix("# made ")?.to_string();
    let what = lines.next()?.strip_prefix("# by ")?.to_string();
    let mut sums = Vec::new();
    for name in FILES {
        let sum = lines.next()?.strip_suffix(name)?.strip_suffix("  ")?;
        sums.push((name.to_string(), sum.to_string()));
    }
    let after = After::read(after)?;
    let same = if same == NONE { None } else { Some(same.parse().ok()?) };
    Some(Head { number: this.parse().ok()?, after, same, made, what, sums })
}

#[cfg(test)]
mod tests {
    use super::*;

    fn head(number: u32, after: After, same: Option<u32>) -> Head {
        let sums = FILES.map(|name| (name.to_string(), sha256::hex(name.as_bytes()))).to_vec();
        Head { number, after, same, made: "now".to_string(), what: "test".to_string(), sums }
    }

    #[test]
    fn what_is_written_is_read_and_every_changed_byte_is_seen() {
        for after in [After::Nothing, After::Unknown, After::Generation(6)] {
            let written = head(7, after, Some(2)).written();
            let read = Head::read(written.as_bytes(), 7).expect("it is as it was written");
            assert_eq!((read.number, read.after, read.same), (7, after, Some(2)));
            assert!(Head::read(written.as_bytes(), 8).is_err());
            for at in 0..written.len() {
                let mut bytes = written.clone().into_bytes();
                bytes[at] ^= 1;
                assert!(Head::read(&bytes, 7).is_err(), "byte {at}");
            }
        }
    }

    /// A walk along `after` or `same` would not end otherwise.
    #[test]
    fn a_generation_names_only_earlier_ones() {
        for (after, same) in [(7, None), (8, None), (6, Some(7)), (6, Some(9))] {
            let written = head(7, After::Generation(after), same).written();
            assert!(Head::read(written.as_bytes(), 7).is_err());
        }
    }
}
