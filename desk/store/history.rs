//! Which of the numbered folders are generations, and which were left over.

use crate::stop::{Result, Stop};
use crate::store::sum::{After, Head};
use std::collections::BTreeMap;

/// The numbered folders of a plant, each with what its `sum` says or why it cannot be read.
pub struct History {
    pub current: Option<u32>,
    folders: BTreeMap<u32, Result<Head>>,
}

impl History {
    pub fn new(current: Option<u32>, folders: BTreeMap<u32, Result<Head>>) -> History {
        History { current, folders }
    }

    fn heads(&self) -> impl Iterator<Item = &Head> {
        self.folders.values().flatten()
    }

    pub fn head(&self, number: u32) -> Option<&Head> {
        self.folders.get(&number).and_then(|head| head.as_ref().ok())
    }

    /// Whether any generation may have followed another: then there has been a link.
    pub fn has_followers(&self) -> bool {
        let first =
            |head: &Result<Head>| head.as_ref().is_ok_and(|head| head.after == After::Nothing);
        self.folders.values().any(|head| !first(head))
    }

    /// A folder that got its number and never became current. Numbers only grow, and so does `current`:
    /// one that a later generation passed over was never current, and neither was one behind the
    /// current one. Where nothing tells, it counts as a generation.
    pub fn is_left_over(&self, number: u32) -> bool {
        let followed = |head: &Head| head.after == After::Generation(number);
        if self.current == Some(number) || self.heads().any(followed) {
            return false;
        }
        let passed = |head: &Head| match head.after {
            After::Generation(before) => before < number && number < head.number,
            After::Nothing => number < head.number,
            After::Unknown => false,
        };
        self.current.map_or(true, |current| current < number) || self.heads().any(passed)
    }

    /// The generations, the newest first, each with why it cannot be read if that is so.
    pub fn generations(&self) -> impl Iterator<Item = (u32, &Result<Head>)> {
        let folders = self.folders.iter().rev().map(|(number, head)| (*number, head));
        folders.filter(|(number, _)| !self.is_left_over(*number))
    }

    /// A number that somebody gave, if it is that of a generation.
    pub fn known(&self, number: u32) -> Result<u32> {
        match self.generations().any(|(known, _)| known == number) {
            true => Ok(number),
            false => Err(Stop::Usage(format!("there is no generation {number}; log lists them"))),
        }
    }

    /// The generation whose text a generation took up first, of a row of undos.
    pub fn first_of(&self, number: u32) -> u32 {
        let mut number = number;
        while let Some(same) = self.head(number).and_then(|head| head.same) {
            number = same;
        }
        number
    }
}

#[cfg(test)]
mod tests {
    use super::*;

    /// The numbers that count as generations, of folders with what was current before each; 0 is nothing,
    /// and without it the sum cannot be read.
    fn generations(current: u32, folders: &[(u32, Option<u32>)]) -> Vec<u32> {
        let read = |&(number, after): &(u32, Option<u32>)| {
            let after = match after {
                Some(0) => After::Nothing,
                Some(u32::MAX) => After::Unknown,
                Some(before) => After::Generation(before),
                None => return (number, Err(Stop::Files("damaged".to_string()))),
            };
            let (made, what, sums) = (String::new(), String::new(), Vec::new());
            (number, Ok(Head { number, after, same: None, made, what, sums }))
        };
        let folders = folders.iter().map(read).collect();
        let history = History::new((current > 0).then_some(current), folders);
        history.generations().map(|(number, _)| number).collect()
    }

    #[test]
    fn only_what_was_never_current_is_left_over() {
        const UNKNOWN: Option<u32> = Some(u32::MAX);
        // One behind the other; one that was cut off before the link, passed over or not yet.
        assert_eq!(generations(3, &[(1, Some(0)), (2, Some(1)), (3, Some(2))]), [3, 2, 1]);
        assert_eq!(generations(1, &[(1, Some(0)), (2, Some(1))]), [1]);
        assert_eq!(generations(3, &[(1, Some(0)), (2, Some(1)), (3, Some(1))]), [3, 1]);
        assert_eq!(generations(0, &[(1, Some(0))]), []);
        assert_eq!(generations(2, &[(1, Some(0)), (2, Some(0))]), [2]);
        // One that is damaged or lost hides none.
        assert_eq!(
            generations(4, &[(1, Some(0)), (2, None), (3, Some(2)), (4, Some(3))]),
            [4, 3, 2, 1]
        );
        assert_eq!(generations(4, &[(1, Some(0)), (2, Some(1)), (4, Some(3))]), [4, 2, 1]);
        // The link was lost, and a new one made without looking.
        assert_eq!(
            generations(4, &[(1, Some(0)), (2, Some(1)), (3, Some(2)), (4, UNKNOWN)]),
            [4, 3, 2, 1]
        );
    }
}
