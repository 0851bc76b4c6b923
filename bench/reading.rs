// The safe Rust planner's reading of order sheets and pair sheets from left to right; the first refusal decides.
use crate::sheets::{four, two, Region, Rule, BOX, FULL, GATE, MOST, OWN, RECORD};

pub fn region_at(s: &[u8]) -> Region {
    let s: &[u8; BOX] = s[..BOX].try_into().unwrap();
    Region {
        low: [four(&s[0..]), four(&s[8..]), two(&s[16..]), two(&s[20..]), s[24] as u32],
        high: [four(&s[4..]), four(&s[12..]), two(&s[18..]), two(&s[22..]), s[25] as u32],
    }
}

pub fn rule_at(s: &[u8]) -> Rule {
    Rule { region: region_at(s), action: s[BOX] }
}

fn proper(r: &Region) -> bool {
    r.low.iter().zip(&r.high).all(|(l, h)| l <= h)
}

pub fn sound(r: &Rule) -> bool {
    r.action <= 1 && proper(&r.region)
}

// A section's rules and the bytes behind it, or the first refusal.
pub fn section(s: &[u8], most: usize) -> Result<(Vec<Rule>, &[u8]), u32> {
    if s.len() < 2 {
        return Err(3);
    }
    let count = two(s) as usize;
    if count < 1 || count > most {
        return Err(2);
    }
    let end = 2 + RECORD * count;
    if s.len() < end {
        return Err(3);
    }
    let rules: Vec<Rule> = s[2..end].chunks_exact(RECORD).map(rule_at).collect();
    if !rules.iter().all(sound) {
        return Err(4);
    }
    if rules[count - 1].region != FULL {
        return Err(5);
    }
    Ok((rules, &s[end..]))
}

// A pair sheet: its lists and its groups, each group as the bytes that it stands in, count included.
pub struct Pair<'a> {
    pub gate: Vec<Rule>,
    pub own: Vec<Rule>,
    pub groups: Vec<&'a [u8]>,
}

pub fn pair(s: &[u8]) -> Result<Pair<'_>, u32> {
    let (gate, rest) = section(s, GATE)?;
    let (own, mut rest) = section(rest, OWN)?;
    if rest.len() < 2 {
        return Err(3);
    }
    let denies = gate.iter().filter(|r| r.action == 0).count();
    if two(rest) as usize != denies {
        return Err(8);
    }
    rest = &rest[2..];
    let mut total = own.len();
    let mut groups = Vec::with_capacity(denies);
    for _ in 0..denies {
        if rest.len() < 2 {
            return Err(3);
        }
        let count = two(rest) as usize;
        total += count;
        if total > MOST {
            return Err(7);
        }
        let end = 2 + BOX * count;
        if rest.len() < end {
            return Err(3);
        }
        if !rest[2..end].chunks_exact(BOX).all(|s| proper(&region_at(s))) {
            return Err(4);
        }
        groups.push(&rest[..end]);
        rest = &rest[end..];
    }
    if !rest.is_empty() {
        return Err(3);
    }
    Ok(Pair { gate, own, groups })
}
