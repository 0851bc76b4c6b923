//! The words of a rule read into rules: one for each choice of a value in every field.

use crate::library::MOST_OWN_RULES;
use crate::numbers::number;
use crate::rule::{
    Ranges, Rule, DESTINATION, DESTINATION_PORT, FIELDS, PROTOCOL, SOURCE, SOURCE_PORT,
};
use crate::text::known::{
    field_name, field_of, nearest, value_of, FIELD_WORDS, PORTS, PROTOCOLS, SERVICE,
};
use crate::text::print;
use crate::text::values::{each, shown, Names, Span, Wrong};
use crate::text::words::Word;

/// What is wrong with a word.
type Step<'a, T> = Result<T, (Word<'a>, Wrong)>;

/// A port that was named by a service: the word, and the service's protocol.
struct Named<'a> {
    word: Word<'a>,
    protocol: u32,
}

/// The values of a rule's fields; a field that is not named has none.
#[derive(Default)]
struct Values<'a> {
    taken: [bool; FIELDS],
    by_service: bool,
    spans: [Vec<Span>; FIELDS],
    /// Destination port and protocol of each service.
    services: Vec<(Span, Span)>,
    named: Vec<Named<'a>>,
}

fn fault<'a, T>(word: &Word<'a>, message: String) -> Step<'a, T> {
    Err((*word, Wrong { behind: 0, message }))
}

/// The rules that a line stands for; its first word is the action.
pub fn rules<'a>(names: &Names, words: &[Word<'a>]) -> Step<'a, Vec<Rule>> {
    let (action, fields) = (&words[0], &words[1..]);
    let mut values = Values::default();
    for pair in fields.chunks(2) {
        let word = &pair[0];
        let Some(field) = field_of(word.text).or((word.text == SERVICE).then_some(FIELDS)) else {
            return fault(word, no_field(word.text));
        };
        values.take(field).or_else(|what| fault(word, what))?;
        let Some(value) = pair.get(1) else {
            return fault(word, format!("{} has no value", word.text));
        };
        values.read(names, field, value).map_err(|wrong| (*value, wrong))?;
    }
    values.protocols_agree()?;
    let count = values.count();
    if count > MOST_OWN_RULES {
        let what = "rules, more than a list may have";
        return fault(action, format!("this line stands for {} {what}", number(count)));
    }
    let allows = action.text == "allow";
    Ok(values.boxes().into_iter().map(|ranges| Rule { ranges, allows }).collect())
}

impl<'a> Values<'a> {
    /// Marks a field, or the two that `service` names, as named.
    fn take(&mut self, field: usize) -> Result<(), String> {
        let service = field == FIELDS;
        let fields = if service { vec![DESTINATION_PORT, PROTOCOL] } else { vec![field] };
        for field in fields {
            if self.taken[field] {
                let name = field_name(field);
                return Err(match service != self.by_service {
                    true => format!("service and {name} do not go together: a service has its own"),
                    false if service => "service is named twice".to_string(),
                    false => format!("{name} is named twice"),
                });
            }
            self.taken[field] = true;
        }
        self.by_service |= service;
        Ok(())
    }

    fn read(&mut self, names: &Names, field: usize, value: &Word<'a>) -> Result<(), Wrong> {
        let word = value.text;
        match field {
            SOURCE | DESTINATION => {
                self.spans[field] = each(word, |part| Ok(vec![names.address(part, field)?]))?;
            }
            PROTOCOL => self.spans[field] = each(word, |part| Ok(vec![names.protocol(part)?]))?,
            SOURCE_PORT | DESTINATION_PORT => {
                let ports = each(word, |part| names.port(part, field))?;
                let of = ports.iter().filter_map(|port| port.protocol);
                self.named.extend(of.map(|protocol| Named { word: *value, protocol }));
                self.spans[field] = ports.into_iter().map(|port| port.span).collect();
            }
            _ => {
                self.services = each(word, |part| {
                    let service = names.service(part)?;
                    let protocol = (service.protocol, service.protocol);
                    Ok(service.ports.iter().map(|&port| (port, protocol)).collect())
                })?;
            }
        }
        Ok(())
    }

    /// A port that was named by a service is that of the service's protocol: the rule has to say it.
    fn protocols_agree(&self) -> Step<'a, ()> {
        for Named { word, protocol } in &self.named {
            if self.spans[PROTOCOL] == [(*protocol, *protocol)] {
                continue;
            }
            let name = print::protocol(*protocol);
            let what = match self.taken[PROTOCOL] {
                true => "and the rule has another protocol".to_string(),
                false => format!(
                    "so add `proto {name}`, or write `service` for `{}`",
                    field_name(DESTINATION_PORT)
                ),
            };
            return fault(word, format!("{} names a service of {name}, {what}", shown(word.text)));
        }
        Ok(())
    }

    /// How many rules the values stand for.
    fn count(&self) -> usize {
        let lists = self.spans.iter().map(Vec::len).chain([self.services.len()]);
        lists.fold(1, |count: usize, values| count.saturating_mul(values.max(1)))
    }

    fn boxes(&self) -> Vec<Ranges> {
        let mut boxes = vec![Ranges::FULL];
        for field in 0..FIELDS {
            boxes = chosen(boxes, &self.spans[field], |ranges, &(low, high)| {
                (ranges.low[field], ranges.high[field]) = (low, high);
            });
        }
        chosen(boxes, &self.services, |ranges, &(port, protocol)| {
            (ranges.low[DESTINATION_PORT], ranges.high[DESTINATION_PORT]) = port;
            (ranges.low[PROTOCOL], ranges.high[PROTOCOL]) = protocol;
        })
    }
}

/// Every box with every value put in; as they are where there is none.
fn chosen<T>(boxes: Vec<Ranges>, values: &[T], put: impl Fn(&mut Ranges, &T)) -> Vec<Ranges> {
    if values.is_empty() {
        return boxes;
    }
    let mut all = Vec::new();
    for ranges in boxes {
        for value in values {
            let mut ranges = ranges;
            put(&mut ranges, value);
            all.push(ranges);
        }
    }
    all
}

/// A word where a field stands: says which field it may be a value of.
fn no_field(word: &str) -> String {
    if value_of(&PROTOCOLS, word).is_some() {
        return format!("{word} is a protocol; write proto {word}");
    }
    if value_of(&PORTS, word).is_some() {
        return format!("{word} is a port; write dport {word} or sport {word}");
    }
    let near = nearest(word, FIELD_WORDS.iter().map(|(name, _)| *name).chain([SERVICE]));
    format!("unknown word `{}` where a field stands{near}", shown(word))
}
