//! Partners that the operator chooses: pairs of a cue of the show and one of the rig that a map must have, or must not have.

use crate::answer::{Pair, Sheet};
use crate::status::Failure;
use crate::words::{listed, shown};

/// More names of a sheet are counted and not told.
const MOST_TOLD: usize = 12;

/// The pairs that a map must have, and those that it must not have.
#[derive(Clone, Debug, Default)]
pub struct Pins {
    pub pins: Vec<Pair>,
    pub not: Vec<Pair>,
    /// More pairs that it must have, since their names are equal.
    pub names: Vec<Pair>,
}

impl Pins {
    /// The pairs that the options give by number or name; they are refused where they plainly contradict each other.
    pub fn new(pins: &[String], not: &[String], show: &Sheet, rig: &Sheet) -> Result<Pins, Failure> {
        let read = |option: &str, texts: &[String]| {
            let mut pairs = Vec::new();
            for text in texts {
                let pair = pair(text, show, rig)
                    .map_err(|why| Failure::usage(format!("--{option} {}: {why}", shown(text))))?;
                if !pairs.contains(&pair) {
                    pairs.push(pair);
                }
            }
            Ok(pairs)
        };
        let chosen = Pins { pins: read("pin", pins)?, not: read("not", not)?, names: Vec::new() };
        match chosen.contradiction(show, rig) {
            Some(why) => Err(Failure::usage(why)),
            None => Ok(chosen),
        }
    }

    pub fn is_empty(&self) -> bool {
        self.pins.is_empty() && self.not.is_empty() && self.names.is_empty()
    }

    /// What the pairs that the options give are called.
    pub fn called(&self) -> Option<&'static str> {
        match (&self.pins[..], &self.not[..]) {
            ([], []) => None,
            (_, []) => Some("these pins"),
            ([], _) => Some("these exclusions"),
            _ => Some("these pins and exclusions"),
        }
    }

    /// Whether a map may have the pair: a pinned cue has its partner alone, and no other cue has that partner.
    pub fn allow(&self, pair: Pair) -> bool {
        let mut kept = self.pins.iter().chain(&self.names);
        kept.all(|&Pair(cue, partner)| (cue == pair.0) == (partner == pair.1)) && !self.not.contains(&pair)
    }

    /// Why no map at all can keep the pairs, where that is plain without a search.
    fn contradiction(&self, show: &Sheet, rig: &Sheet) -> Option<String> {
        for (place, one) in self.pins.iter().enumerate() {
            let both = |other: &Pair| format!("--pin {other} and --pin {one} contradict each other");
            if let Some(other) = self.pins[..place].iter().find(|other| other.0 == one.0) {
                let cue = show.label(one.0);
                return Some(format!("{}: cue {cue} of the show gets one partner", both(other)));
            }
            if let Some(other) = self.pins[..place].iter().find(|other| other.1 == one.1) {
                let partner = rig.label(one.1);
                return Some(format!("{}: cue {partner} of the rig is the partner of one cue", both(other)));
            }
            if self.not.contains(one) {
                return Some(format!("--pin {one} and --not {one} contradict each other"));
            }
        }
        let partners = 1..=rig.order.unwrap_or(0);
        let without = self.not.iter().find(|pair| !partners.clone().any(|partner| self.allow(Pair(pair.0, partner))));
        without.map(|pair| {
            format!("cue {} of the show has no partner left: --pin and --not exclude all", show.label(pair.0))
        })
    }
}

/// The pair that a text such as 4=34 stands for, or why it stands for none. A name may have = in it: the text is divided where there is
/// a cue on both sides.
fn pair(text: &str, show: &Sheet, rig: &Sheet) -> Result<Pair, String> {
    let divided = text.match_indices('=').map(|(place, sign)| (&text[..place], &text[place + sign.len()..]));
    let read = divided.map(|(left, right)| Ok(Pair(cue(left, show, "show")?, cue(right, rig, "rig")?)));
    let (pairs, faults): (Vec<_>, Vec<_>) = read.partition(|read: &Result<Pair, String>| read.is_ok());
    match &pairs[..] {
        [pair] => pair.clone(),
        [] => faults.into_iter().next().unwrap_or_else(|| Err("there is no = in it".into())),
        _ => Err("it can be read in more than one way: give numbers".into()),
    }
}

/// The cue that a number or a name stands for, or why it stands for none.
fn cue(text: &str, sheet: &Sheet, role: &str) -> Result<usize, String> {
    let text = text.trim();
    match &sheet.cues(text)[..] {
        [cue] => Ok(*cue),
        [] => Err(missing(text, sheet, role)),
        several => {
            let numbers: Vec<_> = several.iter().map(usize::to_string).collect();
            Err(format!("the name {} stands on cues {} of the {role}: give a number", shown(text), listed(&numbers)))
        }
    }
}

/// That a sheet does not have a cue, and what it has.
fn missing(text: &str, sheet: &Sheet, role: &str) -> String {
    let order = sheet.order.unwrap_or(0);
    let there = format!("the {role} has cues 1 to {order}");
    let named = order.min(sheet.names.len());
    match text.parse::<usize>() {
        Ok(_) => format!("there is no cue {text}; {there}"),
        Err(_) if named == 0 => format!("no cue of the {role} is named {}; {there}, without names", shown(text)),
        Err(_) => {
            let mut labels: Vec<_> = (1..=named.min(MOST_TOLD)).map(|cue| sheet.label(cue)).collect();
            if named > MOST_TOLD {
                labels.push(format!("{} more", named - MOST_TOLD));
            }
            format!("no cue of the {role} is named {}; {there}: {}", shown(text), listed(&labels))
        }
    }
}

/// The pairs of cues whose names are equal, in the order of the show, and the names that both sheets have and one has several times.
pub fn equal_names(show: &Sheet, rig: &Sheet) -> (Vec<Pair>, Vec<String>) {
    let with = |sheet: &Sheet, name: &str| -> Vec<usize> {
        (1..=sheet.order.unwrap_or(0)).filter(|&cue| sheet.name(cue) == Some(name)).collect()
    };
    let (mut pairs, mut several) = (Vec::new(), Vec::new());
    for name in show.names.iter().take(show.order.unwrap_or(0)) {
        match (&with(show, name)[..], &with(rig, name)[..]) {
            (_, []) => {}
            ([cue], [partner]) => pairs.push(Pair(*cue, *partner)),
            _ if several.contains(name) => {}
            _ => several.push(name.clone()),
        }
    }
    (pairs, several)
}

/// What `--prefer-names` has to say before the search: names that it passes over, or that there are none.
pub fn about_names(pairs: &[Pair], several: &[String]) -> Option<String> {
    let names: Vec<_> = several.iter().map(|name| shown(name)).collect();
    match (pairs, &names[..]) {
        ([], []) => Some("No name stands on both sheets: --prefer-names changes nothing.".into()),
        (_, []) => None,
        _ => Some(format!("Passed over by --prefer-names: {}, on several cues of a sheet.", listed(&names))),
    }
}
