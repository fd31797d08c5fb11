//! What the programs recue and classes print, and records of rigs.

use crate::answer::{Answer, Class, Found, Rig, RigOutcome};
use crate::reader::table::field;
use crate::status::Status;

/// The records of an answer.
pub fn records(answer: &Answer) -> String {
    match &answer.result {
        Some(Found::Classes(classes)) => classes_records(answer, classes),
        Some(Found::Rigs(rigs)) => rigs_records(answer, rigs),
        _ => move_records(answer),
    }
}

/// recue knows no limit: where one is reached, the record begins with `stopped`.
fn move_records(answer: &Answer) -> String {
    let refused = answer.sheets.iter().enumerate().find_map(|(place, sheet)| Some((place, sheet.refusal.as_ref()?)));
    if let Some((place, refusal)) = refused {
        return format!("refused,{},{}\r\n", place + 1, refusal.question.unwrap_or(0));
    }
    let [Some(source), Some(target)] = [0, 1].map(|place| answer.sheets.get(place).and_then(|sheet| sheet.order))
    else {
        return String::new();
    };
    let word = match answer.status {
        Status::Found => "found",
        Status::None => "none",
        _ => "stopped",
    };
    let images = answer.images().iter().enumerate();
    images
        .fold(format!("{word},{source},{target}\r\n"), |text, (cue, image)| text + &format!("{},{image}\r\n", cue + 1))
}

fn classes_records(answer: &Answer, classes: &[Class]) -> String {
    let mut text = String::new();
    for (place, sheet) in answer.sheets.iter().enumerate() {
        let lowest = classes.iter().find(|class| class.sheets.contains(&(place + 1))).map(|class| class.sheets[0]);
        text += &match (lowest, sheet.order, &sheet.refusal) {
            (Some(lowest), Some(order), _) => format!("class,{},{order},{lowest}\r\n", place + 1),
            (_, _, refusal) => {
                let number = refusal.as_ref().and_then(|refusal| refusal.question).unwrap_or(0);
                format!("refused,{},{number}\r\n", place + 1)
            }
        };
    }
    for class in classes {
        text += &format!("total,{},{}\r\n", class.sheets[0], class.sheets.len());
    }
    text
}

/// The first record of those of rigs.
pub const RIGS_HEADING: &str = "rig,outcome,cues,places,mirrored,milliseconds\r\n";

/// A heading, then a record for each rig: its path, what came of it, its cues, the places, whether it fits mirrored, the time.
fn rigs_records(answer: &Answer, rigs: &[Rig]) -> String {
    let mut text = String::from(RIGS_HEADING);
    for rig in rigs {
        let sheet = &answer.sheets[rig.sheet - 1];
        let outcome = match rig.outcome {
            RigOutcome::Fits => "fits",
            RigOutcome::None => "none",
            RigOutcome::Stopped => "stopped",
            RigOutcome::Refused => "refused",
        };
        let number = |number: Option<usize>| number.map_or(String::new(), |number| number.to_string());
        let places = if rig.more { format!(">{}", number(rig.copies)) } else { number(rig.copies) };
        let mirrored = rig.mirrored.map_or("", |fits| if fits { "fits" } else { "none" });
        let (path, cues) = (field(&sheet.path), number(sheet.order));
        text += &format!("{path},{outcome},{cues},{places},{mirrored},{}\r\n", rig.milliseconds);
    }
    text
}
