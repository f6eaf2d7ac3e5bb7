//! Making the recorded answers, and running them again.

use crate::answer::{judge, VERDICTS};
use crate::answers::{self, Answered, Recorded};
use crate::cases;
use crate::commands::Outcome;
use crate::coverage::Coverage;
use crate::reader::read_image;
use std::io::Write;

/// The seed of the committed file.
pub const SEED: u64 = 20_261_115;

/// Judges every case and writes the file, if every row of the coverage table has
/// what it needs.
pub fn generate(path: &str, seed: u64) -> Outcome {
    let mut coverage = Coverage::default();
    let mut list = Vec::new();
    for case in cases::all(seed) {
        let pair = judge(&case.old, &case.new);
        coverage.see(&case, &pair);
        list.push(Recorded::of(&case.name, &case.old, &case.new, &pair));
    }
    coverage.print();
    let missing = coverage.missing();
    if !missing.is_empty() {
        return Err(format!(
            "not covered, nothing written:\n{}",
            missing.join("\n")
        ));
    }
    let file = answers::write(&list);
    std::fs::write(path, &file).map_err(|error| format!("{path}: {error}"))?;
    for (place, verdict) in VERDICTS.iter().enumerate().skip(1) {
        let others = list.iter().filter(|p| p.answers[place] != p.answers[0]);
        let (prefix, others) = (verdict.prefix(), others.count());
        println!("{prefix}{others} pairs with another answer than by 01");
    }
    println!("{} pairs, {} bytes, seed {seed}", list.len(), file.len());
    Ok(())
}

fn recorded(path: &str) -> Result<Vec<Recorded>, String> {
    let bytes = std::fs::read(path).map_err(|error| format!("{path}: {error}"))?;
    answers::read(&bytes).map_err(|error| format!("{path}: {error}"))
}

/// What the reader says of every recorded image, a line each.
pub fn places(path: &str) -> Outcome {
    let list = recorded(path)?;
    let images = list.iter().flat_map(|pair| [&pair.old, &pair.new]);
    let lines = images.map(|image| match read_image(image) {
        Ok(_) => "accepted\n".to_string(),
        Err(refusal) => format!("{refusal}\n"),
    });
    let written = std::io::stdout().write_all(lines.collect::<String>().as_bytes());
    written.map_err(|error| error.to_string())
}

/// Runs every recorded pair again and compares every member of its answer.
pub fn verify(path: &str) -> Outcome {
    let list = recorded(path)?;
    let mut differing = 0;
    for recorded in &list {
        if let Some(difference) = again(recorded) {
            differing += 1;
            println!("{}: {difference}", recorded.name);
        }
    }
    println!("{} pairs, {differing} differences", list.len());
    match differing {
        0 => Ok(()),
        _ => Err("the recorded answers differ".to_string()),
    }
}

/// Judges a recorded pair again and says in what its answer differs.
pub fn again(recorded: &Recorded) -> Option<String> {
    let pair = judge(&recorded.old, &recorded.new);
    let found = Recorded::of(&recorded.name, &recorded.old, &recorded.new, &pair);
    let mut parts = Vec::new();
    if recorded.readings != found.readings {
        let (recorded, found) = (recorded.readings, found.readings);
        parts.push(format!("readings recorded {recorded:?}, found {found:?}"));
    }
    if recorded.listings != found.listings {
        parts.push("the listings differ".to_string());
    }
    let answers = recorded.answers.iter().zip(&found.answers);
    for (verdict, (recorded, found)) in VERDICTS.iter().zip(answers) {
        let differences = differences(recorded, found).into_iter();
        let prefix = verdict.prefix();
        parts.extend(differences.map(|difference| format!("{prefix}{difference}")));
    }
    (!parts.is_empty()).then(|| parts.join("; "))
}

fn differences(recorded: &Answered, found: &Answered) -> Vec<String> {
    let verdicts = recorded.verdict.iter().zip(&found.verdict);
    let mut parts: Vec<String> = verdicts
        .enumerate()
        .filter(|(_, (recorded, found))| recorded != found)
        .map(|(n, (recorded, found))| format!("selector {n} recorded {recorded}, found {found}"))
        .collect();
    if recorded.report != found.report {
        parts.push("the report differs".to_string());
    }
    parts
}
