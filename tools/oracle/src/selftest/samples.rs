//! samples/: every text makes its image, an image without a text is damaged as
//! the README there says, one that is filed anew has its original's answers,
//! every image stands in a command of that README, every command there and in
//! the README of the repository has its output, and what is not seen is said.

use super::{read_file, Tests, ROOT};
use crate::answer::{judge, Verdict};
use crate::reader::read_image;
use crate::refiling::form;
use crate::text;
use std::collections::{BTreeMap, BTreeSet};

const FOLDER: &str = "samples";

/// Files by their name without its ending.
type Files = BTreeMap<String, Vec<u8>>;

pub fn run(tests: &mut Tests) {
    let (images, texts) = (files(".img"), files(".txt"));
    let [readme, root] = [&format!("{FOLDER}/README.md"), "README.md"].map(page);
    tests.holds("8 images or more", images.len() >= 8);
    for (name, text) in &texts {
        let text = String::from_utf8_lossy(text).into_owned();
        let image = images.get(name).cloned().unwrap_or_default();
        let shown = read_image(&image).map(|schema| text::show(&schema)).ok();
        tests.equal(name, text::make(&text), Ok(image));
        tests.equal(name, shown, Some(text));
    }
    for name in images.keys().filter(|name| !texts.contains_key(*name)) {
        let described = damages(&images, name)
            .iter()
            .any(|damage| readme.contains(damage));
        tests.holds(&format!("the damage to {name} is described"), described);
    }
    copies(tests, &images);
    let used = commands(tests, &images, &readme);
    let kept = images.keys().cloned().collect();
    tests.equal("every image stands in a command", used, kept);
    let named = commands(tests, &images, &root);
    tests.holds("10 images or more in README.md", named.len() >= 10);
    not_seen(tests, &readme);
    not_seen(tests, &root);
}

fn page(path: &str) -> String {
    String::from_utf8_lossy(&read_file(path)).into_owned()
}

/// An image `X-refiled` is `X` filed anew, and beside every other image both
/// have the same answers.
fn copies(tests: &mut Tests, images: &Files) {
    let mut copies = 0;
    for (name, copy) in images {
        let Some(original) = name.strip_suffix("-refiled") else {
            continue;
        };
        let original = images.get(original).cloned().unwrap_or_default();
        let [one, other] = [&original, copy].map(|i| read_image(i).map(|s| form(&s)).ok());
        tests.holds(name, original != *copy && one.is_some() && one == other);
        let answers = |image: &[u8], beside: &[u8]| {
            let pairs = [(image, beside), (beside, image)];
            pairs.map(|(old, new)| judge(old, new).answer)
        };
        let all = images.values();
        let differs = |beside: &&Vec<u8>| answers(copy, beside) != answers(&original, beside);
        tests.equal(name, all.filter(differs).count(), 0);
        copies += 1;
    }
    tests.holds("2 releases filed anew or more", copies >= 2);
}

fn files(ending: &str) -> Files {
    let folder = std::fs::read_dir(format!("{ROOT}/{FOLDER}"));
    let entries = folder.into_iter().flatten().flatten();
    let names = entries.map(|entry| entry.file_name().to_string_lossy().into_owned());
    names
        .filter_map(|name| {
            let stem = name.strip_suffix(ending)?;
            Some((stem.to_string(), read_file(&format!("{FOLDER}/{name}"))))
        })
        .collect()
}

/// For each image that this one differs from in one byte: that byte, in the
/// README's words.
fn damages(images: &Files, name: &str) -> Vec<String> {
    let image = &images[name];
    let same_length = images.iter().filter(|(_, base)| base.len() == image.len());
    same_length
        .filter_map(|(base_name, base)| {
            let pairs = base.iter().zip(image).enumerate();
            let differing: Vec<_> = pairs.filter(|(_, (old, new))| old != new).collect();
            let [(at, (old, new))] = differing[..] else {
                return None;
            };
            Some(format!(
                "`{name}.img` is `{base_name}.img` with byte {at} changed from {old} to {new}"
            ))
        })
        .collect()
}

/// What stands before the command of a pair that no verdict tells says so.
fn not_seen(tests: &mut Tests, readme: &str) {
    for name in ["unresolved", "twice", "silent"] {
        let command = format!("$ ./vexil-compat samples/{name}-old.img");
        let before = readme.split(&command).next().unwrap_or_default();
        let since = before.rsplit("$ ./vexil-compat").next().unwrap_or_default();
        let words = since.split_whitespace().collect::<Vec<_>>().join(" ");
        let said = words.to_lowercase().contains("no command shows it today");
        tests.holds(&format!("{name} is said not to be seen"), said);
    }
}

/// The verdict that a command asks for, and its files.
fn asked(command: &str) -> (Verdict, &str) {
    let (first, rest) = command.split_once(' ').unwrap_or((command, ""));
    match Verdict::asked_by(first) {
        Some(verdict) => (verdict, rest),
        None => (Verdict::Plain, command),
    }
}

/// Each command line of a README and the lines printed below it; the images that
/// stand in them.
fn commands(tests: &mut Tests, images: &Files, readme: &str) -> BTreeSet<String> {
    let mut used = BTreeSet::new();
    for block in readme.split("    $ ./vexil-compat ").skip(1) {
        let mut lines = block.lines();
        let command = lines.next().unwrap_or_default();
        let printed = lines.map_while(|line| line.strip_prefix("    "));
        let wanted: String = printed.flat_map(|line| [line, "\n"]).collect();
        let (verdict, paths) = asked(command);
        let names: Vec<&str> = paths
            .split(' ')
            .map(|path| path.trim_start_matches("samples/").trim_end_matches(".img"))
            .collect();
        let [Some(old), Some(new)] = [0, 1].map(|side| images.get(*names.get(side)?)) else {
            tests.holds(&format!("the images of {command}"), false);
            continue;
        };
        let found = judge(old, new).by(verdict).printed();
        tests.equal(
            command,
            String::from_utf8_lossy(&found).into_owned(),
            wanted,
        );
        used.extend(names.into_iter().map(str::to_string));
    }
    used
}
