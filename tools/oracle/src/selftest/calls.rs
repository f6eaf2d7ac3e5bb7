//! The commands on files as they are called: what they print, what they write,
//! and their exit status.

use super::reading::RIDE;
use super::{Tests, ROOT};
use crate::answer::{judge, VERDICTS};
use crate::answers::{self, Recorded};
use crate::formats::SECOND_FORMAT;
use crate::make::*;
use crate::writer::image;
use std::path::Path;
use std::process::Command;

pub struct Called {
    pub status: Option<i32>,
    pub printed: String,
    pub complaint: String,
}

pub fn call(words: &[&str]) -> Called {
    let program = std::env::current_exe().unwrap_or_default();
    let text = |bytes: Vec<u8>| String::from_utf8_lossy(&bytes).into_owned();
    match Command::new(program).args(words).output() {
        Ok(output) => Called {
            status: output.status.code(),
            printed: text(output.stdout),
            complaint: text(output.stderr),
        },
        Err(error) => Called {
            status: None,
            printed: String::new(),
            complaint: error.to_string(),
        },
    }
}

pub fn run(tests: &mut Tests) {
    let folder = std::env::temp_dir().join(format!("oracle-selftest-{}", std::process::id()));
    if let Err(error) = std::fs::create_dir_all(&folder) {
        tests.equal("a folder to write to", Some(error.to_string()), None);
        return;
    }
    help(tests);
    show(tests);
    missing(tests, &folder);
    make(tests, &folder);
    refile(tests, &folder);
    refile_refuses(tests, &folder);
    places(tests, &folder);
    whole_reports(tests, &folder);
    options(tests, &folder);
    let removed = std::fs::remove_dir_all(&folder);
    tests.holds("the folder is removed", removed.is_ok());
}

/// Asked for, the usage is printed; of a call that is none it is a complaint.
fn help(tests: &mut Tests) {
    let asked = call(&["--help"]);
    tests.equal("help, status", asked.status, Some(0));
    let usage = asked.printed.trim_end();
    tests.holds("help", usage.starts_with("usage: oracle report "));
    let lines = usage.lines().filter(|line| line.contains("       oracle"));
    tests.holds("help has the subcommands", lines.count() > 10);
    for words in [&[][..], &["reports"], &["show"], &["--help", "show"]] {
        let bad = call(words);
        tests.equal("bad usage, status", bad.status, Some(1));
        tests.equal("bad usage, printed", bad.printed.as_str(), "");
        let told = bad.complaint.ends_with(&format!("oracle: {usage}\n"));
        tests.holds("bad usage is told", told);
    }
}

fn sample(name: &str) -> String {
    format!("{ROOT}/samples/{name}")
}

/// What the reader says of samples/damaged.img.
const DAMAGED: &str = "refused 9: code: entry 3, message 'Status', at byte 260: bits 71";

fn show(tests: &mut Tests) {
    let shown = call(&["show", &sample("ride-new.img")]);
    let text = std::fs::read_to_string(sample("ride-new.txt")).ok();
    tests.equal("show prints the text", Some(shown.printed), text);
    tests.equal("show, status", shown.status, Some(0));
    let damaged = sample("damaged.img");
    let refused = call(&["show", &damaged]);
    tests.equal("show refuses", refused.printed.as_str(), "refused 9\n");
    tests.equal("show refuses, status", refused.status, Some(1));
    let why = format!("oracle: {damaged}: {DAMAGED}\n");
    tests.holds("show says why", refused.complaint.ends_with(&why));
}

/// To `show` a file that can't be opened is none, to the others it is empty.
fn missing(tests: &mut Tests, folder: &Path) {
    let path = folder.join("missing.img").to_string_lossy().into_owned();
    let shown = call(&["show", &path]);
    tests.equal("show of no file", shown.printed.as_str(), "");
    tests.equal("show of no file, status", shown.status, Some(1));
    let why = format!("oracle: {path}: can't be opened: ");
    let told = shown.complaint.contains(&why);
    tests.holds("show says that there is none", told);
    for words in [&["report", &path, &path][..], &["list", &path]] {
        let empty = call(words);
        tests.equal(words[0], empty.printed.as_str(), "refused 2 old\n");
        tests.equal(words[0], empty.status, Some(0));
    }
    let number = call(&["verdict", &path, &path, "0"]);
    tests.equal("verdict", number.printed.as_str(), "2\n");
}

fn make(tests: &mut Tests, folder: &Path) {
    let path = |name: &str| folder.join(name).to_string_lossy().into_owned();
    let (image, other) = (path("made.img"), path("other.img"));
    let made = call(&["make", &sample("ride-new.txt"), &image]);
    tests.equal("make, status", made.status, Some(0));
    let (written, wanted) = (std::fs::read(&image), std::fs::read(sample("ride-new.img")));
    tests.equal("make writes the image", written.ok(), wanted.ok());
    let faulty = path("faulty.txt");
    let text = "namespace\ndeclares\n#1 empty\n";
    tests.holds("a faulty text", std::fs::write(&faulty, text).is_ok());
    let refused = call(&["make", &faulty, &other]);
    tests.equal("make refuses, status", refused.status, Some(1));
    let line = refused.complaint.contains("line 3: the next entry is #0");
    tests.holds("make names the line", line);
    tests.holds(
        "make writes nothing then",
        !folder.join("other.img").exists(),
    );
    let missing = call(&["make", &path("missing.txt"), &other]);
    tests.equal("make of no text, status", missing.status, Some(1));
}

fn refile(tests: &mut Tests, folder: &Path) {
    let path = |name: &str| folder.join(name).to_string_lossy().into_owned();
    let (image, next) = (sample("drive-2.img"), sample("drive-3.img"));
    let bytes = |seed: &str, name: &str| {
        let copied = call(&["refile", &image, seed, &path(name)]);
        (copied.status, std::fs::read(path(name)).ok())
    };
    let (status, copy) = bytes("7", "copy.img");
    tests.equal("refile, status", status, Some(0));
    tests.holds("refile files anew", copy != std::fs::read(&image).ok());
    let again = bytes("7", "again.img").1;
    tests.holds("refile, one seed, the same bytes", copy == again);
    let other = bytes("8", "other-copy.img").1;
    tests.holds("refile, another seed, other bytes", copy != other);
    let report = |old: &str| call(&["report", old, &next]).printed;
    let wanted = report(&image);
    tests.equal("the copy's report", report(&path("copy.img")), wanted);
}

fn refile_refuses(tests: &mut Tests, folder: &Path) {
    let path = |name: &str| folder.join(name).to_string_lossy().into_owned();
    let (text, twice, out) = (path("twice.txt"), path("twice.img"), path("none.img"));
    let lines = "namespace\ndeclares A#1 A#0\n#0 config A\n#1 trait A\n";
    tests.holds("a text with repeats", std::fs::write(&text, lines).is_ok());
    tests.equal("its image", call(&["make", &text, &twice]).status, Some(0));
    let damaged = sample("damaged.img");
    let faults = [
        (&twice, "repeated: declarations 0 and 1: both are 'A'"),
        (&damaged, DAMAGED),
    ];
    for (image, why) in faults {
        let refused = call(&["refile", image, "7", &out]);
        tests.equal("refile refuses, status", refused.status, Some(1));
        let told = refused
            .complaint
            .ends_with(&format!("oracle: {image}: {why}\n"));
        tests.holds("refile says why", told);
        let written = Path::new(&out).exists();
        tests.holds("refile writes nothing then", !written);
    }
}

fn places(tests: &mut Tests, folder: &Path) {
    let path = folder.join("answers.bin").to_string_lossy().into_owned();
    let damaged = std::fs::read(sample("damaged.img")).unwrap_or_default();
    let pairs = [("a", &RIDE[..], &damaged[..]), ("b", &[0; 8], &RIDE)];
    let list = pairs.map(|(name, old, new)| Recorded::of(name, old, new, &judge(old, new)));
    let written = std::fs::write(&path, answers::write(&list));
    tests.holds("a file of answers", written.is_ok());
    let told = call(&["places", &path]);
    tests.equal("places, status", told.status, Some(0));
    let wanted = [
        "accepted",
        DAMAGED,
        "refused 3: format: at byte 0: format 0",
        "accepted",
        "",
    ];
    tests.equal("places", told.printed, wanted.join("\n"));
    let none = call(&["places", &sample("damaged.img")]);
    tests.equal("places of no answers", none.status, Some(1));
}

/// Recorded reports of one byte too many for the small program: of 01 and with imports,
/// and mended.
fn whole_reports(tests: &mut Tests, folder: &Path) {
    let file = answers::read(&super::read_file("crates/replay/data/answers.bin"));
    let list = file.unwrap_or_default();
    let words = [
        ("report of 65537 bytes", &[&[][..], &["--imports"]][..]),
        ("widths: report of 65537 bytes", &[&["--mended"]]),
        ("tombstones: report of 65537 bytes", &[&["--mended"]]),
    ];
    for (name, words) in words {
        match list.iter().find(|pair| pair.name == name) {
            Some(case) => whole_report(tests, folder, case, words),
            None => tests.holds(&format!("{name} is recorded"), false),
        }
    }
}

/// By the verdicts that these words ask for.
fn whole_report(tests: &mut Tests, folder: &Path, case: &Recorded, words: &[&[&str]]) {
    let path = |name: &str| folder.join(name).to_string_lossy().into_owned();
    let (old, new) = (path("long-old.img"), path("long-new.img"));
    let written =
        [(&old, &case.old), (&new, &case.new)].map(|(to, image)| std::fs::write(to, image));
    tests.holds("its images", written.iter().all(Result::is_ok));
    let mut report = |options: &[&str], wanted: &[u8]| {
        let words = [&["report"], options, &[old.as_str(), new.as_str()]].concat();
        let found = call(&words);
        let named = words[..words.len() - 2].join(" ");
        tests.equal(&named, found.printed.as_bytes(), wanted);
        tests.equal(&named, found.status, Some(0));
    };
    let mut lengths = Vec::new();
    for (verdict, answer) in VERDICTS.iter().zip(&case.answers) {
        let option: Vec<&str> = verdict.option().into_iter().collect();
        if words.contains(&option.as_slice()) {
            report(&option, b"refused 12 both\n");
            report(&[&["--whole"], &option[..]].concat(), &answer.report);
            report(&[&option[..], &["--whole"]].concat(), &answer.report);
            lengths.push(answer.report.len());
        }
    }
    tests.equal("their length", lengths, vec![65_537; words.len()]);
    let none = call(&["report", "--whole", &path("none.img"), &old]);
    tests.equal("a refusal, whole", none.printed.as_str(), "refused 2 old\n");
}

/// The words that ask for another verdict than that of 01, in the order of the answers.
const OPTIONS: [&str; 2] = ["--imports", "--mended"];

/// A pair for each of them on which it has another answer.
fn options(tests: &mut Tests, folder: &Path) {
    let imports = ["import-old.img", "import-new.img"].map(sample);
    let seat = folder.join("seat.img").to_string_lossy().into_owned();
    let seats = schema(vec![newtype("Seat", wrapped(11, primitive(9)))]);
    let image = image(&seats.in_format(SECOND_FORMAT));
    let written = std::fs::write(&seat, image);
    tests.holds("an image with a vector", written.is_ok());
    for (option, pair) in OPTIONS.into_iter().zip([imports, [seat.clone(), seat]]) {
        options_of_report(tests, option, &pair);
        options_of_verdict(tests, option, &pair);
    }
}

fn options_of_report(tests: &mut Tests, option: &str, [old, new]: &[String; 2]) {
    let report = |options: &[&str]| call(&[&["report"], options, &[old, new]].concat());
    let (plain, other) = (report(&[]).printed, report(&[option]).printed);
    tests.holds("another report", plain != other && other.contains(';'));
    tests.equal("whole", report(&["--whole"]).printed, plain);
    for options in [["--whole", option], [option, "--whole"]] {
        let found = report(&options).printed;
        tests.equal(&format!("{options:?}"), &found, &other);
    }
    for options in [["--whole", "--whole"], [option, option], OPTIONS] {
        let status = report(&options).status;
        tests.equal("an option too many", status, Some(1));
    }
}

fn options_of_verdict(tests: &mut Tests, option: &str, [old, new]: &[String; 2]) {
    let bump = |options: &[&str]| call(&[&["verdict"], options, &[old, new, "2"]].concat());
    let (plain, other) = (bump(&[]).printed, bump(&[option]).printed);
    tests.holds("another bump", plain != other);
    let all = call(&["verdict", option, old, new]).printed;
    let line = format!("\n2 {other}3 ");
    tests.holds("among all selectors", all.contains(&line));
    for options in [[option, option], OPTIONS] {
        let status = bump(&options).status;
        tests.equal("an option too many", status, Some(1));
    }
    let made = call(&["random", option, "1", "20"]);
    tests.equal("random pairs", made.status, Some(0));
    let head = made.printed.starts_with("20 pairs, seed 1\n");
    tests.holds("random pairs, told", head);
}
