//! The oracle: what the real `check` of Vexil says of two images, and the
//! answers recorded from it. See README.md.

mod answer;
mod answers;
mod bodies;
mod cases;
mod changes;
mod commands;
mod coverage;
mod cursor;
mod edits;
mod formats;
mod imports;
#[cfg(library)]
mod library;
mod limits;
mod listing;
mod made;
mod make;
mod mended;
mod model;
mod pinned;
mod random;
mod reader;
mod record;
mod refiling;
mod refusal;
mod rng;
mod schema;
mod selftest;
mod struck;
mod text;
mod types;
mod writer;

// The Vexil sources name one another from the crate's root.
#[cfg(vexil)]
mod vexil;
#[cfg(vexil)]
use vexil::{ast, canonical, ir, span};

#[cfg(not(vexil))]
#[path = "vexil/absent.rs"]
mod vexil;

use answer::Verdict;
use commands::{number, Outcome};

const USAGE: &str = "usage: oracle report [--whole] [--imports | --mended] OLD NEW
       oracle verdict [--imports | --mended] OLD NEW [SELECTOR]
       oracle show IMAGE
       oracle make TEXT IMAGE
       oracle refile IMAGE SEED OUT
       oracle list IMAGE
       oracle generate FILE [--seed N]
       oracle verify FILE
       oracle places FILE
       oracle random [--imports | --mended] SEED COUNT
       oracle selftest
       oracle --help
built with the Vexil sources also:
       oracle export TEXT IMAGE
built with the library also:
       oracle-library bench FILE
       oracle-library hammer FILE SEED COUNT SECONDS FOLDER
       oracle-library hammer --refiled | --imports | --mended SEED COUNT SECONDS FOLDER
built with the second judge also:
       oracle-second second SEED COUNT SECONDS FOLDER";

fn main() {
    let words: Vec<String> = std::env::args().skip(1).collect();
    let words: Vec<&str> = words.iter().map(String::as_str).collect();
    if !vexil::CHECK_IS_RUN {
        eprintln!("oracle: built without the Vexil sources, check was not run");
    }
    if let Err(message) = run(&words) {
        eprintln!("oracle: {message}");
        std::process::exit(1);
    }
}

fn run(words: &[&str]) -> Outcome {
    match *words {
        ["--help"] => {
            println!("{USAGE}");
            Ok(())
        }
        ["report", ref options @ .., old, new] => report(options, old, new),
        ["verdict", ref words @ ..] => verdict(words),
        ["show", image] => commands::show(image),
        ["make", text, image] => commands::make(text, image),
        #[cfg(vexil)]
        ["export", text, image] => commands::export(text, image),
        ["refile", image, seed, out] => commands::refile(image, number(seed)?, out),
        ["list", path] => commands::list(path),
        ["generate", path] => record::generate(path, record::SEED),
        ["generate", path, "--seed", seed] => record::generate(path, number(seed)?),
        ["verify", path] => record::verify(path),
        ["places", path] => record::places(path),
        ["random", option, seed, count] => {
            commands::random_made(asked_by(option)?, number(seed)?, number(count)?)
        }
        ["random", seed, count] => commands::random(number(seed)?, number(count)?),
        ["selftest"] => selftest::run(),
        #[cfg(all(library, vexil))]
        ["bench", path] => library::bench::run(path),
        #[cfg(library)]
        ["hammer", what, seed, count, seconds, folder] => library::hammer::run(
            what,
            number(seed)?,
            number(count)?,
            number(seconds)?,
            folder,
        ),
        #[cfg(second)]
        ["second", seed, count, seconds, folder] => {
            library::second::run(number(seed)?, number(count)?, number(seconds)?, folder)
        }
        _ => Err(USAGE.to_string()),
    }
}

fn asked_by(option: &str) -> Result<Verdict, String> {
    Verdict::asked_by(option).ok_or(USAGE.to_string())
}

/// The options may stand in either order.
fn report(options: &[&str], old: &str, new: &str) -> Outcome {
    let (verdict, whole) = match *options {
        [] => (Verdict::Plain, false),
        ["--whole"] => (Verdict::Plain, true),
        ["--whole", option] | [option, "--whole"] => (asked_by(option)?, true),
        [option] => (asked_by(option)?, false),
        _ => return Err(USAGE.to_string()),
    };
    commands::report(verdict, whole, old, new)
}

fn verdict(words: &[&str]) -> Outcome {
    let asked = words.first().and_then(|word| Verdict::asked_by(word));
    let verdict = asked.unwrap_or(Verdict::Plain);
    match words[usize::from(asked.is_some())..] {
        [old, new] => commands::verdict(verdict, old, new, None),
        [old, new, selector] => commands::verdict(verdict, old, new, Some(selector)),
        _ => Err(USAGE.to_string()),
    }
}
