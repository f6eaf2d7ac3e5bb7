//! Stubs, which are written as empty entries, are told; and the sample caller, as it is
//! called: what it says, and what it writes.

use super::super::calls::{call, Called};
use super::super::Tests;
use crate::make::*;
use crate::vexil::compile;
use crate::vexil::exporter::{export, Exported, Format};
use smol_str::SmolStr;
use std::path::{Path, PathBuf};

pub fn run(tests: &mut Tests) {
    names(tests);
    hidden(tests);
    let folder = std::env::temp_dir().join(format!("oracle-exporting-{}", std::process::id()));
    let made = std::fs::create_dir_all(&folder);
    tests.holds("a folder to export to", made.is_ok());
    callers(tests, &folder);
    callers_refuse(tests, &folder);
    let removed = std::fs::remove_dir_all(&folder);
    tests.holds("it is removed", removed.is_ok());
}

const END: &str = "is a stub and is written as an empty one: what it stands for is not compared";

/// A stub goes by its name, if the registry has one; of two names by the first.
fn names(tests: &mut Tests) {
    let mut compiled = compile(&schema(vec![config("A")]).with_entries(vec![None]));
    let registry = &mut compiled.registry;
    let limits = registry.register_stub(SmolStr::new("Limits"));
    let late = registry.register_stub(SmolStr::new("Late"));
    let twice = registry.register_stub(SmolStr::new("b"));
    registry.bind_name(SmolStr::new("a"), twice);
    registry.register_alias(SmolStr::new("Alias"), limits);
    if let Some(def) = registry.get(crate::ir::TypeId(0)).cloned() {
        registry.fill_stub(late, def);
    }
    let told = export(&compiled, Format::Two).map(|exported| {
        let lines = exported.warnings.iter().map(|warning| warning.to_string());
        lines.collect::<Vec<_>>()
    });
    let wanted = ["entry 1", r#"entry 2, "Limits","#, r#"entry 4, "a","#];
    let wanted = wanted.map(|place| format!("{place} {END}")).to_vec();
    tests.equal("stubs by name", told, Ok(wanted));
}

/// What a warning is for: from one unresolved import to another nothing is seen.
fn hidden(tests: &mut Tests) {
    let release = |id: u32| {
        let fields = vec![field(0, "limits", named(id))];
        schema(vec![message("M", fields)]).with_entries(vec![None, None])
    };
    let exported = [1, 2].map(|id| export(&compile(&release(id)), Format::One));
    let images = exported.each_ref().map(|exported| match exported {
        Ok(Exported { image, .. }) => image.clone(),
        Err(_) => Vec::new(),
    });
    let answer = crate::answer::judge(&images[0], &images[1]).answer;
    let printed = String::from_utf8_lossy(&answer.printed()).into_owned();
    tests.equal("stubs are equal", printed.as_str(), "Compatible;Patch;0\n");
    let warned = exported.map(|exported| exported.map_or(0, |e| e.warnings.len()));
    tests.equal("but told", warned, [2, 2]);
}

/// What the caller says of a text, by `oracle export`, and the path it was to write.
fn exported(folder: &Path, name: &str, text: &str) -> (Called, PathBuf) {
    let from = folder.join("exported.txt");
    let to = folder.join(name);
    let written = std::fs::write(&from, text);
    let words = [&from, &to].map(|path| path.to_string_lossy());
    let mut told = call(&["export", &words[0], &words[1]]);
    if let Err(error) = written {
        told.complaint = error.to_string();
    }
    (told, to)
}

const STUB: &str = "namespace a\ndeclares M#0\n#0 message M\n@0 f: <unknown>#2\n\
    #1 trait T\n#2 empty\n";
const WIDE: &str = "format 2\nnamespace a\ndeclares E#0 F#1\n#0 enum E non_exhaustive width 16\n\
    @0 v\n#1 flags F width 2\n@8 b\n";
const STRUCK: &str = "format 3\nnamespace a\ndeclares E#0 U#1\n#0 enum E width 16\nstruck 7 3 7\n\
    @0 v\n#1 union U\nstruck 1\n@0 v\nstruck 4294967295 0\n@0 f: u8\n";
const WHOLE: &str = "namespace a\ndeclares M#0\n#0 message M\n@0 f: T#1\n#1 trait T\n";

fn callers(tests: &mut Tests, folder: &Path) {
    let (told, path) = exported(folder, "stub.img", STUB);
    tests.equal("with a stub, status", told.status, Some(0));
    let wanted = format!("{}: warning: entry 2 {END}\n", path.display());
    tests.equal("with a stub", told.complaint, wanted);
    let made = crate::text::make(STUB).ok();
    tests.equal("its image", std::fs::read(path).ok(), made);

    let (told, path) = exported(folder, "whole.img", WHOLE);
    tests.equal("without a stub, status", told.status, Some(0));
    tests.equal("without a stub", told.complaint.as_str(), "");
    let made = crate::text::make(WHOLE).ok();
    tests.equal("its image", std::fs::read(path).ok(), made);

    for (format, text) in [("format 2", WIDE), ("format 3", STRUCK)] {
        let (told, path) = exported(folder, "later.img", text);
        tests.equal(format, told.status, Some(0));
        tests.equal(format, told.complaint.as_str(), "");
        let made = crate::text::make(text).ok();
        tests.holds(format, text.starts_with(format) && made.is_some());
        tests.equal("its image", std::fs::read(path).ok(), made);
    }
}

/// A refused schema, and a file that can't be written.
fn callers_refuse(tests: &mut Tests, folder: &Path) {
    let items: String = (0..6_000).map(|n| format!("@{n} i\n")).collect();
    let text = format!("namespace\ndeclares\n#0 empty\n#1 enum E\n{items}");
    let (told, path) = exported(folder, "long.img", &text);
    tests.equal("refused, status", told.status, Some(1));
    let why = r#"refused 1: entry 1, enum "E": 36022 bytes up to here, at most 32768"#;
    let place = path.display();
    let wanted = format!("{place}: {why}\noracle: {place}: not written\n");
    tests.equal("refused", told.complaint, wanted);
    tests.holds("and no file is written", !path.exists());

    let (told, path) = exported(folder, "none/whole.img", WHOLE);
    tests.equal("without a folder, status", told.status, Some(1));
    let place = path.display();
    let complained = told.complaint.starts_with(&format!("{place}: "));
    tests.holds("without a folder", complained);
}
