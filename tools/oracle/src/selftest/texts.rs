//! The text of an image: shown and made again it gives the same bytes, and a
//! fault in it is told with its line.

use super::widths::widened;
use super::{read_file, Tests};
use crate::cases;
use crate::commands::random_pair;
use crate::make::{enumeration, flags, item, schema};
use crate::random::random_schema;
use crate::reader::read_image;
use crate::record::SEED;
use crate::rng::Rng;
use crate::text::{make, show};
use crate::writer::image;

pub fn run(tests: &mut Tests) {
    round_trips(tests);
    example(tests, "namespace ");
    example(tests, "format 2");
    example(tests, "format 3");
    formats(tests);
    leniency(tests);
    faults(tests);
    type_faults(tests);
    item_faults(tests);
    limits(tests);
}

/// How many of the images are accepted, and those that come out changed.
fn changed<'a>(images: impl Iterator<Item = &'a Vec<u8>>) -> (usize, Vec<&'a Vec<u8>>) {
    let mut accepted = 0;
    let changed = images.filter(|image| {
        read_image(image).is_ok_and(|schema| {
            accepted += 1;
            make(&show(&schema)).as_ref() != Ok(image)
        })
    });
    let changed = changed.collect();
    (accepted, changed)
}

fn round_trips(tests: &mut Tests) {
    let cases = cases::all(SEED);
    let images = cases.iter().flat_map(|case| [&case.old, &case.new]);
    let (accepted, differing) = changed(images);
    tests.equal("shown and made: recorded images", differing, vec![]);
    tests.holds("8,000 recorded images or more", accepted >= 8_000);
    let mut rng = Rng::new(SEED + 1);
    let pairs: Vec<_> = (0..4_000).map(|_| random_pair(&mut rng)).collect();
    let (accepted, differing) = changed(pairs.iter().flat_map(|(old, new)| [old, new]));
    tests.equal("shown and made: random images", differing, vec![]);
    tests.holds("6,000 random images or more", accepted >= 6_000);
    let wide = (0..2_000).map(|_| {
        let schema = random_schema(&mut rng, 12);
        image(&widened(&mut rng, schema))
    });
    let wide: Vec<_> = wide.collect();
    let (accepted, differing) = changed(wide.iter());
    tests.equal("shown and made: images of format 2", differing, vec![]);
    tests.equal("all of them", accepted, wide.len());
}

/// The example of README.md whose first line starts so is the text of an image.
fn example(tests: &mut Tests, first: &str) {
    let readme = String::from_utf8_lossy(&read_file("tools/oracle/README.md")).into_owned();
    let block: Vec<&str> = readme
        .lines()
        .skip_while(|line| !line.starts_with(&format!("    {first}")))
        .take_while(|line| line.is_empty() || line.starts_with("    "))
        .map(|line| line.strip_prefix("    ").unwrap_or(""))
        .collect();
    let text = block.join("\n").trim_end().to_string() + "\n";
    let shown = make(&text).map(|image| read_image(&image).map(|schema| show(&schema)));
    tests.equal("the README's example", shown, Ok(Ok(text)));
}

/// The line of the format, and the widths that it asks for.
fn formats(tests: &mut Tests) {
    let schema = schema(vec![
        enumeration("Mode", 3, vec![item(0, "Stop")]).of_width(255),
        enumeration("width", 0, vec![]).of_width(0),
        flags("Lamps", vec![item(8, "red")]).of_width(2),
    ]);
    let wide = "format 2\nnamespace ride\ndeclares Mode#0 width#1 Lamps#2\n\n\
                #0 enum Mode deprecated non_exhaustive width 255\n  @0 Stop\n\n\
                #1 enum width width 0\n\n\
                #2 flags Lamps width 2\n  @8 red\n";
    let schema = schema.in_format(2);
    tests.equal("format 2, shown", show(&schema).as_str(), wide);
    tests.equal("format 2, made", make(wide), Ok(image(&schema)));
    let schema = schema.in_format(1);
    let narrow = "namespace ride\ndeclares Mode#0 width#1 Lamps#2\n\n\
                  #0 enum Mode deprecated non_exhaustive\n  @0 Stop\n\n\
                  #1 enum width\n\n\
                  #2 flags Lamps\n  @8 red\n";
    tests.equal("format 1, shown", show(&schema).as_str(), narrow);
    tests.equal("format 1, made", make(narrow), Ok(image(&schema)));
    let written = format!("\n format  1\n{narrow}");
    tests.equal("format 1, written out", make(&written), make(narrow));
    let loose = wide.replace("format 2", "\n  format  2 ");
    tests.equal("format 2, with spaces", make(&loose), make(wide));
    format_faults(tests);
    width_faults(tests);
}

fn format_faults(tests: &mut Tests) {
    let mut fault = |text: &str, wanted: &str| {
        tests.equal(text, make(text), Err(wanted.to_string()));
    };
    for format in ["0", "4", "65535"] {
        let text = format!("format {format}\nnamespace\ndeclares\n");
        let wanted = format!("line 1: format {format}, known are 1 to 3");
        fault(&text, &wanted);
    }
    let range = "line 2: not a number of its range:";
    fault("\nformat 65536", &format!("{range} 65536"));
    fault("\nformat\n", &format!("{range} "));
    fault("\nformat two", &format!("{range} two"));
    fault("format 2 1", "line 1: not understood: 1");
    fault("format 2", "line 2: `namespace` is missing");
    fault("format 2\ndeclares", "line 2: `namespace` is missing");
    fault("format2\n", "line 1: `namespace` is missing");
    let twice = "line 2: `namespace` is missing";
    fault("format 2\nformat 2\nnamespace", twice);
    let late = "line 3: `#` is missing before: format 2";
    fault("namespace\ndeclares\nformat 2", late);
}

fn width_faults(tests: &mut Tests) {
    let mut fault = |format: u16, heading: &str, wanted: &str| {
        let text = format!("format {format}\nnamespace\ndeclares\n#0 {heading}\n");
        tests.equal(&text, make(&text), Err(format!("line 4: {wanted}")));
    };
    let missing = "`width` is missing, which format 2 has";
    for heading in ["enum E", "enum E non_exhaustive", "enum width", "flags F"] {
        fault(2, heading, missing);
    }
    let too_many = "a `width`, and format 1 has none";
    for heading in [
        "enum E width 8",
        "enum E deprecated width 8",
        "flags F width 1",
    ] {
        fault(1, heading, too_many);
    }
    for format in [1, 2] {
        let none = "not understood: width 8";
        for heading in ["message M width 8", "union U width 8", "config C width 8"] {
            fault(format, heading, none);
        }
    }
    fault(2, "enum E width 8 deprecated", "not understood: deprecated");
    let range = "not a number of its range:";
    fault(2, "enum E width 256", &format!("{range} 256"));
    fault(2, "enum E width", &format!("{range} "));
    fault(2, "flags F width 1x", &format!("{range} 1x"));
    for bytes in (0..=255).filter(|bytes| ![1, 2, 4, 8].contains(bytes)) {
        let wanted = format!("a flags width of {bytes}, which is 1, 2, 4 or 8");
        fault(2, &format!("flags F width {bytes}"), &wanted);
    }
}

/// Blank lines, spaces and indents do not count.
fn leniency(tests: &mut Tests) {
    let strict = "namespace a\ndeclares M#0\n#0 message M\n@0 f: map<u8, bits { x }> varint\n";
    let loose = "\n  namespace  a\r\n\n\tdeclares M # 0\n #0  message M\n\
                 @ 0 f :map< u8,bits{x} >varint";
    tests.equal("spaces", make(loose), make(strict));
    tests.holds("the strict form", make(strict).is_ok());
}

/// The first line at fault and what is said of it.
fn faults(tests: &mut Tests) {
    let mut fault = |lines: &[&str], wanted: &str| {
        let text = lines.join("\n");
        tests.equal(&text, make(&text), Err(wanted.to_string()));
    };
    fault(&[], "line 1: `namespace` is missing");
    fault(&["namespace"], "line 2: `declares` is missing");
    fault(&["declares"], "line 1: `namespace` is missing");
    fault(
        &["", "namespace a-b"],
        "line 2: a name is missing before: -b",
    );
    fault(
        &["namespace", "declares 0"],
        "line 2: `#` is missing before: ",
    );
    let mut fault = |line: &str, wanted: &str| {
        fault(
            &["namespace", "declares", "", line],
            &format!("line 4: {wanted}"),
        );
    };
    fault("message M", "`#` is missing before: message M");
    fault("#1 empty", "the next entry is #0");
    fault("#x empty", "not a number of its range: x empty");
    fault("#0 table M", "no kind: table");
    fault("#0 message", "a name is missing before: ");
    fault("#0 config C deprecated", "not understood: deprecated");
    fault("#0 impl I", "not understood: I");
    fault("#0 newtype N", "`:` is missing before: ");
    fault("@0 f: u8", "an item, and no declaration above it");
}

/// The same of the type of a newtype.
fn type_faults(tests: &mut Tests) {
    let mut newtype = |ty: &str, wanted: &str| {
        let text = format!("namespace\ndeclares\n#0 newtype N: {ty}");
        tests.equal(&text, make(&text), Err(format!("line 3: {wanted}")));
    };
    newtype("", "no type: ");
    newtype("u65", "no type: u65");
    newtype("i0", "no type: i0");
    newtype("Limits", "no type: Limits");
    newtype("optional u8", "`<` is missing before: u8");
    newtype("set<u8, 4>", "`>` is missing before: , 4>");
    newtype("map<u8>", "`,` is missing before: >");
    newtype("array<u8, x>", "not a number of its range: x>");
    newtype("bits a", "`{` is missing before: a");
    newtype("bits { a b }", "`,` is missing before: b }");
    newtype("u8 varint", "not understood: varint");
    newtype("N#4294967296", "not a number of its range: 4294967296");
    newtype("M#0", "M#0 should be N#0");
    newtype("N#1", "N#1 should be <unknown>#1");
    newtype("<unknown>#0", "<unknown>#0 should be N#0");
}

fn item_faults(tests: &mut Tests) {
    let mut fault = |heading: &str, line: &str, wanted: &str| {
        let text = format!("namespace\ndeclares\n#0 {heading}\n{line}\n");
        tests.equal(&text, make(&text), Err(format!("line 4: {wanted}")));
    };
    fault("empty", "@0 a", "an item, and no declaration above it");
    fault("config C", "@0 f: u8", "config has no fields");
    fault("enum E", "@0 f: u8", "enum has no fields");
    fault("trait T", "@0 f", "trait has no items without a type");
    fault("message M", "@0 f", "message has no items without a type");
    fault("union U", "@0 f: u8", "a field before the first variant");
    fault(
        "flags F",
        "@4294967296 b",
        "not a number of its range: 4294967296 b",
    );
    fault("flags F", "@0", "a name is missing before: ");
    fault("flags F", "@0 a b", "not understood: b");
    let mut field =
        |end: &str, wanted: &str| fault("message M", &format!("@0 f: u8 {end}"), wanted);
    field("deprecated varint", "not understood: varint");
    field("varint varint", "not understood: varint");
    field("limit", "not a number of its range: ");
    field("delta", "`(` is missing before: ");
    field("delta()", "no encoding: )");
    field("delta(varint", "`)` is missing before: ");
}

fn limits(tests: &mut Tests) {
    let mut limit = |name: &str, text: String, wanted: &str| {
        tests.equal(name, make(&text), Err(wanted.to_string()));
    };
    let newtype = |ty: String| format!("namespace\ndeclares\n#0 newtype N: {ty}");
    let of = |count: usize, part: &str| part.repeat(count);
    let wanted = "line 3: over 32 nodes on a path";
    limit("33 nodes", newtype(of(32, "set<") + "u8"), wanted);
    let wanted = "line 3: 256 bit names, at most 255";
    let bits = format!("bits {{ a{} }}", of(255, ", a"));
    limit("256 bit names", newtype(bits), wanted);
    let deltas = format!(
        "namespace\ndeclares\n#0 message M\n@0 f: u8 {}",
        of(9, "delta(")
    );
    limit("9 deltas", deltas, "line 4: over 8 deltas");
    let wanted = "line 1: a name of 256 bytes, at most 255";
    limit("256 bytes", format!("namespace {}", of(256, "n")), wanted);
    let wanted = "line 1: 17 listed, at most 16";
    limit("17 segments", format!("namespace{}", of(17, " s")), wanted);
    let wanted = "line 2: 513 listed, at most 512";
    let ids = of(513, " <unknown>#7");
    limit("513 ids", format!("namespace\ndeclares{ids}"), wanted);
    let entries: String = (0..=512).map(|id| format!("#{id} impl\n")).collect();
    let entries = format!("namespace\ndeclares\n{entries}");
    limit("513 entries", entries, "line 515: over 512 entries");
    let variants = of(6_000, "@0 v\n");
    let wanted = "line 6003: the image has 36018 bytes by here, at most 32768";
    let long = format!("namespace\ndeclares\n#0 enum E\n{variants}");
    limit("36,018 bytes", long, wanted);
}
