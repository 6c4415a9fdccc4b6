//! `report`: the page's structure, what it says of a disc, texts from outside in it, and the host file
//! it is written into. How the page works in a browser is tested by `browser/run`.

mod common;

use std::collections::BTreeSet;
use std::ffi::OsStr;
use std::fs::{self, File};
use std::os::unix::ffi::OsStrExt;
use std::os::unix::fs::{symlink, PermissionsExt};
use std::process::{Command, Stdio};

use common::{Done, Folder, TOOL};

/// A page that the tool makes of `disc.img`.
fn page(folder: &Folder) -> String {
    let out = folder.good(&["report", "disc.img", "-o", "disc.html"]);
    assert_eq!(out, "disc.html: report written\n");
    String::from_utf8(folder.read("disc.html")).expect("UTF-8")
}

fn sample() -> Folder {
    let folder = Folder::new();
    folder.good(&["sample", "disc.img"]);
    folder
}

/// The texts between two others.
fn between<'a>(text: &'a str, before: &str, after: &str) -> Vec<&'a str> {
    let parts = text.split(before).skip(1);
    let parts = parts.map(|part| part.split_once(after).expect("it ends").0);
    parts.collect()
}

/// The value of an attribute of a tag, or of a field of JSON on one line.
fn field<'a>(text: &'a str, before: &str, after: &str) -> &'a str {
    between(text, before, after)[0]
}

/// The page without its style and its script, which are as they are in the source.
fn markup(page: &str) -> String {
    let (head, rest) = page.split_once("<style>").expect("a style");
    let (_, rest) = rest.split_once("</style>").expect("its end");
    let (body, rest) = rest.split_once("<script>").expect("a script");
    let (_, end) = rest.split_once("</script>").expect("its end");
    [head, body, end].concat()
}

/// The tags of HTML, each closed in its order; elements that are empty are not closed.
fn check_tags(markup: &str) {
    const EMPTY: [&str; 3] = ["!DOCTYPE", "meta", "input"];
    let mut open: Vec<&str> = Vec::new();
    let mut rest = markup;
    while let Some((text, more)) = rest.split_once('<') {
        assert!(!text.contains('>'), "{text:.60}");
        let (tag, more) = more.split_once('>').expect("a closed tag");
        rest = more;
        assert!(tag.matches('"').count().is_multiple_of(2), "{tag}");
        let name = tag.trim_matches('/').split(' ').next().expect("a name");
        match tag.starts_with('/') {
            true => assert_eq!(open.pop(), Some(name), "{tag}"),
            false if tag.ends_with('/') || EMPTY.contains(&name) => {}
            false => open.push(name),
        }
    }
    assert!(open.is_empty(), "{open:?}");
}

#[test]
fn the_page_is_whole_and_needs_nothing_else() {
    let folder = sample();
    let page = page(&folder);
    assert_eq!(page, folder.good(&["report", "disc.img", "--output", "-"]));
    assert_eq!(page, folder.good(&["report", "disc.img", "-o=-"]));
    assert!(page.starts_with("<!DOCTYPE html>\n<html lang=\"en\">\n"));
    assert!(page.ends_with("</html>\n"));
    assert!(page.contains("default-src 'none'; "));
    assert!(!page.contains("unsafe-") && !page.contains("{{"));
    for link in [
        "http:", "https:", "src=", "href=", "url(", "@import", "import(", "//", "fetch(",
    ] {
        assert!(!page.contains(link), "{link}");
    }
    for style in ["style=\"", " onclick", " onload"] {
        assert!(!markup(&page).contains(style), "{style}");
    }
    check_tags(&markup(&page));
    let ids = between(&page, " id=\"", "\"");
    assert_eq!(ids.iter().collect::<BTreeSet<_>>().len(), ids.len());
    for label in between(&page, "aria-labelledby=\"", "\"") {
        assert!(ids.contains(&label), "{label}");
    }
}

/// The policy names the style and the script by their sums; if this fails after a change of one of
/// them, what is found is what `mod.rs` of the report has to have.
#[test]
fn the_policy_allows_this_style_and_this_script() {
    let page = page(&sample());
    for (element, policy) in [("style", "style-src"), ("script", "script-src")] {
        let text = field(&page, &format!("<{element}>"), &format!("</{element}>"));
        let allowed = field(&page, &format!("{policy} '"), "'");
        assert_eq!(format!("sha256-{}", sum(text)), allowed, "{element}");
    }
}

/// The SHA-256 of a text in base 64, by the host's `sha256sum`.
fn sum(text: &str) -> String {
    let folder = Folder::new();
    folder.write("text", text.as_bytes());
    let output = Command::new("sha256sum").arg(folder.file("text")).output();
    let output = String::from_utf8(output.expect("sha256sum runs").stdout).expect("ASCII");
    let bytes: Vec<u32> = (0..32)
        .map(|place| u32::from_str_radix(&output[2 * place..2 * place + 2], 16).expect("base 16"))
        .collect();
    let digits = b"ABCDEFGHIJKLMNOPQRSTUVWXYZabcdefghijklmnopqrstuvwxyz0123456789+/";
    let mut coded = String::new();
    for bytes in bytes.chunks(3) {
        let three = (0..3).fold(0, |sum, place| sum << 8 | bytes.get(place).unwrap_or(&0));
        for place in 0..4 {
            match place <= bytes.len() {
                true => coded.push(digits[(three >> (18 - 6 * place) & 63) as usize] as char),
                false => coded.push('='),
            }
        }
    }
    coded
}

/// The numbers of the sample disc, by its script and by hand: N = 250, F = 10, s = 4, H = 3; 60 slices, of
/// which 23 are free; 92 sectors are 47104 bytes.
#[test]
fn the_top_of_the_page_has_the_units_numbers() {
    let page = page(&sample());
    for text in [
        "<title>disc.img: disc report</title>",
        "<h1><bdi>disc.img</bdi></h1>",
        "Disc report &middot; unit 0",
        "<strong>Sound</strong>",
        "<li>second implementation: sound</li><li>proved library: sound</li>",
        "<dt>Sectors <i>N</i></dt><dd>250</dd>",
        "<dt>First data sector <i>F</i></dt><dd>10</dd>",
        "<dt>Sectors in a slice <i>s</i></dt><dd>4</dd>",
        "<dt>Keys <i>H</i></dt><dd>3</dd>",
        "<dt>Layers <i>L</i></dt><dd>1</dd>",
        "<dt>Slices</dt><dd>60</dd>",
        "</b> 23 of 60 slices free</p>",
        "92 sectors &middot; 47104 bytes",
        "catalog 1 slice<",
        "files 36 slices<",
        "<dt>Files with slices in one stretch</dt><dd>5 of 9</dd>",
        "<dt>Stretches of all files</dt><dd>15</dd>",
        "<dt>Most stretches of a file</dt><dd>4 (PASS)</dd>",
        "<dt>Longest stretch of a file</dt><dd>6 slices (PASS)</dd>",
        "<dt>Free stretches</dt><dd>2</dd>",
        "<dt>Longest free stretch</dt><dd>19 slices</dd>",
        "11 entries",
    ] {
        assert_eq!(page.matches(text).count(), 1, "{text}");
    }
}

#[test]
fn the_map_and_the_files_are_those_of_the_listing() {
    let folder = sample();
    folder.good(&["set", "disc.img", "X", "--attributes", "4001h"]);
    agrees_with_the_listing(&folder);
    let folder = Folder::new();
    let unit = "--sectors 4010 --first 10 --slice 2 --keys 7";
    let arguments = ["format", "disc.img"].into_iter().chain(unit.split(' '));
    folder.good(&arguments.collect::<Vec<_>>());
    let mut script = String::from("init\n");
    for number in 0..300 {
        script += &format!("create F{number} size={}\n", number * 7 % 11);
    }
    for number in 0..300 {
        script += match number % 3 {
            0 => format!("remove F{number}\n"),
            _ => format!("change F{number} size={}\n", number % 23),
        }
        .as_str();
    }
    let done = folder.run_with(&["run", "disc.img", "-", "--keep-going"], script.as_bytes());
    assert_eq!(done.status, 0, "{done:?}");
    agrees_with_the_listing(&folder);
}

/// The bars of the map have the stretches of `ls --json`, in its order, and each slice once; the table
/// has its files.
fn agrees_with_the_listing(folder: &Folder) {
    let page = page(folder);
    let listing = folder.good(&["ls", "disc.img", "--json"]);
    let (head, files) = listing.split_once("\"files\": [").expect("files");
    let files: Vec<&str> = files
        .lines()
        .filter(|line| line.contains("{\"name\""))
        .collect();
    let rows = between(&page, "<tr data-of=\"f", "</tr>");
    assert_eq!(rows.len(), files.len());
    let bars = between(&page, "<path data-of=\"", " d=\"");
    let place = |bar: &str| {
        let number = |name: &str| field(bar, name, "\"").parse::<usize>().expect("a number");
        (number("data-at=\""), number("data-slices=\""))
    };
    for (number, (file, row)) in files.iter().zip(&rows).enumerate() {
        row_is_right(row, file);
        let of = format!("f{number}\"");
        let drawn = bars
            .iter()
            .filter(|bar| bar.starts_with(&of))
            .map(|bar| place(bar));
        assert_eq!(drawn.collect::<Vec<_>>(), stretches(file), "{file}");
    }
    let slices: usize = field(head, "\"slices\": ", ",").parse().expect("a number");
    let mut drawn = vec![0; slices + 1];
    for (at, count) in bars.iter().map(|bar| place(bar)) {
        drawn[at..at + count]
            .iter_mut()
            .for_each(|times| *times += 1);
    }
    assert!(drawn[1..].iter().all(|times| *times == 1), "{drawn:?}");
    free_is_right(&page, &bars, slices);
}

/// The stretches of a file of the listing: first slice and number of slices.
fn stretches(file: &str) -> Vec<(usize, usize)> {
    let number = |text: &str| text.parse().expect("a number");
    let places = between(file, "{\"slice\": ", ",").into_iter();
    let counts = between(file, "\"slices\": ", ",");
    places
        .zip(counts)
        .map(|(place, count)| (number(place), number(count)))
        .collect()
}

/// A row of the table has a file's name and numbers.
fn row_is_right(row: &str, file: &str) {
    let name = field(file, "\"name\": \"", "\"");
    assert!(row.contains(&format!("</svg>{name}</th>")), "{row}");
    let cells: Vec<usize> = between(row, "<td", "</td>")[..7]
        .iter()
        .map(|cell| cell.split_once('>').expect("a cell").1)
        .map(|text| text.parse().expect("a number"))
        .collect();
    let number = |key: &str| field(file, key, ",").parse::<usize>().expect("a number");
    let (stretches, length) = (stretches(file), number("\"length\": "));
    let counts = stretches.iter().map(|(_, count)| *count);
    let wanted = [
        length,
        number("\"reserved\": "),
        512 * length,
        number("\"index\": "),
        counts.clone().sum(),
        stretches.len(),
        counts.max().unwrap_or(0),
    ];
    assert_eq!(cells, wanted, "{name}");
    let attributes = field(file, "\"attribute_names\": [", "]").replace('"', "");
    let attributes = if attributes.is_empty() {
        "none"
    } else {
        &attributes
    };
    assert!(row.ends_with(&format!("<td>{attributes}</td>")), "{row}");
}

/// The free bars are as long as can be, and each has its row.
fn free_is_right(page: &str, bars: &[&str], slices: usize) {
    let free: Vec<&&str> = bars.iter().filter(|bar| bar.starts_with('e')).collect();
    let rows = between(page, "<tr data-of=\"e", "</tr>");
    assert_eq!(rows.len(), free.len());
    assert!(!rows.is_empty());
    let mut end = 0;
    for (row, bar) in rows.iter().zip(free) {
        let (at, count) = (
            field(bar, "data-at=\"", "\""),
            field(bar, "data-slices=\"", "\""),
        );
        let first: usize = at.parse().expect("a number");
        let last = first + count.parse::<usize>().expect("a number") - 1;
        assert!(first > end + 1 && last <= slices, "{bar}");
        end = last;
        let wanted = format!("<td>{first}</td><td>{last}</td><td>{count}</td>");
        assert!(row.contains(&wanted), "{row}");
    }
}

/// PASS lies in slices 2 to 6, 20 to 25, 29 and 41 of 4 sectors from sector 10 on; its 48 blocks come
/// behind the index block, so that 19 are in the first stretch and 24 in the second.
#[test]
fn without_the_script_each_bar_has_a_title() {
    let page = page(&sample());
    for title in [
        "SYS, stretch 1 of 1: slices 1 to 1, sectors 10 to 13, blocks 0 to 2",
        "PASS, stretch 1 of 4: slices 2 to 6, sectors 14 to 33, index block and blocks 0 to 18",
        "PASS, stretch 2 of 4: slices 20 to 25, sectors 86 to 109, blocks 19 to 42",
        "PASS, stretch 3 of 4: slices 29 to 29, sectors 122 to 125, blocks 43 to 46",
        "PASS, stretch 4 of 4: slices 41 to 41, sectors 170 to 173, block 47",
        "PRICE, stretch 1 of 1: slices 28 to 28, sectors 118 to 121, index block and blocks 0 to 2",
        "free: slices 42 to 60, sectors 174 to 249",
    ] {
        assert_eq!(
            page.matches(&format!("<title>{title}</title>")).count(),
            1,
            "{title}"
        );
    }
    // 15 stretches of files, 2 free ones and the page itself.
    assert_eq!(page.matches("<title>").count(), 18);
}

#[test]
fn a_unit_without_files_and_one_without_room_have_reports() {
    let folder = Folder::new();
    folder.small("disc.img");
    let empty = page(&folder);
    assert!(empty.contains("</b> 4 of 5 slices free</p>"), "{empty}");
    assert!(empty.contains("2 entries"));
    folder.good(&["create", "disc.img", "ALL", "--size", "7"]);
    let full = folder.good(&["report", "disc.img", "-o", "-"]);
    assert!(full.contains("</b> 0 of 5 slices free</p>"));
    assert!(full.contains("No slice is free."));
    for page in [empty, full] {
        check_tags(&markup(&page));
        assert!(!page.contains("NaN") && !page.contains("inf "));
    }
}

/// An image's file name can be anything that a folder can hold.
#[test]
fn a_hostile_file_name_is_a_text() {
    let names: [(&[u8], &str); 6] = [
        (b"<script>alert(1)", "&lt;script&gt;alert(1)"),
        (b"\" onload=\"x.img", "&quot; onload=&quot;x.img"),
        (b"a'&amp;<!--.img", "a&#39;&amp;amp;&lt;!--.img"),
        (b"{{main}}{{script}}.img", "{{main}}{{script}}.img"),
        (b"\x1b[31m\n\x07.img", "\\u{1b}[31m\\n\\u{7}.img"),
        (b"\xff\xfe\xe2\x80\xae.img", "\u{FFFD}\u{FFFD}\\u{202e}.img"),
    ];
    let folder = sample();
    let image = folder.read("disc.img");
    let plain = page(&folder);
    for (name, shown) in names {
        let name = OsStr::from_bytes(name);
        fs::write(folder.path().join(name), &image).expect("written");
        let mut command = folder.command(&["report", "-o", "-", "--"]);
        let output = command.arg(name).stdin(Stdio::null()).output();
        let output = output.expect("the tool runs");
        assert_eq!(output.status.code(), Some(0), "{name:?}");
        let page = String::from_utf8(output.stdout).expect("UTF-8");
        // Nothing but the name in its two places is another.
        let wanted = plain
            .replacen("<title>disc.img:", &format!("<title>{shown}:"), 1)
            .replacen("<bdi>disc.img<", &format!("<bdi>{shown}<"), 1);
        assert!(page == wanted, "{name:?}");
    }
}

#[test]
fn an_image_that_is_not_sound_has_a_report_that_says_so() {
    let folder = sample();
    let mut image = folder.read("disc.img");
    image[4608] ^= 0x7F;
    folder.write("hurt.img", &image);
    let done = folder.run(&["report", "hurt.img", "-o", "hurt.html"]);
    assert_eq!(done.status, 4);
    assert_eq!(done.out, "hurt.html: report written\n");
    assert_eq!(done.err, "ruzkemp: hurt.img: not a sound unit\n");
    assert!(folder.read("hurt.img") == image);
    let page = String::from_utf8(folder.read("hurt.html")).expect("UTF-8");
    check_tags(&markup(&page));
    for text in [
        "<strong>Not sound</strong>",
        "<li>second implementation: not sound</li><li>proved library: not sound</li>",
        "<dt>Sectors <i>N</i></dt><dd>250</dd>",
        "<dt>Sectors of the image</dt><dd>250</dd>",
    ] {
        assert_eq!(page.matches(text).count(), 1, "{text}");
    }
    assert!(!page.contains("id=\"map\"") && !page.contains("<table"));
    // Too short for a kit, and no image at all.
    folder.write("cut.img", &image[..5 * 512]);
    let done = folder.run(&["report", "cut.img", "-o", "-"]);
    assert_eq!(done.status, 4);
    assert!(done.out.contains("<dt>Sectors of the image</dt><dd>5</dd>"));
    assert!(!done.out.contains("<dt>Keys"));
    // One that is no whole number of sectors, too, with the kit's numbers if it has the kit.
    folder.write("odd.img", &image[..9 * 512 + 10]);
    let page = folder.run(&["report", "odd.img", "-o", "-"]).out;
    assert!(page.contains("<dt>Sectors of the image</dt><dd>9</dd>"));
    assert!(page.contains("<dt>Keys"));
    folder.write("odd.img", &[]);
    folder.bad(
        &["report", "odd.img", "-o", "odd.html"],
        4,
        "not a unit image: the file is empty",
    );
}

/// The map's first word of the sample disc is 0 and its last one, of slices 49 to 60, FFF0h. With all 16 bits of
/// the one and the last 4 of the other turned, 16 slices that files have are marked free (rule 36), and slices 61
/// to 64, which are not there, are too (rule 11). With the 23 free ones the map has 43 ones: 172 sectors, not 92 (10).
#[test]
fn what_is_found_is_told_by_rule_with_its_place() {
    let folder = sample();
    let mut image = folder.read("disc.img");
    assert_eq!(image[4608..4610], [0, 0]);
    image[4608..4610].fill(0xFF);
    image[4615] ^= 0x0F;
    folder.write("hurt.img", &image);
    let page = folder.run(&["report", "hurt.img", "-o", "-"]).out;
    let rules: Vec<&str> = between(&page, "<h3>Rule ", ":").into_iter().collect();
    assert_eq!(rules.iter().collect::<BTreeSet<_>>().len(), rules.len());
    assert_eq!(
        BTreeSet::from(["10", "11", "36"]),
        rules.into_iter().collect()
    );
    let ten = field(&page, "<h3>Rule 10: ", "</ul>");
    let kit = "(sector 8, byte 4102)";
    assert!(
        ten.contains("92 ") && ten.contains("172") && ten.contains(kit),
        "{ten}"
    );
    let eleven = field(&page, "<h3>Rule 11: ", "</ul>");
    assert!(eleven.contains("(sector 9, byte 4614)"), "{eleven}");
    let found = page.find("What was found").expect("it is there");
    assert!(page.find("<dt>Keys").expect("the numbers") < found);
    assert!(page.contains("<code>ruzkemp ls IMAGE --unsound</code>"));
    assert!(!page.contains("<ol") && !page.contains("rule 10"));
    // In a pack the byte counts from the beginning of the file.
    folder.write("pack.img", &[vec![0; 3 * 512], image].concat());
    let pack = ["report", "pack.img", "--offset", "3", "-o", "-"];
    let place = "(sector 8 of the unit, byte 5638 of the file)";
    let page = folder.run(&pack).out;
    assert!(page.contains(place));
    assert!(page.contains("<h1><bdi>pack.img from sector 3 on</bdi></h1>"));
}

/// A unit of 59 slices with 29 files of one slice each, in every second one, and all of the map turned: there are
/// more than twenty findings of a rule, and the rest is counted.
#[test]
fn of_a_rule_twenty_findings_are_shown() {
    let folder = Folder::new();
    let unit = "--sectors 128 --first 10 --slice 2 --keys 3";
    let arguments = ["format", "disc.img"].into_iter().chain(unit.split(' '));
    folder.good(&arguments.collect::<Vec<_>>());
    let names: Vec<String> = (0..54).map(|number| format!("F{number}")).collect();
    let create = names.iter().map(|name| format!("create {name} size=1\n"));
    let remove = names
        .iter()
        .step_by(2)
        .map(|name| format!("remove {name}\n"));
    let script: String = ["init\n".to_string()]
        .into_iter()
        .chain(create)
        .chain(remove)
        .collect();
    let done = folder.run_with(&["run", "disc.img", "-"], script.as_bytes());
    assert_eq!(done.status, 0, "{done:?}");
    let mut image = folder.read("disc.img");
    image[4608..4615].iter_mut().for_each(|byte| *byte ^= 0xFF);
    folder.write("hurt.img", &image);
    let page = folder.run(&["report", "hurt.img", "-o", "-"]).out;
    let listed = folder.run(&["check", "hurt.img", "--all"]).out;
    let all = listed.matches("  rule 36: ").count();
    assert!(all > 20, "{listed}");
    let group = field(&page, "<h3>Rule 36: ", "</p>");
    assert_eq!(group.matches("<li>").count(), 20);
    let more = format!(
        "<p class=\"muted\">{} more (<code>ruzkemp check --all",
        all - 20
    );
    assert!(group.contains(&more), "{group}");
    check_tags(&markup(&page));
}

/// Standard input can be read once only.
#[test]
fn an_image_from_a_pipe_has_a_report() {
    let folder = sample();
    let mut image = folder.read("disc.img");
    let named = page(&folder).replace("disc.img", "standard input");
    for path in ["-", "/dev/stdin"] {
        let done = folder.run_with(&["report", path, "-o", "-"], &image);
        assert_eq!((done.status, done.err.as_str()), (0, ""), "{path}");
        assert!(done.out == named, "{path}");
    }
    image[4608] ^= 0x7F;
    folder.write("hurt.img", &image);
    let file = folder.run(&["report", "hurt.img", "-o", "-"]);
    let named = file.out.replace("hurt.img", "standard input");
    for (path, told) in [("-", "standard input"), ("/dev/stdin", "/dev/stdin")] {
        let done = folder.run_with(&["report", path, "-o", "-"], &image);
        assert_eq!(done.status, 4, "{path}");
        assert_eq!(done.err, format!("ruzkemp: {told}: not a sound unit\n"));
        assert!(done.out == named, "{path}: {}", done.out);
    }
    let done = folder.run_with(&["report", "-", "-o", "none.html"], b"");
    assert_eq!(done.status, 4);
    assert!(done
        .err
        .contains("standard input: not a unit image: the file is empty"));
}

/// Only a table of many rows is one of which the browser lays out a part.
#[test]
fn a_table_of_many_rows_is_a_long_one() {
    assert!(!page(&sample()).contains("class=\"long\""));
    let folder = Folder::new();
    let unit = "--sectors 2010 --first 10 --slice 2 --keys 7";
    let arguments = ["format", "disc.img"].into_iter().chain(unit.split(' '));
    folder.good(&arguments.collect::<Vec<_>>());
    let create = (0..200).map(|number| format!("create F{number} size=0\n"));
    let script: String = ["init\n".to_string()].into_iter().chain(create).collect();
    let done = folder.run_with(&["run", "disc.img", "-"], script.as_bytes());
    assert_eq!(done.status, 0, "{done:?}");
    let page = page(&folder);
    assert!(page.contains("<table id=\"files\" class=\"long\">"));
    assert!(page.contains("<table id=\"free\">"));
}

/// Makes a program in a folder. A file that this process itself writes may still be open in one that
/// another thread is starting, and cannot be run then.
fn program(folder: &Folder, name: &str, script: &str) {
    let mut shell = Command::new("sh");
    let make = "printf '#!/bin/sh\\n%s' \"$1\" > \"$0\" && chmod 755 \"$0\"";
    shell.arg("-c").arg(make).arg(folder.file(name)).arg(script);
    assert!(shell.status().expect("sh runs").success());
}

/// Runs the browser test with the programs of a folder.
fn browser_test(folder: &Folder) -> Done {
    let path = std::env::var("PATH").expect("a path");
    let path = format!("{}:{path}", folder.path().display());
    let run = concat!(env!("CARGO_MANIFEST_DIR"), "/tests/browser/run");
    let output = Command::new(run).arg(TOOL).env("PATH", path).output();
    output.expect("the test's program runs").into()
}

/// One line says that the browser test is skipped, and the status is 0.
fn is_skipped(done: &Done) -> bool {
    let Done { status, out, .. } = done;
    *status == 0 && out.starts_with("browser test skipped: ") && out.lines().count() == 1
}

/// A browser that ends at once is none that could show the page.
#[test]
fn without_a_browser_that_works_the_browser_test_is_skipped() {
    let folder = Folder::new();
    program(&folder, "chromium", "exit 1\n");
    let done = browser_test(&folder);
    assert!(is_skipped(&done), "{done:?}");
}

/// How the browser test ends where the checks of the reports end with a status, and the browser is
/// tried once more with another: here a program in the place of python3 says so.
fn after_checks(checks: i32, again: i32) -> Done {
    let folder = Folder::new();
    program(&folder, "chromium", "exit 1\n");
    let script = format!(
        "case $1 in\n\
         */checks.py) : > \"$0.checked\"; echo silent; exit {checks} ;;\n\
         */chromium.py) [ ! -e \"$0.checked\" ] || exit {again} ;;\n\
         esac\n"
    );
    program(&folder, "python3", &script);
    browser_test(&folder)
}

/// A browser that works before a report is opened and after it is none to be excused.
#[test]
fn a_report_with_which_the_browser_does_not_answer_makes_the_browser_test_fail() {
    for checks in [77, 124, 137] {
        let done = after_checks(checks, 0);
        assert_eq!(done.status, 1, "{done:?}");
        assert!(done.err.starts_with("browser test failed: "), "{done:?}");
        let done = after_checks(checks, 77);
        assert!(is_skipped(&done), "{done:?}");
    }
}

#[test]
fn the_report_is_written_whole_or_not_at_all() {
    let folder = sample();
    let out = ["report", "disc.img", "-o"];
    let to = |file| [out[0], out[1], out[2], file];
    folder.bad(&["report", "disc.img"], 2, "-o FILE has to be given");
    folder.bad(&out, 2, "-o needs a value FILE");
    folder.bad(
        &["report", "disc.img", "-o", "a", "--output", "b"],
        2,
        "given twice",
    );
    folder.bad(&["ls", "disc.img", "-o", "a"], 2, "there is no option -o");
    let help = folder.good(&["report", "--help"]);
    assert!(help.contains("\n  -o, --output FILE "), "{help}");
    folder.bad(&to("disc.img"), 2, "the image itself");
    symlink("disc.img", folder.file("link")).expect("a link");
    let force = ["report", "disc.img", "-o", "link", "--force"];
    folder.bad(&force, 2, "the image itself");
    folder.bad(&to("none/disc.html"), 3, "not written");
    folder.bad(&["report", "none.img", "-o", "a.html"], 3, "none.img: ");
    folder.bad(
        &["report", "disc.img", "-o", "/dev/full", "--force"],
        3,
        "no regular file",
    );
    folder.write("old.html", b"old");
    folder.bad(&to("old.html"), 3, "exists already (--force replaces it)");
    let page = page(&folder);
    folder.good(&["report", "disc.img", "-o", "old.html", "--force"]);
    assert!(folder.read("old.html") == page.as_bytes());
    let locked = fs::Permissions::from_mode(0o444);
    fs::set_permissions(folder.file("old.html"), locked).expect("read-only");
    let force = ["report", "disc.img", "-o", "old.html", "--force"];
    folder.bad(&force, 3, "the file is read-only");
}

#[test]
fn a_full_standard_output_is_told() {
    let folder = sample();
    let before = folder.snapshot();
    let full = File::options()
        .write(true)
        .open("/dev/full")
        .expect("/dev/full");
    let mut command = Command::new(TOOL);
    command
        .args(["report", "disc.img", "-o", "-"])
        .current_dir(folder.path());
    let output = command.stdout(full).output().expect("the tool runs");
    let done = output.into();
    folder.judge(&["report"], &before, &done, 3, "standard output");
}

/// A unit's number is the report's, and one that no unit has is refused.
#[test]
fn the_unit_has_its_number() {
    let folder = sample();
    let page = folder.good(&["report", "disc.img", "--unit", "3", "-o", "-"]);
    assert!(page.contains("Disc report &middot; unit 3"));
    folder.bad(
        &["report", "disc.img", "--unit", "4", "-o", "a.html"],
        1,
        "1200h",
    );
}
