//! What `ls`, `show` and `map` print with `--json`.

mod common;
#[path = "common/json.rs"]
mod parser;

use common::Folder;
use parser::Json;

fn sample() -> Folder {
    let folder = Folder::new();
    folder.good(&["sample", "disc.img"]);
    folder
}

fn json(folder: &Folder, arguments: &[&str]) -> Json {
    Json::parse(&folder.good(arguments))
}

fn name_of(value: &Json) -> String {
    match value.member("name") {
        Json::Text(name) => name.clone(),
        other => panic!("no name: {other:?}"),
    }
}

#[test]
fn show_has_what_ls_has_of_each_file() {
    let folder = sample();
    let listing = json(&folder, &["ls", "disc.img", "--json"]);
    let files = listing.list("files");
    assert_eq!(files.len(), 11);
    for file in files {
        let name = name_of(file);
        let shown = json(&folder, &["show", "disc.img", &name, "--json"]);
        assert_eq!(shown.member("file"), file);
        for number in [
            "unit",
            "sectors",
            "first",
            "slice",
            "keys",
            "slices",
            "free_sectors",
        ] {
            assert_eq!(shown.number(number), listing.number(number), "{number}");
        }
    }
}

/// PASS sums to A394h, key 2 of 3, as worked on paper.
#[test]
fn show_has_all_of_an_entry() {
    let folder = Folder::new();
    let format = "format a.img --sectors 20 --first 10 --slice 2 --keys 3 --unit 1";
    folder.good(&format.split(' ').collect::<Vec<_>>());
    let set = "set a.img PASS --size 1 --extendable --permanent --optional 1,2,0xA --tail 1,2,3,4,5,6 --unit 1";
    folder.good(&set.split(' ').collect::<Vec<_>>());
    let shown = json(&folder, &["show", "a.img", "PASS", "--json", "--unit", "1"]);
    // SYS has 3 sectors, slices 1 and 2; PASS has slice 3.
    let wanted = r#"{
        "unit": 1, "sectors": 20, "first": 10, "slice": 2, "keys": 3, "slices": 5, "free_sectors": 4,
        "key": 2, "file": {
            "name": "PASS", "attributes": 17, "attribute_names": ["permanent", "extendable"],
            "length": 1, "index": 14, "reserved": 2, "optional": [1, 2, 10],
            "tail": [1, 2, 3, 4, 5, 6],
            "stretches": [{"slice": 3, "slices": 1, "sector": 14, "sectors": 2}]
        }
    }"#;
    assert_eq!(shown, Json::parse(wanted));
    let unknown = ["show", "a.img", "GATE", "--json", "--unit", "1"];
    folder.bad(&unknown, 1, "look-up GATE: refused with 5000h");
}

/// Slice 1 is SYS's; PASS 2, then GATE 3 and PASS again 4: as `map` draws it.
#[test]
fn map_has_all_stretches_in_the_order_of_the_slices() {
    let folder = Folder::new();
    folder.small("a.img");
    folder.good(&["create", "a.img", "PASS", "--size", "1"]);
    folder.good(&["create", "a.img", "GATE", "--size", "1"]);
    folder.good(&["change", "a.img", "PASS", "--size", "3"]);
    let wanted = r#"{
        "unit": 0, "sectors": 20, "first": 10, "slice": 2, "keys": 1, "slices": 5, "free_sectors": 2,
        "map": [
            {"name": "SYS", "stretch": 1, "slice": 1, "slices": 1, "sector": 10, "sectors": 2},
            {"name": "PASS", "stretch": 1, "slice": 2, "slices": 1, "sector": 12, "sectors": 2},
            {"name": "GATE", "stretch": 1, "slice": 3, "slices": 1, "sector": 14, "sectors": 2},
            {"name": "PASS", "stretch": 2, "slice": 4, "slices": 1, "sector": 16, "sectors": 2},
            {"name": null, "stretch": null, "slice": 5, "slices": 1, "sector": 18, "sectors": 2}
        ]
    }"#;
    assert_eq!(
        json(&folder, &["map", "a.img", "--json"]),
        Json::parse(wanted)
    );
}

#[test]
fn the_map_has_every_slice_once() {
    let folder = sample();
    let map = json(&folder, &["map", "disc.img", "--json"]);
    let (mut next, mut free) = (1, 0);
    for stretch in map.list("map") {
        assert_eq!(stretch.number("slice"), next);
        assert_eq!(stretch.number("sector"), 10 + 4 * (next - 1));
        assert_eq!(stretch.number("sectors"), 4 * stretch.number("slices"));
        next += stretch.number("slices");
        let nobody = stretch.member("name") == &Json::Null;
        assert_eq!(stretch.member("stretch") == &Json::Null, nobody);
        if nobody {
            free += stretch.number("sectors");
        }
    }
    assert_eq!((next, free), (61, map.number("free_sectors")));
    // Of each file as many stretches as the listing has.
    let listing = json(&folder, &["ls", "disc.img", "--json"]);
    for file in listing.list("files") {
        let own = |stretch: &&Json| stretch.member("name") == file.member("name");
        let number = map.list("map").iter().filter(own).count();
        assert_eq!(number, file.list("stretches").len(), "{}", name_of(file));
    }
}

#[test]
fn json_and_a_picture_exclude_each_other() {
    let folder = sample();
    let both = ["map", "disc.img", "--json", "--svg", "map.svg"];
    folder.bad(&both, 2, "map: --json and --svg exclude each other");
}
