//! The listing as JSON and the map as a picture: both are read back and held against the second
//! implementation's account of the image.

mod common;

use std::collections::BTreeMap;

use common::{numbers, Folder};
use reference::layout::stretches;
use reference::plain::Plain;
use reference::random::Random;
use reference::State;

/// A JSON value.
#[derive(Debug, PartialEq)]
enum Value {
    Number(i64),
    Text(String),
    List(Vec<Value>),
    Object(BTreeMap<String, Value>),
}

impl Value {
    fn at(&self, key: &str) -> &Value {
        match self {
            Value::Object(fields) => &fields[key],
            other => panic!("{other:?} has no {key}"),
        }
    }

    fn list(&self) -> &[Value] {
        match self {
            Value::List(values) => values,
            other => panic!("{other:?} is no list"),
        }
    }

    fn number(&self) -> usize {
        match self {
            Value::Number(number) => *number as usize,
            other => panic!("{other:?} is no number"),
        }
    }

    fn text(&self) -> &str {
        match self {
            Value::Text(text) => text,
            other => panic!("{other:?} is no text"),
        }
    }

    fn numbers(&self) -> Vec<usize> {
        self.list().iter().map(Value::number).collect()
    }
}

/// A reader of JSON: strict, but without escapes, fractions, true, false and null.
struct Reader<'a>(&'a str);

impl Reader<'_> {
    fn value(&mut self) -> Value {
        self.0 = self.0.trim_start();
        match self.0.as_bytes()[0] {
            b'{' => {
                let fields = self.many('{', '}', |reader| {
                    let Value::Text(key) = reader.value() else {
                        panic!("a key is a text")
                    };
                    reader.expect(':');
                    (key, reader.value())
                });
                let count = fields.len();
                let object: BTreeMap<String, Value> = fields.into_iter().collect();
                assert_eq!(object.len(), count, "no key stands twice");
                Value::Object(object)
            }
            b'[' => Value::List(self.many('[', ']', Reader::value)),
            b'"' => {
                let (text, rest) = self.0[1..].split_once('"').expect("a closed text");
                assert!(!text.contains('\\'));
                self.0 = rest;
                Value::Text(text.into())
            }
            _ => {
                let end = self.0.find(|c: char| !c.is_ascii_digit() && c != '-');
                let (number, rest) = self.0.split_at(end.expect("something follows"));
                self.0 = rest;
                Value::Number(number.parse().expect("a number"))
            }
        }
    }

    fn many<T>(&mut self, open: char, close: char, one: impl Fn(&mut Self) -> T) -> Vec<T> {
        self.expect(open);
        let mut found = Vec::new();
        while !self.0.trim_start().starts_with(close) {
            if !found.is_empty() {
                self.expect(',');
            }
            found.push(one(self));
        }
        self.expect(close);
        found
    }

    fn expect(&mut self, character: char) {
        let rest = self.0.trim_start().strip_prefix(character);
        self.0 = rest.unwrap_or_else(|| panic!("{character} expected at {:.20}", self.0));
    }
}

fn plain(folder: &Folder, name: &str) -> Plain {
    Plain::read(&folder.words(name), &State::new(0)).expect("a sound unit")
}

/// The slices of a file of the plain unit.
fn slices(plain: &Plain, name: &str) -> Vec<usize> {
    match name {
        "SYS" => plain.sys.clone(),
        "MAP" => Vec::new(),
        _ => plain.files[name].slices.clone(),
    }
}

/// A unit with many files in many stretches.
fn crowded(folder: &Folder) {
    let numbers = numbers(["2010", "10", "2", "7"]);
    folder.good(&[&["format", "a.img"], &numbers[..]].concat());
    let random = &mut Random::new(5);
    let mut script = String::from("init\n");
    for round in 0..9 {
        for number in 0..30 {
            let size = random.below(40);
            let name = format!("F{number}");
            script += match random.below(3 + round) {
                0 => format!("remove {name}\n"),
                1 => format!("create {name} size={size}\n"),
                _ => format!("change {name} size={size}\n"),
            }
            .as_str();
            script += &format!("create {name} size={size}\n");
        }
    }
    let done = folder.run_with(&["run", "a.img", "-", "--keep-going"], script.as_bytes());
    assert_eq!(done.status, 0, "{done:?}");
}

#[test]
fn the_json_listing_is_json_and_says_what_the_plain_unit_holds() {
    let folder = Folder::new();
    folder.good(&["sample", "a.img"]);
    folder.good(&[
        "set",
        "a.img",
        "X",
        "--attributes",
        "4001h",
        "--optional",
        "65535,2,3",
    ]);
    json_is_right(&folder);
    let folder = Folder::new();
    crowded(&folder);
    json_is_right(&folder);
}

fn json_is_right(folder: &Folder) {
    let text = folder.good(&["ls", "a.img", "--json"]);
    let mut reader = Reader(&text);
    let listing = reader.value();
    assert_eq!(reader.0.trim(), "");
    let plain = plain(folder, "a.img");
    for (key, wanted) in [
        ("unit", 0),
        ("sectors", plain.n),
        ("first", plain.f),
        ("slice", plain.s),
        ("keys", plain.h),
        ("slices", plain.total()),
        ("free_sectors", plain.s * plain.free().len()),
    ] {
        assert_eq!(listing.at(key).number(), wanted, "{key}");
    }
    let mut names = plain.names();
    names.sort();
    let files = listing.at("files").list();
    let listed: Vec<&str> = files.iter().map(|file| file.at("name").text()).collect();
    assert_eq!(listed, names);
    for file in files {
        file_is_right(&plain, file);
    }
}

fn file_is_right(plain: &Plain, file: &Value) {
    let name = file.at("name").text();
    let words: Vec<usize> = plain.booked(name).iter().map(|&word| word.into()).collect();
    for (key, word) in [
        ("attributes", 6),
        ("length", 7),
        ("index", 8),
        ("reserved", 9),
    ] {
        assert_eq!(file.at(key).number(), words[word], "{name} {key}");
    }
    assert_eq!(file.at("optional").numbers(), words[3..6], "{name}");
    assert_eq!(file.at("tail").numbers(), words[10..], "{name}");
    let ones = plain.booked(name)[6].count_ones() as usize;
    assert_eq!(file.at("attribute_names").list().len(), ones, "{name}");
    let wanted = stretches(&slices(plain, name)).into_iter();
    let wanted: Vec<[usize; 4]> = wanted
        .map(|(first, count)| {
            let sector = plain.f + (first - 1) * plain.s;
            [first, count, sector, count * plain.s]
        })
        .collect();
    let keys = ["slice", "slices", "sector", "sectors"];
    let drawn = file.at("stretches").list().iter();
    let drawn = drawn.map(|stretch| keys.map(|key| stretch.at(key).number()));
    assert_eq!(drawn.collect::<Vec<_>>(), wanted, "{name}");
}

/// The tags of a text that is XML without comments and without `>` in attributes, each closed
/// in its order.
fn check_xml(text: &str) {
    let mut open: Vec<&str> = Vec::new();
    let mut rest = text;
    while let Some(start) = rest.find('<') {
        assert!(!rest[..start].contains('>'), "{:.60}", &rest[..start]);
        let end = rest.find('>').expect("a closed tag");
        let tag = &rest[start + 1..end];
        rest = &rest[end + 1..];
        assert!(tag.matches('"').count().is_multiple_of(2), "{tag}");
        assert!(!tag.contains("NaN") && !tag.contains("inf"), "{tag}");
        let name = tag.trim_matches('/').split([' ', '\n']).next();
        let name = name.expect("a name");
        if tag.starts_with('/') {
            assert_eq!(open.pop(), Some(name));
        } else if !tag.ends_with('/') {
            open.push(name);
        }
    }
    assert!(open.is_empty() && rest.trim().is_empty());
}

/// The titles of the stretches in a picture: what is drawn from which slice to which.
fn drawn(picture: &str) -> Vec<(String, usize, usize)> {
    let mut found = Vec::new();
    for title in picture.split("<g><title>").skip(1) {
        let title = title.split("</title>").next().expect("a title");
        let Some((what, place)) = title.split_once(": slice") else {
            continue;
        };
        let place = place.split(',').next().expect("slices, sectors");
        let (from, to) = match place.strip_prefix("s ") {
            Some(place) => place.split_once(" to ").expect("from, to"),
            None => (&place[1..], &place[1..]),
        };
        assert_eq!(from == to, !place.starts_with('s'), "{title}");
        let number = |text: &str| text.parse::<usize>().expect("a slice");
        let what = what.split(',').next().expect("a name");
        found.push((what.to_string(), number(from), number(to)));
    }
    found
}

#[test]
fn the_picture_is_xml_and_has_each_stretch_once() {
    let folder = Folder::new();
    folder.good(&["sample", "a.img"]);
    picture_is_right(&folder, 9);
    let folder = Folder::new();
    crowded(&folder);
    picture_is_right(&folder, 20);
}

fn picture_is_right(folder: &Folder, at_least: usize) {
    folder.good(&["map", "a.img", "--svg", "map.svg"]);
    let picture = String::from_utf8(folder.read("map.svg")).expect("UTF-8");
    assert_eq!(picture, folder.good(&["map", "a.img", "--svg", "-"]));
    assert!(picture.starts_with("<svg xmlns=\"http://www.w3.org/2000/svg\""));
    check_xml(&picture);
    let plain = plain(folder, "a.img");
    let mut wanted: Vec<(String, usize, usize)> = Vec::new();
    for name in plain.names() {
        let stretches = stretches(&slices(&plain, &name)).into_iter();
        wanted.extend(stretches.map(|(first, count)| (name.clone(), first, first + count - 1)));
    }
    let free: Vec<usize> = plain.free().into_iter().collect();
    let stretches = stretches(&free).into_iter();
    wanted.extend(stretches.map(|(first, count)| ("free".into(), first, first + count - 1)));
    let mut drawn = drawn(&picture);
    drawn.sort();
    wanted.sort();
    assert!(drawn.len() > at_least, "{} stretches", drawn.len());
    assert_eq!(drawn, wanted);
}

/// The map in text, read back: for each slice its symbol and whether a stretch goes on there.
#[test]
fn the_map_in_text_has_each_slice_once() {
    for crowd in [false, true] {
        let folder = Folder::new();
        match crowd {
            true => crowded(&folder),
            false => drop(folder.good(&["sample", "a.img"])),
        }
        let out = folder.good(&["map", "a.img"]);
        let rows = out.lines().skip(2).take_while(|line| !line.is_empty());
        let cells: String = rows.map(|row| row[6..].to_string()).collect();
        let plain = plain(&folder, "a.img");
        assert_eq!(cells.len(), plain.total());
        let mut symbols = BTreeMap::from([("SYS".to_string(), '#')]);
        let letters = ('A'..='Z').chain('a'..='z').chain('0'..='9');
        let mut names = plain.names();
        names.sort();
        names.retain(|name| name != "SYS" && !slices(&plain, name).is_empty());
        symbols.extend(names.into_iter().zip(letters));
        let mut wanted = vec!['.'; plain.total()];
        for (name, symbol) in symbols {
            for (first, count) in stretches(&slices(&plain, &name)) {
                for slice in first..first + count {
                    let shown = slice == first || (slice - 1) % 64 == 0;
                    wanted[slice - 1] = if shown { symbol } else { '-' };
                }
            }
        }
        assert_eq!(cells, wanted.into_iter().collect::<String>());
    }
}
