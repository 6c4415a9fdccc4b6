//! The C side: the header compiles in every C and C++ that it promises, the example prints what
//! documents 01 and 02 ask for, C, Rust and the compiled library agree on where each field stands,
//! and the header's own helpers do what they say.

use std::mem::{offset_of, size_of};
use std::path::{Path, PathBuf};
use std::process::Command;

use ruzkemp::sys::{call, operation, AreaState, UnitAnswer, UnitMessage, UnitState, UserState};
use ruzkemp::{Attributes, Error, Name, Record, Role, Unit};

const ROOT: &str = concat!(env!("CARGO_MANIFEST_DIR"), "/../..");
const LIBRARY: &str = concat!(env!("OUT_DIR"), "/libexport.a");
const STRICT: [&str; 4] = ["-Wall", "-Wextra", "-Werror", "-pedantic"];

/// Has a compiler make a program of a source and the library, and names the program.
fn compiled(compiler: &str, standard: &str, source: &Path, name: &str) -> PathBuf {
    let program = Path::new(env!("CARGO_TARGET_TMPDIR")).join(name);
    let made = Command::new(compiler)
        .arg(format!("-std={standard}"))
        .args(STRICT)
        .arg("-I")
        .arg(Path::new(ROOT).join("include"))
        .args(if compiler == "c++" {
            ["-x", "c++"]
        } else {
            ["-x", "c"]
        })
        .arg(source)
        .args(["-x", "none", LIBRARY, "-o"])
        .arg(&program)
        .output()
        .unwrap_or_else(|why| panic!("{compiler} cannot be run: {why}"));
    let said = String::from_utf8_lossy(&made.stderr);
    assert!(made.status.success(), "{compiler} -std={standard}:\n{said}");
    program
}

/// What a program prints.
fn output(program: &Path) -> String {
    let ran = Command::new(program).output().expect("the program runs");
    let said = String::from_utf8_lossy(&ran.stderr);
    assert!(ran.status.success(), "{}: {said}", program.display());
    String::from_utf8(ran.stdout).expect("the program prints text")
}

/// Whether there is a C++ compiler: the library needs none.
fn has_cpp() -> bool {
    Command::new("c++").arg("--version").output().is_ok()
}

/// The example's output. Its file was written from document 01's cases P5 to P8 and its
/// questions, with need(2) = 2, need(4) = 3 and slices of two sectors from sector 10 on, and from
/// 02's R-4 for the ends of files and R-8 for the names that differ in case only: PRICE has slices 2
/// and 3, so that PASS gets slice 4, sector 16.
#[test]
fn the_example_prints_what_the_documents_ask_for() {
    let source = Path::new(ROOT).join("examples/c/season.c");
    let expected = source.with_extension("expected");
    let expected = std::fs::read_to_string(expected).expect("the expected output is there");
    let c = [("cc", "c99"), ("cc", "c11")];
    let cpp = [("c++", "c++98"), ("c++", "c++17")];
    let cpp = if has_cpp() { &cpp[..] } else { &[] };
    for (compiler, standard) in c.iter().chain(cpp) {
        let name = format!("season-{standard}");
        let program = compiled(compiler, standard, &source, &name);
        assert_eq!(output(&program), expected, "{compiler} -std={standard}");
    }
}

/// The lines of a struct: its size and the place of each field.
macro_rules! lines {
    ($c:literal, $rust:ident, $($field:ident),+) => {
        vec![
            format!("{} {}", $c, size_of::<$rust>()),
            $(format!("{}.{} {}", $c, stringify!($field), offset_of!($rust, $field)),)+
        ]
    };
}

fn layout() -> Vec<String> {
    [
        lines!("user", UserState, id, role, opens, position),
        lines!("area", AreaState, live, name, index, length, users),
        lines!("state", UnitState, unit, initialized, areas),
        lines!(
            "message",
            UnitMessage,
            call,
            name,
            unit,
            size,
            attributes,
            sender,
            operation,
            number,
            bytes,
            block
        ),
        lines!("answer", UnitAnswer, result, bytes, block, entries),
    ]
    .concat()
}

/// The named numbers: result words, attributes, roles, calls and operations.
fn numbers() -> Vec<String> {
    let results = [
        ("CATALOG_PARAMETER", Error::CatalogParameter),
        ("CATALOG_UNSOUND", Error::CatalogUnsound),
        ("NO_ENTRY", Error::NoEntry),
        ("ENTRY_EXISTS", Error::EntryExists),
        ("DISC_FULL", Error::DiscFull),
        ("INDEX_FULL", Error::IndexFull),
        ("FORMAT_RECORD", Error::FormatRecord),
        ("AREA_ILLEGAL", Error::AreaIllegal),
        ("AREA_UNSOUND", Error::AreaUnsound),
        ("NO_AREA", Error::NoArea),
        ("AREA_FULL", Error::AreaFull),
        ("AREA_RESERVED", Error::AreaReserved),
        ("NOT_USER_OR_PAST_END", Error::NotUserOrPastEnd),
        ("USERS_OR_INDEX_FULL", Error::UsersOrIndexFull),
        ("BLOCK_SIZE", Error::BlockSize),
        ("WRITE_PROTECTED_FILE", Error::WriteProtected),
        ("NO_SUCH_CALL", Error::NoSuchCall),
    ];
    let attributes = [
        ("CATALOG_FILE", Attributes::CATALOG_FILE),
        ("SUB_CATALOG", Attributes::SUB_CATALOG),
        ("PERMANENT", Attributes::PERMANENT),
        ("WRITE_PROTECTED", Attributes::WRITE_PROTECTED),
        ("ENTRY_ONLY", Attributes::ENTRY_ONLY),
        ("EXTENDABLE", Attributes::EXTENDABLE),
    ];
    let results = results.map(|(name, error)| (name, error.word()));
    let attributes = attributes.map(|(name, bit)| (name, bit.bits()));
    let lines = results.into_iter().chain(attributes).chain(call_numbers());
    lines
        .map(|(name, number)| format!("{name} {number:04X}"))
        .collect()
}

fn call_numbers() -> Vec<(&'static str, u16)> {
    vec![
        ("SHARING", Role::Sharing.number()),
        ("EXCLUSIVE_WRITER", Role::ExclusiveWriter.number()),
        ("EXCLUSIVE_USER", Role::ExclusiveUser.number()),
        ("CALL_INIT", call::INIT),
        ("CALL_SET", call::SET),
        ("CALL_CREATE", call::CREATE),
        ("CALL_LOOK_UP", call::LOOK_UP),
        ("CALL_CHANGE", call::CHANGE),
        ("CALL_REMOVE", call::REMOVE),
        ("CALL_CREATE_AREA", call::CREATE_AREA),
        ("CALL_REMOVE_AREA", call::REMOVE_AREA),
        ("CALL_AREA_MESSAGE", call::AREA_MESSAGE),
        ("CALL_UNIT_DESCRIPTION", call::UNIT_DESCRIPTION),
        ("CALL_LISTING", call::LISTING),
        ("OPERATION_RESERVE", operation::RESERVE),
        ("OPERATION_POSITION", operation::POSITION),
        ("OPERATION_SENSE", operation::SENSE),
        ("OPERATION_TRANSPUT", operation::TRANSPUT),
        ("OPERATION_OTHER", operation::OTHER),
    ]
}

/// The words of the state that `layout.c` brings about, from document 01: unit 3, initialized,
/// and of area k (1 to 8) 'live', the name 'Fk', the index sector, the length k and the users.
/// With s = 2 the files of 1 to 8 sectors take 1, 2, 2, 3, 3, 4, 4 and 5 slices from slice 2 on,
/// which is sector 12.
fn state_words() -> Vec<u16> {
    let indexes = [12, 14, 18, 22, 28, 34, 42, 50];
    let mut words = vec![3, 1];
    for (k, index) in (1..=8).zip(indexes) {
        words.extend([1, 0x4630 + k, 0, 0, index, k]);
        if k < 8 {
            words.extend([100 * k + 1, 0, 1, k]);
            words.extend([100 * k + 2, 1, 2, k - 1]);
            words.extend([100 * k + 3, 0, 3, k / 2]);
        } else {
            words.extend([100 * k + 1, 2, 4, k, 0, 0, 0, 0, 0, 0, 0, 0]);
        }
    }
    words
}

#[test]
fn c_rust_and_the_library_agree_on_fields_and_numbers() {
    let source = Path::new(env!("CARGO_MANIFEST_DIR")).join("tests/c/layout.c");
    let printed = output(&compiled("cc", "c99", &source, "layout"));
    let words = state_words().into_iter().map(|word| word.to_string());
    let expected = layout().into_iter().chain(numbers()).chain(words);
    let expected: Vec<String> = expected.collect();
    assert_eq!(printed.lines().collect::<Vec<_>>(), expected);
}

/// The words of a state, field by field of the Rust mirror.
fn words_of(state: &UnitState) -> Vec<u16> {
    let mut words = vec![state.unit, state.initialized];
    for area in &state.areas {
        words.push(area.live);
        words.extend(area.name);
        words.extend([area.index, area.length]);
        for user in &area.users {
            words.extend([user.id, user.role, user.opens, user.position]);
        }
    }
    words
}

fn used(unit: &mut Unit<Vec<u16>>, name: Name, user: (u16, Role, u16, u16)) -> ruzkemp::Result<()> {
    let (sender, role, opens, position) = user;
    for _ in 0..opens {
        unit.reserve(name, sender, role)?;
    }
    unit.position(name, sender, position)
}

#[test]
fn the_rust_mirror_has_the_fields_where_the_library_writes_them() -> ruzkemp::Result<()> {
    let mut unit = Unit::formatted(&Record::new(3, 1, 2, 60, 10))?;
    unit.init()?;
    for k in 1..=8 {
        let name = Name::new(&format!("F{k}")).expect("a legal name");
        unit.create(name, k, Attributes::NONE)?;
        unit.create_area(name)?;
        if k < 8 {
            used(&mut unit, name, (100 * k + 1, Role::Sharing, 1, k))?;
            used(
                &mut unit,
                name,
                (100 * k + 2, Role::ExclusiveWriter, 2, k - 1),
            )?;
            used(&mut unit, name, (100 * k + 3, Role::Sharing, 3, k / 2))?;
        } else {
            used(&mut unit, name, (100 * k + 1, Role::ExclusiveUser, 4, k))?;
        }
    }
    assert_eq!(words_of(unit.state().raw()), state_words());
    Ok(())
}

/// What a program of `tests/c` prints, in C and in C++ the same.
fn printed(source: &str) -> String {
    let path = Path::new(env!("CARGO_MANIFEST_DIR")).join(format!("tests/c/{source}.c"));
    let in_c = output(&compiled("cc", "c99", &path, source));
    if has_cpp() {
        let name = format!("{source}-c++98");
        assert_eq!(output(&compiled("c++", "c++98", &path, &name)), in_c);
    }
    in_c
}

/// For all 65,536 words; 0 is no refusal.
#[test]
fn c_and_rust_have_one_text_for_each_result_word() {
    let printed = printed("results");
    let lines: Vec<&str> = printed.lines().collect();
    assert_eq!(lines.len(), 65_536);
    assert_eq!(lines[0], "0000h: done");
    for (word, line) in (0..=u16::MAX).zip(lines).skip(1) {
        let refusal = Error::from_word(word).expect("a refusal");
        assert_eq!(refusal.to_string(), line);
    }
}

/// 'PASS' is 50h 41h 53h 53h; the bytes after it are FFh 00h 01h 80h.
#[test]
fn c_loads_and_stores_words_in_both_orders() {
    let bytes = "50 41 53 53 FF 00 01 80";
    let mut expected = String::new();
    for (words, two, one) in [
        (
            "5041 5353 FF00 0180",
            "5041 5353 A5A5 A5A5",
            "50 41 A5 A5 A5 A5 A5 A5",
        ),
        (
            "4150 5353 00FF 8001",
            "4150 5353 A5A5 A5A5",
            "50 41 A5 A5 A5 A5 A5 A5",
        ),
    ] {
        expected += &format!("words {words}\nbytes {bytes}\n").repeat(2);
        expected += &format!("in place {words}\nin place {bytes}\n");
        expected += "none A5A5 A5A5 A5A5 A5A5\nnone A5 A5 A5 A5 A5 A5 A5 A5\n";
        expected += &format!("two {two}\none {one}\n");
    }
    assert_eq!(printed("orders"), expected);
}

/// Change keeps the name if the entry's first word is 0 and attributes or length if negative, and
/// optional and tail of a permanent file. PASS has slices 2 to 4 at last, from sector 12 on.
#[test]
fn c_refuses_what_change_would_read_as_keep() {
    let an_old_entry = "look-up 0000
change as looked up 1200
change of nothing 0000
change of optional 0000 changed
look-up 0000
4E4F 5445 0000 0007 0002 0003 0004 0000 0000 0000 0004 0005 0006 0007 0008 0009
change to permanent 0000 changed
change of a permanent tail 0000
look-up 0000
4E4F 5445 0000 0007 0002 0003 0010 0000 0000 0000 0008 0005 0006 0007 0008 0009
";
    let without_a_file = "rename 5000\nresize 5000\nrename 9000\nresize 9000\n";
    let names_and_lengths = "create 1200
create 0000 changed
rename 1200
rename 1200
rename 1200
rename 1200
resize 1200
resize 1200
resize 1200
resize 1100
resize 0000 changed
rename 0000 changed
look-up 0000
5745 454B 0000 0000 0000 0000 0001 0004 000C 0006 0000 0000 0000 0000 0000 0000
";
    let expected = [
        "init 0000\n",
        an_old_entry,
        without_a_file,
        names_and_lengths,
    ]
    .concat();
    assert_eq!(printed("change"), expected);
}
