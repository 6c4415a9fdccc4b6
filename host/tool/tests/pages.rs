//! `--version`, the manual page and the completions: they have every command and every option
//! that the tool's own help has.

mod common;

use std::collections::BTreeSet;
use std::path::Path;
use std::process::{Command, Stdio};
use std::{env, fs};

use common::{Folder, TOOL};

const SHELLS: [&str; 3] = ["bash", "zsh", "fish"];

/// The commands that `ruzkemp help` lists, without `help` itself.
fn commands(folder: &Folder) -> Vec<String> {
    let help = folder.good(&["help"]);
    let lines = help.lines().skip_while(|line| *line != "Commands:").skip(1);
    let names = lines.take_while(|line| !line.is_empty());
    let names = names.map(|line| line.split_whitespace().next().expect("a command").into());
    names.filter(|name| name != "help").collect()
}

/// The options that a command's page lists, without `--help`; a short name stands before the long one.
fn options(folder: &Folder, command: &str) -> Vec<String> {
    let page = folder.good(&[command, "--help"]);
    let lines = page.lines().skip_while(|line| *line != "Options:").skip(1);
    let words = lines.filter_map(|line| line.split_whitespace().find(|word| !word.ends_with(',')));
    let names = words.filter(|word| word.starts_with("--") && *word != "--help");
    names.map(String::from).collect()
}

/// A part of the manual page, from a line to the next that begins so.
fn part<'a>(page: &'a str, begin: &str, next: &str) -> &'a str {
    let start = page.find(begin).unwrap_or_else(|| panic!("no {begin}"));
    let rest = &page[start + begin.len()..];
    &rest[..rest.find(next).unwrap_or(rest.len())]
}

fn misuses(folder: &Folder, arguments: &[&str]) {
    let done = folder.bad(arguments, 2, "help");
    assert_eq!(done.out, "", "{arguments:?}");
}

#[test]
fn the_version_names_the_library_and_the_kit() {
    let folder = Folder::new();
    for option in ["--version", "-V"] {
        let printed = folder.good(&[option]);
        let lines: Vec<&str> = printed.lines().collect();
        let digest = format!("sha256 {}", ruzkemp::origin::SHA256);
        let kit = format!("kit {}", ruzkemp::origin::KIT);
        let wanted = ["ruzkemp 0.1.0", "library libruzkemp.a", &digest, &kit];
        assert_eq!(lines, wanted);
    }
}

#[test]
fn the_manual_page_has_every_command_with_its_options() {
    let folder = Folder::new();
    let page = folder.good(&["help", "--man"]);
    let commands = commands(&folder);
    assert!(commands.len() >= 14, "{commands:?}");
    for command in commands {
        let heading = format!(".SS \"\\fB{}\\fR", command.replace('-', "\\-"));
        let section = part(&page, &heading, "\n.S");
        for option in options(&folder, &command) {
            let name = format!("\\fB{}\\fR", option.replace('-', "\\-"));
            let entries = section.split(".TP\n").skip(1);
            let mut heads = entries.filter_map(|entry| entry.lines().next());
            assert!(heads.any(|head| head.contains(&name)), "{command} {option}");
        }
    }
}

#[test]
fn the_manual_page_has_the_sections_and_no_line_that_is_an_unknown_request() {
    let page = Folder::new().good(&["help", "--man"]);
    let sections = [
        "NAME",
        "SYNOPSIS",
        "DESCRIPTION",
        "COMMANDS",
        "EXIT STATUS",
        "FILES",
        "EXAMPLES",
    ];
    let places: Vec<usize> = sections
        .iter()
        .map(|section| page.find(&format!("\n.SH {section}\n")).expect(section))
        .collect();
    assert!(places.is_sorted(), "{places:?}");
    let known = [
        ".TH", ".SH", ".SS", ".TP", ".PP", ".B", ".I", ".BR", ".BI", ".RB", ".IR", ".br", ".nf",
        ".fi", ".RS", ".RE",
    ];
    for line in page.lines().filter(|line| line.starts_with(['.', '\''])) {
        let request = line.split(' ').next().expect("a word");
        assert!(known.contains(&request), "{line}");
    }
}

/// The statuses are those of the table in docs/TOOL.md.
#[test]
fn the_manual_page_has_the_exit_statuses_of_the_document() {
    let document = Path::new(env!("CARGO_MANIFEST_DIR")).join("../../docs/TOOL.md");
    let document = fs::read_to_string(document).expect("the document");
    let table = part(&document, "## Exit status\n", "\n## ");
    let rows = table.lines().filter_map(|line| line.split('|').nth(1));
    let told: BTreeSet<u8> = rows.filter_map(|cell| cell.trim().parse().ok()).collect();
    let page = Folder::new().good(&["help", "--man"]);
    let section = part(&page, ".SH EXIT STATUS\n", "\n.SH ");
    let lines = section.lines().filter_map(|line| line.strip_prefix(".B "));
    let named: BTreeSet<u8> = lines.map(|line| line.parse().expect("a status")).collect();
    assert_eq!(named, told);
    assert_eq!(named.len(), 6);
}

#[test]
fn the_examples_of_the_manual_page_can_be_run() {
    let folder = Folder::new();
    let page = folder.good(&["help", "--man"]);
    let tools = Path::new(TOOL).parent().expect("a folder").to_path_buf();
    let old = env::var_os("PATH").unwrap_or_default();
    let paths = env::join_paths([tools].into_iter().chain(env::split_paths(&old)));
    let examples = part(&page, ".SH EXAMPLES\n", "\n.SH ");
    let lines = examples.split(".RS\n").skip(1);
    let lines = lines.map(|block| part(block, "", "\n.RE").replace("\\-", "-"));
    let script = format!("set -e\n{}", lines.collect::<Vec<_>>().join("\n"));
    assert!(script.matches("ruzkemp ").count() >= 5, "{script}");
    let mut shell = Command::new("sh");
    shell.arg("-c").arg(&script).current_dir(folder.path());
    shell
        .env("PATH", paths.expect("a path"))
        .stdin(Stdio::null());
    let ran = shell.output().expect("sh runs");
    assert!(ran.status.success(), "{script}\n{ran:?}");
}

#[test]
fn the_completions_have_every_command_with_its_options() {
    let folder = Folder::new();
    for shell in SHELLS {
        let script = folder.good(&["help", "--completions", shell]);
        for command in commands(&folder) {
            let section = match shell {
                "bash" => part(&script, &format!("\n    {command}) "), "\n"),
                "zsh" => part(&script, &format!("\n    {command})\n"), ";;"),
                _ => part(&script, &format!(" -a {command} -d "), "\n\n"),
            };
            for option in options(&folder, &command) {
                let wanted = match shell {
                    "fish" => format!(" -l {} ", option.trim_start_matches('-')),
                    _ => option.clone(),
                };
                assert!(section.contains(&wanted), "{shell}: {command} {option}");
            }
        }
    }
}

#[test]
fn a_short_name_stands_beside_the_long_one() {
    let folder = Folder::new();
    let page = folder.good(&["help", "--man"]);
    assert!(page.contains("\n\\fB\\-o\\fR, \\fB\\-\\-output\\fR \\fIFILE\\fR\n"));
    let script = |shell| folder.good(&["help", "--completions", shell]);
    assert!(script("zsh").contains("'(-o --output)-o[write the report"));
    assert!(script("fish").contains("'__ruzkemp_of report' -s o -l output -r -F -d "));
}

/// Bash completes the value of `-o` to files of the host, as that of `--output`.
#[test]
fn bash_completes_the_value_of_a_short_name() {
    let folder = Folder::new();
    folder.write(
        "script",
        folder.good(&["help", "--completions", "bash"]).as_bytes(),
    );
    folder.write("page.html", b"");
    for option in ["-o", "--output"] {
        let line = format!(
            ". ./script; COMP_WORDS=(ruzkemp report d.img {option} pa); COMP_CWORD=4; _ruzkemp; \
             echo \"${{COMPREPLY[*]}}\""
        );
        let mut bash = Command::new("bash");
        bash.args(["-c", &line]).current_dir(folder.path());
        let output = bash.stdin(Stdio::null()).output().expect("bash runs");
        assert_eq!(
            String::from_utf8_lossy(&output.stdout),
            "page.html\n",
            "{option}"
        );
    }
}

#[test]
fn pages_that_are_not_there_are_wrong_usage() {
    let folder = Folder::new();
    for arguments in [
        &["help", "--man", "ls"][..],
        &["help", "--completions"],
        &["help", "--completions", "sh"],
        &["help", "--completions", "bash", "zsh"],
    ] {
        misuses(&folder, arguments);
    }
    let mut command = folder.command(&["help", "--man"]);
    let full = fs::File::create("/dev/full").expect("/dev/full");
    let status = command.stdout(full).stderr(Stdio::null()).status();
    assert_eq!(status.expect("the tool runs").code(), Some(3));
}
