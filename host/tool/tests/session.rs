//! The worked sessions of docs/TOOL.md and README.md print what stands there.

mod common;

use std::env;
use std::fs;
use std::path::Path;
use std::process::{Command, Stdio};

use common::{Folder, TOOL};

/// A command of the session, and what it prints.
struct Step {
    command: String,
    printed: String,
}

/// The lines of a session: `$ ` begins a command, `> ` goes on with it, all others are what it
/// prints.
fn steps<'a>(lines: impl Iterator<Item = &'a str>) -> Vec<Step> {
    let mut steps: Vec<Step> = Vec::new();
    for line in lines {
        match (line.strip_prefix("$ "), line.strip_prefix("> ")) {
            (Some(command), _) => steps.push(Step {
                command: command.to_string(),
                printed: String::new(),
            }),
            (None, Some(more)) => {
                let step = steps.last_mut().expect("a command goes before");
                step.command += &format!("\n{more}");
            }
            (None, None) => {
                let step = steps.last_mut().expect("a command goes before");
                step.printed += &format!("{line}\n");
            }
        }
    }
    steps
}

/// Runs a session of more than `least` commands in a folder.
fn prints_what_stands_there(folder: &Folder, steps: &[Step], least: usize) {
    assert!(steps.len() > least, "{} commands are found", steps.len());
    let tools = Path::new(TOOL).parent().expect("a folder").to_path_buf();
    let old = env::var_os("PATH").unwrap_or_default();
    let paths = env::join_paths([tools].into_iter().chain(env::split_paths(&old)));
    let paths = paths.expect("a path");
    for Step { command, printed } in steps {
        let mut shell = Command::new("sh");
        shell.arg("-c").arg(format!("exec 2>&1\n{command}"));
        shell.current_dir(folder.path()).env("PATH", &paths);
        let output = shell.stdin(Stdio::null()).output().expect("sh runs");
        let said = String::from_utf8(output.stdout).expect("UTF-8");
        assert_eq!(said, *printed, "$ {command}");
    }
}

fn document(name: &str) -> String {
    let path = Path::new(env!("CARGO_MANIFEST_DIR"))
        .join("../..")
        .join(name);
    fs::read_to_string(path).expect("the document")
}

/// The session of docs/TOOL.md is that of its `console` blocks.
#[test]
fn the_document_tells_what_the_tool_prints() {
    let text = document("docs/TOOL.md");
    let blocks = text.split("\n```console\n").skip(1);
    let blocks = blocks.map(|rest| rest.split("\n```").next().expect("a block"));
    let folder = Folder::new();
    prints_what_stands_there(&folder, &steps(blocks.flat_map(str::lines)), 30);
    let is_the_same = folder.read("disc.svg") == document("docs/sample-disc.svg").as_bytes();
    assert!(is_the_same, "the picture is another");
}

/// The session of README.md is what is indented in its section about the tool, from the first command
/// on.
#[test]
fn the_readme_tells_what_the_tool_prints() {
    let readme = document("README.md");
    let sections = readme.split("\n## ");
    let section = sections.skip_while(|section| !section.starts_with("The tool\n"));
    let section = section.take(1).flat_map(str::lines);
    let indented = section.filter_map(|line| line.strip_prefix("    "));
    let session = indented.skip_while(|line| !line.starts_with("$ "));
    prints_what_stands_there(&Folder::new(), &steps(session), 5);
}

/// Every command and every message of a script is in the document.
#[test]
fn the_document_names_every_command() {
    let document = document("docs/TOOL.md");
    let help = Folder::new().good(&["help"]);
    let commands = help.lines().skip_while(|line| *line != "Commands:").skip(1);
    for line in commands.take_while(|line| !line.is_empty()) {
        let command = line.split_whitespace().next().expect("a command");
        let named = [format!("| `{command} "), format!("`ruzkemp {command}`")];
        assert!(
            named.iter().any(|name| document.contains(name)),
            "{command}"
        );
    }
}
