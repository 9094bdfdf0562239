//! The command `explain` as a process: its exit status, what it prints and where, and the plan that it finds beside a
//! ticket.

use std::fs;
use std::path::{Path, PathBuf};
use std::process::{Command, Output};

const EXAMPLES: &str = concat!(env!("CARGO_MANIFEST_DIR"), "/../examples");
const FIRST: &str = "01000200020003\n00\n00\n01\n";
const FIRST_PLAN: &str = "0002\n0000000001\n0001000002\n0002010002\n";

fn run(arguments: &[&Path]) -> Output {
    let mut command = Command::new(env!("CARGO_BIN_EXE_explain"));
    command.args(arguments).output().unwrap()
}

fn status(arguments: &[&Path]) -> Option<i32> {
    run(arguments).status.code()
}

fn text(bytes: Vec<u8>) -> String {
    String::from_utf8(bytes).unwrap()
}

/// An empty folder for the files of one test.
fn folder(name: &str) -> PathBuf {
    let folder = Path::new(env!("CARGO_TARGET_TMPDIR")).join(name);
    _ = fs::remove_dir_all(&folder);
    fs::create_dir_all(&folder).unwrap();
    folder
}

fn write(folder: &Path, name: &str, content: &str) -> PathBuf {
    let path = folder.join(name);
    fs::write(&path, content).unwrap();
    path
}

/// Each example ends with 0, its plan beside it found and valid; a refused one with 1, its plan saying the same.
#[test]
fn examples() {
    let mut tickets = 0;
    for entry in fs::read_dir(EXAMPLES).unwrap() {
        let path = entry.unwrap().path();
        if path.extension().is_none_or(|extension| extension != "ticket") {
            continue;
        }
        tickets += 1;
        let refused = fs::read(path.with_extension("plan")).unwrap().starts_with(b"FF");
        let output = run(&[&path]);
        let said = text(output.stdout);
        assert_eq!(output.status.code(), Some(i32::from(refused)), "{said}");
        assert_eq!(said.contains(".plan: valid\n"), !refused, "{said}");
        assert_eq!(said.contains(".plan: says the same refusal"), refused, "{said}");
        assert!(output.stderr.is_empty());
    }
    assert!(tickets >= 9);
}

/// 0 for a good ticket, with a valid plan or with none.
#[test]
fn status_0() {
    let folder = folder("status_0");
    let ticket = write(&folder, "first.ticket", FIRST);
    assert_eq!(status(&[&ticket]), Some(0));
    let plan = write(&folder, "other.plan", FIRST_PLAN);
    assert_eq!(status(&[&ticket, &plan]), Some(0));
}

/// 1 for a refused ticket, and for a plan at fault, whether it is named or found beside the ticket.
#[test]
fn status_1() {
    let folder = folder("status_1");
    let refused = write(&folder, "refused.ticket", "");
    assert_eq!(status(&[&refused]), Some(1));
    let ticket = write(&folder, "first.ticket", FIRST);
    let plan = write(&folder, "first.plan", "0001\n");
    assert_eq!(status(&[&ticket, &plan]), Some(1));
    assert_eq!(status(&[&ticket]), Some(1));
}

/// 2 for a file that cannot be read and for wrong usage, with a message on standard error and nothing on the other.
#[test]
fn status_2() {
    let folder = folder("status_2");
    let ticket = write(&folder, "first.ticket", FIRST);
    let missing = folder.join("missing");
    for arguments in [
        &[] as &[&Path],
        &[&missing],
        &[&folder],
        &[&ticket, &missing],
        &[&ticket, &ticket, &ticket],
    ] {
        let output = run(arguments);
        assert_eq!(output.status.code(), Some(2), "{arguments:?}");
        assert!(output.stdout.is_empty(), "{arguments:?}");
        assert!(!output.stderr.is_empty(), "{arguments:?}");
    }
    assert!(text(run(&[]).stderr).starts_with("usage: explain TICKET [PLAN]\n"));
}

/// Only a ticket whose name ends in .ticket has its plan looked for, and a plan that is named comes first.
#[test]
fn which_plan() {
    let folder = folder("which_plan");
    let ticket = write(&folder, "a.ticket", FIRST);
    let other = write(&folder, "a.txt", FIRST);
    let beside = write(&folder, "a.plan", FIRST_PLAN);
    let named = write(&folder, "b.plan", FIRST_PLAN);
    let mentions = |output: &Output, path: &Path| {
        let name = path.file_name().unwrap().to_str().unwrap();
        text(output.stdout.clone()).contains(&format!("{name}: valid"))
    };
    let output = run(&[&ticket]);
    assert!(mentions(&output, &beside));
    let output = run(&[&ticket, &named]);
    assert!(mentions(&output, &named) && !mentions(&output, &beside));
    let output = run(&[&other]);
    assert!(!mentions(&output, &beside));
    assert_eq!(output.status.code(), Some(0));
}
