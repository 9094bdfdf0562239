//! The documents beside what they quote: the theorem of README.md stands in its file word for word, the example is the
//! example, and every link leads to a file.

use std::fs;
use std::path::{Path, PathBuf};

fn repository() -> PathBuf {
    Path::new(env!("CARGO_MANIFEST_DIR")).join("..")
}

fn read(name: &str) -> String {
    fs::read_to_string(repository().join(name)).unwrap()
}

/// The indented lines under a heading of README.md, up to the next heading, without their indent.
fn quoted_under(heading: &str) -> Vec<String> {
    let readme = read("README.md");
    let under = readme.lines().skip_while(|line| *line != heading).skip(1);
    let section = under.take_while(|line| !line.starts_with("## "));
    section
        .filter_map(|line| line.strip_prefix("    "))
        .map(String::from)
        .collect()
}

#[test]
fn the_theorem_is_quoted_as_it_stands() {
    let quoted = quoted_under("## The theorem");
    assert!(quoted.len() > 15, "{} lines are quoted", quoted.len());
    let demand = read("crates/schedule/specs/Demand.antt");
    let mut left = demand.lines();
    for line in &quoted {
        assert!(
            left.any(|other| other == line),
            "Demand.antt has no such line there: {line}"
        );
    }
}

#[test]
fn the_example_is_the_example() {
    let ticket = read("examples/first.ticket");
    let plan = read("examples/first.plan");
    let commands = ["$ cat examples/first.ticket"].into_iter().chain(ticket.lines());
    let expected: Vec<&str> = commands.chain(["$ make plan"]).chain(plan.lines()).collect();
    assert_eq!(quoted_under("## An example"), expected);
}

/// The targets of a text's links, those to the web left out.
fn links(text: &str) -> Vec<&str> {
    let parts = text.split("](").skip(1);
    let targets = parts.filter_map(|part| part.split(')').next());
    targets.filter(|target| !target.contains("://")).collect()
}

#[test]
fn links_lead_to_files() {
    let documents = [
        "README.md",
        "docs/API.md",
        "docs/DECISIONS.md",
        "docs/DESIGN-PASS.md",
        "docs/FORMAT.md",
        "docs/LOOK-BACK.md",
        "docs/PORT.md",
        "docs/PROMISES.md",
        "docs/SPEED.md",
    ];
    let others = ["docs/SUPPORT.md", "examples/README.md", "host/README.md"];
    let mut followed = 0;
    for document in documents.into_iter().chain(others) {
        let path = repository().join(document);
        let text = fs::read_to_string(&path).unwrap();
        for target in links(&text) {
            assert!(
                path.parent().unwrap().join(target).exists(),
                "{document} links to {target}"
            );
            followed += 1;
        }
    }
    assert!(followed > 20, "{followed} links");
}
