//! The program as it is run from a shell.

use std::process::{Command, Output};

fn nets(options: &[&str]) -> Output {
    let small = ["--rings", "60", "--recaptures", "20", "--ticks", "300"];
    Command::new(env!("CARGO_BIN_EXE_nets"))
        .args(small)
        .args(options)
        .output()
        .expect("the program runs")
}

fn out(output: &Output) -> String {
    String::from_utf8_lossy(&output.stdout).into_owned()
}

#[test]
fn one_morning() {
    let output = nets(&["--seed", "3"]);
    assert_eq!(output.status.code(), Some(0));
    let said = out(&output);
    for part in [
        "seed 3",
        "ties to the lower number",
        "save to finished",
        "given up",
        "refused by 26",
        "entered again",
        "in the records         80  all",
        "all refused by 27, nothing changed",
        "wall time",
    ] {
        assert!(said.contains(part), "{part} is missing:\n{said}");
    }
    assert!(!said.contains("question"), "{said}");
    // No progress unless on a terminal.
    assert!(output.stderr.is_empty());
}

/// The group's rule, and the numbers that ties went to.
#[test]
fn mornings_by_either_rule() {
    for rule in ["higher", "lower"] {
        let output = nets(&["--seed", "3", "--rule", rule]);
        assert_eq!(output.status.code(), Some(0));
        let said = out(&output);
        for part in ["records, ties to", "with one version: all to"] {
            let part = format!("{part} the {rule} number");
            assert!(said.contains(&part), "{part} is missing:\n{said}");
        }
    }
}

#[test]
fn the_counts_follow_the_report() {
    let said = out(&nets(&["--counts", "--seed", "3"]));
    let (report, counts) = said.split_once("wall time").expect("both");
    assert!(report.contains("seed 3"), "{said}");
    for part in ["events", "messages", "packets", "  question 13"] {
        assert!(counts.contains(part), "{part} is missing:\n{said}");
    }
}

#[test]
fn many_mornings() {
    let output = nets(&["--seed", "8", "--seeds", "3"]);
    assert_eq!(output.status.code(), Some(0));
    let said = out(&output);
    let begins: Vec<&str> = said
        .lines()
        .map(|l| l.split(':').next().unwrap_or(""))
        .collect();
    assert_eq!(begins[..3], ["seed 8", "seed 9", "seed 10"]);
    let last = said.lines().last().unwrap_or("");
    assert!(last.starts_with("3 mornings"), "{said}");
    assert!(last.contains("; ties: "), "{said}");
    assert!(last.contains(", all to the lower number; "), "{said}");
    assert!(last.contains("; packets of the other station: "), "{said}");
    assert!(last.contains("given up: 0, in 0 mornings"), "{said}");
    assert!(last.contains("commits refused by 26: "), "{said}");
    assert!(last.contains("every bird in the records"), "{said}");
}

/// In the second of these mornings an overtaken save is given up.
#[test]
fn mornings_with_a_save_that_is_given_up() {
    let output = nets(&["--rule", "higher", "--seed", "44", "--seeds", "3"]);
    assert_eq!(output.status.code(), Some(0));
    let said = out(&output);
    let lines: Vec<&str> = said.lines().collect();
    for (line, given_up) in lines.iter().zip([0, 1, 0]) {
        let part = format!("; {given_up} given up; ");
        assert!(line.contains(&part), "{said}");
    }
    assert!(lines[3].contains("given up: 1, in 1 mornings"), "{said}");
}

#[test]
fn a_failed_check() {
    let output = nets(&["--seed", "4", "--fault", "text"]);
    assert_eq!(output.status.code(), Some(1));
    let said = out(&output);
    assert!(said.starts_with("FAILED with seed 4"), "{said}");
    assert!(
        said.contains("\nwhat each laptop holds of record "),
        "{said}"
    );
}

#[test]
fn the_help_names_every_option() {
    let output = nets(&["--help"]);
    assert_eq!(output.status.code(), Some(0));
    assert_eq!(out(&output), nets::HELP);
}

#[test]
fn wrong_options() {
    for wrong in [
        &["--laptops", "17"][..],
        &["--laptops", "1"],
        &["--laptops", "3", "--deaths", "2"],
        &["--records", "0"],
        &["--records", "59"],
        &["--loss", "91"],
        &["--loss", "-1"],
        &["--delay", "0"],
        &["--rule", "middle"],
        &["--rule"],
        &["--neighbours", "101"],
        &["--seeds", "0"],
        &["--seed"],
        &["--fault", "rain"],
        &["--nets", "3"],
        &["3"],
    ] {
        let output = nets(wrong);
        assert_eq!(output.status.code(), Some(2), "{wrong:?}");
        assert!(
            output.stdout.is_empty() && !output.stderr.is_empty(),
            "{wrong:?}"
        );
    }
}
