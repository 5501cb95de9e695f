//! The headers for C have Rust's words and version.

use cetskobi::{Message, Refusal, Rule, State, Timestamp};
use std::collections::BTreeMap;

const HEADER: &str = include_str!("../../../include/cetskobi.h");
const TEXTS: &str = include_str!("../../../include/cetskobi_text.h");
const CHANGES: &str = include_str!("../../../CHANGELOG.md");

/// The constants of the header that are bytes, by their names.
fn numbers() -> BTreeMap<String, u8> {
    let words: Vec<&str> = HEADER.split_whitespace().collect();
    let named = words.windows(3).filter(|w| w[1] == "=");
    let number = |word: &str| word.trim_end_matches(',').parse();
    named
        .filter_map(|w| Some((w[0].to_owned(), number(w[2]).ok()?)))
        .collect()
}

/// What a function of the text header gives, by the number; what it gives for all others.
fn texts(function: &str) -> (BTreeMap<u8, String>, String) {
    let names = numbers();
    let (_, body) = TEXTS
        .split_once(&format!("*{function}(uint8_t "))
        .expect("a function");
    let (body, _) = body.split_once("\n}\n").expect("its end");
    let mut others = None;
    let mut texts = BTreeMap::new();
    for line in body.lines().filter(|line| line.contains("return ")) {
        let (case, rest) = line.trim().split_once(": return \"").expect("a text");
        let text = rest.strip_suffix("\";").expect("its end").to_owned();
        match case.strip_prefix("case ") {
            None => assert!(case == "default" && others.replace(text).is_none()),
            Some(name) => {
                let number = names.get(name).copied().or_else(|| name.parse().ok());
                let twice = texts.insert(number.expect("a name of the header"), text);
                assert_eq!(twice, None, "{line}");
            }
        }
    }
    (texts, others.expect("a default"))
}

/// Numbers with Rust's texts, and one that only C has.
fn with<'a>(more: (u8, &str), all: impl Iterator<Item = (u8, &'a str)>) -> BTreeMap<u8, String> {
    let all = all.map(|(number, text)| (number, text.to_owned()));
    all.chain([(more.0, more.1.to_owned())]).collect()
}

#[test]
fn meanings_are_the_same() {
    let all = Refusal::ALL.iter().map(|r| (r.number(), r.meaning()));
    let (meanings, others) = texts("cetskobi_meaning");
    assert_eq!(meanings, with((0, "accepted"), all));
    assert_eq!(others, "unknown refusal");
}

/// Beside each refusal's name in the header stands its meaning.
#[test]
fn the_header_has_the_meanings() {
    let lines = HEADER
        .lines()
        .filter(|l| l.trim().starts_with("CETSKOBI_REFUSED_"));
    let comment = |line: &'static str| line.split_once("/* ")?.1.strip_suffix(" */");
    let comments: Vec<&str> = lines.filter_map(comment).collect();
    let meanings: Vec<&str> = Refusal::ALL.iter().map(|r| r.meaning()).collect();
    assert_eq!(comments, meanings);
}

#[test]
fn names_of_states_are_the_same() {
    let all = State::ALL.iter().map(|s| (s.number(), s.name().to_owned()));
    let (names, others) = texts("cetskobi_state_name");
    assert_eq!(names, all.collect());
    assert_eq!(others, "unknown state");
}

#[test]
fn names_of_kinds_are_the_same() {
    let stamp = Timestamp::default();
    let all = [
        Message::Inv(stamp),
        Message::Ack(stamp),
        Message::Val(stamp),
    ];
    let all = all.iter().map(|m| (m.kind(), m.name()));
    let (names, others) = texts("cetskobi_kind_name");
    assert_eq!(names, with((0, "none"), all));
    assert_eq!(others, "unknown kind");
}

/// Every byte is a rule: all but the new one's are the old one.
#[test]
fn names_of_rules_are_the_same() {
    let (names, others) = texts("cetskobi_rule_name");
    let lower = (Rule::Lower.number(), Rule::Lower.name().to_owned());
    assert_eq!(names, BTreeMap::from([lower]));
    assert_eq!(others, Rule::Higher.name());
}

#[test]
fn one_version() {
    let defined = |name: &str| {
        let line = HEADER
            .lines()
            .find_map(|l| l.strip_prefix(&format!("#define {name} ")));
        line.expect("a version").trim_matches('"').to_owned()
    };
    let version = env!("CARGO_PKG_VERSION");
    assert_eq!(defined("CETSKOBI_VERSION"), version);
    let parts =
        ["MAJOR", "MINOR", "PATCH"].map(|part| defined(&format!("CETSKOBI_VERSION_{part}")));
    assert_eq!(parts.join("."), version);
    let newest = CHANGES.lines().find_map(|line| line.strip_prefix("## "));
    assert_eq!(newest, Some(version));
}
