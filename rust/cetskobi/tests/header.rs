//! The C header and sys.rs declare the functions and structs that the engine
//! and the player export; the header's numbers are those of the wrapper and of
//! the engine.

use cetskobi::{packet, raw, sys, Message, Record, Refusal, Rule, State, Timestamp};
use std::collections::BTreeMap;
use std::fmt::Debug;
use std::fs;

const HEADER: &str = include_str!("../../../include/cetskobi.h");
const DECLARED: &str = include_str!("../src/sys.rs");

/// The source of a crate: its modules.
fn source(name: &str) -> String {
    let folder = fs::read_dir(format!("../../crates/{name}/src")).expect("a crate");
    let paths = folder.map(|entry| entry.expect("an entry").path());
    let modules = paths.filter(|path| path.extension().is_some_and(|e| e == "rt"));
    modules
        .map(|path| fs::read_to_string(path).expect("a module"))
        .collect()
}

/// The source of all crates of the floor that crosses to C.
fn exports() -> String {
    let folder = fs::read_dir("../../crates").expect("the crates");
    let names = folder.map(|entry| entry.expect("an entry").file_name());
    let names = names.map(|name| name.into_string().expect("a name"));
    let names = names.filter(|name| name.starts_with("export_"));
    names.map(|name| source(&name)).collect()
}

/// A module of the definitions of a crate.
fn specs(name: &str) -> String {
    fs::read_to_string(format!("../../crates/{name}.antt")).expect("definitions")
}

/// By the name: the parameters, each as sys.rs has it, and the answer's type.
type Functions = BTreeMap<String, (Vec<String>, String)>;

/// What stands before each function of sys.rs, and of a Rattle text that exports it.
const DECLARES: &str = "    pub fn ";
const EXPORTS: &str = "pub extern \"C\" fn ";

/// The type of a Rattle text as sys.rs has it.
fn plain(kind: &str) -> String {
    kind.replace("Cetskobi", "")
}

/// The functions of a Rust or Rattle text.
fn functions(text: &str, before: &str) -> Functions {
    let functions = text.split(before).skip(1).map(|rest| {
        let (name, rest) = rest.split_once('(').expect("parameters");
        let (parameters, rest) = rest.split_once(") -> ").expect("an answer");
        let parameters = parameters
            .split(',')
            .filter_map(|p| p.trim().split_once(": "));
        let answer = rest.split([';', '\n']).next().expect("its type");
        let parameters = parameters.flat_map(|(name, kind)| crossing(name, kind));
        (name.to_owned(), (parameters.collect(), plain(answer)))
    });
    functions.collect()
}

/// A slice crosses as a pointer and a length, all else as it is.
fn crossing(name: &str, kind: &str) -> Vec<String> {
    let slice = kind.strip_suffix(']').and_then(|k| k.split_once('['));
    let pointer = match slice {
        Some(("&mut ", item)) => format!("*mut {item}"),
        Some(("&", item)) => format!("*const {item}"),
        _ => return vec![format!("{name}: {}", plain(kind))],
    };
    vec![format!("{name}: {pointer}"), format!("{name}_len: usize")]
}

/// The type of the header as sys.rs has it.
fn type_of_c(kind: &str) -> String {
    match kind.strip_prefix("struct cetskobi_") {
        Some(name) => name[..1].to_uppercase() + &name[1..],
        None => match kind {
            "uint8_t" => "u8".to_owned(),
            "uint16_t" => "u16".to_owned(),
            "uint32_t" => "u32".to_owned(),
            "size_t" => "usize".to_owned(),
            _ => panic!("{kind} is no type of the header"),
        },
    }
}

/// The functions of the header.
fn functions_of_c(text: &str) -> Functions {
    let parts = text.split("*/").filter_map(|part| part.split("/*").next());
    let code: String = parts.collect();
    let code: Vec<&str> = code.lines().filter(|l| !l.starts_with('#')).collect();
    let code = code.join("\n");
    let parameter = |text: &str| match text.split_once('*') {
        Some((kind, name)) => match kind.trim().strip_prefix("const ") {
            Some(kind) => format!("{name}: *const {}", type_of_c(kind)),
            None => format!("{name}: *mut {}", type_of_c(kind.trim())),
        },
        None => {
            let (kind, name) = text.rsplit_once(' ').expect("a type and a name");
            format!("{name}: {}", type_of_c(kind))
        }
    };
    let functions = code.split(';').filter_map(|declared| {
        let (before, parameters) = declared.strip_suffix(')')?.split_once('(')?;
        let (answer, name) = before.lines().last()?.rsplit_once(' ')?;
        let parameters = parameters.split(',').map(|p| parameter(p.trim()));
        Some((name.to_owned(), (parameters.collect(), type_of_c(answer))))
    });
    functions.collect()
}

/// Each field is its name and its type, in their order.
type Structs = BTreeMap<String, Vec<(String, String)>>;

/// The #[repr(C)] structs of a Rust or Rattle text.
fn structs(text: &str) -> Structs {
    let field = |line: &str| {
        let (name, kind) = line.trim().strip_prefix("pub ")?.split_once(": ")?;
        Some((name.to_owned(), plain(kind.trim_end_matches(','))))
    };
    let structs = text.split("#[repr(C)]\n").skip(1).map(|rest| {
        let (_, rest) = rest.split_once("pub struct ").expect("a struct");
        let (name, rest) = rest.split_once(" {").expect("its fields");
        let (fields, _) = rest.split_once('}').expect("its end");
        (plain(name), fields.lines().filter_map(field).collect())
    });
    structs.collect()
}

/// The structs of the header.
fn structs_of_c(text: &str) -> Structs {
    let field = |line: &str| {
        let (kind, name) = line.trim().split_once(';')?.0.rsplit_once(' ')?;
        Some((name.to_owned(), type_of_c(kind)))
    };
    let structs = text.split("\nstruct cetskobi_").skip(1);
    let structs = structs.filter_map(|rest| {
        let (name, fields) = rest.split_once("};")?.0.split_once(" {\n")?;
        let name = type_of_c(&format!("struct cetskobi_{name}"));
        Some((name, fields.lines().filter_map(field).collect()))
    });
    structs.collect()
}

/// By the name: the number of a constant of the header, and the comment behind it.
type Constants = BTreeMap<String, (usize, String)>;

/// The constants of the header.
fn constants(text: &str) -> Constants {
    let enums = text.split("\nenum {").skip(1);
    let lines = enums.flat_map(|rest| rest.split("};").next().expect("its end").lines());
    let constants = lines.flat_map(|line| {
        let (code, comment) = line.split_once("/*").unwrap_or((line, ""));
        let comment = comment.trim_end_matches("*/").trim();
        let each = code.split(',').filter(|one| !one.trim().is_empty());
        each.map(move |one| {
            let (name, number) = one.trim().split_once(" = ").expect("a number");
            let number = number.parse().expect("a plain number");
            (name.to_owned(), (number, comment.to_owned()))
        })
    });
    constants.collect()
}

/// The constants whose names begin so, without that beginning.
fn begun(prefix: &str) -> Constants {
    let all = constants(HEADER).into_iter();
    all.filter_map(|(name, constant)| Some((name.strip_prefix(prefix)?.to_owned(), constant)))
        .collect()
}

/// The name of a variant or field as the header has it: `InvalidWrite` as
/// `INVALID_WRITE`.
fn upper(name: impl Debug) -> String {
    let name = format!("{name:?}");
    let mut upper = String::new();
    for c in name.trim_matches('"').chars() {
        if c.is_uppercase() && !upper.is_empty() {
            upper.push('_');
        }
        upper.extend(c.to_uppercase());
    }
    upper
}

#[test]
fn header_and_declarations_are_the_same() {
    let declared = functions(DECLARED, DECLARES);
    assert_eq!(declared.len(), 19);
    assert_eq!(declared, functions_of_c(HEADER));
    let declared = structs(DECLARED);
    let mut header = structs_of_c(HEADER);
    // These two are bytes and words elsewhere.
    assert!(header.remove("Record").is_some() && header.remove("Entry").is_some());
    assert_eq!(declared, header);
    let fields: Vec<usize> = declared.values().map(Vec::len).collect();
    // Accepted, Admission, Answer, Arrival, Asked, Fetched, Message, Played, Reading, Replica,
    // Settings, Written.
    assert_eq!(fields, [2, 2, 4, 4, 4, 9, 5, 2, 2, 4, 1, 2]);
    // In C++ a struct and a function of one name hide each other.
    let named = |f: &String| {
        structs_of_c(HEADER)
            .keys()
            .any(|s| *f == format!("cetskobi_{}", s.to_lowercase()))
    };
    assert_eq!(functions_of_c(HEADER).keys().find(|f| named(f)), None);
}

#[test]
fn declarations_and_exports_are_the_same() {
    let exports = exports();
    assert_eq!(functions(DECLARED, DECLARES), functions(&exports, EXPORTS));
    assert_eq!(structs(DECLARED), structs(&exports));
}

/// The fields of a struct of the header, in their order.
fn fields(name: &str) -> Vec<(String, String)> {
    structs_of_c(HEADER)
        .remove(name)
        .expect("the header has it")
}

/// tests/c has the place of each field.
#[test]
fn a_record_has_the_fields_of_its_bytes() {
    let layout = specs("export_decoding/specs/Decoding");
    let line = layout.lines().find(|line| line.starts_with("decode "));
    let line = line.and_then(|line| line.strip_suffix(" ="));
    let names = line.expect("the definition").split(' ').skip(1);
    let names = names.map(|name| upper(name).to_lowercase());
    let names: Vec<String> = names.chain(["unused".to_owned()]).collect();
    let header: Vec<String> = fields("Record").into_iter().map(|f| f.0).collect();
    assert_eq!(header, names);
}

#[test]
fn a_message_has_the_fields_of_its_words() {
    let words = specs("packet_words/specs/Words");
    let named = words.lines().filter_map(|line| {
        let (name, place) = line.trim().split_once(" = get_or words ")?;
        let place = place.strip_suffix(" 0;")?.trim_start_matches("(at + ");
        let place = place.trim_end_matches(')').replace("at", "0");
        Some((place.parse().expect("a word's place"), name))
    });
    let named: BTreeMap<usize, &str> = named.collect();
    assert!(named.keys().copied().eq(0..sys::MESSAGE_WORDS), "{named:?}");
    let word = |name: &str| (name.to_owned(), "u32".to_owned());
    let named: Vec<_> = named.into_values().map(word).collect();
    assert_eq!(fields("Entry"), named);
}

/// The kind of an answer that is accepted and sends nothing: to an ACK that is
/// not the last, as laptop 2 is still missing.
fn none() -> u8 {
    let (mut table, mut store) = ([0; sys::RECORD_BYTES], [0; Record::VALUE_MAX]);
    let settings = Rule::Lower.into();
    let me = raw::start(0, 0b111, settings, &mut table, &mut store).replica;
    let inv = raw::write(me, &mut table, &mut store, 0, b"");
    let ack = raw::Message {
        kind: 2,
        sender: 1,
        tie: inv.tie,
        epoch: me.epoch,
        version: inv.version,
    };
    let answer = raw::deliver(me, &mut table, &mut store, 0, ack, b"");
    assert_eq!(answer.number, 0);
    answer.kind
}

/// Every number of the header, so that none is left unlooked at.
#[test]
fn numbers_are_the_same() {
    let kind = |message: fn(Timestamp) -> Message| message(Timestamp::default()).kind().into();
    let limits_and_kinds = [
        ("RECORD_BYTES", sys::RECORD_BYTES),
        ("ENTRY_WORDS", sys::MESSAGE_WORDS),
        ("VALUE_MAX", Record::VALUE_MAX),
        ("COUNT_MAX", Record::COUNT_MAX),
        ("MESSAGES_MAX", packet::MESSAGES_MAX),
        ("PACKET_MAX", packet::PACKET_MAX),
        ("NONE", none().into()),
        ("INV", kind(Message::Inv)),
        ("ACK", kind(Message::Ack)),
        ("VAL", kind(Message::Val)),
    ];
    let named = limits_and_kinds.map(|(name, number)| (name.to_owned(), number));
    let rules = Rule::ALL.iter().map(|r| (upper(r), r.number().into()));
    let refusals = Refusal::ALL.iter();
    let refusals = refusals.map(|r| (format!("REFUSED_{}", upper(r)), r.number().into()));
    let named = named.into_iter().chain(states()).chain(rules);
    let all: BTreeMap<String, usize> = named.chain(refusals).collect();
    let header = begun("CETSKOBI_").into_iter();
    let header: BTreeMap<String, usize> = header.map(|(name, c)| (name, c.0)).collect();
    assert_eq!(header, all);
    assert!(HEADER.contains("\n#define CETSKOBI_GONE ((size_t)-1)\n") && sys::GONE == usize::MAX);
}

/// The states by their names, with their numbers.
fn states() -> BTreeMap<String, usize> {
    let states = State::ALL.iter();
    states.map(|s| (upper(s), s.number().into())).collect()
}

/// The cases of an enum of a Rattle text.
fn cases<'a>(text: &'a str, name: &str) -> Vec<&'a str> {
    let (_, rest) = text.split_once(&format!("pub enum {name} {{")).expect("it");
    let (cases, _) = rest.split_once('}').expect("its end");
    let lines = cases.lines().map(str::trim);
    lines.filter_map(|line| line.strip_suffix(',')).collect()
}

/// The numbers that the engine has for the rules.
#[test]
fn rules_are_the_engines() {
    let source = source("hermes_record");
    let numbers = cases(&source, "Rule").into_iter().map(|case| {
        let (name, number) = case.split_once(" = ").expect("a number");
        (upper(name), number.parse().expect("a plain number"))
    });
    let numbers: BTreeMap<String, u8> = numbers.collect();
    let rules = Rule::ALL.iter().map(|r| (upper(r), r.number()));
    assert_eq!(numbers, rules.collect());
}

/// The numbers that the engine puts into a record's byte 0: those of the states' places.
#[test]
fn states_are_the_engines() {
    let source = source("hermes_record");
    let codes = cases(&source, "State").into_iter().map(upper).zip(0..);
    let codes: BTreeMap<String, usize> = codes.collect();
    assert_eq!(codes, states());
}
