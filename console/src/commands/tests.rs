//! The table against the host crate's source and against calls.txt.
use super::{all, edits, find, keys, log, movements, own, questions, ring, Command};
use crate::params::{Args, Kind, Param, ACTION, AT, MODE, SEARCH, WORD};

const CODES: &str = include_str!("../../../host/src/codes.rs");
const FFI: &str = include_str!("../../../host/src/ffi.rs");
const EDIT_LINE: [&str; 6] = [
    include_str!("../../../host/src/edit_line/mod.rs"),
    include_str!("../../../host/src/edit_line/edits.rs"),
    include_str!("../../../host/src/edit_line/keys.rs"),
    include_str!("../../../host/src/edit_line/motions.rs"),
    include_str!("../../../host/src/edit_line/log.rs"),
    include_str!("../../../host/src/edit_line/with_ring.rs"),
];
const RING: &str = include_str!("../../../host/src/ring.rs");
const CALLS: &str = include_str!("../../calls.txt");

/// What the console calls it otherwise than the host crate.
const RENAMED: [(&str, &str); 2] = [("new", "room"), ("log_truncate", "truncate")];

/// A parameter of the host crate by the console's words.
fn words(param: &str) -> &str {
    match param {
        "range: Range<usize>" => "start end",
        "search: CharSearch" => "search ch",
        "room: Room" => "text records texts slots",
        _ => param.split(':').next().unwrap(),
    }
}

/// The calls of a source file, as usages without brackets: the public methods that may be refused.
fn calls(source: &str) -> Vec<String> {
    let mut calls = Vec::new();
    for declared in source.split("pub fn ").skip(1) {
        let head = declared.split('{').next().unwrap();
        let (name, rest) = head.split_once('(').unwrap();
        let (own, answer) = rest.rsplit_once(") -> ").unwrap_or((rest, ""));
        if answer.contains(", Refusal>") {
            let own = own.split(", ").filter(|param| !param.ends_with("self"));
            calls.push([name].into_iter().chain(own.map(words)).collect::<Vec<_>>().join(" "));
        }
    }
    calls
}

fn renamed(usage: String) -> String {
    let (name, rest) = usage.split_once(' ').unwrap_or((&usage, ""));
    let name = RENAMED.iter().find(|(host, _)| *host == name).map_or(name, |(_, console)| console);
    format!("{name} {rest}").trim_end().to_owned()
}

fn usage(command: &Command) -> String {
    command.usage().replace(['[', ']'], "")
}

#[test]
fn the_host_crates_calls_are_the_tables() {
    let lines = EDIT_LINE.iter().flat_map(|source| calls(source)).map(renamed);
    let rings = calls(RING).into_iter().map(|call| format!("ring_{call}"));
    let mut host: Vec<_> = lines.chain(rings).collect();
    let groups = [
        own::COMMANDS,
        edits::COMMANDS,
        movements::MOTIONS,
        questions::COMMANDS,
        log::COMMANDS,
        ring::COMMANDS,
        keys::COMMANDS,
    ];
    // the console's own, and the host crate's questions of a text alone
    let own = ["help", "show", "type", "quit", "foreign", "width"];
    let mut table: Vec<_> =
        groups.into_iter().flatten().filter(|command| !own.contains(&command.name)).map(usage).collect();
    host.sort();
    table.sort();
    assert_eq!(host, table);
    assert!(host.len() > 50);
}

#[test]
fn every_entry_of_the_library_is_reached() {
    let mut entries = 0;
    for entry in FFI.split("tlf_").skip(1).map(|rest| rest.split('(').next().unwrap()) {
        let (kind, name) = entry.split_once('_').unwrap();
        let command = match (kind, name) {
            ("log", "new") => "start".to_owned(),
            ("log", "insert" | "insert_str" | "delete" | "replace") => format!("log_{name}"),
            ("line" | "log" | "text", _) => name.to_owned(),
            _ => format!("ring_{name}"),
        };
        assert!(find(&command).is_some(), "{entry}");
        entries += 1;
    }
    assert_eq!(entries, 55);
}

/// The cases of an enum of codes.rs.
fn cases(name: &str) -> Vec<&'static str> {
    let (_, rest) = CODES.split_once(&format!("pub enum {name} {{\n")).unwrap();
    let own = rest.split('}').next().unwrap().lines().map(str::trim);
    own.filter(|line| !line.is_empty() && !line.starts_with("//")).map(|case| case.trim_end_matches(',')).collect()
}

fn snake(name: &str) -> String {
    let mut snake = String::new();
    for ch in name.chars() {
        if ch.is_uppercase() && !snake.is_empty() {
            snake.push('_');
        }
        snake.extend(ch.to_lowercase());
    }
    snake
}

#[test]
fn names_are_the_codes() {
    type Row = (&'static str, &'static Param, fn(&Args) -> String);
    let rows: [Row; 5] = [
        ("Word", &WORD, |a| format!("{:?}", a.word)),
        ("At", &AT, |a| format!("{:?}", a.at)),
        ("CharSearch", &SEARCH, |a| format!("{:?}", (a.search)('x')).replace("'x'", "char")),
        ("WordAction", &ACTION, |a| format!("{:?}", a.action)),
        ("Mode", &MODE, |a| format!("{:?}", a.mode)),
    ];
    for (of, param, value) in rows {
        let Kind::OneOf(names) = param.kind else { panic!("{of}") };
        let cases = cases(of);
        assert_eq!(cases.len(), names.len(), "{of}");
        for (case, (name, set)) in cases.into_iter().zip(names) {
            let mut args = Args::default();
            set(&mut args);
            assert_eq!(value(&args), case);
            assert_eq!(*name, snake(case.split('(').next().unwrap()));
        }
    }
}

#[test]
fn what_is_left_out_is_the_default() {
    for param in all().flat_map(|command| command.takes) {
        let mut args = Args::default();
        match (&param.kind, param.left_out) {
            (Kind::OneOf(names), Some(left_out)) => {
                names.iter().find(|(name, _)| *name == left_out).unwrap().1(&mut args)
            }
            (Kind::Number(_, set), Some(left_out)) => {
                let Ok(number) = left_out.parse() else { continue };
                set(&mut args, number);
            }
            _ => continue,
        }
        let shown =
            |a: &Args| format!("{:?} {:?} {:?} {:?} {:?}", a.n, a.word, a.at, (a.search)('x'), (a.mode, a.dedent));
        assert_eq!((shown(&args), args.prompt, args.column), (shown(&Args::default()), 0, 0), "{}", param.word);
    }
}

#[test]
fn the_fourteen_movements_in_their_order() {
    let cases = cases("Movement");
    assert_eq!((cases.len(), movements::COMMANDS.len()), (14, 14));
    for (case, command) in cases.into_iter().zip(movements::COMMANDS) {
        let movement = format!("{:?}", command.movement().unwrap()(&Args::default()));
        assert_eq!(movement.split('(').next(), case.split('(').next(), "{}", command.name);
    }
}

#[test]
fn names_are_told_apart() {
    let mut names: Vec<_> = all().map(|command| command.name).collect();
    names.sort_unstable();
    let count = names.len();
    names.dedup();
    assert_eq!(names.len(), count);
    assert!(all().all(|command| !command.about.is_empty()));
}

#[test]
fn calls_txt_has_every_command() {
    let behind = ["copy", "kill", "kill_to_ring", "indent"];
    for command in all() {
        let used = CALLS.lines().any(|line| {
            let mut words = line.split(' ');
            let first = words.next().unwrap();
            let movement = words.next().filter(|_| behind.contains(&first));
            first == command.name || movement == Some(command.name) && command.movement().is_some()
        });
        assert!(used, "{}", command.name);
    }
    for movement in movements::COMMANDS {
        assert!(CALLS.contains(&format!("\ncopy {}", movement.name)), "{}", movement.name);
    }
}
