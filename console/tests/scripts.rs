//! The console run as a program: the scripts, other input, and how it ends.
use std::fs;
use std::io::Write;
use std::path::Path;
use std::process::{Command, Output, Stdio};

/// What the program gives for this input.
fn run(input: impl Into<Vec<u8>>) -> Output {
    let mut console = Command::new(env!("CARGO_BIN_EXE_console"))
        .stdin(Stdio::piped())
        .stdout(Stdio::piped())
        .stderr(Stdio::piped())
        .spawn()
        .unwrap();
    let mut stdin = console.stdin.take().unwrap();
    let input = input.into();
    let writer = std::thread::spawn(move || stdin.write_all(&input));
    let output = console.wait_with_output().unwrap();
    // It may end before it has read all.
    let _ = writer.join().unwrap();
    output
}

fn lines(input: impl Into<Vec<u8>>) -> Vec<String> {
    String::from_utf8(run(input).stdout).unwrap().lines().map(str::to_owned).collect()
}

fn text_of(name: &str) -> String {
    fs::read_to_string(Path::new(env!("CARGO_MANIFEST_DIR")).join(name)).unwrap()
}

#[track_caller]
fn gives_its_output(name: &str) {
    let output = run(text_of(&format!("{name}.txt")));
    assert_eq!(String::from_utf8(output.stdout).unwrap(), text_of(&format!("{name}.stdout")));
    assert_eq!((output.status.code(), output.stderr.as_slice()), (Some(0), &b""[..]));
}

#[test]
fn story() {
    gives_its_output("story");
}

#[test]
fn calls() {
    gives_its_output("calls");
}

/// The story's two ends: nothing is left with truncate, with cancel the box reference.
#[test]
fn storys_ends() {
    let told = text_of("story.stdout");
    let undone: Vec<_> = told.split("\n> undo 1\n0 done\n").skip(1).map(|rest| rest.lines().next().unwrap()).collect();
    assert_eq!(undone, ["  line  \"|\", cursor 0 of 0", "  line  \"Ely, baptisms, box 12|\", cursor 21 of 21"]);
    assert!(text_of("story.txt").lines().count() < 60);
}

/// The dialogue of README.md is what the console prints.
#[test]
fn readme() {
    let readme = text_of("README.md");
    let dialogue = readme.split("```\n").nth(1).unwrap();
    let script: Vec<_> = dialogue.lines().filter_map(|line| line.strip_prefix("> ")).collect();
    assert!(script.len() > 5);
    assert_eq!(String::from_utf8(run(script.join("\n")).stdout).unwrap(), dialogue);
}

#[test]
fn nothing_to_do() {
    let output = run("");
    assert_eq!((output.status.code(), output.stdout.as_slice()), (Some(0), &b""[..]));
    assert_eq!(lines("# a\n\n  \t\n"), ["# a", "", "  \t"]);
}

#[test]
fn line_ends() {
    let answers = ["> undo", "1 nothing", "> redo", "1 nothing"];
    for input in ["undo\nredo\n", "undo\nredo", "undo\r\nredo\r\n", "undo\r\nredo\r"] {
        assert_eq!(lines(input), answers, "{input:?}");
    }
}

#[test]
fn quit_ends_it() {
    assert_eq!(lines("undo\nquit\nundo\n"), ["> undo", "1 nothing", "> quit"]);
}

/// A line that is not understood changes nothing and is told in one line; the script goes on and ends with 1. A refusal
/// is an answer: the script ends with 0.
#[test]
fn mistakes() {
    let bad: [&[u8]; 8] =
        [b"xyzzy", b"undo x", b"undo 1 1", b"insert", b"undo 65536", b"yank \"", b"whole_line", b"yank \xc3\x28 \xff"];
    for line in bad {
        let before = b"type ab c\nundo\nring_kill d\nshow\n".to_vec();
        let all = [before.as_slice(), line, b"\nshow\n"].concat();
        let output = run(all);
        let told = String::from_utf8(output.stdout).unwrap();
        let shown: Vec<_> = told.split("> show\n").skip(1).collect();
        let (first, rest) = shown[0].split_once("> ").unwrap();
        assert_eq!(first, shown[1]);
        let answer: Vec<_> = rest.lines().skip(1).collect();
        assert!(answer.len() == 1 && answer[0].starts_with("! "), "{told}");
        assert_eq!(output.status.code(), Some(1));
    }
    assert_eq!(run("set_pos 9\ninsert \u{4e2d}\n").status.code(), Some(0));
    assert_eq!(run("xyzzy\nquit\n").status.code(), Some(1));
}

/// What a key is lent is the line's own ring: what one kills the next yanks.
#[test]
fn keys() {
    let told = lines("start \"box 12\" 3\nkey C-k\nkey ESC 0 2 C-y\nkey \"\\u{1b}y\"\nkey C-c\n");
    let line: Vec<_> = told.iter().filter(|line| line.starts_with("  line")).map(String::as_str).collect();
    let wanted = [
        "  line  \"box| 12\", cursor 3 of 6",
        "  line  \"box|\", cursor 3 of 3",
        "  line  \"box 12 12|\", cursor 9 of 9",
    ];
    assert_eq!(line, wanted);
    assert_eq!(told.last().unwrap(), "13 unbound: the bytes are no key");
}

/// The slip is the whole text's, wherever the cursor is; nothing changes, and every line stands between bars.
#[test]
fn slips() {
    let long = "x".repeat(61);
    let told = lines(format!("start \"{long} é\\r\\n\\nbox 12\" 3\nslip\nshow\nstart\nslip\n"));
    let at = told.iter().position(|line| line == "> slip").unwrap();
    let wanted = [
        "0 done: lines 4, bytes 245".to_owned(),
        format!("  |{}|", &long[1..]),
        format!("  |{:60}|", "x é"),
        format!("  |{:60}|", ""),
        format!("  |{:60}|", "box 12"),
        "> show".to_owned(),
    ];
    assert_eq!(told[at + 1..][..6], wanted);
    assert_eq!(told[told.len() - 2..], ["> slip", "0 done: lines 0, bytes 0"]);
}

/// 2, 4 and 5 say what was too large, which character and where, which place.
#[test]
fn causes() {
    let rows = [
        ("room 4097", "2 sizes: a text's buffer has at most 4,096 bytes, not 4,097"),
        ("room 1 32769", "2 sizes: the buffer for records has at most 32,768 bytes, not 32,769"),
        ("room 1 1 65536", "2 sizes: the buffer for the records' texts has at most 65,535 bytes, not 65,536"),
        ("ring_new 17", "2 sizes: a ring has at most 16 slots, not 17"),
        ("yank \"bo\u{17e}e\"", "4 foreign: U+017E '\u{17e}' at place 2 is outside the catalogue's repertoire"),
        ("type é\u{334}", "4 foreign: U+0334 '\\u{334}' at place 2 is outside the catalogue's repertoire"),
        (
            "log_replace 0 \"a\" \"b\\u{7f}\"",
            "4 foreign: U+007F '\\u{7f}' at place 1 is outside the catalogue's repertoire",
        ),
        ("key x:C3", "4 foreign: 0xC3 at place 0 is not UTF-8"),
        ("key ESC 2 x:C2B5", "4 foreign: U+00B5 'µ' at place 2 is outside the catalogue's repertoire"),
        ("set_pos 9", "5 place: 9 lies beyond the text, which has 2 bytes"),
        ("delete_range 2 1", "5 place: the start, 2, is after the end, 1"),
        ("yank_pop 3 x", "5 place: the yank has 3 bytes, before the cursor stand 2"),
    ];
    for (line, wanted) in rows {
        let told = lines(format!("start é\n{line}\n"));
        assert_eq!(told.iter().find(|told| told.starts_with(['2', '4', '5'])).unwrap(), wanted, "{line}");
    }
}

#[test]
fn bytes_that_are_not_utf_8() {
    let wanted = ["> yank a\\xff\\xfe\u{e9}", "! the line is not UTF-8: 0xff at place 6"];
    assert_eq!(lines(b"yank a\xff\xfe\xc3\xa9\n".to_vec()), wanted);
    assert_eq!(lines(b"# \xc3".to_vec()), ["> # \\xc3", "! the line is not UTF-8: 0xc3 at place 2"]);
}

#[test]
fn control_characters_are_seen() {
    let foreign = "4 foreign: U+001B '\\u{1b}' at place 0 is outside the catalogue's repertoire";
    assert_eq!(lines("yank \u{1b}[2J\u{0}\n"), ["> yank \\u{1b}[2J\\u{0}", foreign]);
    assert_eq!(lines("start \"\\t|\\u{301}\" 1\n")[2], "  line  \"\\t|\\u{7c}\\u{301}\", cursor 1 of 4");
}

/// A text of a whole slot, and of one byte more.
#[test]
fn long_lines() {
    let long = "a".repeat(4_096);
    let told = lines(format!("ring_kill {long}\nring_kill b\nstart {long}\ninsert b\nstart {long}b\n"));
    let answers: Vec<_> = told.iter().filter(|line| line.starts_with(|ch: char| ch.is_ascii_digit())).collect();
    let full = "the text would be longer than its buffer";
    let sizes = "the text has 4,097 bytes, the line takes 4,096";
    let ring = "a slot of the ring would pass 4,096 bytes";
    let wanted = [
        "0 done",
        &format!("11 ring full: {ring}"),
        "0 done",
        &format!("9 full: {full}"),
        &format!("2 sizes: {sizes}"),
    ];
    assert_eq!(answers, wanted);
    assert_eq!(run("x".repeat(1 << 20)).status.code(), Some(1));
}

#[test]
fn a_reader_that_has_gone_ends_it_quietly() {
    let mut console = Command::new(env!("CARGO_BIN_EXE_console"))
        .stdin(Stdio::piped())
        .stdout(Stdio::piped())
        .stderr(Stdio::piped())
        .spawn()
        .unwrap();
    drop(console.stdout.take());
    // The console may have ended before all is written.
    let _ = console.stdin.take().unwrap().write_all("help\n".repeat(1_000).as_bytes());
    let output = console.wait_with_output().unwrap();
    assert_eq!((output.status.code(), output.stderr.as_slice()), (Some(0), &b""[..]));
}

fn with_words(words: &[&str]) -> Output {
    Command::new(env!("CARGO_BIN_EXE_console")).args(words).stdin(Stdio::null()).output().unwrap()
}

#[test]
fn other_words_are_refused() {
    for words in [&["story.txt"][..], &["--call"], &["--calls", "--keys"], &[""]] {
        let output = with_words(words);
        assert_eq!((output.status.code(), output.stdout.as_slice()), (Some(2), &b""[..]));
        assert!(output.stderr.starts_with(b"usage: "));
    }
}

#[test]
fn words() {
    for (word, begins) in [("--help", "usage: "), ("--keys", "The line\n  Enter "), ("--calls", "")] {
        let output = with_words(&[word]);
        assert_eq!((output.status.code(), output.stderr.as_slice()), (Some(0), &b""[..]));
        assert!(String::from_utf8(output.stdout).unwrap().starts_with(begins));
    }
}

/// A line over the limit is told, its beginning is shown, and nothing has changed.
#[test]
fn overlong_lines() {
    let wanted = |len: &str| format!("! the line has {len} bytes, at most 131,072 are taken");
    let told = lines(format!("type a\nyank {}\nshow\n", "b".repeat(131_067)));
    let shown = format!("> yank {}", "b".repeat(35));
    let at = told.iter().position(|line| *line == shown).unwrap();
    assert_eq!((told[at + 1].as_str(), told[at + 2].as_str()), (wanted("131,073").as_str(), "> show"));
    assert_eq!(told[at + 3], "  line  \"a|\", cursor 1 of 1");
    // as many as are taken, with the line's end; the last line may lack it
    assert!(!lines(format!("yank {}\n", "b".repeat(131_066))).concat().contains("at most"));
    assert_eq!(lines("#".repeat(200_000)).last(), Some(&wanted("200,000")));
}

/// A line without end is not held: there is less memory than it has bytes.
#[test]
fn a_line_without_end() {
    let script = "ulimit -v 200000; head -c 300000000 /dev/zero | \"$0\"";
    let output = Command::new("sh").args(["-c", script, env!("CARGO_BIN_EXE_console")]).output().unwrap();
    assert_eq!((output.status.code(), output.stderr.as_slice()), (Some(1), &b""[..]));
    assert!(output.stdout.ends_with(b"! the line has 300,000,000 bytes, at most 131,072 are taken\n"));
}

#[test]
fn input_that_cannot_be_read() {
    let folder = fs::File::open(env!("CARGO_MANIFEST_DIR")).unwrap();
    let output = Command::new(env!("CARGO_BIN_EXE_console")).stdin(folder).output().unwrap();
    assert_eq!(output.status.code(), Some(2));
    assert!(output.stderr.starts_with(b"console: "));
}

/// Lines put together at random from pieces of commands: no line ends the program, and each gets one answer.
#[test]
fn any_lines() {
    const PIECES: [&str; 41] = [
        "insert",
        "yank",
        "undo",
        "redo",
        "begin",
        "end",
        "cancel",
        "truncate",
        "kill",
        "copy",
        "indent",
        "slip",
        "word_back",
        "search",
        "line_down",
        "replace",
        "log_insert",
        "log_delete",
        "ring_kill",
        "yank_killed",
        "room",
        "start",
        "type",
        "transpose_words",
        "delete_range",
        "0",
        "1",
        "2",
        "3",
        "70000",
        "x",
        "é",
        "\u{4e2d}",
        "\"",
        "\"a b\"",
        "\"\\n\"",
        "\\",
        "#",
        "\u{1}",
        "\t",
        "emacs",
    ];
    let mut state: u64 = 1;
    let mut below = |count: usize| {
        state = state.wrapping_mul(6_364_136_223_846_793_005).wrapping_add(1_442_695_040_888_963_407);
        (state >> 33) as usize % count
    };
    let mut script = String::new();
    let mut asked = 0;
    for _ in 0..4_000 {
        let line: Vec<_> = (0..=below(4)).map(|_| PIECES[below(PIECES.len())]).collect();
        let line = line.join(" ");
        asked += usize::from(!line.trim_start().is_empty() && !line.trim_start().starts_with('#'));
        script += &line;
        script.push('\n');
    }
    let output = run(script);
    assert_eq!((output.status.code(), output.stderr.as_slice()), (Some(1), &b""[..]));
    let told = String::from_utf8(output.stdout).unwrap();
    let answers =
        told.lines().filter(|line| line.starts_with("! ") || line.starts_with(|ch: char| ch.is_ascii_digit()));
    // room without sizes shows them
    let rooms = told
        .lines()
        .zip(told.lines().skip(1))
        .filter(|(line, next)| line.starts_with("> ") && next.starts_with("  room"));
    assert_eq!(answers.count() + rooms.count(), asked);
}
