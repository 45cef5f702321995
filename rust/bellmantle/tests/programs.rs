//! The programs, run as users run them: what no contract can say is how input comes in and output goes out. `faults` is run as
//! it was built, and through the wrapper, which gives the exit status.

use std::fs::{self, File};
use std::io::{Read, Seek, SeekFrom, Write};
use std::path::{Path, PathBuf};
use std::process::{Command, Output, Stdio};
use std::sync::Once;
use std::thread::sleep;
use std::time::Duration;

const SAMPLE: &str = "20 heal-all\n5 crash 1 # east\n";
const SAMPLE_SAYS: &str = "events=2\ntick=5\nfault=crash\nid=1\ntick=20\nfault=heal-all\n";

const LONGEST: usize = 65_536;
const MOST_EVENTS: usize = 2_048;

fn root() -> PathBuf {
    Path::new(env!("CARGO_MANIFEST_DIR"))
        .join("../..")
        .canonicalize()
        .unwrap()
}

fn wrapper() -> PathBuf {
    root().join("bellmantle")
}

/// The program itself, built by the wrapper if it is not there.
fn faults() -> PathBuf {
    static BUILT: Once = Once::new();
    BUILT.call_once(|| {
        let status = Command::new(wrapper())
            .arg("faults")
            .stdin(Stdio::null())
            .stdout(Stdio::null())
            .status()
            .unwrap();
        assert!(status.success(), "the program could not be built");
    });
    root().join("target/bin/faults")
}

/// The ways to a program: itself, and through the wrapper.
fn both() -> [Command; 2] {
    let mut wrapped = Command::new(wrapper());
    wrapped.arg("faults");
    [Command::new(faults()), wrapped]
}

/// Hands pieces to a program, with a pause before each but the first.
fn fed(mut command: Command, pieces: &[&[u8]], pause: Duration) -> Output {
    let mut child = command
        .stdin(Stdio::piped())
        .stdout(Stdio::piped())
        .stderr(Stdio::piped())
        .spawn()
        .unwrap();
    let mut input = child.stdin.take().unwrap();
    for (place, piece) in pieces.iter().enumerate() {
        if place > 0 {
            sleep(pause);
        }
        // a program that has read enough may have gone
        if input.write_all(piece).is_err() {
            break;
        }
    }
    drop(input);
    child.wait_with_output().unwrap()
}

fn text(bytes: &[u8]) -> &str {
    std::str::from_utf8(bytes).unwrap()
}

/// Sees that both ways write exactly this and nothing for a person, with this status through the wrapper.
fn says(pieces: &[&[u8]], pause: Duration, expected: &str, status: i32) {
    for (way, command) in both().into_iter().enumerate() {
        let out = fed(command, pieces, pause);
        assert_eq!(text(&out.stdout), expected);
        assert_eq!(text(&out.stderr), "");
        assert_eq!(out.status.code(), Some(if way == 0 { 0 } else { status }));
    }
}

fn reads(script: &[u8], expected: &str) {
    says(&[script], Duration::ZERO, expected, 0);
}

fn refuses(script: &[u8], number: u32, line: usize) {
    let expected = format!("refusal={number}\nline={line}\n");
    says(&[script], Duration::ZERO, &expected, 1);
}

/// A script with a bad number: why, and at which byte of its word.
fn refuses_number(script: &[u8], number: u32, line: usize, why: u32, byte: usize) {
    let expected = format!("refusal={number}\nline={line}\nwhy={why}\nbyte={byte}\n");
    says(&[script], Duration::ZERO, &expected, 1);
}

/// A script of so many bytes whose last byte decides its only event's id.
fn to_the_last_byte(bytes: usize) -> Vec<u8> {
    let end = b"\n5 crash 12";
    let mut script = vec![b'#'; bytes - end.len()];
    script.extend_from_slice(end);
    script
}

const ONE_EVENT: &str = "events=1\ntick=5\nfault=crash\nid=12\n";

#[test]
fn the_sample_of_the_rules() {
    reads(SAMPLE.as_bytes(), SAMPLE_SAYS);
}

#[test]
fn a_comment_in_another_language() {
    let script = "5 crash 1 # Süd-Ost, Οκτώβρης, 羊 🐑\n".as_bytes();
    reads(script, "events=1\ntick=5\nfault=crash\nid=1\n");
    // a character in two pieces
    let (front, rest) = script.split_at(14);
    says(
        &[front, rest],
        Duration::from_millis(100),
        "events=1\ntick=5\nfault=crash\nid=1\n",
        0,
    );
}

#[test]
fn nothing_is_a_script_without_events() {
    reads(b"", "events=0\n");
}

#[test]
fn a_script_in_two_pieces() {
    let pieces: [&[u8]; 2] = [b"20 heal-all\n5 crash 1", b"23 # east\n"];
    let expected = SAMPLE_SAYS.replace("id=1\n", "id=123\n");
    says(&pieces, Duration::from_millis(300), &expected, 0);
}

#[test]
fn a_script_byte_by_byte() {
    let pieces: Vec<&[u8]> = SAMPLE.as_bytes().chunks(1).collect();
    says(&pieces, Duration::from_millis(3), SAMPLE_SAYS, 0);
}

#[test]
fn the_longest_script_is_read_to_its_last_byte() {
    reads(&to_the_last_byte(LONGEST), ONE_EVENT);
    let script = to_the_last_byte(LONGEST);
    let pieces: Vec<&[u8]> = script.chunks(LONGEST - 1).collect();
    says(&pieces, Duration::from_millis(100), ONE_EVENT, 0);
}

#[test]
fn a_byte_more_is_too_long() {
    refuses(&to_the_last_byte(LONGEST + 1), 1, 0);
    refuses(&to_the_last_byte(4 * LONGEST), 1, 0);
    let script = to_the_last_byte(LONGEST + 1);
    let pieces: Vec<&[u8]> = script.chunks(LONGEST).collect();
    says(
        &pieces,
        Duration::from_millis(100),
        "refusal=1\nline=0\n",
        1,
    );
}

#[test]
fn every_refusal_with_its_line() {
    refuses(&vec![b' '; LONGEST + 1], 1, 0);
    refuses("5 crash 1\n6 cräsh 2\n".as_bytes(), 2, 2);
    refuses(b"5 crash 1 # S\xfcd\n", 2, 1);
    refuses(b"\n\n5\n", 3, 3);
    refuses_number(b"1,500 crash 1\n", 4, 1, 2, 1);
    refuses(b"5 crash 1\n5 Crash 1\n", 5, 2);
    refuses(b"5 crash # 1\n", 6, 1);
    refuses_number(b"5 crash 1,5\n", 7, 1, 2, 1);
    refuses(&b"0 heal 0\n".repeat(MOST_EVENTS + 1), 8, MOST_EVENTS + 1);
}

#[test]
fn where_a_number_went_bad() {
    refuses_number(b"5 crash 18446744073709551616x\n", 7, 1, 3, 19);
    refuses_number(b"\n+ crash 1\n", 4, 2, 1, 1);
    refuses_number(b"5 heal 1\n18446744073709551616 heal 1\n", 4, 2, 3, 19);
    // the longest report: every number of it has the most digits that it can have
    let mut longest = vec![b'\n'; 9_999];
    longest.extend(vec![b'0'; LONGEST - longest.len() - 10]);
    let byte = longest.len() - 9_999;
    longest.extend(b"x heal-all");
    refuses_number(&longest, 4, 10_000, 2, byte);
}

/// What the wrapper says in words on standard error, where it is asked to.
fn explains(script: &[u8], expected: &str) {
    faults();
    let mut command = Command::new(wrapper());
    command.args(["faults", "--explain"]);
    let out = fed(command, &[script], Duration::ZERO);
    assert_eq!(text(&out.stderr), expected);
    assert_eq!(out.status.code(), Some(i32::from(!expected.is_empty())));
    let mut command = Command::new(wrapper());
    command.arg("faults");
    let plain = fed(command, &[script], Duration::ZERO);
    assert_eq!(text(&out.stdout), text(&plain.stdout));
}

#[test]
fn a_refusal_in_words() {
    explains(SAMPLE.as_bytes(), "");
    explains(
        &vec![b' '; LONGEST + 1],
        "bellmantle: the script is over 65,536 bytes\n",
    );
    explains(
        b"\n\t5 cr\xc3\xa4sh 1\r\n",
        "bellmantle: line 2: there is a byte over 127 before the #, or a comment that is no UTF-8\n     5 cr??sh 1 \n",
    );
    explains(
        "1,500 crash 1 # Süd \u{9b}2J \u{202e} Ost\n".as_bytes(),
        "bellmantle: line 1: the tick is no number: this byte is no digit\n    1,500 crash 1 # Süd ?2J ? Ost\n     ^\n",
    );
    explains(
        b"5",
        "bellmantle: line 1: there is only one word; a line has a tick, a fault and, for all but heal-all, a plant's id\n    5\n",
    );
    explains(
        b"# east\n 1,500\tcrash 1 # \x1b[2J\n",
        "bellmantle: line 2: the tick is no number: this byte is no digit\n     1,500 crash 1 # ?[2J\n      ^\n",
    );
    explains(
        b"5 crash 1\n5 Crash 1\n",
        "bellmantle: line 2: there is no such fault; there are crash, restart, reboot, partition, heal and heal-all\n    5 Crash 1\n",
    );
    explains(
        b"5 crash # 1\n",
        "bellmantle: line 1: the fault needs a plant's id\n    5 crash # 1\n",
    );
    explains(
        b"5  crash   18446744073709551616x\n",
        "bellmantle: line 1: the id is no number: here it passes 18446744073709551615\n    5  crash   18446744073709551616x\n                                  ^\n",
    );
    explains(
        b"5 crash +",
        "bellmantle: line 1: the id is no number: a digit is missing here\n    5 crash +\n             ^\n",
    );
    explains(
        &b"0 heal 0\n".repeat(MOST_EVENTS + 1),
        "bellmantle: line 2049: this is one event more than the 2,048 that there is room for\n    0 heal 0\n",
    );
}

#[test]
fn a_long_line_is_shown_around_its_fault() {
    let zeros = "0".repeat(300);
    let line = format!("{zeros}x crash {zeros}\n");
    let part = format!("{}x crash {}", "0".repeat(36), "0".repeat(28));
    let caret = " ".repeat(4 + 4 + 36);
    explains(
        line.as_bytes(),
        &format!("bellmantle: line 1: the tick is no number: this byte is no digit\n    ... {part} ...\n{caret}^\n"),
    );
}

#[test]
fn on_a_terminal_a_refusal_is_said_in_words() {
    faults();
    let folder = folder("on a terminal");
    fs::write(folder.join("bad.txt"), "1,500 crash 1\n").unwrap();
    let line = format!(
        "script -qec \"'{}' faults bad.txt >out.txt\" /dev/null",
        wrapper().display()
    );
    let (status, said, _) = shell(&folder, &line);
    let expected = "bellmantle: line 1: the tick is no number: this byte is no digit\r\n    1,500 crash 1\r\n     ^\r\n";
    assert_eq!((status, said.as_str()), (1, expected));
    let out = fs::read_to_string(folder.join("out.txt")).unwrap();
    assert_eq!(out, "refusal=4\nline=1\nwhy=2\nbyte=1\n");
}

#[test]
fn an_input_that_cannot_be_read_is_not_explained() {
    let inputs = [
        Stdio::from(File::open("/").unwrap()),
        Stdio::from(failing_after_some_bytes()),
    ];
    faults();
    for input in inputs {
        let mut command = Command::new(wrapper());
        command.args(["faults", "--explain"]).stdin(input);
        let out = command.output().unwrap();
        assert_eq!(
            (text(&out.stdout), text(&out.stderr), out.status.code()),
            (
                "",
                "bellmantle: standard input: it could not be read\n",
                Some(2)
            )
        );
    }
}

#[test]
fn the_most_events_are_all_written() {
    let script = b"18446744073709551615 partition 18446744073709551615\n";
    let event = "tick=18446744073709551615\nfault=partition\nid=18446744073709551615\n";
    // a text of the longest lines that fit
    let count = LONGEST / script.len();
    let expected = format!("events={count}\n{}", event.repeat(count));
    reads(&script.repeat(count), &expected);
    let expected = format!(
        "events={MOST_EVENTS}\n{}",
        "tick=0\nfault=heal\nid=0\n".repeat(MOST_EVENTS)
    );
    reads(&b"0 heal 0\n".repeat(MOST_EVENTS), &expected);
}

/// Sees that nothing is answered: no output, one line for a person that tells the reason, status 2 through the wrapper.
fn tells(commands: [Command; 2], reason: &str) {
    for (way, mut command) in commands.into_iter().enumerate() {
        let out = command.stderr(Stdio::piped()).output().unwrap();
        assert_eq!(text(&out.stdout), "");
        assert!(
            text(&out.stderr).contains(reason) && text(&out.stderr).lines().count() == 1,
            "{:?} should tell: {reason}",
            text(&out.stderr)
        );
        assert_eq!(out.status.code(), Some(if way == 0 { 0 } else { 2 }));
    }
}

/// Both ways, each started by a shell with these redirections.
fn redirected(redirections: &str) -> [Command; 2] {
    both().map(|command| {
        let mut shell = Command::new("sh");
        shell
            .arg("-c")
            .arg(format!("exec \"$0\" \"$@\" {redirections}"));
        shell.arg(command.get_program()).args(command.get_args());
        shell.stdin(Stdio::null());
        shell
    })
}

#[test]
fn an_input_that_cannot_be_read() {
    tells(redirected("</"), "faults: standard input: Is a directory");
    tells(
        redirected("<&-"),
        "faults: standard input: Bad file descriptor",
    );
}

/// The memory of this process, at the last bytes before a gap: a read gives some bytes, and the next one fails.
fn failing_after_some_bytes() -> File {
    let maps = fs::read_to_string("/proc/self/maps").unwrap();
    let range = |line: &str| -> Option<(u64, u64)> {
        let (from, rest) = line.split_once('-')?;
        let to = rest.split_once(' ')?.0;
        Some((
            u64::from_str_radix(from, 16).ok()?,
            u64::from_str_radix(to, 16).ok()?,
        ))
    };
    let lines: Vec<&str> = maps.lines().collect();
    let end = lines
        .windows(2)
        .find_map(|pair| {
            let (_, end) = range(pair[0])?;
            let (next, _) = range(pair[1])?;
            (pair[0].contains(" r") && end < next).then_some(end)
        })
        .expect("a readable mapping with a gap behind it");
    let mut memory = File::open("/proc/self/mem").unwrap();
    memory.seek(SeekFrom::Start(end - 16)).unwrap();
    memory
}

#[test]
fn an_input_that_fails_after_some_bytes() {
    let mut some = [0; 64];
    let mut memory = failing_after_some_bytes();
    assert_eq!(memory.read(&mut some).unwrap(), 16);
    assert!(memory.read(&mut some).is_err());
    let commands = both().map(|mut command| {
        command.stdin(failing_after_some_bytes());
        command
    });
    tells(commands, "faults: standard input: Input/output error");
}

#[test]
fn an_output_that_cannot_be_written() {
    let reasons = [">/dev/full", ">&-"];
    for redirections in reasons {
        tells(redirected(redirections), "standard output: ");
    }
    let long = root().join("examples/night.txt");
    let out = Command::new("sh")
        .arg("-c")
        .arg("exec \"$0\" faults \"$1\" >/dev/full")
        .arg(wrapper())
        .arg(long)
        .output()
        .unwrap();
    assert_eq!(out.status.code(), Some(2));
}

/// A folder of its own for a test, with a script whose name has spaces, and a link to the wrapper.
fn folder(name: &str) -> PathBuf {
    let folder = Path::new(env!("CARGO_TARGET_TMPDIR")).join(name);
    let _ = fs::remove_dir_all(&folder);
    fs::create_dir_all(&folder).unwrap();
    fs::write(folder.join("a night.txt"), SAMPLE).unwrap();
    std::os::unix::fs::symlink(wrapper(), folder.join("linked")).unwrap();
    folder
}

/// Runs a line of shell in a folder, with the wrapper as $0.
fn shell(folder: &Path, line: &str) -> (i32, String, String) {
    let out = Command::new("sh")
        .args(["-c", line])
        .arg(wrapper())
        .current_dir(folder)
        .stdin(Stdio::null())
        .output()
        .unwrap();
    let said = |bytes: Vec<u8>| String::from_utf8(bytes).unwrap();
    (
        out.status.code().unwrap(),
        said(out.stdout),
        said(out.stderr),
    )
}

#[test]
fn the_wrapper_from_anywhere() {
    faults();
    let folder = folder("wrapper from anywhere");
    let answered = (0, SAMPLE_SAYS.to_string(), String::new());
    for line in [
        "\"$0\" faults 'a night.txt'",
        "\"$0\" faults <'a night.txt'",
        "\"$0\" faults - <'a night.txt'",
        "./linked faults 'a night.txt'",
        "CDPATH=.:/ \"$0\" faults 'a night.txt'",
        "CDPATH=.:/ ./linked faults 'a night.txt'",
        "PATH=\"$PWD:$PATH\"; linked faults 'a night.txt'",
        "set -e; \"$0\" faults 'a night.txt' | cat",
    ] {
        assert_eq!(shell(&folder, line), answered, "{line}");
    }
}

#[test]
fn the_wrapper_under_set_e() {
    faults();
    let folder = folder("wrapper under set e");
    let (status, out, _) = shell(&folder, "set -e; echo 5 | \"$0\" faults; echo reached");
    assert_eq!((status, out.as_str()), (1, "refusal=3\nline=1\n"));
    let (status, out, _) = shell(
        &folder,
        "set -e; \"$0\" faults 'a night.txt' | grep -c fault=; echo reached",
    );
    assert_eq!((status, out.as_str()), (0, "2\nreached\n"));
}

#[test]
fn wrong_use_of_the_wrapper() {
    let folder = folder("wrong use of the wrapper");
    for (line, reason) in [
        (
            "\"$0\" faults missing.txt",
            "missing.txt: there is no such file",
        ),
        ("\"$0\" faults .", ".: it is a folder"),
        ("\"$0\" faults a b", "one file at most"),
        ("\"$0\" faults --quick", "no option --quick"),
        ("\"$0\" fault", "there is no program 'fault'"),
        ("\"$0\"", "usage: "),
        ("\"$0\" --help >/dev/full", "standard output"),
    ] {
        let (status, out, said) = shell(&folder, line);
        assert_eq!((status, out.as_str()), (2, ""), "{line}");
        assert!(said.contains(reason), "{line}: {said}");
    }
    let (status, out, said) = shell(&folder, "\"$0\" --help");
    assert_eq!((status, said.as_str()), (0, ""));
    assert!(out.starts_with("usage: "));
}
