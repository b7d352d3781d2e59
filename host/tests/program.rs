//! The program of the repository (crates/selectors), run as a user runs it: long traces, however they are cut, and errors of the system.
use std::fs::File;
use std::io::{Read, Write};
use std::path::{Path, PathBuf};
use std::process::{Command, Output, Stdio};

/// One root node: id 3, local name `p`.
const SHEET: [u8; 24] = [
    1, 0, 0, 0, 24, 0, 1, 0, 1, 0, 13, 1, 3, 1, 0, 0, 0, 0, 0, 0, 3, 3, 0, b'p',
];
/// `<div>`, `<p>` and `</div>`, and the lines that answer them.
const TURN: &[u8] = b"\x00\x05\x01\x00div\x00\x03\x01\x00p\x00\x04\x03div";
const LINES: &str = "match content\nmatch 3 content\npop 2\n";
/// More than two blocks of the program's input.
const TURNS: usize = 18_000;

fn program() -> PathBuf {
    let path = Path::new(env!("CARGO_MANIFEST_DIR")).join("../crates/selectors/out/selectors");
    assert!(
        path.exists(),
        "{} is missing: ./run at the top of the repository builds it",
        path.display()
    );
    path
}

/// The program, by an emulator where RUNNER names one.
fn command() -> Command {
    match std::env::var_os("RUNNER") {
        Some(runner) => {
            let mut command = Command::new(runner);
            command.arg(program());
            command
        }
        None => Command::new(program()),
    }
}

fn input() -> Vec<u8> {
    let mut bytes = SHEET.to_vec();
    bytes.push(1);
    for _ in 0..TURNS {
        bytes.extend_from_slice(TURN);
    }
    assert!(bytes.len() > 300_000);
    bytes
}

fn by_file(bytes: &[u8], name: &str) -> Output {
    let path = Path::new(env!("CARGO_TARGET_TMPDIR")).join(name);
    std::fs::write(&path, bytes).expect("the file is written");
    command()
        .stdin(File::open(&path).expect("the file is there"))
        .output()
        .expect("the program runs")
}

/// Through a pipe, in pieces of so many bytes.
fn by_pipe(bytes: &[u8], piece: usize) -> String {
    let mut child = command()
        .stdin(Stdio::piped())
        .stdout(Stdio::piped())
        .spawn()
        .expect("the program runs");
    let mut stdin = child.stdin.take().expect("a pipe");
    let mut stdout = child.stdout.take().expect("a pipe");
    let reading = std::thread::spawn(move || {
        let mut text = String::new();
        stdout.read_to_string(&mut text).expect("lines are ASCII");
        text
    });
    for part in bytes.chunks(piece) {
        stdin.write_all(part).expect("the program reads on");
    }
    drop(stdin);
    assert_eq!(child.wait().expect("the program ends").code(), Some(0));
    reading.join().expect("the reader ends")
}

#[test]
fn a_long_trace_is_answered_however_it_comes() {
    let bytes = input();
    let wanted = LINES.repeat(TURNS);
    let output = by_file(&bytes, "long");
    assert_eq!(output.status.code(), Some(0));
    assert!(output.stdout == wanted.as_bytes(), "by file");
    for piece in [7, 1_000, 65_537] {
        assert!(by_pipe(&bytes, piece) == wanted, "in pieces of {piece}");
    }
}

#[test]
fn a_trace_cut_in_its_last_record_is_bad_there() {
    let bytes = input();
    let short = &bytes[..bytes.len() - 3];
    let place = 1 + (TURNS - 1) * TURN.len() + 7 + 5;
    let whole = LINES.repeat(TURNS);
    let wanted = format!(
        "{}bad trace at {place}\n",
        whole.strip_suffix("pop 2\n").expect("the last line")
    );
    let output = by_file(short, "cut");
    assert_eq!(output.status.code(), Some(0));
    assert!(output.stdout == wanted.as_bytes(), "by file");
    for piece in [7, 1_000, 65_537] {
        assert!(by_pipe(short, piece) == wanted, "in pieces of {piece}");
    }
}

/// It said one line on standard error, and ended with 2.
fn failed(output: &Output) {
    assert_eq!(output.status.code(), Some(2));
    let said = String::from_utf8_lossy(&output.stderr);
    assert_eq!(said.lines().count(), 1, "{said}");
    assert!(said.starts_with("selectors: "), "{said}");
}

#[test]
fn a_failed_write_is_no_success() {
    let full = File::options()
        .write(true)
        .open("/dev/full")
        .expect("/dev/full is there");
    let path = Path::new(env!("CARGO_TARGET_TMPDIR")).join("full");
    std::fs::write(&path, input()).expect("the file is written");
    let output = command()
        .stdin(File::open(&path).expect("the file is there"))
        .stdout(full)
        .stderr(Stdio::piped())
        .spawn()
        .expect("the program runs")
        .wait_with_output()
        .expect("the program ends");
    failed(&output);
}

#[test]
fn a_failed_read_is_no_end_of_the_input() {
    let output = command()
        .stdin(File::open("/").expect("a folder is there"))
        .output()
        .expect("the program runs");
    failed(&output);
    assert!(output.stdout.is_empty());
}
