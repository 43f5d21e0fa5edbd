//! The program `ask`: what it prints, and its exit status.
use std::io::Write;
use std::process::{Command, Output, Stdio};

/// Run with these words; standard input is these bytes.
fn ask(words: &[&str], input: &[u8]) -> Output {
    let mut child = Command::new(env!("CARGO_BIN_EXE_ask"))
        .args(words)
        .stdin(Stdio::piped())
        .stdout(Stdio::piped())
        .stderr(Stdio::piped())
        .spawn()
        .expect("the program");
    let mut stdin = child.stdin.take().expect("a pipe");
    let input = input.to_vec();
    let writer = std::thread::spawn(move || drop(stdin.write_all(&input)));
    let output = child.wait_with_output().expect("its output");
    writer.join().expect("the writer");
    output
}

fn answers(input: &[u8]) -> String {
    let output = ask(&[], input);
    assert_eq!(output.status.code(), Some(0));
    assert!(output.stderr.is_empty());
    String::from_utf8(output.stdout).expect("text")
}

/// As `session.txt` has it: from standard input, from the file, and with the lines of Windows.
#[test]
fn the_session() {
    let name = concat!(env!("CARGO_MANIFEST_DIR"), "/../session.txt");
    let wanted = concat!(env!("CARGO_MANIFEST_DIR"), "/../session.answers.txt");
    let wanted = std::fs::read_to_string(wanted).unwrap();
    let session = std::fs::read_to_string(name).unwrap();
    assert_eq!(answers(session.as_bytes()), wanted);
    assert_eq!(answers(session.replace('\n', "\r\n").as_bytes()), wanted);
    assert_eq!(answers(session.trim_end().as_bytes()), wanted);
    let output = ask(&[name], b"what is this");
    assert_eq!(output.status.code(), Some(0));
    assert_eq!(output.stdout, wanted.as_bytes());
}

#[test]
fn no_prompt_and_no_answer_where_nobody_asks() {
    assert_eq!(answers(b""), "");
    assert_eq!(answers(b"\n# a remark\n   \r\n"), "");
}

#[test]
fn what_cannot_be_read_is_said_again() {
    assert_eq!(
        answers(b"open 256\nopen 256 1e\r\r\n"),
        "? open 256\n? open 256 1e\n"
    );
    assert_eq!(ask(&[], b"\xff\xfe\n").stdout, b"? \xff\xfe\n");
}

#[test]
fn a_file_that_cannot_be_read_is_status_1() {
    let folder = env!("CARGO_MANIFEST_DIR");
    for name in [format!("{folder}/no such file"), folder.to_string()] {
        let output = ask(&[&name], b"");
        assert_eq!(output.status.code(), Some(1));
        assert!(output.stdout.is_empty());
        let words = String::from_utf8(output.stderr).unwrap();
        assert!(
            words.starts_with(&format!("ask: cannot read {name}: ")),
            "{words}"
        );
        assert_eq!(words.lines().count(), 1);
    }
}

#[test]
fn wrong_use_is_status_2_and_help_is_not() {
    let help = ask(&["--help"], b"");
    assert_eq!(help.status.code(), Some(0));
    let usage = String::from_utf8(help.stdout).unwrap();
    assert_eq!(ask(&["-h"], b"").stdout, usage.as_bytes());
    assert!(usage.starts_with("usage: ask [FILE]\n"));
    for (words, why) in [
        (&["a", "b"][..], "ask: one file is the most\n"),
        (&["--what"], "ask: there is no option --what\n"),
        (&["-"], "ask: there is no option -\n"),
    ] {
        let output = ask(words, b"");
        assert_eq!(output.status.code(), Some(2));
        assert!(output.stdout.is_empty());
        let said = String::from_utf8(output.stderr).unwrap();
        assert_eq!(said, format!("{why}\n{usage}"));
    }
}
