//! The program itself: its arguments, its streams and the comparison with another program.

use std::io::Write;
use std::path::PathBuf;
use std::process::{Command, Output, Stdio};

const SECOND: &str = env!("CARGO_BIN_EXE_second");

fn second(arguments: &[&str], input: &[u8]) -> Output {
    let mut child = Command::new(SECOND)
        .args(arguments)
        .stdin(Stdio::piped())
        .stdout(Stdio::piped())
        .stderr(Stdio::piped())
        .spawn()
        .unwrap();
    child.stdin.take().unwrap().write_all(input).unwrap();
    child.wait_with_output().unwrap()
}

fn text(octets: &[u8]) -> String {
    String::from_utf8_lossy(octets).into_owned()
}

#[test]
fn it_answers_a_list() {
    let output = second(&["answer"], b"# nothing\nlend 4\n\nread -\nshow");
    assert!(output.status.success());
    assert_eq!(text(&output.stdout), "ok\nrefused 1\nno unit\n");
}

#[test]
fn it_writes_lists() {
    for name in ["wire", "masters", "exchange", "watch", "card", "whole", "stored"] {
        assert!(second(&["list", name], b"").stdout == second::lists::named(name).unwrap());
    }
    let random = second(&["list", "random", "7", "30"], b"").stdout;
    assert_eq!(text(&random).lines().count(), 30);
}

#[test]
fn it_helps() {
    let help = second(&["help"], b"");
    assert!(help.status.success());
    assert!(text(&help.stdout).contains("second compare PROGRAM SEED LISTS COUNT"));
}

#[test]
fn wrong_arguments_get_the_usage() {
    let wrong: [&[&str]; 7] = [
        &[],
        &["answers"],
        &["list"],
        &["list", "nothing"],
        &["list", "random", "1"],
        &["list", "random", "one", "2"],
        &["compare", "bench", "1", "2"],
    ];
    for arguments in wrong {
        let output = second(arguments, b"");
        assert_eq!(output.status.code(), Some(2), "{arguments:?}");
        assert_eq!(output.stdout, b"", "{arguments:?}");
        assert!(text(&output.stderr).contains("second answer"), "{arguments:?}");
    }
}

/// A program to compare with: a script that runs this one and changes its answers.
fn script(name: &str, filter: &str) -> PathBuf {
    let path = PathBuf::from(env!("CARGO_TARGET_TMPDIR")).join(name);
    let text = format!("#!/bin/sh\n'{SECOND}' answer | {filter}\n");
    std::fs::write(&path, text).unwrap();
    let mut command = Command::new("chmod");
    assert!(command.arg("+x").arg(&path).status().unwrap().success());
    path
}

#[test]
fn it_agrees_with_itself() {
    let path = script("same", "cat");
    let same = second(&["compare", path.to_str().unwrap(), "1", "3", "400"], b"");
    assert_eq!(text(&same.stdout), "1200 calls agreed\n");
    assert!(same.status.success());
    let named = second(&["compare", path.to_str().unwrap(), "masters"], b"");
    assert!(text(&named.stdout).ends_with(" calls agreed\n"));
    assert!(named.status.success());
}

#[test]
fn it_tells_the_first_difference() {
    let path = script("other", "sed 's/^held$/Held/'");
    let output = second(&["compare", path.to_str().unwrap(), "1", "3", "400"], b"");
    assert_eq!(output.status.code(), Some(1));
    let told = text(&output.stderr);
    for part in [
        "list random 1 400: first difference at line ",
        "call   receive ",
        "bench  Held",
        "second held",
    ] {
        assert!(told.contains(part), "{told}");
    }
}

#[test]
fn it_tells_where_the_other_stops_or_fails() {
    let path = script("short", "head -n 5");
    let output = second(&["compare", path.to_str().unwrap(), "1", "1", "400"], b"");
    assert_eq!(output.status.code(), Some(1));
    assert!(text(&output.stderr).contains("(no answer)"));
    let path = script("fails", "false");
    let output = second(&["compare", path.to_str().unwrap(), "1", "1", "400"], b"");
    assert_eq!(output.status.code(), Some(1));
    assert!(text(&output.stderr).contains("ended with"));
    let output = second(&["compare", "/no/such/program", "1", "1", "4"], b"");
    assert_eq!(output.status.code(), Some(1));
}
