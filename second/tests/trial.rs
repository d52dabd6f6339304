//! `second try`: how it ends for builds that answer alike, otherwise, too little, too much or never.

use std::path::{Path, PathBuf};
use std::process::{Command, Output};
use std::time::{Duration, Instant};

const SECOND: &str = env!("CARGO_BIN_EXE_second");

/// A file of its own for a test.
fn file(name: &str) -> PathBuf {
    Path::new(env!("CARGO_TARGET_TMPDIR")).join(format!("trial-{name}.txt"))
}

/// Tries a shell's command, in which `$S` is this program, with these words.
fn attempt(name: &str, words: &[&str], shell: &str) -> Output {
    let to = file(name);
    let _ = std::fs::remove_file(&to);
    Command::new(SECOND)
        .arg("try")
        .arg(format!("against={SECOND} answer"))
        .arg(format!("to={}", to.display()))
        .args(words)
        .args(["--", "sh", "-c", shell])
        .env("S", SECOND)
        .output()
        .unwrap()
}

/// What a trial says that finds a difference, and the file that it writes.
fn differs(name: &str, words: &[&str], shell: &str) -> (String, String) {
    let output = attempt(name, words, shell);
    let told = String::from_utf8(output.stdout).unwrap();
    assert_eq!(output.status.code(), Some(1), "{told}");
    (told, std::fs::read_to_string(file(name)).unwrap())
}

#[test]
fn a_build_that_is_right() {
    let output = attempt("right", &["lists=3", "calls=200", "seed=7"], "\"$S\" answer");
    assert_eq!(output.status.code(), Some(0));
    let told = String::from_utf8(output.stdout).unwrap();
    assert_eq!(told, "no difference: 600 calls of 3 lists answered alike\n");
    assert!(!file("right").exists());
}

#[test]
fn the_time_is_up() {
    let output = attempt("late", &["seconds=1", "calls=50"], "sleep 1; \"$S\" answer");
    assert_eq!(output.status.code(), Some(0));
    let told = String::from_utf8(output.stdout).unwrap();
    assert!(told.ends_with("of 1 lists answered alike, and the time is up\n"), "{told}");
}

/// The list that is written is a list: it can be played again, and differs at its last call.
#[test]
fn another_answer() {
    let shell = "\"$S\" answer | sed 's/^taken invalid$/taken valid/'";
    let (told, list) = differs("another", &[], shell);
    assert!(told.starts_with("difference: another answer at the last call of "), "{told}");
    assert!(list.contains("\n# against: taken invalid\n# command: taken valid\n"), "{list}");
    assert!(second::trial::calls(list.as_bytes()).len() <= 3, "{list}");
    let again = file("another").display().to_string();
    let (told, same) = differs("again", &[&format!("list={again}")], shell);
    assert!(told.contains(&format!("from list {again}; ")), "{told}");
    let calls = |text: &str| second::trial::calls(text.as_bytes()).concat();
    assert_eq!(calls(&list), calls(&same));
    let right = attempt("played", &[&format!("list={again}")], "\"$S\" answer");
    assert_eq!(right.status.code(), Some(0));
}

#[test]
fn bad_answers_too_few_and_too_many() {
    let short = ["lists=1", "calls=20"];
    let (told, list) = differs("bad", &short, "\"$S\" answer | sed 's/^ok$/OK/'");
    assert!(told.contains("difference: bad answer"), "{told}");
    assert!(list.contains("# against: ok\n# command: OK\n"), "{list}");
    let (told, list) = differs("few", &short, "\"$S\" answer | head -n 1");
    assert!(told.contains("difference: too few answers"), "{told}");
    assert!(list.contains("# command: (no answer: exit status: 0)\n"), "{list}");
    let (told, list) = differs("many", &short, "\"$S\" answer; echo held");
    assert!(told.contains("difference: too many answers"), "{told}");
    assert!(list.contains("# against: (the end of the list)\n# command: held\n"), "{list}");
}

#[test]
fn a_build_that_dies() {
    let (told, list) =
        differs("dies", &["lists=1", "calls=20"], "head -n 3 | \"$S\" answer; exit 7");
    assert!(told.contains("difference: died"), "{told}");
    assert!(list.contains("exit status: 7"), "{list}");
    let (told, list) = differs("killed", &["lists=1", "calls=5"], "kill -9 $$");
    assert!(told.contains("difference: died") && list.contains("signal: 9"), "{told}");
}

/// Neither a sleeping build nor what it has started is waited for, and nothing of it stays.
#[test]
fn a_build_that_falls_silent() {
    let begun = Instant::now();
    let words = ["lists=1", "calls=2", "silence=1"];
    let (told, list) = differs("silent", &words, "cat >/dev/null; sleep 61; echo ok");
    assert!(told.contains("difference: silence"), "{told}");
    assert!(list.contains("# command: (no answer: silent)\n"), "{list}");
    let (told, _) = differs("stays", &words, "\"$S\" answer; sleep 62");
    assert!(told.contains("difference: silence"), "{told}");
    assert!(begun.elapsed() < Duration::from_secs(30));
    for sleeper in ["sleep 61", "sleep 62"] {
        assert!(!running(sleeper), "{sleeper}");
    }
}

/// Whether a process with these words runs.
fn running(words: &str) -> bool {
    let wanted: Vec<u8> =
        words.bytes().map(|octet| if octet == b' ' { 0 } else { octet }).collect();
    let processes = std::fs::read_dir("/proc").unwrap().flatten();
    let lines = processes.filter_map(|one| std::fs::read(one.path().join("cmdline")).ok());
    lines.into_iter().any(|line| line.strip_suffix(&[0]) == Some(&wanted))
}

#[test]
fn a_build_that_never_stops_answering() {
    let (told, _) = differs("endless", &["lists=1", "calls=20"], "yes ok");
    assert!(told.contains("difference: too many answers"), "{told}");
}

/// The program compared with may take long to start for the first time: ./bench builds itself then.
#[test]
fn a_reference_that_has_to_be_built() {
    let built = file("built");
    let _ = std::fs::remove_file(&built);
    let script = file("reference");
    let built = built.display();
    let text = format!("[ -f {built} ] || {{ sleep 2; : >{built}; }}\nexec '{SECOND}' answer\n");
    std::fs::write(&script, text).unwrap();
    let against = format!("against=sh {}", script.display());
    let output = Command::new(SECOND)
        .args(["try", "lists=1", "calls=50", "silence=1", &against, "--", SECOND, "answer"])
        .output()
        .unwrap();
    assert_eq!(output.status.code(), Some(0), "{}", String::from_utf8_lossy(&output.stderr));
}

#[test]
fn what_can_not_be_tried() {
    let run = |words: &[&str]| Command::new(SECOND).arg("try").args(words).output().unwrap();
    for words in [&[][..], &["--"], &["seed=x", "--", "true"], &["fast", "--", "true"]] {
        let output = run(words);
        assert_eq!(output.status.code(), Some(2), "{words:?}");
        assert!(String::from_utf8_lossy(&output.stderr).contains("second try: "), "{words:?}");
    }
    let itself = format!("against={SECOND} answer");
    for words in [
        &[itself.as_str(), "--", "/no/such/build"][..],
        &[&itself, "list=/no/such/list", "--", "true"],
        &["against=/no/such/bench", "--", "true"],
        &["against=true", "--", "true"],
        &["against=false", "--", "true"],
    ] {
        let output = run(words);
        assert_eq!(output.status.code(), Some(3), "{words:?}");
        assert_eq!(output.stdout, b"", "{words:?}");
        assert!(String::from_utf8_lossy(&output.stderr).contains("second try: "), "{words:?}");
    }
}
