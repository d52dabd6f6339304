//! The script ./bench, with a kit that is made up, and scripts/examples.sh.

use std::fs;
use std::os::unix::fs::PermissionsExt;
use std::path::{Path, PathBuf};
use std::process::{Command, Output};
use std::sync::{Mutex, MutexGuard, PoisonError};
use std::time::{Duration, SystemTime};

const ROOT: &str = concat!(env!("CARGO_MANIFEST_DIR"), "/..");
const SECOND: &str = env!("CARGO_BIN_EXE_second");

fn write(path: &Path, text: &str) {
    fs::create_dir_all(path.parent().unwrap()).unwrap();
    fs::write(path, text).unwrap();
    fs::set_permissions(path, fs::Permissions::from_mode(0o755)).unwrap();
}

/// What stands for a crate's source.
const SOURCE: &str = "repository/crates/one/src/main";

/// A folder for one test, gone after it. It lies outside the repository: the gate asks of every crates.txt
/// under that whose it is.
struct Place(PathBuf, #[allow(dead_code)] Alone);

/// One test at a time: a program can't be run while another test's child still has it open to be written.
type Alone = MutexGuard<'static, ()>;

fn alone() -> Alone {
    static ONE: Mutex<()> = Mutex::new(());
    ONE.lock().unwrap_or_else(PoisonError::into_inner)
}

impl std::ops::Deref for Place {
    type Target = Path;

    fn deref(&self) -> &Path {
        &self.0
    }
}

impl Drop for Place {
    fn drop(&mut self) {
        let _ = fs::remove_dir_all(&self.0);
    }
}

/// A repository with one crate and the script, and beside it a kit: `rt`, which does what is given.
fn place(name: &str, rt: &str) -> Place {
    let folder = format!("sinezhab-{}-{name}", std::process::id());
    let place = Place(std::env::temp_dir().join(folder), alone());
    let _ = fs::remove_dir_all(&*place);
    write(&place.join("kit/bin/rt"), &format!("#!/bin/sh\n{rt}\n"));
    write(&place.join("kit/machine/uname"), "#!/bin/sh\necho x86_64\n");
    write(&place.join("repository/crates.txt"), "one:\n");
    write(&place.join("repository/crates/bench/stdin"), "");
    write(&place.join("repository/crates/bench/stdout"), "program\n");
    write(&place.join(SOURCE), "");
    write(&place.join("repository/list"), "show\n");
    fs::copy(format!("{ROOT}/bench"), place.join("repository/bench")).unwrap();
    place
}

/// Runs the script of a place from elsewhere.
fn bench(place: &Path, words: &[&str]) -> Output {
    let mut command = Command::new(place.join("repository/bench"));
    let path =
        format!("{}:{}", place.join("kit/machine").display(), std::env::var("PATH").unwrap());
    command.args(words).env("RT", place.join("kit/bin/rt")).env("PATH", path);
    command.current_dir(place.join("repository")).stdin(fs::File::open("/dev/null").unwrap());
    command.output().unwrap()
}

fn texts(output: &Output) -> (String, String) {
    let text = |octets: &[u8]| String::from_utf8_lossy(octets).into_owned();
    (text(&output.stdout), text(&output.stderr))
}

/// What rt does where all is proved.
const PROVES: &str = "echo \"rt: one proved (1 s)\" >&2\nmkdir -p out\n\
    printf '#!/bin/sh\\necho program\\ncat\\n' >out/bench\nchmod +x out/bench";

#[test]
fn it_builds_what_is_missing_and_says_so() {
    let place = place("missing", PROVES);
    let output = bench(&place, &["list"]);
    let (told, said) = texts(&output);
    assert!(output.status.success(), "{said}");
    assert!(told.starts_with("program\n") && told.ends_with("show\n"), "{told}");
    assert!(
        said.contains("proving and building it") && said.contains("bench: one proved"),
        "{said}"
    );
    // Nothing is missing now, until a source is newer.
    let (told, said) = texts(&bench(&place, &[]));
    assert!(told.starts_with("program\n") && said.is_empty(), "{told}{said}");
    let source = fs::File::options().write(true).open(place.join(SOURCE));
    source.unwrap().set_modified(SystemTime::now() + Duration::from_secs(5)).unwrap();
    assert!(texts(&bench(&place, &[])).1.contains("bench: one proved"));
}

#[test]
fn it_runs_an_emulator_where_the_processor_is_another() {
    let place = place("emulated", PROVES);
    write(&place.join("kit/machine/uname"), "#!/bin/sh\necho aarch64\n");
    let emulator = "#!/bin/sh\necho emulated\nexec \"$@\"\n";
    write(&place.join("kit/machine/qemu-x86_64"), emulator);
    write(&place.join("repository/crates/bench/stdout"), "emulated\nprogram\n");
    let (told, _) = texts(&bench(&place, &["list"]));
    assert!(told.starts_with("emulated\nprogram\n") && told.ends_with("show\n"), "{told}");
}

#[test]
fn it_runs_nothing_that_is_not_proved() {
    let place = place("refused", "echo 'rt: one NOT PROVED' >&2; exit 1");
    let old = place.join("repository/crates/bench/out/bench");
    write(&old, "#!/bin/sh\necho old\n");
    let old = fs::File::options().write(true).open(old).unwrap();
    old.set_modified(SystemTime::now() - Duration::from_secs(5)).unwrap();
    let output = bench(&place, &["list"]);
    let (told, said) = texts(&output);
    assert_eq!((output.status.code(), told.as_str()), (Some(1), ""));
    assert!(said.contains("bench: one NOT PROVED") && said.contains("not proved"), "{said}");
}

#[test]
fn it_runs_nothing_that_answers_otherwise() {
    let place = place("otherwise", PROVES);
    write(&place.join("repository/crates/bench/stdout"), "other\n");
    for _ in 0..2 {
        let output = bench(&place, &["list"]);
        let (told, said) = texts(&output);
        assert_eq!((output.status.code(), told.as_str()), (Some(1), ""));
        assert!(said.contains("not the stored ones"), "{said}");
    }
}

#[test]
fn it_helps_and_tells_wrong_words_from_a_missing_kit() {
    let place = place("words", PROVES);
    let output = bench(&place, &["--help"]);
    assert!(output.status.success() && texts(&output).0.contains("./bench FILE"));
    for words in [&["a", "b"][..], &["--x"], &["-"]] {
        assert_eq!(bench(&place, words).status.code(), Some(2), "{words:?}");
    }
    assert_eq!(bench(&place, &["no-such-list"]).status.code(), Some(1));
    write(&place.join("kit/machine/uname"), "#!/bin/sh\necho a-strange-one\n");
    let output = bench(&place, &["list"]);
    assert_eq!(output.status.code(), Some(2));
    assert!(texts(&output).1.contains("for this machine, a-strange-one"));
    fs::remove_dir_all(place.join("kit")).unwrap();
    let output = bench(&place, &["list"]);
    assert_eq!(output.status.code(), Some(2));
    assert!(texts(&output).1.contains("the Rattle kit is not here"));
}

#[test]
fn examples_are_compared() {
    let _alone = alone();
    let examples = |words: &[&str]| {
        let mut command = Command::new(format!("{ROOT}/scripts/examples.sh"));
        command.args(words).output().unwrap()
    };
    let output = examples(&[SECOND, "answer"]);
    let (told, _) = texts(&output);
    assert!(output.status.success() && told.ends_with(" passed, 0 failed\n"), "{told}");
    let output = examples(&["sed", "s/^#.*//"]);
    let (told, _) = texts(&output);
    assert!(!output.status.success() && told.contains("\n0 passed, "), "{told}");
    assert!(!examples(&["false"]).status.success());
}
