//! A command that reads a list of calls and writes answers: started anew for each list, its answers
//! taken as they come, and ended when it falls silent.

use std::fmt;
use std::io::{self, BufRead, BufReader, Read, Write};
use std::os::unix::process::CommandExt;
use std::process::{Child, Command, ExitStatus, Stdio};
use std::sync::mpsc::{sync_channel, Receiver, RecvTimeoutError};
use std::thread;
use std::time::{Duration, Instant};

/// The longest answer that is waited for; no answer of the bench is nearly as long.
const LONGEST: u64 = 1 << 20;

pub struct Player {
    words: Vec<String>,
    silence: Duration,
}

/// How a run of a command ended.
#[derive(Debug, PartialEq)]
pub enum Ending {
    Ended(ExitStatus),
    /// Nothing came for as long as silence may last; it was killed.
    Silent,
    /// Its answers were enough; it was killed.
    Stopped,
}

impl fmt::Display for Ending {
    fn fmt(&self, out: &mut fmt::Formatter) -> fmt::Result {
        match self {
            Ending::Ended(status) => write!(out, "{status}"),
            Ending::Silent => write!(out, "silent"),
            Ending::Stopped => write!(out, "stopped"),
        }
    }
}

impl Player {
    pub fn new(words: &[String], silence: Duration) -> Player {
        Player { words: words.to_vec(), silence }
    }

    pub fn name(&self) -> String {
        self.words.join(" ")
    }

    fn command(&self) -> Command {
        let (program, words) = self.words.split_first().expect("a command has a word");
        let mut command = Command::new(program);
        command.args(words);
        command
    }

    /// Runs the command on nothing, for as long as it takes: it may have to be built first, and says
    /// so on standard error.
    pub fn make_ready(&self) -> Result<(), String> {
        let status = self.command().stdin(Stdio::null()).stdout(Stdio::null()).status();
        match status {
            Ok(status) if status.success() => Ok(()),
            Ok(status) => Err(format!("{}, compared against, ended: {status}", self.name())),
            Err(error) => Err(format!("{}: {error}", self.name())),
        }
    }

    /// Plays a list; `go_on` is told each answer and says whether the next one is wanted.
    pub fn play(&self, list: &[u8], go_on: impl FnMut(&[u8]) -> bool) -> io::Result<Ending> {
        let mut child = self
            .command()
            .stdin(Stdio::piped())
            .stdout(Stdio::piped())
            .stderr(Stdio::null())
            .process_group(0)
            .spawn()?;
        let mut input = child.stdin.take().expect("its input is piped");
        let list = list.to_vec();
        // On a thread of its own, so that neither side waits for the other. Where the command ends
        // early, its answers tell.
        thread::spawn(move || drop(input.write_all(&list)));
        let answers = answers(child.stdout.take().expect("its output is piped"));
        let ending = self.follow(&mut child, &answers, go_on)?;
        if !matches!(ending, Ending::Ended(_)) {
            end(&mut child)?;
        }
        Ok(ending)
    }

    fn follow(
        &self,
        child: &mut Child,
        answers: &Receiver<Vec<u8>>,
        mut go_on: impl FnMut(&[u8]) -> bool,
    ) -> io::Result<Ending> {
        loop {
            match answers.recv_timeout(self.silence) {
                Ok(answer) if go_on(&answer) => {}
                Ok(_) => return Ok(Ending::Stopped),
                Err(RecvTimeoutError::Timeout) => return Ok(Ending::Silent),
                Err(RecvTimeoutError::Disconnected) => return self.wait(child),
            }
        }
    }

    /// Waits for the end of a command that has closed its output.
    fn wait(&self, child: &mut Child) -> io::Result<Ending> {
        let begun = Instant::now();
        while begun.elapsed() < self.silence {
            if let Some(status) = child.try_wait()? {
                return Ok(Ending::Ended(status));
            }
            thread::sleep(Duration::from_micros(200));
        }
        Ok(Ending::Silent)
    }
}

/// The lines of a command's output, read by a thread of its own.
fn answers(output: impl Read + Send + 'static) -> Receiver<Vec<u8>> {
    let (send, receive) = sync_channel(4_096);
    thread::spawn(move || {
        let mut output = BufReader::new(output);
        loop {
            let mut line = Vec::new();
            match output.by_ref().take(LONGEST).read_until(b'\n', &mut line) {
                Ok(0) | Err(_) => return,
                Ok(_) => {}
            }
            if line.last() == Some(&b'\n') {
                line.pop();
            }
            if send.send(line).is_err() {
                return;
            }
        }
    });
    receive
}

/// Kills a command and all that it has started: it leads a process group of its own.
fn end(child: &mut Child) -> io::Result<()> {
    let group = format!("-{}", child.id());
    let mut kill = Command::new("kill");
    let killed = kill.args(["-KILL", "--", &group]).stderr(Stdio::null()).status();
    if !killed.is_ok_and(|status| status.success()) {
        child.kill()?;
    }
    child.wait().map(drop)
}
