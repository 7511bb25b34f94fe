//! The program of sessions as a child process, over its three streams.
use crate::fault::{Fault, Status};
use crate::log::say;
use crate::sys;
use std::io::{self, ErrorKind, Write};
use std::os::fd::{AsRawFd, RawFd};
use std::os::unix::process::{CommandExt, ExitStatusExt};
use std::process::{Child, Command, ExitStatus, Stdio};
use std::time::{Duration, Instant};

const READ_AT_ONCE: usize = 65_536;
const KEPT_OF_ERRORS: usize = 4096;
const SECONDS_TO_END: u64 = 10;
/// A write to a pipe of so many bytes is whole, or nothing is written (PIPE_BUF): where this process is
/// killed no line is torn, which the program would perform at the end of its input.
const WHOLE: usize = 4096;
const SIGNALS: [(i32, &str); 7] = [
    (2, "SIGINT"),
    (4, "SIGILL"),
    (6, "SIGABRT"),
    (7, "SIGBUS"),
    (9, "SIGKILL"),
    (11, "SIGSEGV"),
    (15, "SIGTERM"),
];

pub struct Program {
    child: Child,
    pub input: RawFd,
    pub output: RawFd,
    pub errors: RawFd,
    /// What it has written behind its last line's end.
    pub rest: Vec<u8>,
    /// The end of what it has written on standard error.
    said: Vec<u8>,
}

/// What came of a read.
pub enum Come {
    Some,
    Nothing,
    End,
}

impl Program {
    pub fn start(words: &[String]) -> Result<Program, Fault> {
        let mut command = Command::new(&words[0]);
        command.args(&words[1..]).stdin(Stdio::piped()).stdout(Stdio::piped()).stderr(Stdio::piped());
        // (in a group of its own, so that Ctrl-C comes to the server alone, which then ends it)
        let child = command.process_group(0).spawn();
        let child =
            child.map_err(|it| no_program(&format!("The program {:?} can't be started: {it}", words[0])))?;
        let streams = (child.stdin.as_ref(), child.stdout.as_ref(), child.stderr.as_ref());
        let (Some(input), Some(output), Some(errors)) = streams else {
            return Err(no_program("It has no streams"));
        };
        let (input, output, errors) = (input.as_raw_fd(), output.as_raw_fd(), errors.as_raw_fd());
        sys::widen_pipe(input);
        sys::widen_pipe(output);
        sys::unblock(errors);
        Ok(Program { child, input, output, errors, rest: Vec::new(), said: Vec::new() })
    }

    pub fn id(&self) -> u32 {
        self.child.id()
    }

    /// Reads some of what it answers, into `rest`.
    pub fn read(&mut self) -> Come {
        let mut some = [0; READ_AT_ONCE];
        match sys::read_some(self.output, &mut some) {
            Ok(many) if many > 0 => {
                self.rest.extend_from_slice(&some[..many]);
                Come::Some
            }
            Err(it) if matches!(it.kind(), ErrorKind::WouldBlock | ErrorKind::Interrupted) => Come::Nothing,
            _ => Come::End,
        }
    }

    /// Returns the next line that has come.
    pub fn next_line(&mut self) -> Option<String> {
        let at = sys::find(&self.rest, b'\n')?;
        let line = String::from_utf8_lossy(&self.rest[..at]).into_owned();
        self.rest.drain(..=at);
        Some(line)
    }

    /// Returns the next line, once it is there. (It isn't used while others wait.)
    pub fn line(&mut self) -> Result<String, Fault> {
        loop {
            if let Some(it) = self.next_line() {
                return Ok(it);
            }
            if let Come::End = self.read() {
                return Err(Fault::lost(&self.ended().0));
            }
        }
    }

    /// Writes lines, and waits until it has taken them.
    pub fn send<'a>(&mut self, lines: impl Iterator<Item = &'a String>) {
        let all: Vec<u8> = lines.flat_map(|it| [it.as_bytes(), b"\n"]).flatten().copied().collect();
        if let Some(it) = &mut self.child.stdin {
            // (its end is heard by its output)
            let _ = it.write_all(&all);
        }
    }

    /// Writes some of these whole lines, at once. Returns how many bytes; none where it takes no more.
    pub fn write(&self, lines: &[u8]) -> usize {
        let most = &lines[..lines.len().min(WHOLE)];
        let is_all = most.len() == lines.len();
        let end = if is_all { None } else { most.iter().rposition(|it| *it == b'\n') };
        let some = &most[..end.map_or(most.len(), |it| it + 1)];
        match sys::write_some(self.input, some) {
            Ok(many) => many,
            Err(it) if matches!(it.kind(), ErrorKind::WouldBlock | ErrorKind::Interrupted) => 0,
            // (what was to be sent to one that has ended counts as written)
            Err(_) => lines.len(),
        }
    }

    /// From now on reads and writes don't wait.
    pub fn unblock(&self) {
        sys::unblock(self.input);
        sys::unblock(self.output);
    }

    /// Shows what it has written on standard error. False where there is no more.
    pub fn pass_on_errors(&mut self) -> bool {
        let mut some = [0; KEPT_OF_ERRORS];
        let many = match sys::read_some(self.errors, &mut some) {
            Ok(many) if many > 0 => many,
            _ => return false,
        };
        let _ = io::stderr().write_all(&some[..many]);
        self.said.extend_from_slice(&some[..many]);
        let over = self.said.len().saturating_sub(KEPT_OF_ERRORS);
        self.said.drain(..over);
        true
    }

    /// What it said of its journal, where it ended by that.
    pub fn fault_of_journal(&self) -> Option<String> {
        let said = String::from_utf8_lossy(&self.said);
        said.split("fault 4 Journal: ").nth(1).map(|it| it.trim().to_string())
    }

    pub fn kill(&mut self) {
        let _ = self.child.kill();
    }

    pub fn close_input(&mut self) {
        drop(self.child.stdin.take());
    }

    /// Waits until it has ended, ends it where that takes longer, and says how it did, and whether in order.
    pub fn ended(&mut self) -> (String, bool) {
        let how = self.status();
        while self.pass_on_errors() {}
        let said = String::from_utf8_lossy(&self.said);
        let said = if said.trim().is_empty() { "nothing" } else { said.trim() };
        let (how, is_well) = match how {
            Ok(it) => (shown(it), it.success()),
            Err(it) => (it.to_string(), false),
        };
        (format!("the program ended {how}; on standard error it wrote: {said}"), is_well)
    }

    fn status(&mut self) -> io::Result<ExitStatus> {
        let until = Instant::now() + Duration::from_secs(SECONDS_TO_END);
        while Instant::now() < until {
            if let Some(it) = self.child.try_wait()? {
                return Ok(it);
            }
            std::thread::sleep(Duration::from_millis(1));
        }
        self.kill();
        self.child.wait()
    }

    /// Ends its input, and returns what it writes behind that. It is killed where that takes too long.
    pub fn finals(&mut self) -> Vec<u8> {
        self.close_input();
        let until = Instant::now() + Duration::from_secs(SECONDS_TO_END);
        let Ok(poll) = sys::Poll::new() else { return Vec::new() };
        let _ = poll.add(self.output, sys::READABLE, 0);
        loop {
            let left = until.saturating_duration_since(Instant::now()).as_millis();
            if left == 0 {
                self.kill();
            }
            poll.wait(&mut [sys::Event::default()], left as i32);
            if let Come::End = self.read() {
                return std::mem::take(&mut self.rest);
            }
        }
    }
}

impl Drop for Program {
    /// One that isn't needed any more isn't left behind.
    fn drop(&mut self) {
        if let Ok(None) = self.child.try_wait() {
            self.kill();
            let _ = self.child.wait();
        }
    }
}

fn shown(status: ExitStatus) -> String {
    match status.signal() {
        Some(number) => {
            let name = SIGNALS.iter().find(|it| it.0 == number).map_or("unknown", |it| it.1);
            format!("by signal {number} ({name})")
        }
        None => format!("with status {}", status.code().unwrap_or(-1)),
    }
}

pub fn no_program(why: &str) -> Fault {
    let how = "Name it by the environment variable COVETRIVET_PROGRAM, or behind `--`: in a checkout of \
               Covetrivet, ./prove makes crates/tp_live/out/tp_live.";
    Fault(Status::NoProgram, format!("{why}. {how}"))
}

/// Says that a session goes on.
pub fn say_again() {
    say("the session has ended, and goes on over its journal");
}
