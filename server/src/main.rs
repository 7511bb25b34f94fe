//! `covetrivetd`: one live session of the proved program for many processes. Each connects, sends lines, and
//! is answered as if the session were its own.
//!
//! It carries lines, and knows no element. One thread waits for all of its descriptors (`server`). A client's
//! lines go to the program by turns (`turns`), and the program's answers to their clients (`routing`,
//! `answers`).
#![deny(unsafe_code)]

mod ages;
mod answers;
mod arrivals;
mod clients;
mod connection;
mod fault;
mod head;
mod http;
mod life;
mod lines;
mod listen;
mod log;
mod node;
mod notify;
mod options;
mod pace;
mod page;
mod pages;
mod parking;
mod place;
mod program;
mod rights;
mod routing;
mod said;
mod server;
mod session;
mod slab;
mod sys;
mod tally;
mod timers;
mod turns;
mod units;
mod waits;

use crate::fault::{Fault, Status};
use crate::listen::Places;
use crate::log::say;
use crate::notify::HandedOver;
use crate::options::{wish_of, Options, Wish, USAGE};
use crate::rights::{Rights, Tokens};
use crate::session::Session;
use std::io::Write;

/// Files that a server has besides its connections.
const FILES_BESIDE: u64 = 64;

fn serve(options: Options, handed: HandedOver) -> Result<Vec<u8>, Fault> {
    let head = head_of(&options)?;
    let rights = Rights::read(options.rights.as_deref())?;
    let tokens = Tokens::read(options.tokens.as_deref())?;
    let wanted = options.limits.connections as u64 + FILES_BESIDE;
    let too_few =
        |it| Fault(Status::NoPlace, format!("a process may have {it} files here, and {wanted} are needed"));
    sys::allow_files(wanted).map_err(too_few)?;
    // (taken before the session begins, and listened at behind that)
    let places = Places::take(&options, handed)?;
    let program = program_of(&options)?;
    let (journal, file, is_node) = (options.journal.clone(), options.head.clone(), options.is_node);
    server::serve(options, Session { program, journal, head, file, is_node }, rights, tokens, places)
}

/// Returns the lines to begin with. A node has them itself.
fn head_of(options: &Options) -> Result<Vec<String>, Fault> {
    if options.is_node {
        return Ok(Vec::new());
    }
    let text = std::fs::read(&options.head);
    let text = text.map_err(|it| Fault(Status::NoHead, format!("can't read {}: {it}", options.head)))?;
    head::lines_of(&text).map_err(|it| Fault(Status::BadHead, format!("{}: {it}", options.head)))
}

fn program_of(options: &Options) -> Result<Vec<String>, Fault> {
    if !options.program.is_empty() {
        return Ok(options.program.clone());
    }
    let named = std::env::var("COVETRIVET_PROGRAM").ok().filter(|it| !it.is_empty());
    named.map(|it| vec![it]).ok_or_else(|| program::no_program("There is no program of sessions"))
}

fn run(handed: HandedOver) -> Result<Vec<u8>, Fault> {
    let words: Vec<String> = std::env::args().skip(1).collect();
    match wish_of(&words) {
        Ok(Wish::Serve(options)) => serve(*options, handed),
        Ok(Wish::Help) => Ok(USAGE.into()),
        Ok(Wish::Version) => Ok(format!("covetrivet {}\n", pages::VERSION).into()),
        Err(why) => Err(Fault(Status::WrongWords, format!("{why}; covetrivetd --help"))),
    }
}

fn main() {
    // (before anything is opened)
    let handed = HandedOver::take();
    match run(handed) {
        Ok(said) => drop(std::io::stdout().write_all(&said)),
        Err(Fault(status, why)) => {
            say(&why);
            std::process::exit(status as i32);
        }
    }
}
