//! The program that plays a log: a process for each log.

use crate::replay::Due;
use std::io::{self, Read, Write};
use std::os::fd::OwnedFd;
use std::os::unix::net::UnixDatagram;
use std::process::{Command, Stdio};
use std::thread;

/// The words that start it.
#[derive(Clone)]
pub struct Program(pub Vec<String>);

impl Program {
    /// With one word more.
    pub fn with(&self, word: String) -> Program {
        Program([&self.0[..], &[word]].concat())
    }

    /// What it prints for a log. Without sizes the log comes through a pipe, in reads as large as the program asks for;
    /// with sizes, each read gives one of that size, in turn.
    ///
    /// A program that ends with another status than this, says something else on standard error, or leaves bytes unread
    /// prints that too.
    pub fn printed(&self, log: &[u8], reads: &[usize], due: &Due) -> Vec<u8> {
        let (mut out, fed) = self.started(log, reads, due);
        if let Err(error) = fed {
            out.extend(format!("(not all was read: {error})\n").bytes());
        }
        out
    }

    /// What it prints where it may leave the log unread.
    pub fn printed_unread(&self, log: &[u8], reads: &[usize], due: &Due) -> Vec<u8> {
        self.started(log, reads, due).0
    }

    /// What it prints, with the status where that is not the one due, and whether the log was read.
    fn started(&self, log: &[u8], reads: &[usize], due: &Due) -> (Vec<u8>, io::Result<()>) {
        let started = if reads.is_empty() {
            io::pipe().and_then(|(input, mut feed)| self.run(input.into(), due, move || feed.write_all(log)))
        } else {
            UnixDatagram::pair()
                .and_then(|(input, feed)| self.run(input.into(), due, move || in_reads(&feed, log, reads)))
        };
        started.unwrap_or_else(|error| panic!("{}: {error}", self.0.join(" ")))
    }

    fn run(
        &self,
        input: OwnedFd,
        due: &Due,
        feed: impl FnOnce() -> io::Result<()> + Send,
    ) -> io::Result<(Vec<u8>, io::Result<()>)> {
        let (program, words) = self.0.split_first().expect("a program has a name");
        let mut child =
            Command::new(program).args(words).stdin(input).stdout(Stdio::piped()).stderr(Stdio::piped()).spawn()?;
        let (mut out, mut errors) = (Vec::new(), String::new());
        let fed = thread::scope(|scope| {
            let feeding = scope.spawn(feed);
            let read = child.stdout.take().expect("it was piped").read_to_end(&mut out);
            let said = child.stderr.take().expect("it was piped").read_to_string(&mut errors);
            read.and(said).and(feeding.join().expect("feeding does not panic"))
        });
        let status = child.wait()?;
        if status.code() != Some(due.status) || !says_so(&errors, due) {
            out.extend(format!("({status}: {errors:?})\n").bytes());
        }
        let is_cut = status.code() == Some(1);
        Ok((out, if is_cut { Ok(()) } else { fed }))
    }
}

/// Whether this is what is to be said.
fn says_so(errors: &str, due: &Due) -> bool {
    match &due.errors {
        Some(words) => errors == words,
        None => errors.ends_with('\n') && errors.matches('\n').count() == 1,
    }
}

/// A datagram is one read, and an empty one is the end, as often as the program asks until it is gone. The program's
/// reads have room for each: they are no longer than a line may be.
fn in_reads(feed: &UnixDatagram, log: &[u8], sizes: &[usize]) -> io::Result<()> {
    let mut rest = log;
    for &size in sizes.iter().cycle() {
        if rest.is_empty() {
            break;
        }
        let (read, later) = rest.split_at(size.min(rest.len()));
        feed.send(read)?;
        rest = later;
    }
    while feed.send(&[]).is_ok() {}
    Ok(())
}
