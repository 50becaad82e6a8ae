//! RULES, Connection.

use super::class::{Class, Texts};
use super::md5::{hex, md5};
use super::record::{LONGEST_AWAITED, LONGEST_LINE};
use super::rules::{Mistake, made};
use super::text::{CR, LF, all_letters_or_digits, eight_hex_digits};
use super::{Connection, Line, Projector};

pub const ERRA_LINE: &[u8] = b"PJLINK ERRA\r";

/// "the lowercase hex digest of the eight random digits followed by the password".
pub fn leading_digest(random: u32, password: &[u8]) -> [u8; 32] {
    let mut message = eight_hex_digits(random).to_vec();
    message.extend_from_slice(password);
    hex(md5(&message))
}

impl Projector {
    /// What opening a closed place writes. "Either way the random number is kept until closing."
    pub fn open(&mut self, place: usize, random: u32) -> Vec<u8> {
        if made(Mistake::RandomShared) {
            self.connections.iter_mut().for_each(|connection| connection.draw(random));
        }
        if self.set_up.password.is_empty() {
            let random = if made(Mistake::RandomDropped) { 0 } else { random };
            self.connections[place] = Connection::Open { random, line: Line::empty() };
            b"PJLINK 0\r".to_vec()
        } else {
            self.connections[place] = Connection::Awaiting { age: 0, random, line: Line::empty() };
            [b"PJLINK 1 ", &eight_hex_digits(random)[..], b"\r"].concat()
        }
    }

    /// "Receiving takes bytes up to and including the first CR, or all of them if none, and reports how many it took."
    /// The second part of the result is the reply, empty where none is due. RULES, Places: "One place's bytes never
    /// touch another's connection."
    pub fn receive(&mut self, place: usize, bytes: &[u8]) -> (usize, Vec<u8>) {
        for (at, &byte) in bytes.iter().enumerate() {
            if byte == CR || (byte == LF && made(Mistake::LineFeedEndsALine)) {
                return (at + 1, self.end_of_line(place));
            }
            match &mut self.connections {
                all if made(Mistake::LineShared) => all.iter_mut().for_each(|connection| connection.collect(byte)),
                all => all[place].collect(byte),
            }
        }
        (bytes.len(), Vec::new())
    }

    fn end_of_line(&mut self, place: usize) -> Vec<u8> {
        match self.connections[place].clone() {
            // "A failed connection takes bytes by the same rule and ignores them."
            Connection::Failed { .. } if made(Mistake::FailedAnswers) => ERRA_LINE.to_vec(),
            Connection::Closed | Connection::Failed { .. } => Vec::new(),
            Connection::Awaiting { random, line, .. } => self.first_line(place, random, line),
            Connection::Open { random, line } => {
                self.connections[place] = Connection::Open { random, line: Line::empty() };
                if made(Mistake::MarkOfAnother) && self.connections.iter().any(Connection::is_overlong) {
                    return Vec::new();
                }
                if made(Mistake::AnswersWhereAllAreOpen) && self.connections.iter().any(Connection::is_not_open) {
                    return Vec::new();
                }
                self.answer_line(&line)
            }
        }
    }

    /// "the first 32 bytes are compared exactly with the lowercase hex digest .. Equal, and the line at most 167 bytes
    /// before CR: the connection is open and the rest is treated as a line. Otherwise, shorter or overlong lines
    /// included: the reply is `PJLINK ERRA` and CR, the connection has failed, age 0."
    fn first_line(&mut self, place: usize, random: u32, line: Line) -> Vec<u8> {
        let wanted = match self.connections[0] {
            Connection::Awaiting { random, .. } if made(Mistake::RandomOfPlaceZero) => random,
            _ => random,
        };
        let wanted = leading_digest(wanted, &self.set_up.password);
        let opened = match line {
            Line::Collected(bytes) if bytes.len() >= 32 && matches(&bytes[..32], &wanted) => Some(bytes[32..].to_vec()),
            _ => None,
        };
        if made(Mistake::OthersFollow) {
            self.connections.iter_mut().for_each(|connection| connection.follow(opened.is_some()));
        }
        match opened {
            Some(rest) => {
                self.connections[place] = Connection::Open { random, line: Line::empty() };
                self.answer_line(&Line::Collected(rest))
            }
            None => {
                self.connections[place] = Connection::Failed { age: 0, random };
                if made(Mistake::ErraClosesOthers) {
                    let others = self.connections.iter_mut().enumerate().filter(|(other, _)| *other != place);
                    others.for_each(|(_, connection)| *connection = Connection::Closed);
                }
                ERRA_LINE.to_vec()
            }
        }
    }

    /// "An overlong line is swallowed to its CR, with no reply. So is one not of the form `%1`, four ASCII letters or
    /// digits, a space, 0 to 128 bytes." RULES, Class 2: "A Class 1 set-up .. drops `%2` lines"; in Class 2 they have
    /// the form.
    fn answer_line(&mut self, line: &Line) -> Vec<u8> {
        let Line::Collected(bytes) = line else { return Vec::new() };
        match bytes.as_slice() {
            [b'%', class, a, b, c, d, b' ', parameter @ ..] if all_letters_or_digits(&[*a, *b, *c, *d]) => {
                let body = &[*a, *b, *c, *d];
                match (class, self.set_up.class.clone()) {
                    (b'1', Class::Two(texts)) => self.answer_in_class_2(&texts, body, parameter),
                    (b'1', Class::One) => self.answer(body, parameter),
                    (b'2', Class::Two(_)) if made(Mistake::Class2DropsTwo) => Vec::new(),
                    (b'2', Class::Two(texts)) => self.answer_2(&texts, body, parameter),
                    (b'2', Class::One) if made(Mistake::Class1AnswersTwo) => {
                        let texts = Texts { names: vec![Vec::new(); self.set_up.inputs.len()], ..Texts::default() };
                        self.answer_2(&texts, body, parameter)
                    }
                    _ => Vec::new(),
                }
            }
            _ => Vec::new(),
        }
    }
}

impl Connection {
    /// One more byte of the line. "at most 167 bytes" while awaiting, "at most 135" while open: one more than that, and
    /// the line is overlong.
    fn collect(&mut self, byte: u8) {
        let (line, longest) = match self {
            Connection::Closed | Connection::Failed { .. } => return,
            Connection::Awaiting { line, .. } => (line, LONGEST_AWAITED),
            Connection::Open { line, .. } if made(Mistake::LongLineTaken) => (line, LONGEST_LINE + 1),
            Connection::Open { line, .. } => (line, LONGEST_LINE),
        };
        if let Line::Collected(bytes) = line {
            if bytes.len() == longest {
                *line = Line::Overlong;
            } else {
                bytes.push(byte);
            }
        }
    }
}

/// What a mistake does to the other places, or sees in them.
impl Connection {
    fn draw(&mut self, other: u32) {
        let (Connection::Awaiting { random, .. } | Connection::Open { random, .. } | Connection::Failed { random, .. }) =
            self
        else {
            return;
        };
        *random = other;
    }

    fn follow(&mut self, opened: bool) {
        let Connection::Awaiting { random, .. } = *self else { return };
        *self = match opened {
            true => Connection::Open { random, line: Line::empty() },
            false => Connection::Failed { age: 0, random },
        };
    }

    fn is_overlong(&self) -> bool {
        matches!(
            self,
            Connection::Awaiting { line: Line::Overlong, .. } | Connection::Open { line: Line::Overlong, .. }
        )
    }

    fn is_not_open(&self) -> bool {
        matches!(self, Connection::Awaiting { .. } | Connection::Failed { .. })
    }
}

fn matches(given: &[u8], wanted: &[u8; 32]) -> bool {
    given == wanted || (made(Mistake::UpperDigestTaken) && given.eq_ignore_ascii_case(wanted))
}
