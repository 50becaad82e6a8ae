//! Every field of every record under its name: to send it, and to say where two records differ.

use super::wire::Wire;
use super::{
    Answer, Changed, Command, Compared, Connection, Device, Digest, Entry, Flag, Greeting, Heard, Line, Log, Name,
    Opened, Own, PLACES, Panel, PanelChanged, PanelSent, Plan, Reading, Received, Settings, Text, Verdict, Written,
};

/// A value's fields, as (path, value) in their order.
pub trait Fields {
    fn list(&self, path: &str, into: &mut Vec<(String, String)>);

    fn fields(&self) -> Vec<(String, String)> {
        let mut all = Vec::new();
        self.list("", &mut all);
        all
    }
}

macro_rules! records {
    ($($record:ident { $($field:ident),* })*) => { $(
        impl Fields for $record {
            fn list(&self, path: &str, into: &mut Vec<(String, String)>) {
                $(self.$field.list(&joined(path, stringify!($field)), into);)*
            }
        }

        impl Wire for $record {
            fn put(&self, out: &mut Vec<u8>) {
                $(self.$field.put(out);)*
            }

            fn get(from: &mut &[u8]) -> Self {
                $(let $field = Wire::get(from);)*
                $record { $($field),* }
            }
        }
    )* };
}

records! {
    Text { len, bytes }
    Name { len, bytes }
    Settings {
        name, maker, model, other, password, input_count, inputs, lamp_count, warm, cool, class_number, serial, version,
        names
    }
    Own {
        power, left, chosen, video_muted, audio_muted, fault, errors, lamps, enabled, frozen, speaker, microphone
    }
    Line { overlong, held, bytes }
    Connection { phase, age, random, line }
    Device { settings, own, connections }
    Changed { number, device }
    Opened { number, length, place, device }
    Received { number, taken, length, device }
    Digest { bytes }
    Command { code, first, second }
    Written { number, length }
    Greeting { number, kind, random }
    Reading { number, kind, first, second, count, hours, lit, inputs, text }
    Entry {
        password, greeting, random, led, under_way, command, power_known, input_known, lamps_known, power, input_type,
        input_number, lamp_count, hours, lit, strays
    }
    Panel { count, entries }
    PanelChanged { number, panel }
    PanelSent { number, length, panel }
    Heard { number, kind, reading }
    Compared { number, backwards, place }
    Verdict { number, rule, first, second }
    Plan { number, planned, job }
    Log { file, lines, sum }
}

fn joined(path: &str, field: &str) -> String {
    if path.is_empty() { field.to_string() } else { format!("{path}.{field}") }
}

macro_rules! plain {
    ($($kind:ty),*) => { $(
        impl Fields for $kind {
            fn list(&self, path: &str, into: &mut Vec<(String, String)>) {
                into.push((path.to_string(), self.to_string()));
            }
        }
    )* };
}

plain!(u8, u32, usize, bool);

impl<const N: usize> Fields for [u8; N] {
    fn list(&self, path: &str, into: &mut Vec<(String, String)>) {
        into.push((path.to_string(), quoted(self)));
    }
}

impl Fields for [u32; 8] {
    fn list(&self, path: &str, into: &mut Vec<(String, String)>) {
        into.push((path.to_string(), format!("{self:?}")));
    }
}

impl Fields for Flag {
    fn list(&self, path: &str, into: &mut Vec<(String, String)>) {
        self.0.list(path, into);
    }
}

impl Fields for [Flag; 8] {
    fn list(&self, path: &str, into: &mut Vec<(String, String)>) {
        into.push((path.to_string(), format!("{:?}", self.map(|flag| flag.0))));
    }
}

impl Fields for [bool; 8] {
    fn list(&self, path: &str, into: &mut Vec<(String, String)>) {
        into.push((path.to_string(), format!("{self:?}")));
    }
}

impl Fields for [Name; 32] {
    fn list(&self, path: &str, into: &mut Vec<(String, String)>) {
        self.iter().enumerate().for_each(|(place, name)| name.list(&format!("{path}[{place}]"), into));
    }
}

impl Fields for [Connection; PLACES] {
    fn list(&self, path: &str, into: &mut Vec<(String, String)>) {
        self.iter().enumerate().for_each(|(place, connection)| connection.list(&format!("{path}[{place}]"), into));
    }
}

impl Fields for [Entry; 8] {
    fn list(&self, path: &str, into: &mut Vec<(String, String)>) {
        self.iter().enumerate().for_each(|(place, entry)| entry.list(&format!("{path}[{place}]"), into));
    }
}

/// Bytes as a text in quotes, without the zeros at the end; a long run of one byte as that byte and a count.
pub fn quoted(bytes: &[u8]) -> String {
    let used = bytes.len() - bytes.iter().rev().take_while(|&&b| b == 0).count();
    let mut text = String::from("\"");
    let mut rest = &bytes[..used];
    while let Some(&first) = rest.first() {
        let run = rest.iter().take_while(|&&b| b == first).count();
        let shown = first.escape_ascii().to_string();
        text += &if run > 8 { format!("{shown}{{{run}}}") } else { shown.repeat(run) };
        rest = &rest[run..];
    }
    text.push('"');
    if used < bytes.len() {
        text += &format!(" and {} zeros", bytes.len() - used);
    }
    text
}

impl Fields for Answer {
    fn list(&self, path: &str, into: &mut Vec<(String, String)>) {
        let lent = |memory: &[u8], into: &mut Vec<(String, String)>| into.push(("lent memory".into(), quoted(memory)));
        match self {
            Answer::Changed(changed) => changed.list(path, into),
            Answer::Passed(passed, closed) => {
                passed.list(path, into);
                into.push(("closed".into(), closed.to_string()));
            }
            Answer::Setting(place) => into.push(("setting".into(), place.to_string())),
            Answer::Opened(opened, memory) => {
                opened.list(path, into);
                lent(memory, into);
            }
            Answer::Received(received, memory) => {
                received.list(path, into);
                lent(memory, into);
            }
            Answer::HandedOn(changed, replies) => {
                changed.list(path, into);
                into.push(("reply bytes".into(), quoted(replies)));
            }
            Answer::Interleaved(device, told) => {
                device.list("device", into);
                for (place, (number, replies)) in told.iter().enumerate() {
                    into.push((format!("number at place {place}"), number.to_string()));
                    into.push((format!("reply bytes at place {place}"), quoted(replies)));
                }
            }
            Answer::Legal(legal) => into.push(("legal".into(), legal.to_string())),
            Answer::Digest(digest) => digest.list(path, into),
            Answer::Written(written, memory) => {
                written.list(path, into);
                lent(memory, into);
            }
            Answer::Greeting(greeting) => greeting.list(path, into),
            Answer::Reading(reading) => reading.list(path, into),
            Answer::PanelChanged(changed) => changed.list(path, into),
            Answer::PanelSent(sent, memory) => {
                sent.list(path, into);
                lent(memory, into);
            }
            Answer::PanelHeard(changed, heard) => {
                changed.list(path, into);
                heard.list("heard", into);
            }
            Answer::Compared(compared, places) => {
                compared.list(path, into);
                into.push(("lent places".into(), format!("{places:?}")));
            }
            Answer::Verdict(verdict) => verdict.list(path, into),
            Answer::Plan(plan, rigs) => {
                plan.list(path, into);
                into.push(("lent places".into(), format!("{rigs:?}")));
            }
            Answer::Begun(log) => log.list("log", into),
            Answer::Recorded(log, written, memory) => {
                written.list(path, into);
                log.list("log", into);
                lent(memory, into);
            }
            Answer::Played(device, log, written, memory) => {
                written.list(path, into);
                log.list("log", into);
                device.list("device", into);
                lent(memory, into);
            }
            Answer::Kept(kept) => {
                kept.number.list("number", into);
                into.push(("the log".into(), quoted(&kept.text)));
                kept.log.list("log", into);
                kept.device.list("device", into);
                into.push(("reply bytes".into(), quoted(&kept.replies)));
                let again = &kept.again;
                again.number.list("number, played again", into);
                again.lines.list("lines, played again", into);
                again.log.list("log, played again", into);
                again.device.list("device, played again", into);
                into.push(("reply bytes, played again".into(), quoted(&again.replies)));
            }
            Answer::Touched(device) => device.list("the record that was only to be read", into),
        }
    }
}
