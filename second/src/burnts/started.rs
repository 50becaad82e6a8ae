//! The program that is compared, with each form in a file of its own while it runs.

use super::{Case, Played};
use crate::logs::{Fed, Program};
use crate::pages::Files;
use crate::replay::{Due, device};
use std::path::PathBuf;
use std::{env, fs, process};

pub struct Started<'a> {
    program: &'a Program,
    played: Played,
    folder: PathBuf,
}

impl Started<'_> {
    pub fn new(program: &Program, played: Played) -> Started<'_> {
        let folder = (0..).map(|time| env::temp_dir().join(format!("second-{}-{time}", process::id())));
        let folder = folder.take(1000).find(|folder| fs::create_dir(folder).is_ok());
        Started { program, played, folder: folder.expect("a folder for forms") }
    }

    /// What it prints of a log in files, whose last one is a folder.
    pub fn printed_cut(&self, case: &Case, number: usize) -> Vec<u8> {
        let program = self.with_form(case, number);
        let (program, _) = self.with_logs(program, case, number);
        let cut = Due { status: 1, errors: None };
        program.with(self.folder.display().to_string()).printed_unread(&[], &[], &cut)
    }

    /// What it prints. A program that has refused its form may leave the log unread.
    pub fn printed(&self, case: &Case, number: usize) -> Vec<u8> {
        let (log, reads, due) = (&case.fed.log, &case.fed.reads, &self.played.due(case));
        let program = self.with_form(case, number);
        if !case.files.is_empty() {
            return self.in_files(program, case, number, due);
        }
        match device(case.form()) {
            Ok(_) => program.printed(log, reads, due),
            Err(_) => program.printed_unread(log, reads, due),
        }
    }
}

impl Started<'_> {
    fn form(&self, number: usize) -> String {
        self.folder.join(format!("{number}.form")).display().to_string()
    }

    fn log(&self, number: usize, place: usize) -> String {
        self.folder.join(format!("{number}-{place}.log")).display().to_string()
    }

    /// The names that the command line gives.
    pub fn files(&self, case: &Case, number: usize) -> Files {
        let form = case.form().map(|_| self.form(number));
        let (named, last) = match (&case.files[..], &case.fed.reads[..]) {
            ([], _) => (0, None),
            (files, []) => (files.len() + 1, None),
            (files, _) => (files.len(), Some("-".to_string())),
        };
        Files { form, logs: (0..named).map(|place| self.log(number, place)).chain(last).collect() }
    }

    /// With its form in a file, if it has one.
    fn with_form(&self, case: &Case, number: usize) -> Program {
        let Some(form) = case.form() else { return self.program.clone() };
        let file = self.form(number);
        fs::write(&file, form).expect("the form is written");
        self.program.with(file)
    }

    /// With the log in files, each named after the form; where its reads have sizes, the last is `-`, standard input. And
    /// where that begins.
    fn with_logs(&self, mut program: Program, case: &Case, number: usize) -> (Program, usize) {
        let Fed { log, reads } = &case.fed;
        let mut begins = [&[0], &case.files[..]].concat();
        let fed = if reads.is_empty() { log.len() } else { begins.pop().expect("there is one") };
        for (place, &first) in begins.iter().enumerate() {
            let end = begins.get(place + 1).copied().unwrap_or(fed);
            let file = self.log(number, place);
            fs::write(&file, &log[first..end]).expect("the log is written");
            program = program.with(file);
        }
        (program, fed)
    }

    fn in_files(&self, program: Program, case: &Case, number: usize, due: &Due) -> Vec<u8> {
        let Fed { log, reads } = &case.fed;
        let (program, fed) = self.with_logs(program, case, number);
        match device(case.form()) {
            Ok(_) if !reads.is_empty() => program.with("-".to_string()).printed(&log[fed..], reads, due),
            _ => program.printed_unread(&[], &[], due),
        }
    }
}

impl Drop for Started<'_> {
    fn drop(&mut self) {
        drop(fs::remove_dir_all(&self.folder));
    }
}
