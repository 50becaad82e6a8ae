//! `second compare [seed]`, `second wrong [seed]`, `second replay < log`, `second burnt < log`, `second logs`,
//! `second burnts`, `second page log < page`, `second pages`, `second md5 < file`.

use second::burnts::{self, Case, Played};
use second::compare::Run;
use second::face::Board;
use second::logs::{self, Fed, Program};
use second::pages;
use second::reference::md5::{hex, md5};
use second::{burnt, replay, wrong};
use std::fs;
use std::io::{self, BufRead, BufReader, Read, Write};
use std::process::ExitCode;
use std::time::{SystemTime, UNIX_EPOCH};

const USAGE: &str = "\
second compare [SEED]   compare with libboard.a; without a seed, a fresh one
second wrong [SEED]     make each deliberate mistake; the comparison has to find it
second replay [FORM [LOG..]]
                        play a log from standard input (RULES, Floor log), on the device of a stored form in that file; or
                        the log that stands in these files, in their order, where `-` is standard input
second burnt [FORM [LOG..]]
                        tell which lamp burnt when
second logs SEED COUNT PROGRAM..
                        so many random logs, and some fixed ones, played by the program alike; `fresh` is a seed too
second log SEED NUMBER  that log of a seed
second burnts SEED COUNT PROGRAM..
second replays SEED COUNT PROGRAM..
                        the same for a `burnt`, or for a `replay` that is given forms; one log in two comes with a form
second burnts log SEED NUMBER, second burnts form SEED NUMBER
                        that log, and the form that it comes with
second page LOG [FORM] [WORD..]
                        read a page that `burnt --page` prints from standard input; it has to show what the log says; the
                        words are `--began=TIME`, `--long=HOURS` and `--life=HOURS`, as `burnt` has them, and `--log=FILE`
                        once for each file of the log that the page names; without it that is standard input
second values LOG [FORM] [WORD..]
                        print what `burnt --csv` prints; with `--cut` of a log after which a file cannot be read
second tables SEED COUNT PROGRAM..
                        the same for so many random logs, and some fixed ones; the program's words have `--csv` in them
second pages SEED COUNT PROGRAM..
                        the same for so many random logs, and some fixed ones; the program's words have `--page` in them
second pages log SEED NUMBER, second pages form SEED NUMBER
                        that log, and the form that it comes with
second md5              the MD5 of standard input, in hex";

fn main() -> ExitCode {
    let words: Vec<String> = std::env::args().skip(1).collect();
    let words: Vec<&str> = words.iter().map(String::as_str).collect();
    match words[..] {
        ["compare"] => compare(fresh_seed()),
        ["compare", seed] => with_seed(seed, compare),
        ["wrong"] => verdict(wrong::all_found(1, &mut Board::start())),
        ["wrong", seed] => with_seed(seed, |seed| verdict(wrong::all_found(seed, &mut Board::start()))),
        ["replay", ref words @ ..] => with_form(words.first(), |form| {
            replay::replay(form, log_in(words.get(1..).unwrap_or_default())?, io::BufWriter::new(io::stdout()))
        }),
        ["burnt", ref words @ ..] => with_form(words.first(), |form| {
            burnt::burnt(form, log_in(words.get(1..).unwrap_or_default())?, io::BufWriter::new(io::stdout()))
        }),
        ["logs", seed, count, _, ..] => {
            with_seed(seed, |seed| with_count(count, |count| logs(seed, count, &words[3..])))
        }
        ["log", seed, number] => with_seed(seed, |seed| {
            with_count(number, |number| done(io::stdout().write_all(&Fed::nth(seed, number).log)))
        }),
        ["burnts", part @ ("log" | "form"), seed, number] => part_of(Case::nth, part, seed, number),
        ["burnts", seed, count, _, ..] => {
            with_seed(seed, |seed| with_count(count, |count| burnts(Played::Burnt, seed, count, &words[3..])))
        }
        ["replays", seed, count, _, ..] => {
            with_seed(seed, |seed| with_count(count, |count| burnts(Played::Replay, seed, count, &words[3..])))
        }
        ["page", log, ref words @ ..] => {
            let form = words.iter().find(|word| !word.starts_with("--"));
            let files = pages::Files { form: form.map(|name| name.to_string()), logs: all_of(words, "--log=") };
            with_form(form, |form| page(log, form, asked(words), files))
        }
        ["values", log, ref words @ ..] => {
            let form = words.iter().find(|word| !word.starts_with("--"));
            with_form(form, |form| values(log, form, asked(words), words.contains(&"--cut")))
        }
        ["tables", seed, count, _, ..] => {
            with_seed(seed, |seed| with_count(count, |count| tables(seed, count, &words[3..])))
        }
        ["pages", part @ ("log" | "form"), seed, number] => part_of(pages::nth, part, seed, number),
        ["pages", seed, count, _, ..] => {
            with_seed(seed, |seed| with_count(count, |count| pages(seed, count, &words[3..])))
        }
        ["md5"] => done(digest()),
        _ => {
            eprintln!("{USAGE}");
            ExitCode::from(2)
        }
    }
}

fn with_seed(word: &str, run: impl FnOnce(u64) -> ExitCode) -> ExitCode {
    match word.parse() {
        Ok(seed) => run(seed),
        Err(_) if word == "fresh" => run(fresh_seed()),
        Err(_) => {
            eprintln!("a seed is a number of 64 bits, and {word} is none");
            ExitCode::from(2)
        }
    }
}

fn with_count(word: &str, run: impl FnOnce(usize) -> ExitCode) -> ExitCode {
    match word.parse() {
        Ok(count) => run(count),
        Err(_) => {
            eprintln!("{word} is no count");
            ExitCode::from(2)
        }
    }
}

/// The log of that number, or its form.
fn part_of(nth: fn(u64, usize) -> Case, part: &str, seed: &str, number: &str) -> ExitCode {
    with_seed(seed, |seed| {
        with_count(number, |number| {
            let Case { form, fed, .. } = nth(seed, number);
            done(io::stdout().write_all(&if part == "log" { fed.log } else { form.unwrap_or_default() }))
        })
    })
}

/// With what stands in that file, if one is named.
fn with_form(file: Option<&&str>, run: impl FnOnce(Option<&[u8]>) -> io::Result<()>) -> ExitCode {
    done(file.map(fs::read).transpose().and_then(|form| run(form.as_deref())))
}

/// The log that stands in these files; without one, standard input.
fn log_in(files: &[&str]) -> io::Result<Box<dyn BufRead>> {
    let stdin = || -> Box<dyn BufRead> { Box::new(io::stdin().lock()) };
    let mut log: Box<dyn BufRead> = if files.is_empty() { stdin() } else { Box::new(io::empty()) };
    for &file in files {
        let next = if file == "-" { stdin() } else { Box::new(BufReader::new(fs::File::open(file)?)) };
        log = Box::new(log.chain(next));
    }
    Ok(log)
}

fn fresh_seed() -> u64 {
    let now = SystemTime::now().duration_since(UNIX_EPOCH).unwrap_or_default();
    now.as_nanos() as u64 ^ u64::from(std::process::id()) << 40
}

fn compare(seed: u64) -> ExitCode {
    println!("seed {seed}");
    let mut board = Board::start();
    let mut run = Run::new(seed, &mut board);
    match run.all() {
        Ok(agreed) => {
            println!("{}", run.met);
            println!("{agreed} comparisons agreed, {} of them in place too, seed {seed}", run.in_place);
            ExitCode::SUCCESS
        }
        Err(difference) => {
            println!("{difference}after {} comparisons that agreed, seed {seed}", run.agreed);
            ExitCode::FAILURE
        }
    }
}

fn program(words: &[&str]) -> Program {
    Program(words.iter().map(|word| word.to_string()).collect())
}

fn logs(seed: u64, count: usize, words: &[&str]) -> ExitCode {
    println!("seed {seed}");
    let program = program(words);
    match logs::compare(&program, seed, count) {
        Ok(met) => {
            println!("{met}, seed {seed}");
            verdict(met.missed().is_empty())
        }
        Err(difference) => {
            println!("{difference}`second log {seed} {}` prints it whole", difference.number);
            ExitCode::FAILURE
        }
    }
}

fn burnts(played: Played, seed: u64, count: usize, words: &[&str]) -> ExitCode {
    println!("seed {seed}");
    let program = program(words);
    match burnts::compare(&program, played, seed, count) {
        Ok(met) => {
            println!("{met}, seed {seed}");
            verdict(met.missed().is_empty())
        }
        Err(difference) => {
            let number = difference.number;
            println!("{difference}`second burnts log {seed} {number}` prints it whole, `.. form ..` its form");
            ExitCode::FAILURE
        }
    }
}

/// What these words give it.
fn all_of(words: &[&str], name: &str) -> Vec<String> {
    words.iter().filter_map(|word| word.strip_prefix(name)).map(String::from).collect()
}

/// What a program's words ask for beside `--page`.
fn asked(words: &[&str]) -> pages::Asked {
    let value = |name| words.iter().find_map(|word| word.strip_prefix(name));
    let hours = |name| value(name).map(|text| text.parse().expect("a number of hours"));
    pages::Asked {
        began: value("--began=").map(|text| pages::moment(text).expect("a moment")),
        long: hours("--long="),
        life: hours("--life="),
    }
}

fn page(log: &str, form: Option<&[u8]>, asked: pages::Asked, files: pages::Files) -> io::Result<()> {
    let log = fs::read(log)?;
    let mut page = Vec::new();
    io::stdin().lock().read_to_end(&mut page)?;
    pages::fault(&pages::expected(form, &log, asked, files), &page).map_err(io::Error::other)
}

fn values(log: &str, form: Option<&[u8]>, asked: pages::Asked, is_cut: bool) -> io::Result<()> {
    let told = burnt::told(form, &fs::read(log)?).map_err(|number| io::Error::other(number.to_string()))?;
    let values = if is_cut { pages::values_cut } else { pages::values };
    io::stdout().write_all(values(&told, asked).as_bytes())
}

fn tables(seed: u64, count: usize, words: &[&str]) -> ExitCode {
    println!("seed {seed}");
    let compared = pages::compare_values(&program(words), seed, count, asked(words));
    compared_pages(seed, compared.map(|met| (met.to_string(), met.missed().is_empty())))
}

fn pages(seed: u64, count: usize, words: &[&str]) -> ExitCode {
    println!("seed {seed}");
    let compared = pages::compare(&program(words), seed, count, asked(words));
    compared_pages(seed, compared.map(|met| (met.to_string(), met.missed().is_empty())))
}

/// What was met, and whether each mistake was found; or the first page or table that differs.
fn compared_pages(seed: u64, compared: Result<(String, bool), Box<pages::Difference>>) -> ExitCode {
    match compared {
        Ok((met, all_found)) => {
            println!("{met}, seed {seed}");
            verdict(all_found)
        }
        Err(difference) => {
            let number = difference.number;
            println!("{difference}`second pages log {seed} {number}` prints it whole, `.. form ..` its form");
            ExitCode::FAILURE
        }
    }
}

fn verdict(good: bool) -> ExitCode {
    if good { ExitCode::SUCCESS } else { ExitCode::FAILURE }
}

fn done(result: io::Result<()>) -> ExitCode {
    match result {
        Ok(()) => ExitCode::SUCCESS,
        Err(error) => {
            eprintln!("{error}");
            ExitCode::FAILURE
        }
    }
}

fn digest() -> io::Result<()> {
    let mut message = Vec::new();
    io::stdin().lock().read_to_end(&mut message)?;
    let mut out = io::stdout().lock();
    out.write_all(&hex(md5(&message)))?;
    out.write_all(b"\n")
}
