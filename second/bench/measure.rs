//! Times and instruction counts of each work by each side. Each is that of the calls alone: what a run takes with its
//! calls, less what it takes without them (`By::Nobody`).

use crate::work::{self, By, Run, Work};
use crate::{day, floor, recording};
use std::fs;
use std::path::Path;
use std::process::{Command, ExitCode};
use std::time::Duration;

/// Samples of each side, one side after another; the quickest stands, since all that disturbs a sample slows it.
const SAMPLES: usize = 9;
const SAMPLE: Duration = Duration::from_millis(20);
/// So many calls are counted, after a first one that is not.
const COUNTED: u32 = 10;

pub fn main() -> ExitCode {
    let words: Vec<String> = std::env::args().skip(1).collect();
    let words: Vec<&str> = words.iter().map(String::as_str).collect();
    match words[..] {
        [] => times(),
        ["count"] => counts(),
        ["marked"] => marked(),
        ["floor", records] if records.parse().is_ok_and(|n: usize| n > 0) => floor::floor(records.parse().unwrap()),
        _ => {
            eprintln!("bench | bench count | bench floor RECORDS");
            return ExitCode::from(2);
        }
    }
    ExitCode::SUCCESS
}

fn all() -> Vec<Work> {
    let mut all = work::all();
    all.extend(day::all());
    all.extend(recording::all());
    all
}

fn times() {
    heading("ns a call");
    for work in all() {
        let run = (work.prepare)();
        let sides = with_nobody(&work);
        let often: Vec<u32> = sides.iter().map(|&by| often_enough(&run, by)).collect();
        let mut best = vec![f64::INFINITY; sides.len()];
        for _ in 0..SAMPLES {
            for (place, &by) in sides.iter().enumerate() {
                let spent = spent(&run, by, often[place]).as_nanos() as f64 / f64::from(often[place]);
                best[place] = best[place].min(spent);
            }
        }
        line(&work, &best);
    }
}

fn with_nobody(work: &Work) -> Vec<By> {
    [&[By::Nobody], work.sides].concat()
}

fn heading(unit: &str) {
    println!(
        "{unit:54} {:>12} {:>12} {:>7} {:>12} {:>7} {:>12} {:>7}",
        "libboard.a", "second", "", "C", "", "OpenSSL", ""
    );
    if !cfg!(openssl) {
        println!("OpenSSL's library is not here (Debian: libssl-dev)");
    }
}

/// Of each side what nobody's value leaves. A ratio is the archive's time or count over the other's: 2 is twice as slow.
fn line(work: &Work, values: &[f64]) {
    let board = values[1] - values[0];
    print!("{:54} {board:>12.0}", work.name);
    for value in &values[2..] {
        print!(" {:>12.0} {:>7.2}", value - values[0], board / (value - values[0]));
    }
    println!();
}

fn spent(run: &Run, by: By, times: u32) -> Duration {
    let start = processor_time();
    for _ in 0..times {
        run(by);
    }
    processor_time() - start
}

/// This process's own time on the processor: what else the machine does then counts little.
pub fn processor_time() -> Duration {
    const CLOCK_PROCESS_CPUTIME_ID: i32 = 2;
    unsafe extern "C" {
        fn clock_gettime(clock: i32, time: *mut [i64; 2]) -> i32;
    }
    let mut time = [0; 2];
    // SAFETY: Linux on 64 bits writes seconds and nanoseconds, eight bytes each.
    let failed = unsafe { clock_gettime(CLOCK_PROCESS_CPUTIME_ID, &mut time) };
    assert_eq!(failed, 0);
    Duration::new(time[0] as u64, time[1] as u32)
}

fn often_enough(run: &Run, by: By) -> u32 {
    let mut times = 1;
    while spent(run, by, times) < SAMPLE {
        times *= 2;
    }
    times
}

/// callgrind runs `bench marked` and writes a file, with the instructions since the one before, at each mark. glibc copies
/// and fills without `rep`, each of whose steps callgrind would count.
fn counts() {
    heading("instructions a call");
    let folder = std::env::temp_dir().join(format!("bench-{}", std::process::id()));
    fs::create_dir_all(&folder).unwrap();
    let out = folder.join("out");
    let ran = Command::new("valgrind")
        .args(["--tool=callgrind", "--dump-before=bench_mark"])
        .arg(format!("--callgrind-out-file={}", out.display()))
        .arg(std::env::current_exe().unwrap())
        .arg("marked")
        .env("GLIBC_TUNABLES", "glibc.cpu.hwcaps=-ERMS")
        .output()
        .expect("valgrind runs");
    assert!(ran.status.success(), "valgrind said {}", String::from_utf8_lossy(&ran.stderr));
    let mut part = 0;
    for work in counted() {
        let mut values = Vec::new();
        for _ in with_nobody(&work) {
            part += 2; // the mark before and the mark after
            values.push(total(&folder.join(format!("out.{part}"))) / f64::from(COUNTED));
        }
        line(&work, &values);
    }
    fs::remove_dir_all(folder).unwrap();
}

/// 64 MB are left out: callgrind is slow, and 4,096 bytes say the same.
fn counted() -> impl Iterator<Item = Work> {
    all().into_iter().filter(|work| !work.name.contains("64 MB"))
}

fn total(file: &Path) -> f64 {
    let text = fs::read_to_string(file).unwrap_or_else(|error| panic!("{}: {error}", file.display()));
    let line = text.lines().find_map(|line| line.strip_prefix("totals: "));
    line.unwrap_or_else(|| panic!("{} has no totals", file.display())).trim().parse().unwrap()
}

fn marked() {
    for work in counted() {
        let run = (work.prepare)();
        for by in with_nobody(&work) {
            run(by);
            bench_mark();
            for _ in 0..COUNTED {
                run(by);
            }
            bench_mark();
        }
    }
}

#[unsafe(no_mangle)]
#[inline(never)]
extern "C" fn bench_mark() {
    std::hint::black_box(());
}
