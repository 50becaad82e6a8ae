//! A floor in one process: each of many projectors has a second pass once a second, and then is asked once by the
//! controller at its open place. The power is on and every record is at its limits, one in two of Class 2.

use crate::measure::processor_time;
use crate::work::{By, PLACE, class_2, opened, received_in_place, second_passed};
use second::face::Device;
use std::time::Duration;

/// Passes of each side, in turn; the quickest stands.
const PASSES: usize = 5;
const PASS: Duration = Duration::from_millis(200);
const SIDES: [(By, &str); 2] = [(By::Board, "libboard.a"), (By::Second, "second")];

pub fn floor(records: usize) {
    println!("{:54} {:>12} {:>12}", format!("{records} projectors"), "% of a core", "ns a call");
    let one_in_two = [opened(b""), class_2()].map(switched_on);
    let floor: Vec<Device> = one_in_two.into_iter().cycle().take(records).collect();
    let mut floors = [floor.clone(), floor];
    let mut best = [f64::INFINITY; 2];
    for _ in 0..PASSES {
        for (place, (by, _)) in SIDES.iter().enumerate() {
            best[place] = best[place].min(a_second(*by, &mut floors[place]));
        }
    }
    for ((_, name), spent) in SIDES.iter().zip(best) {
        let call = spent * 1e9 / (2.0 * records as f64);
        println!("{name:54} {:>12.4} {call:>12.0}", spent * 100.0);
    }
}

fn switched_on(mut device: Device) -> Device {
    let mut out = [0; 136];
    received_in_place(By::Board, &mut device, b"%1POWR 1\r", &mut out);
    (0..600).for_each(|_| second_passed(By::Board, &mut device));
    assert_eq!((&out[..9], device.own.power, device.connections[PLACE].phase), (&b"%1POWR=OK"[..], 1, 2));
    device
}

/// Seconds of processor time that a second of the floor takes.
fn a_second(by: By, floor: &mut [Device]) -> f64 {
    let (start, mut seconds) = (processor_time(), 0);
    while processor_time() - start < PASS {
        for device in &mut *floor {
            second_passed(by, device);
        }
        for device in &mut *floor {
            let mut out = [0; 136];
            received_in_place(by, device, b"%1LAMP ?\r", &mut out);
            assert_eq!(out[0], b'%');
        }
        seconds += 1;
    }
    (processor_time() - start).as_secs_f64() / f64::from(seconds)
}
