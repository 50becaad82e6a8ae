//! RULES, Places, rule by rule.

use super::calls::{close, legal, open, pass, receive, set_up};
use super::connection::leading_digest;
use crate::compare::forms;
use crate::compare::histories::NO_PLACES;
use crate::face::{Connection, Device, Lent, PLACES};

fn fresh(password: &[u8]) -> Device {
    set_up(&Lent { password: password.to_vec(), ..forms::common() }).device
}

/// Opens, and tells number and place.
fn opens(device: &mut Device, random: u32) -> (u32, usize) {
    let opened = open(device, random, &mut [0; 136]);
    *device = opened.device;
    (opened.number, opened.place)
}

fn closes(device: &mut Device, place: usize) -> u32 {
    let closed = close(device, place);
    *device = closed.device;
    closed.number
}

/// The reply to bytes at a place.
fn told(device: &mut Device, place: usize, bytes: &[u8]) -> Vec<u8> {
    let mut out = [0; 136];
    let received = receive(device, place, bytes, &mut out);
    assert_eq!((received.number, received.taken), (0, bytes.len()));
    *device = received.device;
    out[..received.length].to_vec()
}

/// "An open call when all four places are taken gives new number 6, tested where 5 stands; any other takes the lowest
/// closed place and reports it."
#[test]
fn the_lowest_closed_place() {
    let mut device = fresh(b"");
    for place in 0..PLACES {
        assert_eq!(opens(&mut device, 100 + place as u32), (0, place));
    }
    assert_eq!(device.connections.map(|connection| connection.random), [100, 101, 102, 103]);
    let before = device;
    assert_eq!(opens(&mut device, 104), (6, 0));
    assert_eq!(device, before);
    let mut out = [7; 136];
    assert_eq!(open(&device, 104, &mut out).length, 0);
    assert_eq!(out, [7; 136]);
    assert_eq!(open(&device, 104, &mut out[..135]).number, 2);
    for place in [2, 1] {
        assert_eq!(closes(&mut device, place), 0);
    }
    assert_eq!(opens(&mut device, 105), (0, 1));
    assert_eq!(opens(&mut device, 106), (0, 2));
    assert_eq!(opens(&mut device, 107), (6, 0));
}

/// "A place number of 4 or more is 3." Of what a call may be refused with, the first in the order of the table.
#[test]
fn numbers_in_their_order() {
    let mut device = fresh(b"");
    assert_eq!(opens(&mut device, 1), (0, 0));
    for &none in NO_PLACES {
        assert_eq!(close(&device, none).number, 3);
        assert_eq!(receive(&device, none, b"\r", &mut [0; 136]).number, 3);
        assert_eq!(receive(&device, none, b"\r", &mut [0; 135]).number, 2);
        assert_eq!(close(&Device::BLANK, none).number, 1);
        assert_eq!(receive(&Device::BLANK, none, b"\r", &mut [0; 135]).number, 1);
    }
    for place in 1..PLACES {
        assert_eq!(close(&device, place).number, 4);
        assert_eq!(receive(&device, place, b"", &mut [0; 136]).number, 4);
        assert_eq!(receive(&device, place, b"", &mut [0; 135]).number, 2);
    }
}

/// "The record is legal if each place's part is."
#[test]
fn each_part_is_legal() {
    for place in 0..PLACES {
        let mut device = fresh(b"");
        device.connections[place].age = 1;
        assert!(!legal(&device));
        device.connections[place] = Connection { phase: 3, age: 29, random: 7, ..Connection::CLOSED };
        assert!(legal(&device));
        device.connections[place].age = 30;
        assert!(!legal(&device));
        assert_eq!(open(&device, 7, &mut [0; 136]).number, 1);
    }
}

/// "share one device, one set-up and one clock; each has its own random number, collected bytes, overlong flag, age and
/// phase."
#[test]
fn one_device_and_four_connections() {
    let mut device = fresh(b"Schnitt8");
    for random in 0..4 {
        opens(&mut device, random);
    }
    let led = |random, line: &[u8]| [&leading_digest(random, b"Schnitt8")[..], line].concat();
    assert_eq!(told(&mut device, 3, b"%1PO"), b"");
    assert_eq!(told(&mut device, 1, &led(1, b"%1POWR 1\r")), b"%1POWR=OK\r");
    assert_eq!(told(&mut device, 2, &led(1, b"%1POWR 0\r")), b"PJLINK ERRA\r");
    device = pass(&device, 20).device;
    assert_eq!(told(&mut device, 0, &led(0, b"%1POWR ?\r")), b"%1POWR=1\r");
    assert_eq!(told(&mut device, 1, b"%1IN"), b"");
    assert_eq!(told(&mut device, 0, b"%1INPT 59\r"), b"%1INPT=OK\r");
    assert_eq!(told(&mut device, 1, b"PT ?\r"), b"%1INPT=59\r");
    let told: Vec<_> = device.connections.iter().map(|c| (c.phase, c.age, c.random, c.line.held)).collect();
    assert_eq!(told, [(2, 0, 0, 0), (2, 0, 1, 0), (3, 20, 2, 0), (1, 20, 3, 4)]);
    device = pass(&device, 10).device;
    assert_eq!(device.connections.map(|connection| connection.phase), [2, 2, 0, 0]);
    assert_eq!(device.own.lamps[0], forms::common().lamps[0] + 30);
    assert_eq!(opens(&mut device, 9), (0, 2));
}
