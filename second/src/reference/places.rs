//! RULES, Places: four controllers on one projector. "Panel, tablet and two spares connect at once and share one
//! device, one set-up and one clock; each has its own random number, collected bytes, overlong flag, age and phase."

use super::calls::{IS_CLOSED, NO_PLACE, NOT_LEGAL, OUT_OF_RANGE, PROJECTOR_ROOM, ROOM_SHORT};
use super::rules::{Mistake, made};
use super::{Connection, Projector};
use crate::face::{self, PLACES};

/// The number by which the replay alone refuses a second opening.
pub const NOT_CLOSED: u32 = 5;

impl Projector {
    pub fn is_closed(&self, place: usize) -> bool {
        self.connections[place] == Connection::Closed
    }

    /// How many places are not closed.
    pub fn taken(&self) -> usize {
        (0..PLACES).filter(|&place| !self.is_closed(place)).count()
    }

    /// "any other takes the lowest closed place".
    pub fn place_to_open(&self) -> Option<usize> {
        let is_free = |place: &usize| self.is_closed(*place);
        match () {
            _ if made(Mistake::HighestPlaceFirst) => (0..PLACES).rev().find(is_free),
            _ if made(Mistake::ThreePlaces) => (0..PLACES - 1).find(is_free),
            _ if made(Mistake::OneController) => (self.taken() == 0).then_some(0),
            _ if made(Mistake::PlaceByCount) => Some(self.taken()).filter(|&taken| taken < PLACES),
            _ if made(Mistake::PlaceAfterTheLast) => {
                let last = (0..PLACES).rev().find(|&place| !self.is_closed(place));
                let next = last.map_or(0, |last| last + 1);
                if next < PLACES { Some(next) } else { (0..PLACES).find(is_free) }
            }
            _ if made(Mistake::FailedIsFree) => {
                let is_free =
                    |place: &usize| matches!(self.connections[*place], Connection::Closed | Connection::Failed { .. });
                (0..PLACES).find(is_free)
            }
            _ => (0..PLACES).find(is_free),
        }
    }

    pub fn close(&mut self, place: usize) {
        if made(Mistake::ClosingClosesAll) {
            self.connections.fill(Connection::Closed);
        }
        self.connections[place] = Connection::Closed;
    }
}

/// The projector that a record stands for, if there is also room for a reply; else the number of the first check that
/// fails.
fn ready(device: &face::Device, out: &[u8]) -> Result<Projector, u32> {
    if out.len() < PROJECTOR_ROOM && made(Mistake::RoomBeforeLegality) {
        return Err(ROOM_SHORT);
    }
    let projector = Projector::read(device).ok_or(NOT_LEGAL)?;
    if out.len() < PROJECTOR_ROOM { Err(ROOM_SHORT) } else { Ok(projector) }
}

/// "A place number of 4 or more is 3."
fn place_of(number: usize) -> Option<usize> {
    let number = match () {
        _ if made(Mistake::PlaceModulo4) => number % PLACES,
        _ if made(Mistake::PlaceCutTo32Bits) => number as u32 as usize,
        _ if made(Mistake::PlaceCutToAByte) => usize::from(number as u8),
        _ if made(Mistake::PlacesFrom1) => number.wrapping_sub(1),
        _ => number,
    };
    let places = if made(Mistake::ThreePlaces) { PLACES - 1 } else { PLACES };
    (number < places).then_some(number)
}

/// The place at which a call on a legal record is served; else 3, then 4.
fn served_at(projector: &Projector, number: usize, none_is_closed: bool) -> Result<usize, u32> {
    let place = place_of(number).ok_or(if none_is_closed { IS_CLOSED } else { OUT_OF_RANGE })?;
    if projector.is_closed(place) { Err(IS_CLOSED) } else { Ok(place) }
}

/// "An open call when all four places are taken gives new number 6, tested where 5 stands; any other takes the lowest
/// closed place and reports it." With a refusal it reports 0.
pub fn open(device: &face::Device, random: u32, out: &mut [u8]) -> face::Opened {
    let refused = |number: u32, out: &mut [u8]| {
        let is_taken = number == NO_PLACE;
        if is_taken && made(Mistake::RefusalGreets) {
            out[..9].copy_from_slice(b"PJLINK 0\r");
        }
        let number = if is_taken && made(Mistake::TakenIsFive) { NOT_CLOSED } else { number };
        let place = if is_taken && made(Mistake::RefusalTellsFour) { PLACES } else { 0 };
        face::Opened { number, length: 0, place, device: *device }
    };
    let all_taken = |projector: Projector| projector.place_to_open().is_none();
    let mut projector = match ready(device, out) {
        Ok(projector) => projector,
        Err(ROOM_SHORT) if made(Mistake::TakenBeforeRoom) && Projector::read(device).is_some_and(all_taken) => {
            return refused(NO_PLACE, &mut []);
        }
        Err(number) => return refused(number, out),
    };
    let Some(place) = projector.place_to_open() else { return refused(NO_PLACE, out) };
    let reply = projector.open(place, random);
    out[..reply.len()].copy_from_slice(&reply);
    let told = if made(Mistake::PlaceNotTold) { 0 } else { place };
    face::Opened { number: 0, length: reply.len(), place: told, device: projector.record() }
}

/// 1, 3, 4.
pub fn close(device: &face::Device, place: usize) -> face::Changed {
    let refused = |number| face::Changed { number, device: *device };
    let legal = Projector::read(device);
    if place_of(place).is_none() && made(Mistake::ClosingPlaceBeforeLegality) {
        return refused(OUT_OF_RANGE);
    }
    let Some(mut projector) = legal else { return refused(NOT_LEGAL) };
    match served_at(&projector, place, made(Mistake::ClosingNoPlaceIsClosed)) {
        Err(IS_CLOSED) if made(Mistake::ClosingTwiceServed) => face::Changed { number: 0, device: *device },
        Err(number) => refused(number),
        Ok(place) => {
            projector.close(place);
            face::Changed { number: 0, device: projector.record() }
        }
    }
}

/// 1, 2, 3, 4.
pub fn receive(device: &face::Device, place: usize, bytes: &[u8], out: &mut [u8]) -> face::Received {
    let refused = |number| face::Received { number, taken: 0, length: 0, device: *device };
    if place_of(place).is_none() && made(Mistake::PlaceBeforeLegality) {
        return refused(OUT_OF_RANGE);
    }
    let served = |projector: &Projector| served_at(projector, place, made(Mistake::NoPlaceIsClosed));
    let mut projector = match ready(device, out) {
        Ok(projector) => projector,
        Err(ROOM_SHORT) if made(Mistake::PlaceBeforeRoom) && place_of(place).is_none() => {
            return refused(if Projector::read(device).is_some() { OUT_OF_RANGE } else { ROOM_SHORT });
        }
        Err(ROOM_SHORT) if made(Mistake::ClosedBeforeRoom) => {
            let closed = Projector::read(device).is_some_and(|projector| served(&projector) == Err(IS_CLOSED));
            return refused(if closed { IS_CLOSED } else { ROOM_SHORT });
        }
        Err(number) => return refused(number),
    };
    let place = match served(&projector) {
        Ok(place) => place,
        Err(number) => return refused(number),
    };
    let (taken, reply) = projector.receive(place, bytes);
    out[..reply.len()].copy_from_slice(&reply);
    face::Received { number: 0, taken, length: reply.len(), device: projector.record() }
}
