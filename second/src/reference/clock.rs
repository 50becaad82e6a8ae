//! RULES, Time: "The meaning is a definition of one second, applied n times".

use super::record::CLOSING_AGE;
use super::rules::{Mistake, made};
use super::set_up::LAMP_LIMIT;
use super::{Connection, Power, Projector};
use crate::face::PLACES;

impl Projector {
    /// Seconds one at a time while anything but lamps moves; then only lamps gain, all that is left at once.
    pub fn pass(&mut self, seconds: u32) {
        let mut left = seconds;
        while left > 0 && self.moves() {
            self.one_second();
            left -= 1;
        }
        if self.burns() {
            self.burn(left);
        }
    }

    /// Whether a second changes more than lamps.
    fn moves(&self) -> bool {
        let power_moves = matches!(self.power, Power::WarmUp(_) | Power::Cooling(_));
        let ages =
            |connection: &Connection| matches!(connection, Connection::Awaiting { .. } | Connection::Failed { .. });
        power_moves || self.connections.iter().any(ages)
    }

    fn one_second(&mut self) {
        if self.burns() {
            self.burn(1);
        }
        self.power = match self.power {
            Power::WarmUp(left) => warmed(left),
            Power::Cooling(1) => Power::Off,
            Power::Cooling(left) => Power::Cooling(left - 1),
            still => still,
        };
        self.age_by_one();
    }

    /// "Warm-up or on: every lamp gains one"; by RULES, Lamps, "each enabled lamp". "The fault flag changes none of
    /// this."
    fn burns(&self) -> bool {
        match self.power {
            _ if self.fault && made(Mistake::FaultStopsTime) => false,
            Power::WarmUp(_) | Power::On => true,
            Power::Cooling(_) => made(Mistake::CoolingBurns),
            Power::Off => false,
        }
    }

    /// "stopped at 359,999,999".
    fn burn(&mut self, seconds: u32) {
        let often = if made(Mistake::TimePassesAtEachPlace) { self.taken().max(1) as u32 } else { 1 };
        let seconds = seconds.saturating_mul(often);
        let warm_up = matches!(self.power, Power::WarmUp(_));
        let first = self.enabled.iter().position(|&enabled| enabled);
        for (place, lamp) in self.lamps.iter_mut().enumerate() {
            let burns = match () {
                _ if made(Mistake::EveryLampBurns) => true,
                _ if made(Mistake::EveryLampWarmsUp) && warm_up => true,
                _ if made(Mistake::OneLampBurns) => Some(place) == first,
                _ => self.enabled[place],
            };
            if !burns {
                continue;
            }
            let stopped = lamp.saturating_add(seconds).min(LAMP_LIMIT);
            *lamp = if made(Mistake::LampNotStopped) { lamp.wrapping_add(seconds) } else { stopped };
        }
    }

    /// "Awaiting and failed age by one", each place's connection by itself.
    fn age_by_one(&mut self) {
        let aged = if made(Mistake::OnlyPlaceZeroAges) { 1 } else { PLACES };
        let closed = self.connections[..aged].iter_mut().filter_map(Connection::age_by_one).count();
        if closed > 0 && made(Mistake::TimeClosesAll) {
            self.connections.fill(Connection::Closed);
        }
    }
}

impl Connection {
    /// "Awaiting or failed, it closes when its age reaches 30 seconds." Something exactly if it did.
    fn age_by_one(&mut self) -> Option<()> {
        let closing_age = if made(Mistake::ClosesAt31) { CLOSING_AGE + 1 } else { CLOSING_AGE };
        let (Connection::Awaiting { age, .. } | Connection::Failed { age, .. }) = self else { return None };
        *age += 1;
        (*age == closing_age).then(|| *self = Connection::Closed)
    }
}

/// "in warm-up .. seconds left fall by one; at 0 warm-up becomes on".
fn warmed(left: u32) -> Power {
    let last = if made(Mistake::WarmUpLeftLate) { 0 } else { 1 };
    if left <= last { Power::On } else { Power::WarmUp(left - 1) }
}
