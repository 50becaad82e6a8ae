//! The lamps of a device while a log is played on it: each lamp's seconds "that demand 3's history puts in warm-up or
//! power-on with its mark set", put together to stretches.

use super::Steps;
use crate::reference::recorded::{Call, Why};
use crate::reference::{Power, Projector};
use crate::replay::history::Player;
use crate::replay::{Event, play};

/// From one second since the log began up to another, which is not in it. It has at least one second.
#[derive(Clone, Copy, PartialEq, Eq, Debug)]
pub struct Stretch {
    pub from: u128,
    pub to: u128,
}

pub struct Lamp {
    /// Its seconds at the start.
    pub start: u32,
    /// "the sum of the lengths (also where the lamp's own counter stopped at its limit)".
    pub burnt: u128,
    /// The one that has not been told.
    pub stretch: Option<Stretch>,
}

impl Lamp {
    /// Some seconds more, at least one, from this one on.
    fn burn(&mut self, from: u128, seconds: u32) {
        let stretch = self.stretch.get_or_insert(Stretch { from, to: from });
        stretch.to = from + u128::from(seconds);
        self.burnt += u128::from(seconds);
    }
}

/// A lamp's seconds at the start, what it burnt, and its seconds now.
#[derive(Clone, Copy, PartialEq, Eq, Debug)]
pub struct Sum {
    pub start: u32,
    pub burnt: u128,
    pub now: u32,
}

pub struct Watch<'a> {
    pub steps: &'a Steps,
    pub projector: Projector,
    /// Seconds since the log began: as many as any log can have.
    pub second: u128,
    lamps: Vec<Lamp>,
}

impl Player for Watch<'_> {
    fn projector(&self) -> &Projector {
        &self.projector
    }

    fn make(&mut self, call: &Call) -> Result<Vec<u8>, Why> {
        match call {
            Call::Passed(seconds) => self.pass((self.steps.passed)(*seconds)),
            _ => return (self.steps.make)(&mut self.projector, call),
        }
        Ok(Vec::new())
    }
}

impl Watch<'_> {
    pub fn new(steps: &Steps, projector: Projector) -> Watch<'_> {
        let lamps = projector.lamps.iter().map(|&start| Lamp { start, burnt: 0, stretch: None }).collect();
        Watch { steps, projector, second: 0, lamps }
    }

    pub fn play(&mut self, event: Event) {
        match event {
            Event::Pass(seconds) => self.pass(seconds),
            _ => drop(play(&mut self.projector, event)),
        }
    }

    /// Part by part, so that the power is the same in all seconds of a part.
    fn pass(&mut self, seconds: u32) {
        let mut rest = seconds;
        while rest > 0 {
            let part = match self.projector.power {
                Power::WarmUp(left) | Power::Cooling(left) => left.min(rest),
                Power::On | Power::Off => rest,
            };
            for place in 0..self.lamps.len() {
                if self.burns(place) {
                    self.lamps[place].burn(self.second, part);
                }
            }
            play(&mut self.projector, Event::Pass(part));
            self.second += u128::from(part);
            rest -= part;
        }
    }

    /// Of each lamp, in their order.
    pub fn sums(&self) -> impl Iterator<Item = Sum> {
        let lamps = self.lamps.iter().zip(&self.projector.lamps);
        lamps.map(|(lamp, &now)| Sum { start: lamp.start, burnt: lamp.burnt, now })
    }

    fn burns(&self, place: usize) -> bool {
        (self.steps.burns)(self.projector.power, self.projector.enabled[place])
    }

    /// The stretches that have ended, each with its lamp's place, and told now.
    pub fn ended(&mut self) -> Vec<(usize, Stretch)> {
        let dark: Vec<usize> = (0..self.lamps.len()).filter(|&place| !self.burns(place)).collect();
        dark.into_iter().filter_map(|place| Some((place, self.lamps[place].stretch.take()?))).collect()
    }

    /// "at the end of the log a stretch still burning is told up to the log's last second".
    pub fn last(&self) -> Vec<(usize, Stretch)> {
        let last = |place: usize| (self.steps.last)(&self.lamps[place], self.burns(place), self.second);
        (0..self.lamps.len()).filter_map(|place| Some((place, last(place)?))).collect()
    }
}
