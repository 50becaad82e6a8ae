//! A reply's meaning as the face lays it out, since no enum crosses it.

use super::replies::Meaning;
use crate::face::Reading;

impl Meaning {
    /// As `include/ceiling.h` has it: a kind, and what this kind uses; all else zero.
    pub fn flattened(&self) -> Reading {
        let nothing = Reading::refused(0);
        let of = |kind, first, second| Reading { kind, first, second, ..nothing };
        match self {
            Meaning::Ok => of(1, 0, 0),
            Meaning::Error(number) => of(2, *number, 0),
            Meaning::Power(digit) => of(3, *digit, 0),
            Meaning::Input(input) => of(4, input.kind, input.number),
            Meaning::Mutes { video, audio } => of(5, u8::from(*video), u8::from(*audio)),
            Meaning::Errors(digits) => with_text(of(6, 0, 0), digits),
            Meaning::Lamps(lamps) => {
                let mut reading = Reading { count: lamps.len(), ..of(7, 0, 0) };
                for (place, &(hours, lit)) in lamps.iter().enumerate() {
                    reading.hours[place] = hours;
                    reading.lit[place] = lit;
                }
                reading
            }
            Meaning::Inputs(inputs) => {
                let mut reading = Reading { count: inputs.len(), ..of(8, 0, 0) };
                for (room, input) in reading.inputs.chunks_exact_mut(2).zip(inputs) {
                    room.copy_from_slice(&input.characters());
                }
                reading
            }
            Meaning::Text(bytes) => with_text(of(9, 0, 0), bytes),
            Meaning::Class(number) => of(10, *number, 0),
            Meaning::Erra => of(11, 0, 0),
            Meaning::Freeze(on) => of(12, u8::from(*on), 0),
        }
    }
}

fn with_text(mut reading: Reading, bytes: &[u8]) -> Reading {
    reading.count = bytes.len();
    reading.text[..bytes.len()].copy_from_slice(bytes);
    reading
}
