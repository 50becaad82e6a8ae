//! One of the two programs, and how streams are handed on to it.

use super::recorded::keep;
use super::{Act, Answer, Changed, Device, PLACES};

pub trait Side {
    /// Any call but `HandOn`, `Interleave` and `Keep`, by value.
    fn call(&mut self, device: &Device, act: &Act) -> Answer;

    /// The same in place, on a record that holds this one. It is for the acts that `has_in_place`, and the answer has
    /// the record that lies there then.
    fn call_in_place(&mut self, device: &Device, act: &Act) -> Answer;

    /// The same for receiving and closing in the session of that random number, for passing time that tells the places
    /// which it closed, and for a panel's line of which it is told what it was. None where no way leads to these calls.
    fn call_named(&mut self, _device: &Device, _random: u32, _act: &Act) -> Option<Answer> {
        None
    }

    /// Whether a stream is handed on in the cuts that are asked for, or whole.
    fn cuts(&self) -> bool;

    fn answer(&mut self, device: &Device, act: &Act) -> Answer {
        match act {
            Act::HandOn { place, bytes, cuts } if self.cuts() => self.hand_on(device, *place, bytes, cuts),
            Act::HandOn { place, bytes, .. } => self.hand_on(device, *place, bytes, &[]),
            Act::Interleave { parts } if self.cuts() => self.interleave(device, parts),
            Act::Interleave { parts } => self.interleave(device, &whole_lines(parts)),
            Act::Keep { form, parts } => keep(self, device, form.as_deref(), parts),
            _ => self.call(device, act),
        }
    }

    /// RULES, Connection: "Handed on until all is taken, with no time between, a stream gives the same reply bytes and
    /// end state however it is cut."
    fn hand_on(&mut self, device: &Device, place: usize, bytes: &[u8], cuts: &[usize]) -> Answer {
        let mut last = Changed { number: 0, device: *device };
        let mut replies = Vec::new();
        let mut first = 0;
        for end in cuts.iter().copied().chain([bytes.len()]) {
            let end = end.clamp(first, bytes.len());
            while first < end {
                let act = Act::Receive { place, bytes: bytes[first..end].to_vec(), lent: vec![0; 136] };
                let Answer::Received(received, memory) = self.call(&last.device, &act) else { unreachable!() };
                last = Changed { number: received.number, device: received.device };
                replies.extend_from_slice(&memory[..received.length.min(memory.len())]);
                if received.taken == 0 {
                    return Answer::HandedOn(last, replies);
                }
                first += received.taken;
            }
        }
        Answer::HandedOn(last, replies)
    }

    /// Each part handed on until all of it is taken, or refused, before the next one comes.
    fn interleave(&mut self, device: &Device, parts: &[(usize, Vec<u8>)]) -> Answer {
        let mut device = *device;
        let mut told = vec![(0, Vec::new()); PLACES];
        for (place, bytes) in parts.iter().filter(|(place, bytes)| *place < PLACES && !bytes.is_empty()) {
            let Answer::HandedOn(last, replies) = self.hand_on(&device, *place, bytes, &[]) else { unreachable!() };
            device = last.device;
            told[*place].0 = last.number;
            told[*place].1.extend(replies);
        }
        Answer::Interleaved(Box::new(device), told)
    }
}

/// A side with each of its calls made in place.
pub struct InPlace<'a, S>(pub &'a mut S);

impl<S: Side> Side for InPlace<'_, S> {
    fn cuts(&self) -> bool {
        self.0.cuts()
    }

    fn call(&mut self, device: &Device, act: &Act) -> Answer {
        self.0.call_in_place(device, act)
    }

    fn call_in_place(&mut self, device: &Device, act: &Act) -> Answer {
        self.0.call_in_place(device, act)
    }
}

/// Each line whole, when its CR comes; last, place by place, what is left without one.
fn whole_lines(parts: &[(usize, Vec<u8>)]) -> Vec<(usize, Vec<u8>)> {
    let mut lines = Vec::new();
    let mut begun = vec![Vec::new(); PLACES];
    for (place, bytes) in parts.iter().filter(|(place, _)| *place < PLACES) {
        for &byte in bytes {
            begun[*place].push(byte);
            if byte == b'\r' {
                lines.push((*place, std::mem::take(&mut begun[*place])));
            }
        }
    }
    lines.extend(begun.into_iter().enumerate());
    lines
}
