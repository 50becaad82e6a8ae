//! The archive in a process of its own: where it is for another processor than this program, a small host in C
//! (`host/host.c`) links it, and an emulator runs that. Calls and answers go through pipes.

use super::wire::{self, Wire};
use super::{Act, Answer, Device, Side};
use std::io::{Read, Write};
use std::process::{Child, ChildStdin, ChildStdout, Command, Stdio};

pub struct Board {
    child: Child,
    calls: Option<ChildStdin>,
    answers: ChildStdout,
    room: Vec<u8>,
}

impl Board {
    pub fn start() -> Board {
        let mut child = Command::new(env!("BOARD_EMULATOR"))
            .arg(env!("BOARD_HOST"))
            .stdin(Stdio::piped())
            .stdout(Stdio::piped())
            .spawn()
            .expect("the emulator runs the host of libboard.a");
        let calls = child.stdin.take();
        let answers = child.stdout.take().expect("a pipe");
        Board { child, calls, answers, room: Vec::new() }
    }

    /// Makes the call, by value or in place, and leaves its answer in the room.
    fn make(&mut self, in_place: bool, device: &Device, act: &Act) {
        self.room.clear();
        self.room.extend_from_slice(&[0; 8]);
        in_place.put(&mut self.room);
        device.put(&mut self.room);
        wire::put_act(act, &mut self.room);
        self.exchange().unwrap_or_else(|error| panic!("libboard.a did not come back from {act:?}: {error}"));
    }

    fn exchange(&mut self) -> std::io::Result<()> {
        let length = (self.room.len() as u64 - 8).to_le_bytes();
        self.room[..8].copy_from_slice(&length);
        self.calls.as_mut().expect("open until dropped").write_all(&self.room)?;
        let mut length = [0; 8];
        self.answers.read_exact(&mut length)?;
        self.room.resize(u64::from_le_bytes(length) as usize, 0);
        self.answers.read_exact(&mut self.room)
    }
}

impl Side for Board {
    fn cuts(&self) -> bool {
        true
    }

    /// After the answer of a call that records a line stands the record that lies there then, which it may only read.
    fn call(&mut self, device: &Device, act: &Act) -> Answer {
        self.make(false, device, act);
        let mut room = self.room.as_slice();
        let answer = wire::get_answer(act, &mut room);
        match act {
            Act::Record { .. } => or_touched(answer, device, Device::get(&mut room)),
            _ => answer,
        }
    }

    /// After the answer of a call that only reads the record stands the record that lies there then.
    fn call_in_place(&mut self, device: &Device, act: &Act) -> Answer {
        self.make(true, device, act);
        let mut room = self.room.as_slice();
        let answer = wire::get_answer(act, &mut room);
        match answer.device() {
            Some(_) => answer,
            None if matches!(act, Act::Panel(_)) => answer,
            None => or_touched(answer, device, Device::get(&mut room)),
        }
    }
}

/// The answer of a call that left the record as it was.
fn or_touched(answer: Answer, lent: &Device, left: Device) -> Answer {
    if left == *lent { answer } else { Answer::Touched(Box::new(left)) }
}

impl Drop for Board {
    fn drop(&mut self) {
        drop(self.calls.take());
        let _ = self.child.wait();
    }
}
