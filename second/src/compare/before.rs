//! Every case from before Class 2 landed is there still and gives the same bytes.
//!
//! The reference program as it stood before that landing, over its own cases of one seed, digested what each call was
//! lent and gave, call by call: the digest before, the record, the call, the answer. Made by the rules of then, the
//! cases here have to give these digests again, in the layout of then. By the rules of now each of the calls gives the
//! same as by those of then, but for the few that RULES, Class 2, amends, and these change as it says.

use super::{ENOUGH, Run, tally};
use crate::face::wire::{Wire, put_act};
use crate::face::{Act, Answer, Command, Device, Panel, PanelAct, Reading, Side};
use crate::reference::md5::{hex, md5};
use crate::reference::rules::Rules;
use crate::reference::side::Second;
use std::collections::BTreeMap;

const SEED: u64 = 1;

/// How often each call was made, and the digest in the end.
const DIGESTS: &[(&str, usize, &str)] = &[
    ("pj_check_day", 8192, "86fa0defb7b1fe1d9302744e20ff086a"),
    ("pj_close", 8269, "b1161f779b3a6aebe93f0a14e231c7ef"),
    ("pj_compare_lamps", 8192, "224d93aabd2e9c1b13f263fc7eb16cac"),
    ("pj_legal", 65569, "dcf3023a74164da0725bbedd0ce3136d"),
    ("pj_load", 55731, "9b3a39c4aa335e57708163037040af1a"),
    ("pj_md5", 605, "304c97820d8ad4c61c893038be3cc9c5"),
    ("pj_open", 17590, "375b7e0c35858a84f563db4e963db1e9"),
    ("pj_panel_add", 9839, "6f5956ca614311a01e69fe4932f1a8b4"),
    ("pj_panel_command", 23805, "fbe3f91f21a1e62b2a7b0a1f73b1ec09"),
    ("pj_panel_line", 50457, "3245ef0c4aeaf75b535ae93126afe8b8"),
    ("pj_panel_lost", 7871, "bc38ebe90677925ea6b4c3f8bbf9f172"),
    ("pj_panel_none", 1025, "0c3f11de4cf787203281e2fc9ccbf8fc"),
    ("pj_pass", 15323, "28a4d19e89ca0b44773f75d137a10f6d"),
    ("pj_pass_in_place", 7847, "ce512a559b9886ab66ad779b252c313e"),
    ("pj_plan_day", 8192, "109e2e12aa32a7ed64d99dc8fd78dbab"),
    ("pj_read_greeting", 8192, "a6749d917e1349c70b74f6575e4959ad"),
    ("pj_read_reply", 32035, "ab67ecec083f21efa83fdfd916ca47f4"),
    ("pj_receive", 211051, "6e183ba4b0fffb93157a782549d67009"),
    ("pj_set_errors", 1380, "fd575da087e3ad3b412c4a7c6d706109"),
    ("pj_set_fault", 1644, "a1d1fce266293291331e39a8af576c67"),
    ("pj_set_mark", 11379, "bd6b209bbc9d6104ddbaaca5c8defb38"),
    ("pj_set_up", 18723, "62023ff9d16860aa6fa3b02edaea4479"),
    ("pj_store", 12280, "9b74875b05b69652fa63947a9130c665"),
    ("pj_which_setting", 16426, "2bb04954bc7feb24de58b100ff78b8ce"),
    ("pj_write", 9226, "98f21fe0a8e3a1a2cdae5bce63660deb"),
];

impl<B: Side> Run<'_, B> {
    /// The cases from before, without those of Class 2.
    fn all_before(&mut self) -> bool {
        let mut agree = self.before(Run::first_rounds).is_ok() && self.before(Run::every).is_ok();
        while agree && self.agreed_before < ENOUGH {
            agree = self.before(Run::round).is_ok();
        }
        agree
    }
}

/// In the archive's place, the reference program, by whatever rules it is asked; it keeps the digests.
#[derive(Default)]
struct Digesting(BTreeMap<&'static str, (usize, [u8; 16])>);

/// The one call that was made in place then was another, for itself.
fn named_then(act: &Act) -> &'static str {
    if matches!(act, Act::PassInPlace { .. }) { "pj_pass_in_place" } else { tally::call(act) }
}

impl Side for Digesting {
    fn cuts(&self) -> bool {
        true
    }

    /// Nothing new: what was digested then was each call once.
    fn call_in_place(&mut self, device: &Device, act: &Act) -> Answer {
        Second.call(device, act)
    }

    fn call(&mut self, device: &Device, act: &Act) -> Answer {
        let answer = Second.call(device, act);
        let (count, digest) = self.0.entry(named_then(act)).or_default();
        let mut bytes = digest.to_vec();
        put_device(device, &mut bytes);
        put_act(act, &mut bytes);
        put_answer(&answer, &mut bytes);
        (*count, *digest) = (*count + 1, md5(&bytes));
        answer
    }
}

/// The record in the layout of then.
fn put_device(device: &Device, out: &mut Vec<u8>) {
    let Device { settings, own, connections } = device;
    for text in [&settings.name, &settings.maker, &settings.model, &settings.other, &settings.password] {
        text.put(out);
    }
    settings.input_count.put(out);
    settings.inputs.put(out);
    settings.lamp_count.put(out);
    settings.warm.put(out);
    settings.cool.put(out);
    own.power.put(out);
    own.left.put(out);
    own.chosen.put(out);
    [own.video_muted, own.audio_muted, own.fault].put(out);
    own.errors.put(out);
    own.lamps.put(out);
    own.enabled.put(out);
    connections.put(out);
}

/// A text that was read had 64 bytes.
fn put_reading(reading: &Reading, out: &mut Vec<u8>) {
    reading.number.put(out);
    [reading.kind, reading.first, reading.second].put(out);
    reading.count.put(out);
    reading.hours.put(out);
    reading.lit.put(out);
    reading.inputs.put(out);
    out.extend(&reading.text[..64]);
}

fn put_answer(answer: &Answer, out: &mut Vec<u8>) {
    match answer {
        Answer::Changed(changed) => {
            changed.number.put(out);
            put_device(&changed.device, out);
        }
        Answer::Setting(place) => place.put(out),
        Answer::Opened(opened, memory) => {
            opened.number.put(out);
            [opened.length, opened.place].put(out);
            put_device(&opened.device, out);
            memory.put(out);
        }
        Answer::Received(received, memory) => {
            received.number.put(out);
            [received.taken, received.length].put(out);
            put_device(&received.device, out);
            memory.put(out);
        }
        Answer::HandedOn(..) | Answer::Interleaved(..) => unreachable!("not one call"),
        Answer::Legal(legal) => legal.put(out),
        Answer::Digest(digest) => digest.put(out),
        Answer::Written(written, memory) => {
            written.put(out);
            memory.put(out);
        }
        Answer::Greeting(greeting) => greeting.put(out),
        Answer::Reading(reading) => put_reading(reading, out),
        Answer::PanelChanged(changed) => changed.put(out),
        Answer::PanelSent(sent, memory) => {
            sent.put(out);
            memory.put(out);
        }
        Answer::Compared(compared, places) => {
            compared.put(out);
            places.put(out);
        }
        Answer::Passed(..) => unreachable!("no call by value"),
        Answer::Verdict(verdict) => verdict.put(out),
        Answer::Plan(plan, rigs) => {
            plan.put(out);
            rigs.put(out);
        }
        Answer::Begun(..) | Answer::Recorded(..) | Answer::Played(..) | Answer::Kept(..) | Answer::PanelHeard(..) => {
            unreachable!("no such call")
        }
        Answer::Touched(_) => unreachable!("not of the second program"),
    }
}

#[test]
fn the_cases_are_the_same() {
    let mut digesting = Digesting::default();
    let mut run = Run { rules: Rules::Before, ..Run::new(SEED, &mut digesting) };
    assert!(run.all_before());
    let digests = digesting.0.iter().map(|(call, (count, digest))| (*call, *count, hex(*digest)));
    let expected = DIGESTS.iter().map(|&(call, count, digest)| (call, count, digest.as_bytes().try_into().unwrap()));
    assert_eq!(digests.collect::<Vec<_>>(), expected.collect::<Vec<(_, _, [u8; 32])>>());
}

/// In the archive's place, the reference program by the rules of now, on which those of then are tried as well.
#[derive(Default)]
struct ByBoth {
    same: usize,
    amended: BTreeMap<&'static str, usize>,
}

impl Side for ByBoth {
    fn cuts(&self) -> bool {
        true
    }

    fn call_in_place(&mut self, device: &Device, act: &Act) -> Answer {
        Second.call(device, act)
    }

    fn call(&mut self, device: &Device, act: &Act) -> Answer {
        let before = Rules::Before.by(|| Second.call(device, act));
        let now = Rules::Now.by(|| Second.call(device, act));
        if is_amended(act) {
            *self.amended.entry(tally::call(act)).or_default() += 1;
            stored_as_said(act, &before, &now);
        } else {
            self.same += 1;
            assert_eq!(before, now, "{act:?}");
        }
        now
    }
}

/// What RULES, Class 2, amends: the form that is stored, a form of version 3, what a controller is told of Class 2.
fn is_amended(act: &Act) -> bool {
    match act {
        Act::Store { .. } => true,
        Act::Load { bytes } => bytes.first() == Some(&3),
        Act::Write { command, .. } => is_new(*command),
        Act::ReadReply { command, line } => is_new(*command) || tells_class_2(*command, line),
        Act::Panel(call) => {
            let known = |panel: &Panel| panel.entries.iter().any(|e| is_new_input(e.input_type, e.input_number));
            let under_way = call.panel.entries.iter().any(|entry| is_new(entry.command));
            let asked = match &call.act {
                PanelAct::Command { command, .. } => is_new(*command),
                PanelAct::Line { projector, line } => {
                    call.panel.entries.get(*projector).is_some_and(|entry| tells_class_2(entry.command, line))
                }
                _ => false,
            };
            known(&call.panel) || under_way || asked
        }
        _ => false,
    }
}

/// No command before, and one now.
fn is_new(command: Command) -> bool {
    match command.code {
        3 => is_new_input(command.first, command.second),
        14..=23 => true,
        _ => false,
    }
}

/// Of type 6, or with a letter.
fn is_new_input(kind: u8, number: u8) -> bool {
    (1..=6).contains(&kind) && (1..=35).contains(&number) && (kind == 6 || number > 9)
}

/// A reply that tells a new input, or the class 2.
fn tells_class_2(command: Command, line: &[u8]) -> bool {
    let number = |letter: u8| if letter.is_ascii_digit() { letter - b'0' } else { letter.wrapping_sub(b'A' - 10) };
    let is_new = |pair: &[u8]| is_new_input(pair[0].wrapping_sub(b'0'), number(pair[1]));
    match command.code {
        2 | 8 => line.windows(2).any(is_new),
        13 => line.ends_with(b"=2\r"),
        _ => false,
    }
}

/// The form of version 3 is that of version 2 with another version byte and the class at its end, and nothing else.
fn stored_as_said(act: &Act, before: &Answer, now: &Answer) {
    let (Act::Store { lent }, Answer::Written(before, old), Answer::Written(now, new)) = (act, before, now) else {
        return;
    };
    match before.number {
        0 if lent.len() > before.length => {
            assert_eq!((now.number, now.length), (0, before.length + 1));
            assert_eq!((new[0], new[before.length]), (3, 1));
            assert_eq!(new[1..before.length], old[1..before.length]);
            assert_eq!(new[now.length..], lent[now.length..]);
        }
        0 => assert_eq!((now.number, now.length, new), (2, 0, lent)),
        _ => assert_eq!((now, new), (before, lent)),
    }
}

#[test]
fn the_answers_are_the_same() {
    let mut by_both = ByBoth::default();
    assert!(Run::new(SEED, &mut by_both).all_before());
    assert!(by_both.same > 590_000, "{}", by_both.same);
    let amended: Vec<_> = by_both.amended.keys().copied().collect();
    let expected = ["pj_load", "pj_panel_add", "pj_panel_command", "pj_panel_line", "pj_panel_lost", "pj_read_reply"];
    assert_eq!(amended, [&expected[..], &["pj_store", "pj_write"]].concat());
}
