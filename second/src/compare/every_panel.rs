//! Panels (RULES, Panel) that leave nothing to chance: each field of each entry replaced, in use or not; each number of
//! a projector, each length of lent memory, each password. `panel_lines` has the lines, `panels` the histories.

use super::random::Random;
use super::records::{NO_FLAGS, set_text};
use super::{panel_lines, passwords};
use crate::face::{Act, Command, Entry, Flag, Panel, PanelAct, PanelCall};
use crate::reference::rules::knows_class_2;

pub fn calls(random: &mut Random) -> Vec<Act> {
    let mut all = vec![PanelCall { panel: Panel::NONE, act: PanelAct::None }];
    all.extend(on_broken_panels());
    all.extend(with_every_password(random));
    all.extend(every_number_and_room(random));
    all.extend(panel_lines::calls());
    all.into_iter().map(|call| Act::Panel(Box::new(call))).collect()
}

/// A projector at each moment: awaited, open and secured, with a command and without, led and not.
pub fn moments() -> Vec<Entry> {
    let asks_lamps = Command { code: 7, first: 1, second: 255 };
    let secured = Entry { greeting: 2, random: 0x498e_4a67, ..shown() };
    vec![
        shown(),
        Entry { greeting: 1, ..shown() },
        Entry { greeting: 1, under_way: Flag::YES, command: asks_lamps, ..shown() },
        secured,
        Entry { led: Flag::YES, ..secured },
        Entry { led: Flag::YES, under_way: Flag::YES, command: asks_lamps, ..secured },
        Entry { under_way: Flag::YES, command: asks_lamps, ..secured },
    ]
}

/// All readings known, five lamps.
fn shown() -> Entry {
    let mut entry = Entry {
        power_known: Flag::YES,
        power: 3,
        input_known: Flag::YES,
        input_type: 5,
        input_number: 9,
        ..Entry::NONE
    };
    set_text(&mut entry.password, b"JBMIAProjectorLink");
    (entry.lamps_known, entry.lamp_count, entry.strays) = (Flag::YES, 5, 17);
    entry.hours[..5].copy_from_slice(&[0, 412, 99_999, 1, 6]);
    entry.lit[..5].copy_from_slice(&[true, false, true, false, true].map(Flag::from));
    entry
}

/// The four calls that are lent a panel, on the first projector.
fn four_calls() -> [PanelAct; 4] {
    let (projector, command) = (0, Command { code: 0, first: 0, second: 0 });
    [
        PanelAct::Add { password: b"a".to_vec() },
        PanelAct::Command { projector, command, lent: vec![0xAA; 168] },
        PanelAct::Line { projector, line: b"%1LAMP=1 1\r".to_vec() },
        PanelAct::Lost { projector },
    ]
}

/// Three projectors and five places of none: each field of each of the eight replaced by each of its values. The four
/// calls take turns.
fn on_broken_panels() -> Vec<PanelCall> {
    let mut all = Vec::new();
    let moments = moments();
    for group in [[1, 2, 0], [5, 3, 0], [4, 2, 6]] {
        let whole = Panel::of(&group.map(|moment| moments[moment]));
        let unknown = Entry { password: whole.entries[1].password, ..Entry::NONE };
        let mut plain = whole;
        plain.entries[2] = unknown;
        for base in [whole, plain] {
            all.push(base);
            for place in 0..8 {
                all.extend(broken(&base.entries[place]).into_iter().map(|entry| {
                    let mut panel = base;
                    panel.entries[place] = entry;
                    panel
                }));
            }
            for count in [0, 1, 2, 3, 4, 7, 8, 9, 10, 255, 256, 259, 65_539, (1 << 32) + 3, (1 << 61) + 3, usize::MAX] {
                all.push(Panel { count, ..base });
            }
        }
    }
    all.into_iter().zip(four_calls().iter().cycle()).map(|(panel, act)| PanelCall { panel, act: act.clone() }).collect()
}

/// The entry with one field or one place of room replaced.
fn broken(entry: &Entry) -> Vec<Entry> {
    let mut all = Vec::new();
    let mut with = |change: &dyn Fn(&mut Entry)| {
        let mut broken = *entry;
        change(&mut broken);
        if broken != *entry {
            all.push(broken);
        }
    };
    for len in [0, 1, 17, 18, 19, 31, 32, 33, 63, 64, 65, 256, 274, usize::MAX] {
        with(&|e| e.password.len = len);
    }
    for place in 0..64 {
        with(&|e| e.password.bytes[place] = 0);
        with(&|e| e.password.bytes[place] = b'1');
        with(&|e| e.password.bytes[place] = b'-');
    }
    for byte in [0, 1, 2, 3, 4, 5, 6, 9, 10, 13, 14, 127, 128, 255] {
        with(&|e| e.greeting = byte);
        with(&|e| e.command.code = byte);
        with(&|e| e.command.first = byte);
        with(&|e| e.command.second = byte);
        with(&|e| e.power = byte);
        with(&|e| e.input_type = byte);
        with(&|e| e.input_number = byte);
        with(&|e| e.lamp_count = usize::from(byte));
    }
    [0, 1, u32::MAX].iter().for_each(|&random| with(&|e| e.random = random));
    with(&|e| e.led = !e.led);
    with(&|e| e.under_way = !e.under_way);
    with(&|e| e.power_known = !e.power_known);
    with(&|e| e.input_known = !e.input_known);
    with(&|e| e.lamps_known = !e.lamps_known);
    let no_flags = if knows_class_2() { &NO_FLAGS[..] } else { &[] };
    for &flag in no_flags {
        with(&|e| e.led = flag);
        with(&|e| e.under_way = flag);
        with(&|e| e.power_known = flag);
        with(&|e| e.input_known = flag);
        with(&|e| e.lamps_known = flag);
    }
    [4, 7, 8, 256, 261, (1 << 61) + 5, usize::MAX].iter().for_each(|&count| with(&|e| e.lamp_count = count));
    for place in 0..8 {
        [0, 1, 99_999, 100_000, u32::MAX].iter().for_each(|&hours| with(&|e| e.hours[place] = hours));
        with(&|e| e.lit[place] = !e.lit[place]);
        no_flags.iter().for_each(|&flag| with(&|e| e.lit[place] = flag));
    }
    [0, 1, 65_534, 65_535, 65_536, u32::MAX].iter().for_each(|&strays| with(&|e| e.strays = strays));
    all
}

/// Each password at panels of every count, and in a record; 256 characters too many look like none in eight bits.
fn with_every_password(random: &mut Random) -> Vec<PanelCall> {
    let mut all = Vec::new();
    for password in passwords::every(random).into_iter().chain([vec![b'a'; 64], vec![b'a'; 65], vec![b'a'; 256]]) {
        for count in [0, 1, 6, 7, 8] {
            let panel = Panel::of(&vec![shown(); count]);
            all.push(PanelCall { panel, act: PanelAct::Add { password: password.clone() } });
        }
        let mut entry = Entry { greeting: 2, random: random.word(), ..shown() };
        set_text(&mut entry.password, &password);
        all.extend(four_calls().map(|act| PanelCall { panel: Panel::of(&[entry]), act }));
    }
    all
}

/// Numbers of projectors that there are and are not, at panels of every count; commands into memory of each length.
fn every_number_and_room(random: &mut Random) -> Vec<PanelCall> {
    let mut all = Vec::new();
    let moments = moments();
    for count in 0..=8 {
        let panel = Panel::of(&moments.iter().cycle().copied().take(count).collect::<Vec<_>>());
        for number in (0..=9).chain([255, 256, 1 << 32, (1 << 32) + 1, 1 << 61, 1 << 63, usize::MAX - 1, usize::MAX]) {
            all.extend(four_calls().map(|act| PanelCall { panel, act: act.on(number) }));
        }
    }
    let mut broken = Panel::of(&moments);
    broken.entries[6].strays = 65_536;
    for length in 0..=170 {
        for projector in 0..=moments.len() {
            let command = Command { code: random.pick(&[0, 1, 3, 7, 14]), first: 1, second: 1 };
            let act = PanelAct::Command { projector, command, lent: random.memory(length) };
            all.push(PanelCall { panel: Panel::of(&moments), act });
        }
        let command = Command { code: 0, first: 0, second: 0 };
        let act = PanelAct::Command { projector: 0, command, lent: random.memory(length) };
        all.push(PanelCall { panel: broken, act });
    }
    all
}
