//! What Class 2 (RULES, Class 2) adds to a record, a set-up and a stored form, cut down: `shrink` has the rest.

use super::shrink::shorter;
use crate::face::{Device, Lent2, Name, Text};
use crate::reference::class::{Texts, names_of};
use crate::reference::form::{Stored, StoredClass};

/// The record in Class 1, without its last inputs and their names, without a name, a serial number or a version.
pub fn plainer_records(device: &Device) -> Vec<Device> {
    let mut all = Vec::new();
    let mut change = |change: &dyn Fn(&mut Device)| {
        let mut plainer = *device;
        change(&mut plainer);
        if plainer != *device {
            all.push(plainer);
        }
    };
    if device.settings.class_number == 2 {
        change(&|d| {
            d.settings.class_number = 1;
            (d.settings.serial, d.settings.version) = (Text::EMPTY, Text::EMPTY);
            d.settings.names = [Name::EMPTY; 32];
        });
    }
    for count in [1, 2, device.settings.input_count / 2, device.settings.input_count.saturating_sub(1)] {
        if (1..device.settings.input_count.min(33)).contains(&count) {
            change(&|d| {
                d.settings.input_count = count;
                d.settings.inputs[2 * count..].fill(0);
                d.settings.names[count..].fill(Name::EMPTY);
                d.own.chosen = d.own.chosen.min(count - 1);
            });
        }
    }
    change(&|d| d.settings.names = [Name::EMPTY; 32]);
    change(&|d| d.settings.serial = Text::EMPTY);
    change(&|d| d.settings.version = Text::EMPTY);
    for place in 0..32 {
        change(&|d| d.settings.names[place] = Name::EMPTY);
        for len in [1, device.settings.names[place].len / 2, device.settings.names[place].len.wrapping_sub(1)] {
            if len < device.settings.names[place].len && len < 128 {
                change(&|d| {
                    d.settings.names[place].len = len;
                    d.settings.names[place].bytes[len..].fill(0);
                });
            }
        }
    }
    all
}

pub fn simpler_set_ups(lent: &Lent2) -> Vec<Lent2> {
    let Lent2 { lent: first, serial, version, names, name_lengths } = lent;
    let mut all = Vec::new();
    if let Some(names) = names_of(names, name_lengths) {
        let texts = Texts { serial: serial.clone(), version: version.clone(), names };
        for (inputs, texts) in simpler_texts(&first.inputs, &texts) {
            let mut simpler = lent.clone();
            simpler.lent.inputs = inputs;
            (simpler.serial, simpler.version) = (texts.serial, texts.version);
            simpler.name_lengths = texts.names.iter().map(Vec::len).collect();
            simpler.names = texts.names.concat();
            all.push(simpler);
        }
    }
    all.extend(super::shrink::simpler_set_ups(first).into_iter().map(|first| Lent2 { lent: first, ..lent.clone() }));
    all.extend(shorter(names).map(|names| Lent2 { names, ..lent.clone() }));
    all.extend(shorter(name_lengths).map(|name_lengths| Lent2 { name_lengths, ..lent.clone() }));
    all
}

/// The form without its class, in Class 1, or with simpler texts.
pub fn simpler_classes(stored: &Stored) -> Vec<Stored> {
    let Some(StoredClass { byte, texts }) = &stored.class else { return Vec::new() };
    let in_class_1 = StoredClass { byte: 1, texts: Texts::default() };
    let mut all = vec![Stored { class: None, ..stored.clone() }];
    if *byte == 2 {
        all.push(Stored { class: Some(in_class_1), ..stored.clone() });
        for (inputs, texts) in simpler_texts(&stored.lent.inputs, texts) {
            let mut simpler = Stored { class: Some(StoredClass { byte: 2, texts }), ..stored.clone() };
            simpler.lent.inputs = inputs;
            all.push(simpler);
        }
    }
    all
}

/// Fewer inputs, each with its name; shorter texts.
fn simpler_texts(inputs: &[u8], texts: &Texts) -> Vec<(Vec<u8>, Texts)> {
    let mut all = Vec::new();
    if inputs.len() == 2 * texts.names.len() {
        let listed: Vec<(&[u8], &Vec<u8>)> = inputs.chunks_exact(2).zip(&texts.names).collect();
        for fewer in shorter(&listed) {
            let names = fewer.iter().map(|(_, name)| name.to_vec()).collect();
            let inputs = fewer.iter().flat_map(|(input, _)| input.to_vec()).collect();
            all.push((inputs, Texts { names, ..texts.clone() }));
        }
    }
    let mut with = |texts: Texts| all.push((inputs.to_vec(), texts));
    shorter(&texts.serial).for_each(|serial| with(Texts { serial, ..texts.clone() }));
    shorter(&texts.version).for_each(|version| with(Texts { version, ..texts.clone() }));
    for place in 0..texts.names.len() {
        for name in shorter(&texts.names[place]) {
            let mut simpler = texts.clone();
            simpler.names[place] = name;
            with(simpler);
        }
    }
    all
}
