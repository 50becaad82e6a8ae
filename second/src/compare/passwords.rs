//! Passwords of every length (RULES, Passwords), in each of their places.

use super::random::Random;
use super::{forms, records, setups};
use crate::face::{Act, Command, Device, Lent};

/// Every length up to one too many: letters and digits; then with another character at the start, within or at the end.
pub fn every(random: &mut Random) -> Vec<Vec<u8>> {
    let mut all = Vec::new();
    for length in 0..=33 {
        let good = random.letters_or_digits(length);
        if length > 0 {
            for place in [0, length / 2, length - 1] {
                let mut bad = good.clone();
                bad[place] = random.pick(b"\0 -/:@[`{\x7F\x80\xFF");
                all.push(bad);
            }
        }
        all.push(good);
    }
    all
}

/// Each one lent to a set-up and told of, alone and with each other setting out of its range; in a stored form, whole,
/// cut short and with a byte left over; in a record that is asked about, stored or let time pass; at the writer.
pub fn everywhere(random: &mut Random) -> Vec<(Device, Act)> {
    let mut all = Vec::new();
    for password in every(random) {
        let lent = Lent { password: password.clone(), ..setups::legal(random) };
        for lent in beside_others(lent) {
            all.push((Device::BLANK, Act::SetUp(lent.clone())));
            all.push((Device::BLANK, Act::WhichSetting(lent.clone())));
            all.push((Device::BLANK, Act::Load { bytes: forms::of(&lent) }));
        }
        let form = forms::of(&Lent { password: password.clone(), ..forms::common() });
        all.push((Device::BLANK, Act::Load { bytes: form.clone() }));
        all.push((Device::BLANK, Act::Load { bytes: form[..form.len() - 1].to_vec() }));
        all.push((Device::BLANK, Act::Load { bytes: [&form[..], b"1"].concat() }));
        let mut device = records::legal(random);
        records::set_text(&mut device.settings.password, &password);
        let acts = [Act::Legal, Act::Store { lent: random.memory(forms::ROOM) }, Act::Pass { seconds: 1 }];
        all.extend(acts.map(|act| (device, act)));
        for secured in [false, true] {
            let command = Command { code: 1, first: 1, second: 0 };
            let (number, password, lent) = (random.word(), password.clone(), random.memory(168));
            all.push((Device::BLANK, Act::Write { command, secured, random: number, password, lent }));
        }
    }
    all
}

/// The settings, and with each other setting out of its range.
fn beside_others(lent: Lent) -> Vec<Lent> {
    let mut all = vec![
        Lent { name: b"\x1F".to_vec(), ..lent.clone() },
        Lent { maker: b"ERR1".to_vec(), ..lent.clone() },
        Lent { model: vec![b' '; 33], ..lent.clone() },
        Lent { other: b"\0".to_vec(), ..lent.clone() },
        Lent { inputs: Vec::new(), ..lent.clone() },
        Lent { inputs: b"1".to_vec(), ..lent.clone() },
        Lent { lamps: vec![0; 9], ..lent.clone() },
        Lent { warm: 0, ..lent.clone() },
        Lent { cool: 601, ..lent.clone() },
    ];
    all.push(lent);
    all
}
