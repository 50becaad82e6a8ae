//! Inputs by their count (RULES, Inputs), in each of their places.

use super::random::Random;
use super::{forms, records, setups};
use crate::face::{Act, Command, Device, Flag, Lent};

/// None to all 45: lent to a set-up and told of, in a stored form, in a reply; where a record has room for them, in one
/// that lists them, and on which each is chosen and asked for.
pub fn everywhere(random: &mut Random) -> Vec<(Device, Act)> {
    let all_inputs = setups::all_inputs();
    let mut all = Vec::new();
    for count in 0..=45 {
        let inputs = &all_inputs[..2 * count];
        let lent = Lent { inputs: inputs.to_vec(), ..setups::legal(random) };
        all.push((Device::BLANK, Act::SetUp(lent.clone())));
        all.push((Device::BLANK, Act::Load { bytes: forms::of(&lent) }));
        all.push((Device::BLANK, Act::WhichSetting(lent)));
        all.push((Device::BLANK, told(inputs)));
        if inputs.len() <= Device::BLANK.settings.inputs.len() {
            all.extend(in_a_record(random, inputs));
        }
    }
    all
}

/// The reply to INST, read.
fn told(inputs: &[u8]) -> Act {
    let list: Vec<&[u8]> = inputs.chunks_exact(2).collect();
    let line = [b"%1INST=", &list.join(&b' ')[..], b"\r"].concat();
    Act::ReadReply { command: Command { code: 8, first: 0, second: 0 }, line }
}

fn in_a_record(random: &mut Random, inputs: &[u8]) -> Vec<(Device, Act)> {
    let (mut device, place) = records::open_between_lines(random);
    device.own.power = 1;
    device.own.left = 0;
    device.own.fault = Flag::NO;
    device.own.chosen = 0;
    device.settings.input_count = inputs.len() / 2;
    device.settings.inputs = [0; 64];
    device.settings.inputs[..inputs.len()].copy_from_slice(inputs);
    let mut asked = |device: Device, line: &[u8]| {
        let act = Act::Receive { place, bytes: [line, b"\r"].concat(), lent: random.memory(136) };
        (device, act)
    };
    let mut all = vec![asked(device, b"%1INST ?"), asked(device, b"%1INPT 59")];
    for (listed, input) in inputs.chunks_exact(2).enumerate() {
        all.push(asked(device, &[b"%1INPT ", input].concat()));
        device.own.chosen = listed;
        all.push(asked(device, b"%1INPT ?"));
    }
    device.own.chosen = inputs.len() / 2;
    all.extend([(device, Act::Legal), (device, Act::Store { lent: random.memory(forms::ROOM) })]);
    device.own.chosen = 0;
    all.extend([(device, Act::Legal), (device, Act::Store { lent: random.memory(forms::ROOM) })]);
    all
}

#[cfg(test)]
mod tests {
    use super::*;
    use crate::compare::lines;
    use crate::reference::{calls, swap};

    fn with(count: usize) -> Lent {
        Lent { inputs: setups::all_inputs()[..2 * count].to_vec(), ..forms::common() }
    }

    /// "Raise 16 to 32."
    #[test]
    fn one_to_32_are_taken() {
        for count in 0..=45 {
            let taken = (1..=32).contains(&count);
            assert_eq!(calls::set_up(&with(count)).number, if taken { 0 } else { 3 });
            assert_eq!(calls::which_setting(&with(count)), if taken { 0 } else { 6 });
            assert_eq!(swap::load(&forms::of(&with(count))).number, if taken { 0 } else { 23 });
        }
    }

    /// "INST now takes up to 95 bytes of parameter, so the longest reply is 103".
    #[test]
    fn the_longest_reply_is_103() {
        let fresh = calls::set_up(&Lent { password: Vec::new(), ..with(32) }).device;
        let opened = calls::open(&fresh, 0, &mut [0; 136]).device;
        assert_eq!(calls::receive(&opened, 0, b"%1INST ?\r", &mut [0; 136]).length, 7 + 95 + 1);
        let mut random = Random::new(1);
        for _ in 0..50_000 {
            let (device, place) = records::between_lines(&mut random);
            let line = lines::line(&mut random, &device, place);
            assert!(calls::receive(&device, place, &line, &mut [0; 136]).length <= 103);
        }
    }

    /// "Stored forms with up to 16 inputs keep their bytes".
    #[test]
    fn sixteen_inputs_and_seventeen_in_a_form() {
        let (before, after) = (1 + 12 + 6 + 3 + 5 + 9, 9 + 4);
        for (count, section) in
            [(16, &b"\x1011121314151617181921222324252627"[..]), (17, b"\x111112131415161718192122232425262728")]
        {
            let form = forms::old(&with(count));
            assert_eq!(&form[before..form.len() - after], section);
            assert_eq!(form[..before], forms::old(&with(1))[..before]);
            assert_eq!(form[0], 1);
        }
    }
}
