//! Whatever happens to a legal panel, it stays one, and the other projectors' entries are as they were.

use super::Panel;
use crate::compare::random::Random;
use crate::compare::{class_2, every_panel, panels};
use crate::face::{self, Act, Answer, Device, Side};
use crate::reference::side::Second;

#[test]
fn what_is_given_is_legal() {
    let mut random = Random::new(13);
    let mut calls = every_panel::calls(&mut random);
    calls.extend((0..400).flat_map(|_| panels::history(&mut random, panels::CLASS_1)));
    calls.extend((0..400).flat_map(|_| panels::history(&mut random, class_2::panels::MAKING)));
    calls.extend(class_2::every_panel::calls());
    let (mut served, mut refused) = (0, 0);
    for act in calls {
        let (number, given) = match Second.call(&Device::BLANK, &act) {
            Answer::PanelChanged(changed) => (changed.number, changed.panel),
            Answer::PanelSent(sent, _) => (sent.number, sent.panel),
            _ => unreachable!(),
        };
        let Act::Panel(call) = act else { unreachable!() };
        let legal = Panel::read(&given).is_some();
        if number != 0 {
            refused += 1;
            assert_eq!(given, call.panel);
            assert_eq!(number == 1, !legal);
            continue;
        }
        served += 1;
        assert!(legal, "{given:?}");
        assert_eq!(Panel::read(&given).map(|panel| panel.record()), Some(given));
        let named = call.act.projector().unwrap_or(call.panel.count);
        let others = |panel: &face::Panel| (0..8).filter(|&i| i != named).map(|i| panel.entries[i]).collect::<Vec<_>>();
        assert_eq!(others(&call.panel), others(&given));
    }
    assert!(served > 10_000 && refused > 10_000, "{served} {refused}");
}
