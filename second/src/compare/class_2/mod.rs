//! Class 2 (RULES, Class 2): set-ups, records, lines, replies, stored forms and panels of both classes, of Class 2 more
//! often. What the cases share with those from before stands there; these take their random numbers from a source of
//! their own.

pub mod every_line;
pub mod every_panel;
pub mod every_reply;
pub mod every_setting;
pub mod forms;
pub mod histories;
pub mod lines;
pub mod panels;
pub mod records;
pub mod replies;
pub mod setups;

use super::{Compared, Run, panels as panels_1};
use crate::face::{Act, Device, PanelCall, Side};

impl<B: Side> Run<'_, B> {
    /// A little of everything.
    pub(super) fn round_2(&mut self) -> Compared {
        let case = histories::history(&mut self.random_2);
        self.compare(case)?;
        for field in 0..records::FIELDS {
            let mut device = records::legal(&mut self.random_2);
            records::damage(&mut self.random_2, &mut device, field);
            self.compare_call(device, Act::Legal)?;
        }
        for _ in 0..4 {
            let random = &mut self.random_2;
            let mut calls = Vec::new();
            for device in [records::damaged(random), records::legal(random)] {
                calls.push((device, histories::act(random, &device)));
                calls.push((device, forms::store(random, &device)));
                calls.push((device, forms::load(random, &device)));
                calls.push((device, forms::load(random, &device)));
            }
            for lent in [setups::any(random), setups::legal(random)].map(Box::new) {
                calls.push((Device::BLANK, Act::SetUp2(lent.clone())));
                calls.push((Device::BLANK, Act::WhichSetting2(lent)));
            }
            calls.push((Device::BLANK, replies::write(random)));
            calls.push(histories::stream(random));
            calls.push(histories::interleaved(random));
            self.compare_all(calls)?;
        }
        for _ in 0..24 {
            let random = &mut self.random_2;
            let (device, place) = records::between_lines(random);
            let bytes = lines::line(random, &device, place);
            let lent = random.memory(136);
            let read = replies::read_reply(random);
            self.compare_call(device, Act::Receive { place, bytes, lent })?;
            self.compare_call(Device::BLANK, read)?;
        }
        self.panels_2()
    }

    fn panels_2(&mut self) -> Compared {
        for act in panels_1::history(&mut self.random_2, panels::MAKING) {
            self.compare_call(Device::BLANK, act)?;
        }
        for _ in 0..4 {
            for panel in [panels::legal(&mut self.random_2), panels::damaged(&mut self.random_2)] {
                let act = panels_1::any_act(&mut self.random_2, &panel, panels::MAKING);
                self.compare_call(Device::BLANK, Act::Panel(Box::new(PanelCall { panel, act })))?;
            }
        }
        Ok(())
    }

    /// What leaves nothing to chance.
    pub(super) fn every_2(&mut self) -> Compared {
        every_line::cases().into_iter().try_for_each(|case| self.compare(case))?;
        every_line::halves(&mut self.random_2).into_iter().try_for_each(|case| self.compare(case))?;
        let calls = every_setting::calls(&mut self.random_2);
        self.compare_all(calls)?;
        let records = every_setting::records(&mut self.random_2);
        self.compare_all(records)?;
        let without_record = |act| (Device::BLANK, act);
        self.compare_all(every_reply::writes().into_iter().map(without_record))?;
        self.compare_all(every_reply::reads().into_iter().map(without_record))?;
        self.compare_all(every_panel::calls().into_iter().map(without_record))?;
        let loads = every_setting::loads(&mut self.random_2);
        self.compare_all(loads.into_iter().map(|bytes| without_record(Act::Load { bytes })))?;
        let stores = every_setting::stores(&mut self.random_2);
        self.compare_all(stores)
    }
}
