//! The comparison: the same calls on the same inputs in both programs, every number, count, record field and lent byte.
//!
//! The cases from before Class 2 are made as they were, by the rules and the random numbers of then (`Rules::Before`),
//! and compared by those of now; `before` holds that they are the same. Class 2 has its own, beside them, and so have
//! recorded logs.

#[cfg(test)]
mod before;
pub mod class_2;
pub mod class_2_shrink;
pub mod controllers;
pub mod days;
pub mod every_form;
pub mod every_mark;
pub mod every_panel;
pub mod every_place;
pub mod forms;
pub mod histories;
pub mod in_place;
pub mod inputs;
pub mod lines;
pub mod messages;
pub mod names;
pub mod panel_lines;
pub mod panel_records;
pub mod panel_shrink;
pub mod panels;
pub mod passwords;
pub mod random;
pub mod recorded;
pub mod records;
pub mod replies;
pub mod report;
pub mod setups;
pub mod shrink;
pub mod tables;
pub mod tally;

use crate::face::{Act, Answer, Device, InPlace, Lent, PLACES, PanelCall, Side};
use crate::reference::in_place::mistaken;
use crate::reference::rules::Rules;
use crate::reference::sessions;
use crate::reference::side::Second;
use random::Random;
use report::Difference;
use std::rc::Rc;
use tally::Tally;

/// Nothing, or the smallest difference found.
type Compared = Result<(), Box<Difference>>;

/// A run has at least so many comparisons in the cases from before Class 2, and as many rounds in Class 2.
pub const ENOUGH: usize = 500_000;

/// So many rounds come before what leaves nothing to chance, so that most differences are found early.
const FIRST_ROUNDS: usize = 8;

/// How many smaller cases are tried at most, once one differs.
const TRIES: usize = 20_000;

/// Calls from a record on, each lent the record that the last one returned; a call that returns none hands its own on.
#[derive(Clone, PartialEq, Eq, Debug)]
pub struct Case {
    /// Shared by the cases that are made from one record.
    pub start: Rc<Device>,
    pub acts: Vec<Act>,
}

impl Case {
    fn of(device: impl Into<Rc<Device>>, acts: Vec<Act>) -> Case {
        Case { start: device.into(), acts }
    }

    fn one(device: impl Into<Rc<Device>>, act: Act) -> Case {
        Case::of(device, vec![act])
    }
}

/// One run over one board: how many calls agreed so far, and what they gave. A call that is made in place too is one.
pub struct Run<'a, B: Side> {
    random: Random,
    /// Of the cases in Class 2, so that they take nothing from the others.
    random_2: Random,
    /// Of the cases on recorded logs, likewise.
    random_3: Random,
    /// What a case is compared by.
    rules: Rules,
    board: &'a mut B,
    pub agreed: usize,
    /// Of these, made in place too.
    pub in_place: usize,
    /// Of these, in the cases from before Class 2.
    agreed_before: usize,
    pub met: Tally,
}

impl<'a, B: Side> Run<'a, B> {
    pub fn new(seed: u64, board: &'a mut B) -> Run<'a, B> {
        let (random, random_2, random_3) = (Random::new(seed), Random::new(!seed), Random::new(seed.reverse_bits()));
        let (rules, met) = (Rules::Now, Tally::default());
        Run { random, random_2, random_3, rules, board, agreed: 0, in_place: 0, agreed_before: 0, met }
    }

    /// Everything, until enough comparisons agreed; or the smallest difference found.
    pub fn all(&mut self) -> Result<usize, Box<Difference>> {
        self.before(Run::first_rounds)?;
        (0..FIRST_ROUNDS).try_for_each(|_| self.round_2())?;
        (0..FIRST_ROUNDS).try_for_each(|_| self.round_3())?;
        self.before(Run::every)?;
        self.every_2()?;
        self.every_3()?;
        while self.agreed_before < ENOUGH {
            self.before(Run::round)?;
            self.round_2()?;
            self.round_3()?;
        }
        Ok(self.agreed)
    }

    /// Cases from before Class 2, made by the rules of then.
    fn before(&mut self, cases: impl FnOnce(&mut Self) -> Compared) -> Compared {
        let agreed = self.agreed;
        let compared = Rules::Before.by(|| cases(self));
        self.agreed_before += self.agreed - agreed;
        compared
    }

    fn first_rounds(&mut self) -> Compared {
        (0..FIRST_ROUNDS).try_for_each(|_| self.round())
    }

    fn every(&mut self) -> Compared {
        self.every_code()?;
        self.every_body()?;
        self.messages()?;
        self.every_name()?;
        self.every_hours()?;
        self.every_form()?;
        self.every_password()?;
        self.every_input()?;
        self.every_panel()?;
        self.every_place()?;
        self.every_mark()
    }

    fn compare(&mut self, case: Case) -> Compared {
        self.rules.by(|| self.compare_now(case))
    }

    fn compare_now(&mut self, case: Case) -> Compared {
        let (agreed, in_place, met) = (&mut self.agreed, &mut self.in_place, &mut self.met);
        let count = |made: Made, act: &Act, answer: &Answer| {
            *match made {
                Made::ByValue => &mut *agreed,
                Made::InPlace => &mut *in_place,
                Made::Named => return met.count(made, act, answer),
            } += 1;
            met.count(made, act, answer);
        };
        if difference(&case, self.board, count).is_none() {
            return Ok(());
        }
        let smallest = shrink::smallest(case, TRIES, |case| difference(case, self.board, |_, _, _| ()).is_some());
        Err(Box::new(difference(&smallest, self.board, |_, _, _| ()).expect("it differed when it was found")))
    }

    fn compare_call(&mut self, device: Device, act: Act) -> Compared {
        self.compare(Case::one(device, act))
    }

    fn compare_all(&mut self, calls: impl IntoIterator<Item = (Device, Act)>) -> Compared {
        calls.into_iter().try_for_each(|(device, act)| self.compare_call(device, act))
    }

    /// Every value of every code that a byte holds, in a record and in a command.
    fn every_code(&mut self) -> Compared {
        for code in 0..=255 {
            let mut device = records::legal(&mut self.random);
            device.own.power = code;
            self.compare_call(device, Act::Legal)?;
            for place in 0..PLACES {
                let mut device = records::legal(&mut self.random);
                device.connections[place].phase = code;
                self.compare_call(device, Act::Legal)?;
            }
            for place in 0..6 {
                let mut device = records::legal(&mut self.random);
                device.own.errors[place] = code;
                self.compare_call(device, Act::Legal)?;
            }
            for place in 0..3 {
                let Act::Write { mut command, secured, random, password, lent } = replies::write(&mut self.random)
                else {
                    unreachable!()
                };
                *[&mut command.code, &mut command.first, &mut command.second][place] = code;
                self.compare_call(Device::BLANK, Act::Write { command, secured, random, password, lent })?;
            }
        }
        Ok(())
    }

    /// Every known body in every case of its letters, asked on an open connection.
    fn every_body(&mut self) -> Compared {
        for (_, name) in crate::reference::commands::BODIES {
            for cases in 0..16 {
                let mut line = b"%1".to_vec();
                line.extend((0..4).map(|i| if cases >> i & 1 == 1 { name[i].to_ascii_lowercase() } else { name[i] }));
                line.extend(b" ?\r");
                let (device, place) = records::open_between_lines(&mut self.random);
                let lent = self.random.memory(136);
                self.compare_call(device, Act::Receive { place, bytes: line, lent })?;
            }
        }
        Ok(())
    }

    fn messages(&mut self) -> Compared {
        for length in messages::short() {
            for act in messages::of_length(&mut self.random, length) {
                self.compare_call(Device::BLANK, act)?;
            }
        }
        for _ in 0..3 {
            let act = messages::long(&mut self.random);
            self.compare_call(Device::BLANK, act)?;
        }
        Ok(())
    }

    /// Names at the edges of what RFC 3629 allows.
    fn every_name(&mut self) -> Compared {
        names::every().into_iter().try_for_each(|name| self.name(name))
    }

    fn every_hours(&mut self) -> Compared {
        replies::every_hours().into_iter().try_for_each(|act| self.compare_call(Device::BLANK, act))
    }

    fn every_password(&mut self) -> Compared {
        let all = passwords::everywhere(&mut self.random);
        all.into_iter().try_for_each(|(device, act)| self.compare_call(device, act))
    }

    fn every_input(&mut self) -> Compared {
        let all = inputs::everywhere(&mut self.random);
        all.into_iter().try_for_each(|(device, act)| self.compare_call(device, act))
    }

    fn every_panel(&mut self) -> Compared {
        every_panel::calls(&mut self.random).into_iter().try_for_each(|act| self.compare_call(Device::BLANK, act))
    }

    fn every_mark(&mut self) -> Compared {
        every_mark::cases(&mut self.random).into_iter().try_for_each(|case| self.compare(case))
    }

    fn every_place(&mut self) -> Compared {
        every_place::cases(&mut self.random).into_iter().try_for_each(|case| self.compare(case))
    }

    /// A panel at work; then calls on panels in every state, legal and damaged.
    fn panels(&mut self) -> Compared {
        for act in panels::history(&mut self.random, panels::CLASS_1) {
            self.compare_call(Device::BLANK, act)?;
        }
        for _ in 0..8 {
            for panel in [panel_records::legal(&mut self.random), panel_records::damaged(&mut self.random)] {
                let act = panels::any_act(&mut self.random, &panel, panels::CLASS_1);
                self.compare_call(Device::BLANK, Act::Panel(Box::new(PanelCall { panel, act })))?;
            }
        }
        Ok(())
    }

    /// Stored forms in which everything is damaged, memory of every length for them; long ones last.
    fn every_form(&mut self) -> Compared {
        for (device, act) in every_form::stores(&mut self.random) {
            self.compare_call(device, act)?;
        }
        let mut loads = every_form::loads(&mut self.random);
        loads.extend(every_form::long_loads(&mut self.random));
        loads.into_iter().try_for_each(|bytes| self.compare_call(Device::BLANK, Act::Load { bytes }))
    }

    /// A name in each of its places: lent to a set-up, in a stored form, in a record, asked for, in a reply.
    fn name(&mut self, name: Vec<u8>) -> Compared {
        let lent = Lent { name: name.clone(), ..setups::legal(&mut self.random) };
        self.compare_call(Device::BLANK, Act::SetUp(lent.clone()))?;
        self.compare_call(Device::BLANK, Act::Load { bytes: forms::of(&lent) })?;
        self.compare_call(Device::BLANK, Act::WhichSetting(lent))?;
        let (mut device, place) = records::open_between_lines(&mut self.random);
        records::rename(&mut device, &name);
        self.compare_call(device, Act::Legal)?;
        let asked = Act::Receive { place, bytes: b"%1NAME ?\r".to_vec(), lent: self.random.memory(136) };
        self.compare_call(device, asked)?;
        self.compare_call(Device::BLANK, replies::named(&name))
    }

    /// A little of everything, so that a difference of any kind is found early.
    fn round(&mut self) -> Compared {
        for history in [histories::history, controllers::history] {
            let case = history(&mut self.random);
            self.compare(case)?;
        }
        for field in 0..records::fields() {
            let mut device = records::legal(&mut self.random);
            records::damage(&mut self.random, &mut device, field);
            self.compare_call(device, Act::Legal)?;
        }
        for _ in 0..8 {
            let device = records::damaged(&mut self.random);
            let act = histories::act(&mut self.random, &device);
            self.compare_call(device, act)?;
            let device = records::legal(&mut self.random);
            let act = histories::act(&mut self.random, &device);
            self.compare_call(device, act)?;
            let lent = setups::any(&mut self.random);
            self.compare_call(Device::BLANK, Act::SetUp(lent.clone()))?;
            self.compare_call(Device::BLANK, Act::WhichSetting(lent))?;
            let device = forms::record(&mut self.random);
            let act = forms::store(&mut self.random, &device);
            self.compare_call(device, act)?;
            for _ in 0..3 {
                let act = forms::load(&mut self.random, &device);
                self.compare_call(device, act)?;
            }
            let act = replies::write(&mut self.random);
            self.compare_call(Device::BLANK, act)?;
            let act = replies::read_greeting(&mut self.random);
            self.compare_call(Device::BLANK, act)?;
            let act = tables::compare_lamps(&mut self.random);
            self.compare_call(Device::BLANK, act)?;
            let act = days::check_day(&mut self.random);
            self.compare_call(Device::BLANK, act)?;
            let act = days::plan_day(&mut self.random);
            self.compare_call(Device::BLANK, act)?;
        }
        for _ in 0..24 {
            let (device, place) = records::between_lines(&mut self.random);
            let bytes = lines::line(&mut self.random, &device, place);
            let lent = self.random.memory(136);
            self.compare_call(device, Act::Receive { place, bytes, lent })?;
            let act = replies::read_reply(&mut self.random);
            self.compare_call(Device::BLANK, act)?;
        }
        for _ in 0..4 {
            self.stream()?;
            let (device, act) = controllers::interleaved(&mut self.random);
            self.compare_call(device, act)?;
            let name = names::any(&mut self.random);
            self.name(name)?;
        }
        self.panels()
    }

    /// A stream, handed to the board in random cuts, to the reference program whole.
    fn stream(&mut self) -> Compared {
        let random = &mut self.random;
        let device = records::legal(random);
        let place = random.below(PLACES);
        let bytes = lines::stream(random, &device, place);
        let pieces = random.pick(&[1, 2, 5, 20]);
        let mut cuts: Vec<usize> = (0..pieces).map(|_| random.below(bytes.len() + 1)).collect();
        if random.one_in(8) {
            cuts = (0..bytes.len()).collect();
        }
        cuts.sort_unstable();
        self.compare_call(device, Act::HandOn { place, bytes, cuts })
    }
}

/// How a call is made: with a record by value, or on one that is lent and changes where it lies.
#[derive(Clone, Copy, PartialEq, Eq, Debug)]
pub enum Made {
    ByValue,
    InPlace,
    /// In place, in a session that is named, telling the places that time closed, or telling what a line was.
    Named,
}

/// Where the two programs first differ in this case, if they do; `agree` hears of each call before that. Each call that
/// may be made in place is made by value and in place, on equal records but where it fills one.
fn difference(case: &Case, board: &mut impl Side, mut agree: impl FnMut(Made, &Act, &Answer)) -> Option<Difference> {
    let mut device = *case.start;
    for (place, act) in case.acts.iter().enumerate() {
        let difference = |made, device: &Device, expected, given| {
            Some(Difference { case: case.clone(), place, made, device: *device, expected, given })
        };
        let expected = Second.answer(&device, act);
        let given = board.answer(&device, act);
        if expected != given {
            return difference(Made::ByValue, &device, expected, given);
        }
        agree(Made::ByValue, act, &given);
        if act.has_in_place() {
            let lent = in_place::there(&device, act);
            let mistaken = mistaken(lent, act, &expected);
            let left = InPlace(board).answer(lent, act);
            if left != *mistaken.as_ref().unwrap_or(&expected) {
                return difference(Made::InPlace, lent, mistaken.unwrap_or(expected), left);
            }
            agree(Made::InPlace, act, &left);
        }
        for random in sessions::numbers(&device, act) {
            let expected = sessions::named(&device, random, act, expected.clone());
            let Some(given) = board.call_named(&device, random, act) else { break };
            if given != expected {
                return difference(Made::Named, &device, expected, given);
            }
            agree(Made::Named, act, &given);
        }
        device = given.device().copied().unwrap_or(device);
    }
    None
}
