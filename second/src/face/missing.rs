//! No archive was there when this program was built.

use super::{Act, Answer, Device, Side};

pub struct Board;

impl Board {
    pub fn start() -> Board {
        eprintln!("built without libboard.a: run `./archive` at the repository's root, then build again");
        std::process::exit(2);
    }
}

impl Side for Board {
    fn cuts(&self) -> bool {
        true
    }

    fn call(&mut self, _: &Device, _: &Act) -> Answer {
        unreachable!("Board::start does not return")
    }

    fn call_in_place(&mut self, _: &Device, _: &Act) -> Answer {
        unreachable!("Board::start does not return")
    }
}
