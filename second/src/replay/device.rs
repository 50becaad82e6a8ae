//! The device that a log is played on: ".. sample set-up, or the one of a stored form .. in the file that is named as
//! its argument".

use crate::reference::Projector;
use crate::reference::class::Class;
use crate::reference::set_up::SetUp;
use crate::reference::swap::load;
use crate::reference::text::Input;

/// W 20, C 60, one lamp at 0 s, input 11, texts empty, no password, every place closed.
pub fn sample() -> Projector {
    let set_up = SetUp {
        name: Vec::new(),
        maker: Vec::new(),
        model: Vec::new(),
        other: Vec::new(),
        password: Vec::new(),
        inputs: vec![Input { kind: 1, number: 1 }],
        warm: 20,
        cool: 60,
        class: Class::One,
    };
    set_up.fresh(vec![0])
}

/// Without a form the sample. "a form that does not load gives its number".
pub fn device(form: Option<&[u8]>) -> Result<Projector, u32> {
    let Some(form) = form else { return Ok(sample()) };
    let loaded = load(form);
    match loaded.number {
        0 => Ok(Projector::read(&loaded.device).expect("what loads is legal")),
        number => Err(number),
    }
}
