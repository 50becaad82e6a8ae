//! The calls that are lent a set-up, linked: `linked` has the others, and what makes each call safe.

use super::{Changed, Device, Lent, Lent2};

/// A call of the archive and a safe function for it. Each list is handed over as a pointer and a length, those of
/// Class 1 in C's order, then the two numbers, then the lists that Class 2 has besides.
macro_rules! link {
    (Lent, fn $safe:ident($($device:ident)?) -> $result:ty = $call:ident) => {
        link!(
            $safe, [$($device)?], |lent: &Lent| (lent), $result, $call,
            [name: u8, maker: u8, model: u8, other: u8, password: u8, inputs: u8, lamps: u32], []
        );
    };
    (Lent2, fn $safe:ident($($device:ident)?) -> $result:ty = $call:ident) => {
        link!(
            $safe, [$($device)?], |lent: &Lent2| (&lent.lent), $result, $call,
            [name: u8, maker: u8, model: u8, other: u8, password: u8, inputs: u8, lamps: u32],
            [serial: u8, version: u8, names: u8, name_lengths: usize]
        );
    };
    (
        $safe:ident, [$($device:ident)?], |$lent:ident: &$kind:ty| ($first:expr), $result:ty, $call:ident,
        [$($list:ident: $of:ty),*], [$($more:ident: $also:ty),*]
    ) => {
        unsafe extern "C" {
            fn $call(
                $($device: *mut Device,)?
                $(_: *const $of, _: usize,)*
                warm: u32,
                cool: u32,
                $(_: *const $also, _: usize,)*
            ) -> $result;
        }

        pub fn $safe($($device: &mut Device,)? $lent: &$kind) -> $result {
            let first: &Lent = $first;
            unsafe {
                $call(
                    $($device,)?
                    $(first.$list.as_ptr(), first.$list.len(),)*
                    first.warm,
                    first.cool,
                    $($lent.$more.as_ptr(), $lent.$more.len(),)*
                )
            }
        }
    };
}

link!(Lent, fn set_up() -> Changed = pj_set_up);
link!(Lent, fn which_setting() -> u32 = pj_which_setting);
link!(Lent, fn set_up_in_place(device) -> u32 = pj_set_up_in_place);
link!(Lent2, fn set_up_2() -> Changed = pj_set_up_2);
link!(Lent2, fn which_setting_2() -> u32 = pj_which_setting_2);
link!(Lent2, fn set_up_2_in_place(device) -> u32 = pj_set_up_2_in_place);
