//! A comparison that cannot fail is worth nothing: each deliberate mistake of `reference::rules` is made in turn, and
//! the comparison has to find it.

use crate::compare::Run;
use crate::face::Side;
use crate::reference::rules::{MISTAKES, make};

/// Whether every mistake was found.
pub fn all_found(seed: u64, board: &mut impl Side) -> bool {
    let mut missed = 0;
    for &(mistake, words) in MISTAKES {
        make(Some(mistake));
        let mut run = Run::new(seed, board);
        let found = run.all();
        make(None);
        match found {
            Ok(agreed) => {
                missed += 1;
                println!("NOT FOUND in {agreed} comparisons: {words}");
            }
            Err(difference) => {
                println!("found after {} comparisons: {words}", run.agreed);
                print!("{}", difference.to_string().replace("by the rules", "by the mistake"));
            }
        }
    }
    println!("{} of {} deliberate mistakes found, seed {seed}", MISTAKES.len() - missed, MISTAKES.len());
    missed == 0
}

#[cfg(test)]
mod tests {
    use super::*;
    use crate::face::{Act, Answer, Device};
    use crate::reference::rules::unmistaken;
    use crate::reference::side::Second;

    /// In the archive's place, the reference program without the mistake: the generators can be tried with no archive.
    struct WithoutMistake;

    impl Side for WithoutMistake {
        fn call(&mut self, device: &Device, act: &Act) -> Answer {
            unmistaken(|| Second.call(device, act))
        }

        fn call_in_place(&mut self, device: &Device, act: &Act) -> Answer {
            unmistaken(|| Second.call_in_place(device, act))
        }

        fn call_named(&mut self, device: &Device, random: u32, act: &Act) -> Option<Answer> {
            unmistaken(|| Second.call_named(device, random, act))
        }

        fn cuts(&self) -> bool {
            true
        }
    }

    #[test]
    fn each_mistake_is_found() {
        assert!(all_found(2, &mut WithoutMistake));
    }

    #[test]
    fn no_mistake_no_difference() {
        let agreed = Run::new(1, &mut WithoutMistake).all();
        assert!(agreed.is_ok(), "{}", agreed.unwrap_err());
    }

    /// Every number that the table of RULES gives a call, every kind of reply and every kind of reading, and not just
    /// once.
    #[test]
    fn a_run_meets_everything() {
        let mut board = WithoutMistake;
        let mut run = Run::new(1, &mut board);
        assert!(run.all().is_ok());
        for (call, kinds) in [
            ("pj_set_up", "served !3 !8"),
            ("pj_set_up_2", "served !3 !8"),
            ("pj_close", "served !1 !3 !4"),
            ("pj_pass", "served !1"),
            ("pj_pass_in_place", "served !1"),
            ("pj_set_fault", "served !1"),
            ("pj_set_errors", "served !1 !3"),
            ("pj_set_mark", "served !1 !3 !7"),
            ("pj_legal", "true false"),
            ("pj_store", "served !1 !2"),
            ("pj_load", "served !20 !21 !22 !23"),
            ("pj_open", "!1 !2 !6"),
            ("pj_receive", "!1 !2 !3 !4 none OK ERR1 ERR2 ERR3 ERR4"),
            ("pj_receive", "POWR INPT AVMT ERST LAMP INST NAME INF1 INF2 INFO CLSS"),
            ("pj_receive", "%2OK %2ERR1 %2ERR2 %2ERR3 %2ERR4 %2INPT %2INST %2FREZ %2SNUM %2SVER %2INNM"),
            ("place that pj_open tells", "0 1 2 3"),
            ("place that pj_close names", "0 1 2 3 none"),
            ("place that pj_receive names", "0 1 2 3 none"),
            ("streams at four places", "served"),
            ("pj_write", "!2 !3"),
            ("pj_read_greeting", "!10"),
            ("pj_read_reply", "!3 !10 !11 !12"),
            ("pj_set_up_in_place", "served !3 !8"),
            ("pj_set_up_2_in_place", "served !3 !8"),
            ("pj_close_in_place", "served !1 !3 !4"),
            ("pj_set_fault_in_place", "served !1"),
            ("pj_set_errors_in_place", "served !1 !3"),
            ("pj_set_mark_in_place", "served !1 !3 !7"),
            ("pj_legal_in_place", "true false"),
            ("pj_store_in_place", "served !1 !2"),
            ("pj_load_in_place", "served !20 !21 !22 !23"),
            ("pj_open_in_place", "!1 !2 !6"),
            ("pj_receive_session_in_place", "!1 !2 !3 !4 none OK ERR1 ERR2 ERR3 ERR4 POWR %2OK %2INNM"),
            ("pj_close_session_in_place", "served !1 !3 !4"),
            ("pj_pass_telling_in_place", "!1 0 1 2 3 8 15"),
            ("pj_receive_in_place", "!1 !2 !3 !4 none OK ERR1 ERR2 ERR3 ERR4 POWR %2OK %2INNM"),
            ("streams in cuts, in place", "served !4"),
            ("streams at four places, in place", "served"),
            ("pj_panel_add", "served !1 !3"),
            ("pj_panel_command", "led !1 !2 !3 !9"),
            ("pj_panel_line", "!1 !3 ERRA late shown ended"),
            ("pj_panel_lost", "served !1 !3"),
            ("pj_panel_add_in_place", "served !1 !3"),
            ("pj_panel_command_in_place", "led !1 !2 !3 !9"),
            ("pj_panel_line_in_place", "!1 !3 ERRA late shown ended"),
            ("pj_panel_lost_in_place", "served !1 !3"),
            ("pj_compare_lamps", "!3 none back"),
            ("pj_plan_day", "!3 planned unplanned"),
            ("pj_log_begun", "served"),
            ("pj_log_file", "L !2 !3"),
            ("pj_log_opened", "O !2 !3"),
            ("pj_log_received", "R B !2 !3"),
            ("pj_log_passed", "T !2 !3"),
            ("pj_log_closed", "X !2 !3"),
            ("pj_log_fault", "F !2 !3"),
            ("pj_log_errors", "E !2 !3"),
            ("pj_log_mark", "M !2 !3"),
            ("pj_log_stated", "S !1 !2 !3"),
            ("pj_log_play", "none !1 !2 !3 !4 OK ERR3"),
            ("logs kept and played", "served"),
        ] {
            for kind in kinds.split(' ') {
                assert!(run.met.times(call, kind) >= 100, "{call} {kind}: {}", run.met.times(call, kind));
            }
        }
        let of_kind = |call, kind: usize| run.met.times(call, &format!("kind {kind}"));
        (1..=3).for_each(|kind| assert!(of_kind("pj_read_greeting", kind) >= 100, "greeting {kind}"));
        (0..=4).for_each(|rule| assert!(run.met.times("pj_check_day", &format!("rule {rule}")) >= 100, "rule {rule}"));
        (1..=12).for_each(|kind| assert!(of_kind("pj_read_reply", kind) >= 100, "reading {kind}"));
        (1..=6).for_each(|kind| assert!(of_kind("pj_panel_hear_in_place", kind) >= 100, "heard {kind}"));
        let told = |place| run.met.times("pj_which_setting", &format!("setting {place}"));
        (0..=9).for_each(|place| assert!(told(place) >= 100, "setting {place}: {}", told(place)));
        let told = |place| run.met.times("pj_which_setting_2", &format!("setting {place}"));
        (0..=12).for_each(|place| assert!(told(place) >= 50, "setting {place} of Class 2: {}", told(place)));
        ["PJLINK 0", "PJLINK 1"].iter().for_each(|greeting| assert!(run.met.times("pj_open", greeting) >= 100));
        assert!(run.met.times("pj_receive", "PJLINK E") >= 100);
        ["!6", "!7", "LAMP"].iter().for_each(|kind| assert!(run.met.times("pj_log_play", kind) >= 5, "{kind}"));
        ["PJLINK 0", "PJLINK 1", "PJLINK E"].iter().for_each(|line| assert!(run.met.times("pj_log_play", line) >= 100));
        assert!(run.met.times("pj_panel_command", "not led") >= 100);
        for kind in ["PJLINK 0", "PJLINK 1", "before the greeting", "malformed or foreign", "not counted any more"] {
            assert!(run.met.times("pj_panel_line", kind) >= 100, "{kind}");
        }
    }
}
