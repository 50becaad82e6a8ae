//! Pages drawn by hand, as RULES has them, and not as the program writes them.

use super::drawn::{Row, Span, short, timed};
use super::*;

/// What has to be seen, in words of its own.
fn page(drawn: &Drawn) -> String {
    let first = match &drawn.asked.began {
        Some(began) => format!("The log began on {} at {}, and on.", began.day(1), began.time()),
        None => "This page knows no clock: none.".to_string(),
    };
    let row = shows::row_word(drawn);
    let mut page = "<!doctype html><html><style>\n.m{fill:#123456}\n</style><body><dl>".to_string();
    for [term, said] in drawn.about() {
        page += &format!("<dt>{term}</dt><dd>{said}</dd>");
    }
    page += &format!("</dl><p>{}</p><p>{first} A row is a {row}.</p>", drawn.log_span());
    for said in drawn.legend().into_iter().chain(drawn.longest()) {
        page += &format!("<p>{said}</p>");
    }
    page += "<table><thead><tr><th>day</th><th>lamp</th><th>";
    for (second, name) in drawn.scale.heads(drawn.asked.began.is_some()) {
        let share = second as f64 * 100.0 / drawn.scale.wide() as f64;
        page += &format!("<span style='left:{share:.3}%'>{name}</span>");
    }
    page += "</th><th>burnt</th></tr></thead><tbody>";
    for row in drawn.rows() {
        let name = drawn.name(&row);
        page += &match row {
            Row::Idle(..) => format!("<tr><th>{name}</th><td>no lamp burnt</td></tr>"),
            Row::Long(_) => format!("<tr><th>{name}</th><td>{}</td></tr>", drawn.long_words()),
            Row::Days(first, _) => picture(drawn, &name, drawn.span(first)),
        };
    }
    page += "</tbody></table><table><thead><tr><td>lamp</td><td>at the start</td><td>burnt</td><td>now</td>";
    if let Some(hours) = drawn.asked.life {
        page += &format!("<td>left of {hours} h</td><td>until, at this log's pace</td>");
    }
    page += "</tr></thead><tbody>";
    for (place, sum) in drawn.sums.iter().enumerate() {
        let [start, burnt, now] = [sum.start.into(), sum.burnt, sum.now.into()].map(timed);
        page += &format!("<tr><td>lamp {}</td><td>{start}</td><td>{burnt}</td><td>{now}</td>", place + 1);
        for cell in drawn.left(sum).into_iter().flatten() {
            page += &format!("<td>{cell}</td>");
        }
        page += "</tr>";
    }
    page += "</tbody></table>";
    if let Some(words) = &drawn.stray {
        page += &format!("<p>{words}</p>");
    }
    if !drawn.unplayed.is_empty() {
        page += &format!("<p>{}</p>", drawn.unplayed.trim_end().replace('\n', " "));
    }
    page + &stretches(drawn) + "</body></html>"
}

fn picture(drawn: &Drawn, name: &str, span: &Span) -> String {
    let names = (1..=span.lamps.len()).map(|lamp| format!("<b>lamp {lamp}</b>")).collect::<String>();
    let (wide, height) = (drawn.scale.wide(), 1 + 18 * span.lamps.len());
    let mut row =
        format!("<tr><th>{name}</th><td>{names}</td><td><svg viewBox=\"0 0 {wide} {height}\" height={height}");
    row += &format!(" preserveAspectRatio=\"none\" aria-label='when each lamp burnt on {name}'>");
    let (from, to) = span.band();
    for (lamp, bars) in span.lamps.iter().enumerate() {
        let lane = 3 + 18 * lamp;
        let band = format!("<rect height='10' y='{lane}' x='{from}' width='{}' fill='#eeeeee'/>", to - from);
        let lines = drawn.scale.lines().into_iter().filter(|line| from < *line && *line < to);
        let lines = lines.map(|line| format!("M{line} {lane}v10")).collect::<String>();
        row += &format!("<g>{band}<path d='{lines}'/></g>");
        for bar in bars.iter().rev() {
            let (x, width, title) = (bar.from, bar.seconds(), bar.title());
            row += &format!("<rect y='{lane}' height='10' fill='#000000' x='{x}' width='{width}'>");
            row += &format!("<title>{title}</title></rect>\n");
            if !bar.note().is_empty() {
                let y = lane + 4;
                row += &format!("<rect y='{y}' height='2' fill='#ffffff' x='{x}' width='{width}'/>");
            }
        }
    }
    row + &format!("</svg></td><td>{}</td></tr>", short(drawn.burnt_in(span)))
}

fn stretches(drawn: &Drawn) -> String {
    if drawn.told.is_empty() {
        return "<p>No lamp burnt.</p>".to_string();
    }
    let row = |cells: [String; 5]| format!("<tr>{}</tr>", cells.map(|cell| format!("<td>{cell}</td>")).concat());
    let heads = row(["lamp", "from", "to", "burnt", "note"].map(String::from));
    let rows = drawn.told.iter().map(|told| row(drawn.listed(told))).collect::<String>();
    format!("<table><thead>{heads}</thead><tbody>{rows}</tbody></table>")
}

/// Every kind of page, and the short ones not just once; each shows what it has to, and each mistake in it is seen.
#[test]
fn pages_show_the_mistakes() {
    let mut met = Met::default();
    for number in (0..FIXED + 300).filter(|number| number + 1 != FIXED) {
        let case = nth(3, number);
        let began = if number % 2 == 0 { moment("2028-02-26T21:05:07") } else { None };
        let [long, life] = [number / 2 % 2, number / 4 % 2].map(|is| (is == 1).then_some(2 + number as u128 % 30));
        let files = Files {
            form: case.form().map(|_| format!("a<{number}>&.form")),
            logs: (0..number / 8 % 4)
                .map(|file| if file == 2 { "-".to_string() } else { format!("<{file}.log") })
                .collect(),
        };
        let expected = expected(case.form(), &case.fed.log, Asked { began, long, life }, files);
        let printed = match &expected {
            Ok(drawn) => page(drawn),
            Err(_) => String::new(),
        };
        assert_eq!(fault(&expected, printed.as_bytes()), Ok(()), "log {number}");
        let given = given(&expected, printed.as_bytes(), &mut Random::new(number as u64));
        met.count(&case, &expected, &given.unwrap_or_else(|words| panic!("log {number}: NOT SEEN: {words}")));
    }
    for kind in met::KINDS {
        let least = if kind == "seconds past 32 bits" { 1 } else { 2 };
        assert!(met.times(kind) >= least, "{kind}: {}", met.times(kind));
    }
    assert_eq!(met.missed(), [""; 0]);
}

/// The page of one log is none of another.
#[test]
fn another_log() {
    let drawn_on = |log: &str| expected(None, log.as_bytes(), Asked::default(), Files::default());
    let log = "O 00000000\nR %1POWR 1\nT 100\n";
    let right = drawn_on(log);
    let printed = page(right.as_ref().unwrap());
    assert_eq!(fault(&right, printed.as_bytes()), Ok(()));
    for other in ["", "O 00000000\nR %1POWR 1\nT 101\n", "T 1\nO 00000000\nR %1POWR 1\nT 100\n"] {
        assert!(fault(&drawn_on(other), printed.as_bytes()).is_err(), "{other}");
    }
}

/// A form that does not load has no page.
#[test]
fn no_page() {
    let refused = expected(Some(b"\x04"), b"", Asked::default(), Files::default());
    assert_eq!(fault(&refused, b""), Ok(()));
    let page = page(expected(None, b"", Asked::default(), Files::default()).as_ref().unwrap());
    for printed in [&b"\n"[..], b"! 20\n", page.as_bytes()] {
        assert!(fault(&refused, printed).is_err());
    }
}

/// A program that prints no page: different at once, and cut down to nothing.
#[test]
fn a_difference_is_cut_down() {
    let cat = Program(vec!["sh".to_string(), "-c".to_string(), "cat".to_string()]);
    let Err(difference) = compare(&cat, 1, 1, Asked::default()) else { panic!("cat draws pages") };
    assert_eq!(difference.case.form, None);
    assert_eq!(difference.case.fed.log, b"");
}
