//! Whether a page shows what it has to show.

use super::drawn::{self, Drawn, Row, Span, short, timed};
use super::html::Part;
use super::read::{Band, Bar, Page, Paragraph, Picture, Shown, Table, number};

const HEADS: [&str; 4] = ["lamp", "at the start", "burnt", "now"];

/// The heads of the table of the lamps.
fn heads(drawn: &Drawn) -> Vec<String> {
    let left = drawn.asked.life.map(|hours| [format!("left of {hours} h"), "until, at this log's pace".to_string()]);
    HEADS.map(String::from).into_iter().chain(left.into_iter().flatten()).collect()
}

const LISTED: [&str; 5] = ["lamp", "from", "to", "burnt", "note"];

pub fn shows(page: &Page, drawn: &Drawn) -> Result<(), String> {
    heads_above(page, drawn)?;
    clock(page, drawn)?;
    about(page, drawn)?;
    said("what a stripe says", &page.legends, drawn.legend())?;
    said("the longest burn", &page.longest, drawn.longest())?;
    said("from when to when the log goes", &page.spans, Some(drawn.log_span()))?;
    above("from when to when the log goes", &page.spans, page)?;
    let rows = drawn.rows();
    alike("rows", page.rows.len(), rows.len())?;
    for (shown, row) in page.rows.iter().zip(&rows) {
        says(shown.name, &drawn.name(row))?;
        match (&shown.shown, row) {
            (Shown::Words(words), Row::Idle(..)) => says(*words, "no lamp burnt")?,
            (Shown::Words(words), Row::Long(_)) => says(*words, &drawn.long_words())?,
            (Shown::Picture(picture, burnt), Row::Days(first, _)) => {
                let span = drawn.span(*first);
                says(*burnt, &short(drawn.burnt_in(span)))?;
                says(picture.label, &format!("when each lamp burnt on {}", drawn.name(row)))?;
                is_picture(picture, drawn, span)?;
            }
            _ => return Err(format!("byte {}: {} is not shown as it has to be", shown.range.start, drawn.name(row))),
        }
    }
    colours(page)?;
    stray(page, drawn)?;
    unplayed(page, drawn)?;
    totals(page, drawn)?;
    stretches(page, drawn)
}

fn is_picture(picture: &Picture, drawn: &Drawn, span: &Span) -> Result<(), String> {
    is_number(picture.seen[2], drawn.scale.wide())?;
    alike("bands in a row", picture.bands.len(), span.lamps.len())?;
    for (place, (band, bars)) in picture.bands.iter().zip(&span.lamps).enumerate() {
        says(band.lamp.text, &format!("lamp {}", place + 1))?;
        is_band(band, drawn, span)?;
        alike(&format!("bars on lamp {}'s band from day {} on", place + 1, span.first), band.bars.len(), bars.len())?;
        band.bars.iter().zip(bars).try_for_each(|(bar, drawn)| is_drawn(bar, drawn))?;
    }
    Ok(())
}

/// It goes over the row's days; a line on its edge may be drawn or not.
fn is_band(band: &Band, drawn: &Drawn, span: &Span) -> Result<(), String> {
    let (from, to) = span.band();
    is_number(band.lane.x, from)?;
    is_number(band.lane.width, to - from)?;
    let lines = drawn.scale.lines();
    if let Some(line) = band.lines.iter().find(|line| !lines.contains(line) || **line < from || **line > to) {
        return Err(format!("byte {}: a line at the second {line}", band.lane.range.start));
    }
    match lines.iter().find(|line| from < **line && **line < to && !band.lines.contains(line)) {
        Some(line) => Err(format!("byte {}: no line at the second {line}", band.lane.range.start)),
        None => Ok(()),
    }
}

/// Along the top of the pictures, each at its share of their width; a share has four digits behind its point at least.
fn heads_above(page: &Page, drawn: &Drawn) -> Result<(), String> {
    let heads = drawn.scale.heads(drawn.asked.began.is_some());
    alike("heads above the pictures", page.heads.len(), heads.len())?;
    for (head, (second, name)) in page.heads.iter().zip(&heads) {
        says(head.text, name)?;
        let share: f64 = head.share.text.parse().map_err(|_| format!("byte {}: no share", head.share.at))?;
        if (share - *second as f64 * 100.0 / drawn.scale.wide() as f64).abs() > 0.01 {
            return Err(format!("byte {}: {name} is at {share} %", head.share.at));
        }
    }
    Ok(())
}

/// It says when the log began, or that it knows no clock.
fn clock(page: &Page, drawn: &Drawn) -> Result<(), String> {
    let words = match &drawn.asked.began {
        Some(began) => format!("The log began on {} at {}, and", began.day(1), began.time()),
        None => "This page knows no clock:".to_string(),
    };
    let [said] = &page.clocks[..] else { return Err("it does not say once what clock it knows".to_string()) };
    if !said.text.text.starts_with(&words) {
        return Err(format!("byte {}: it does not begin with {words:?}", said.text.at));
    }
    let row = format!("A row is a {}", row_word(drawn));
    if !said.text.text.contains(&row) {
        return Err(format!("byte {}: it does not say {row:?}", said.text.at));
    }
    above("what clock it knows", &page.clocks, page)
}

/// What a row is.
pub fn row_word(drawn: &Drawn) -> &'static str {
    match drawn.scale {
        drawn::Scale::Day => "day",
        drawn::Scale::Week => "week",
        drawn::Scale::Month => "month",
    }
}

/// They stand above the rows.
fn above(of: &str, shown: &[Paragraph], page: &Page) -> Result<(), String> {
    match shown.iter().find(|said| said.range.end > page.days.start) {
        Some(said) => Err(format!("byte {}: {of} is not said above the rows", said.range.start)),
        None => Ok(()),
    }
}

/// The projector, as its settings have it, the form and the log's files.
fn about(page: &Page, drawn: &Drawn) -> Result<(), String> {
    let about = drawn.about();
    alike("things that it is of", page.about.len(), about.len())?;
    page.about.iter().zip(&about).try_for_each(|(shown, [term, text])| {
        says(shown.term, term)?;
        says(shown.said, text)
    })
}

/// One paragraph, or none.
fn said(of: &str, shown: &[Paragraph], words: Option<String>) -> Result<(), String> {
    alike(&format!("paragraphs of {of}"), shown.len(), words.iter().len())?;
    shown.iter().zip(&words).try_for_each(|(shown, words)| says(shown.text, words))
}

fn is_drawn(bar: &Bar, drawn: &drawn::Bar) -> Result<(), String> {
    says(bar.title, &drawn.title())?;
    is_number(bar.rect.x, drawn.from)?;
    is_number(bar.rect.width, drawn.seconds())?;
    alike("stripes on a bar", bar.stripes.len(), usize::from(!drawn.note().is_empty()))?;
    bar.stripes.iter().try_for_each(|stripe| {
        is_number(stripe.x, drawn.from)?;
        is_number(stripe.width, drawn.seconds())
    })
}

/// "Bars have one colour on light grey".
fn colours(page: &Page) -> Result<(), String> {
    let bands = || page.bands();
    for band in bands() {
        let fill = page.fill(&band.lane)?;
        if !is_light_grey(fill) {
            return Err(format!("byte {}: {fill} is no light grey", band.lane.range.start));
        }
    }
    let mut first = None;
    for bar in bands().flat_map(|band| &band.bars) {
        let fill = page.fill(&bar.rect)?;
        if is_light_grey(fill) || *first.get_or_insert(fill) != fill {
            return Err(format!("byte {}: a bar is {fill}", bar.rect.range.start));
        }
        for stripe in &bar.stripes {
            if page.fill(stripe)? == fill {
                return Err(format!("byte {}: a stripe is as its bar, {fill}", stripe.range.start));
            }
        }
    }
    Ok(())
}

/// Red, green and blue alike, each two hex digits.
fn is_light_grey(fill: &str) -> bool {
    let red = &fill[1..3];
    fill[1..] == red.repeat(3) && red >= "c0"
}

/// "on the page a paragraph with these words".
fn stray(page: &Page, drawn: &Drawn) -> Result<(), String> {
    alike("paragraphs of a line that does not belong", page.strays.len(), drawn.stray.iter().len())?;
    page.strays.iter().zip(&drawn.stray).try_for_each(|(shown, words)| says(shown.text, words))
}

/// "is said last, in one paragraph", "where a line's end counts as a space".
fn unplayed(page: &Page, drawn: &Drawn) -> Result<(), String> {
    let words = drawn.unplayed.split_whitespace().collect::<Vec<_>>();
    alike("paragraphs of what was not played", page.others.len(), usize::from(!words.is_empty()))?;
    page.others.iter().try_for_each(|shown| {
        if shown.range.start < page.table.range.end {
            return Err(format!("byte {}: a paragraph above the table's end", shown.range.start));
        }
        match shown.text.text.split_whitespace().eq(words.iter().copied()) {
            true => Ok(()),
            false => Err(format!("byte {}: {:?} for {:?}", shown.text.at, shown.text.text, words.join(" "))),
        }
    })
}

fn totals(page: &Page, drawn: &Drawn) -> Result<(), String> {
    let lines = drawn.sums.iter().enumerate().map(|(place, sum)| {
        let times = [sum.start.into(), sum.burnt, sum.now.into()].map(timed);
        let lamp = [format!("lamp {}", place + 1)];
        lamp.into_iter().chain(times).chain(drawn.left(sum).into_iter().flatten()).collect()
    });
    is_table("the lamps", &page.table, &heads(drawn), &lines.collect::<Vec<_>>())
}

/// "a table of the stretches", or a line that no lamp burnt.
fn stretches(page: &Page, drawn: &Drawn) -> Result<(), String> {
    let none = drawn.told.is_empty().then(|| "No lamp burnt.".to_string());
    said("that no lamp burnt", &page.nones, none)?;
    let lines = drawn.told.iter().map(|told| drawn.listed(told).to_vec());
    match (&page.stretches, drawn.told.is_empty()) {
        (None, true) => Ok(()),
        (Some(table), false) => is_table("the stretches", table, &LISTED.map(String::from), &lines.collect::<Vec<_>>()),
        (Some(_), true) => Err("it has a table of no stretches".to_string()),
        (None, false) => Err("it has no table of the stretches".to_string()),
    }
}

fn is_table(of: &str, table: &Table, heads: &[String], lines: &[Vec<String>]) -> Result<(), String> {
    alike(&format!("heads of the table of {of}"), table.heads.len(), heads.len())?;
    table.heads.iter().zip(heads).try_for_each(|(head, words)| says(*head, words))?;
    alike(&format!("rows in the table of {of}"), table.lines.len(), lines.len())?;
    for (shown, words) in table.lines.iter().zip(lines) {
        alike("cells of a row", shown.cells.len(), words.len())?;
        shown.cells.iter().zip(words).try_for_each(|(cell, words)| says(*cell, words))?;
    }
    Ok(())
}

fn alike(of: &str, shown: usize, drawn: usize) -> Result<(), String> {
    if shown == drawn { Ok(()) } else { Err(format!("it shows {shown} {of}, and has to show {drawn}")) }
}

fn says(part: Part, words: &str) -> Result<(), String> {
    if part.text == words { Ok(()) } else { Err(format!("byte {}: {:?} for {words:?}", part.at, part.text)) }
}

fn is_number(part: Part, right: u64) -> Result<(), String> {
    match number(part)? {
        shown if shown == right => Ok(()),
        shown => Err(format!("byte {}: {shown} for {right}", part.at)),
    }
}
