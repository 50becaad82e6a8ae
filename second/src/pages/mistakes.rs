//! The deliberate mistakes: each makes of a page that shows what it has to show one that someone might really print. It
//! gives none where this page would stay as right as it is.

use super::drawn::{self, DAY, Drawn, Row, Scale, Span, short, timed, title};
use super::html::Part;
use super::read::{Band, Bar, Head, Line, Page, Picture, Shown};
use super::shows::row_word;
use crate::burnt::{Stretch, Sum};
use crate::compare::random::Random;
use std::ops::Range;

pub struct Sheet<'a> {
    pub text: &'a str,
    pub page: &'a Page<'a>,
    pub drawn: &'a Drawn,
}

pub type Wrong = fn(&Sheet, &mut Random) -> Option<String>;

/// So many of them, the last, can only be made in a page of a log that began at a known time.
pub const CLOCKED: usize = 3;

pub const MISTAKES: &[(&str, Wrong)] = &[
    // bars
    ("a bar is left out", |sheet, random| Some(sheet.without(any(sheet.bars(), random)?.0.rect.range.clone()))),
    ("a lamp has no bars", |sheet, random| {
        let lamp = any(sheet.bars(), random)?.1.lamp;
        let bars = sheet.bars().into_iter().filter(|(_, drawn)| drawn.lamp == lamp);
        Some(sheet.with(bars.map(|(bar, _)| (bar.rect.range.clone(), String::new()))))
    }),
    ("a bar is drawn twice", |sheet, random| {
        let range = any(sheet.bars(), random)?.0.rect.range.clone();
        Some(sheet.with([(range.end..range.end, sheet.text[range].to_string())]))
    }),
    ("a bar lies on another lamp's band", |sheet, random| {
        let (bar, drawn) = any(sheet.bars(), random)?;
        let bands = &sheet.picture_of(drawn.span).bands;
        let other = (0..bands.len()).filter(|place| place + 1 != drawn.lamp).collect();
        let other = &bands[any(other, random)?];
        Some(sheet.with([(bar.rect.y.range(), other.lane.y.text.to_string())]))
    }),
    ("a bar lies on another row's band", |sheet, random| {
        let (bar, drawn) = any(sheet.bars(), random)?;
        let others = sheet.spans().into_iter().filter(|span| *span != drawn.span).collect();
        let other = &sheet.picture_of(any(others, random)?).bands[drawn.lamp - 1].lane;
        let moved = [
            &sheet.text[bar.rect.range.start..bar.rect.y.at],
            other.y.text,
            &sheet.text[bar.rect.y.range().end..bar.rect.range.end],
        ];
        Some(sheet.with([(bar.rect.range.clone(), String::new()), (other.range.end..other.range.end, moved.concat())]))
    }),
    ("a bar lies under its band", |sheet, random| {
        let (bar, drawn) = any(sheet.bars(), random)?;
        let (range, lane) = (bar.rect.range.clone(), &sheet.picture_of(drawn.span).bands[drawn.lamp - 1].lane.range);
        let moved = sheet.text[range.clone()].to_string();
        Some(sheet.with([(range, String::new()), (lane.start..lane.start, moved)]))
    }),
    ("a bar is not drawn", |sheet, random| {
        let name = any(sheet.bars(), random)?.0.rect.range.start + "<rect".len();
        Some(sheet.with([(name..name, " display='none'".to_string())]))
    }),
    ("a bar lies beside its band", |sheet, random| {
        let (bar, _) = any(sheet.bars(), random)?;
        Some(sheet.with([(bar.rect.y.range(), "100000".to_string())]))
    }),
    ("a bar has the colour of its band", |sheet, random| {
        let (bar, drawn) = any(sheet.bars(), random)?;
        let band = &sheet.picture_of(drawn.span).bands[drawn.lamp - 1];
        Some(sheet.with([(bar.rect.colour.range(), band.lane.colour.text.to_string())]))
    }),
    ("bars have a colour that there is not", |sheet, _| {
        let colours: Vec<_> = sheet.bars().iter().map(|(bar, _)| bar.rect.colour.range()).collect();
        (!colours.is_empty()).then(|| sheet.with(colours.into_iter().map(|range| (range, "z".to_string()))))
    }),
    // "a unit a second"
    ("x is in minutes", |sheet, random| sheet.at_x(random, |bar| bar.from / 60)),
    ("x is in units of 90 seconds, from 90 on", |sheet, random| sheet.at_x(random, |bar| 90 + bar.from / 90)),
    ("x is a minute's first second", |sheet, random| sheet.at_x(random, |bar| bar.from / 60 * 60)),
    ("x is a minute's last second", |sheet, random| sheet.at_x(random, |bar| bar.from / 60 * 60 + 59)),
    ("x is the next whole minute", |sheet, random| sheet.at_x(random, |bar| bar.from.next_multiple_of(60))),
    ("x is the nearest whole minute", |sheet, random| sheet.at_x(random, |bar| (bar.from + 30) / 60 * 60)),
    ("x is a second late", |sheet, random| sheet.at_x(random, |bar| bar.from + 1)),
    ("x is a second early", |sheet, random| sheet.at_x(random, |bar| bar.from.saturating_sub(1))),
    ("x is an hour late", |sheet, random| sheet.at_x(random, |bar| bar.from + 3600)),
    ("x is the bar's end", |sheet, random| sheet.at_x(random, |bar| bar.to)),
    ("x is counted from the log's beginning", |sheet, random| sheet.at_x(random, |bar| bar.stretch.from as u64)),
    ("a bar is one second too long", |sheet, random| sheet.in_width(random, |bar| bar.seconds() + 1)),
    ("a bar is one second too short", |sheet, random| sheet.in_width(random, |bar| bar.seconds() - 1)),
    ("a bar is as wide as the row is until its end", |sheet, random| sheet.in_width(random, |bar| bar.to)),
    ("a bar's width is in minutes", |sheet, random| sheet.in_width(random, |bar| bar.seconds() / 60)),
    ("a bar's width is in units of 90 seconds", |sheet, random| sheet.in_width(random, |bar| bar.seconds() / 90)),
    ("a bar is whole minutes wide", |sheet, random| sheet.in_width(random, |bar| bar.seconds().next_multiple_of(60))),
    ("a bar is wide enough to be seen", |sheet, random| sheet.in_width(random, |bar| bar.seconds().max(90))),
    ("a bar is not cut at its row's end", |sheet, random| {
        sheet.in_width(random, |bar| (bar.stretch.to - bar.stretch.from) as u64)
    }),
    ("a bar of a longer row is cut at midnight", |sheet, random| {
        sheet.in_width(random, |bar| bar.to.min((bar.from + 1).next_multiple_of(86_400)) - bar.from)
    }),
    ("a bar of a longer row has a part for each day", |sheet, random| {
        let middle = |bar: &drawn::Bar| (bar.from + 1).next_multiple_of(86_400);
        let bars = sheet.bars().into_iter().filter(|(_, drawn)| middle(drawn) < drawn.to);
        let (bar, drawn) = any(bars.collect(), random)?;
        let (range, x, width) = (bar.rect.range.clone(), bar.rect.x.range(), bar.rect.width.range());
        let (cut, second) = (middle(drawn), bar.rect.range.clone());
        let numbers = [(x, cut.to_string()), (width.clone(), (drawn.to - cut).to_string())];
        let later = with(sheet.text, second, numbers);
        Some(sheet.with([(width, (cut - drawn.from).to_string()), (range.end..range.end, later)]))
    }),
    ("x of a longer row is counted from midnight", |sheet, random| sheet.at_x(random, |bar| bar.from % 86_400)),
    ("a picture is an hour wide", |sheet, random| {
        let picture = any(sheet.page.pictures().collect(), random)?;
        Some(sheet.with([(picture.seen[2].range(), "3600".to_string())]))
    }),
    ("a picture is as wide as at another scale", |sheet, random| {
        let picture = any(sheet.page.pictures().collect(), random)?;
        let others = [Scale::Day, Scale::Week, Scale::Month].into_iter().filter(|scale| *scale != sheet.drawn.scale);
        Some(sheet.with([(picture.seen[2].range(), any(others.collect(), random)?.wide().to_string())]))
    }),
    ("a month of 31 days is as wide as one of 30", |sheet, random| {
        let months = sheet.page.pictures().filter(|_| sheet.drawn.scale == Scale::Month);
        Some(sheet.with([(any(months.collect(), random)?.seen[2].range(), "2592000".to_string())]))
    }),
    // "its band begins there; the place before it is empty"
    ("a band is as wide as its picture", |sheet, random| {
        let wide = sheet.drawn.scale.wide().to_string();
        let bands = sheet.bands().into_iter().filter(|band| band.lane.width.text != wide);
        Some(sheet.with([(any(bands.collect(), random)?.lane.width.range(), wide)]))
    }),
    ("a band ends with the log", |sheet, _| {
        let place = sheet.spans().pop()?;
        let span = &sheet.drawn.spans[place];
        let days = sheet.drawn.days.checked_sub(span.first - 1).filter(|days| *days < span.last + 1 - span.first)?;
        let band = sheet.picture_of(place).bands.first()?;
        Some(sheet.with([(band.lane.width.range(), (days as u64 * 86_400).to_string())]))
    }),
    // "lines at 6, 12 and 18 h; at each midnight; at the days 8, 15, 22 and 29"
    ("a line is an hour late", |sheet, random| {
        let bands = sheet.bands().into_iter().filter(|band| band.lines.len() > 1);
        let band = any(bands.collect(), random)?;
        let (path, first) = (band.drawn.first()?, *band.lines.first()?);
        let late = path.text.replacen(&first.to_string(), &(first + 3600).to_string(), 1);
        (late != path.text).then(|| sheet.with([(path.range(), late)]))
    }),
    ("there are no lines on a band", |sheet, random| {
        let bands = sheet.bands().into_iter().filter(|band| band.lines.len() > 1);
        Some(sheet.with([(any(bands.collect(), random)?.drawn.first()?.range(), "M0 0".to_string())]))
    }),
    ("a picture is not stretched to the hours above it", |sheet, random| {
        let picture = any(sheet.page.pictures().collect(), random)?;
        Some(sheet.with([(picture.stretched.range(), "xMidYMid".to_string())]))
    }),
    // "The bar's title tells the whole stretch"
    ("a title tells what lies in the row", |sheet, random| {
        sheet.in_title(random, |bar| title(bar.lamp, bar.from.into(), bar.to.into()))
    }),
    ("a title tells what lies in the row, in the log's seconds", |sheet, random| {
        let row = |bar: &drawn::Bar| (sheet.drawn.spans[bar.span].first as u128 - 1) * DAY;
        sheet.in_title(random, |bar| title(bar.lamp, row(bar) + u128::from(bar.from), row(bar) + u128::from(bar.to)))
    }),
    ("a title numbers lamps from 0", |sheet, random| {
        sheet.in_title(random, |bar| title(bar.lamp - 1, bar.stretch.from, bar.stretch.to))
    }),
    ("a title tells up to the last second", |sheet, random| {
        sheet.in_title(random, |bar| {
            bar.title().replace(&format!("to {}:", bar.stretch.to), &format!("to {}:", bar.stretch.to - 1))
        })
    }),
    ("a title tells one second too many", |sheet, random| {
        let seconds = |bar: &drawn::Bar| bar.stretch.to - bar.stretch.from;
        sheet.in_title(random, |bar| {
            bar.title().replace(&format!(": {}", seconds(bar)), &format!(": {}", seconds(bar) + 1))
        })
    }),
    ("a title is another bar's", |sheet, random| {
        let other = any(sheet.bars(), random)?.1.title();
        sheet.in_title(random, |_| other.clone())
    }),
    // "marked in words and shape"
    ("a stretch is marked in words alone", |sheet, random| {
        let striped = sheet.bars().into_iter().flat_map(|(bar, _)| &bar.stripes);
        Some(sheet.without(any(striped.collect(), random)?.range.clone()))
    }),
    ("a stretch is marked in shape alone", |sheet, random| {
        sheet.in_title(random, |bar| title(bar.lamp, bar.stretch.from, bar.stretch.to))
    }),
    ("a stripe is as wide as the whole stretch", |sheet, random| {
        let bars = sheet.bars().into_iter().filter(|(bar, _)| !bar.stripes.is_empty());
        let whole = |bar: &drawn::Bar| (bar.stretch.to - bar.stretch.from) as u64;
        let (bar, drawn) = any(bars.filter(|(_, drawn)| whole(drawn) != drawn.seconds()).collect(), random)?;
        Some(sheet.with([(bar.stripes[0].width.range(), whole(drawn).to_string())]))
    }),
    ("a stripe has the colour of its bar", |sheet, random| {
        let bars = sheet.bars().into_iter().filter(|(bar, _)| !bar.stripes.is_empty());
        let (bar, _) = any(bars.collect(), random)?;
        Some(sheet.with([(bar.stripes[0].colour.range(), bar.rect.colour.text.to_string())]))
    }),
    ("a stretch that is not marked has a stripe", |sheet, random| {
        let bars = sheet.bars().into_iter().filter(|(bar, _)| bar.stripes.is_empty());
        let (bar, drawn) = any(bars.collect(), random)?;
        let y = bar.rect.y.text.parse::<u64>().ok()? + 1;
        let (x, width, end) = (drawn.from, drawn.seconds(), bar.rect.range.end);
        let stripe = format!("<rect class='m' height='2' y='{y}' x='{x}' width='{width}'/>");
        Some(sheet.with([(end..end, stripe)]))
    }),
    ("it is not said what a stripe says", |sheet, _| Some(sheet.without(sheet.page.legends.first()?.range.clone()))),
    ("a stripe says that more hours are long", |sheet, _| {
        let (text, hours) = (sheet.page.legends.first()?.text, sheet.drawn.asked.long?);
        let words = text.text.replace(&format!("{hours} h"), &format!("{} h", hours + 1));
        Some(sheet.with([(text.range(), words)]))
    }),
    // "the hours that lamps burnt in it"
    ("a row's sum is a minute more", |sheet, random| sheet.in_sum(random, |span, drawn| drawn.burnt_in(span) + 60)),
    ("a row's sum is each lamp's", |sheet, random| {
        sheet.in_sum(random, |span, _| span.lamps.iter().flatten().map(|bar| u128::from(bar.seconds())).sum())
    }),
    ("a row's sum is that of its whole stretches", |sheet, random| {
        sheet.in_sum(random, |span, _| {
            let bars = span.lamps.iter().find(|bars| !bars.is_empty()).into_iter().flatten();
            bars.map(|bar| bar.stretch.to - bar.stretch.from).sum()
        })
    }),
    ("a row's sum goes on with the row before it", |sheet, random| {
        sheet.in_sum(random, |span, drawn| {
            let before = drawn.spans.iter().filter(|other| other.first <= span.first);
            before.map(|span| drawn.burnt_in(span)).sum()
        })
    }),
    ("a row's sum is that of its first day", |sheet, random| {
        sheet.in_sum(random, |span, drawn| drawn.burnt_in(&Span { last: span.first, lamps: Vec::new(), ..*span }))
    }),
    // "the longest stretch and the log's end"
    ("the longest burn is not said", |sheet, _| Some(sheet.without(sheet.page.longest.first()?.range.clone()))),
    ("another burn is said to be the longest", |sheet, random| {
        let shown = sheet.page.longest.first()?.text;
        let others = sheet.drawn.stretches.iter().map(|stretch| {
            let [from, to] = [stretch.from, stretch.to].map(|second| sheet.drawn.asked.instant(second));
            format!("The longest burn is from {from} to {to}: {}.", timed(stretch.to - stretch.from))
        });
        let others = others.filter(|words| words != shown.text);
        Some(sheet.with([(shown.range(), any(others.collect(), random)?)]))
    }),
    ("the log ends a second early", |sheet, _| {
        let seconds = sheet.drawn.seconds.checked_sub(1)?;
        let [from, to] = [0, seconds].map(|second| sheet.drawn.asked.instant(second));
        let words = format!("The log goes from {from} to {to}: {}.", timed(seconds));
        Some(sheet.with([(sheet.page.spans.first()?.text.range(), words)]))
    }),
    ("the log begins with its first stretch", |sheet, _| {
        let (drawn, first) = (sheet.drawn, sheet.drawn.stretches.first().filter(|stretch| stretch.from > 0)?);
        let [from, to] = [first.from, drawn.seconds].map(|second| drawn.asked.instant(second));
        let words = format!("The log goes from {from} to {to}: {}.", timed(drawn.seconds));
        Some(sheet.with([(sheet.page.spans.first()?.text.range(), words)]))
    }),
    ("it is not said from when to when the log goes", |sheet, _| {
        Some(sheet.without(sheet.page.spans.first()?.range.clone()))
    }),
    ("from when to when the log goes is said below", |sheet, _| {
        let (range, end) = (sheet.page.spans.first()?.range.clone(), sheet.page.table.range.end);
        Some(sheet.with([(range.clone(), String::new()), (end..end, sheet.text[range].to_string())]))
    }),
    // "It names the projector, its manufacturer and its model"
    ("another projector is named, or another file", |sheet, random| {
        let said = any(sheet.page.about.iter().collect(), random)?.said;
        Some(sheet.with([(said.range(), format!("{}x", said.text))]))
    }),
    ("two texts of what the page is of stand in the other order", |sheet, random| {
        let about = &sheet.page.about;
        let later = random.from_to(1, about.len() - 1);
        let [one, other] = [about[later - 1].said, about[later].said];
        let change = [(one.range(), other.text.to_string()), (other.range(), one.text.to_string())];
        (one.text != other.text).then(|| sheet.with(change))
    }),
    ("a text of what the page is of is written as it is", |sheet, random| {
        let escaped = sheet.page.about.iter().map(|about| about.said).filter(|said| said.text.contains("&lt;"));
        let said = any(escaped.collect(), random)?;
        Some(sheet.with([(said.range(), said.text.replace("&lt;", "<"))]))
    }),
    ("the form is not named", |sheet, _| {
        let form = sheet.page.about.iter().find(|about| about.term.text == "form")?;
        Some(sheet.without(form.range.clone()))
    }),
    ("a file of the log is not named", |sheet, random| {
        let logs = sheet.page.about.iter().filter(|about| about.term.text == "log");
        Some(sheet.without(any(logs.collect(), random)?.range.clone()))
    }),
    ("a file of the log is named twice", |sheet, random| {
        let logs = sheet.page.about.iter().filter(|about| about.term.text == "log");
        let range = any(logs.collect(), random)?.range.clone();
        Some(sheet.with([(range.end..range.end, sheet.text[range].to_string())]))
    }),
    ("a file of the log is taken for the form", |sheet, _| {
        let log = sheet.page.about.iter().find(|about| about.term.text == "log")?;
        Some(sheet.with([(log.term.range(), "form".to_string())]))
    }),
    // "what is left, and until when"
    ("what is left of a lamp is counted from the start", |sheet, random| {
        sheet.in_left(random, 0, |sum, drawn| drawn.left(&Sum { now: sum.start, ..*sum }))
    }),
    ("what is left of a lamp is an hour more", |sheet, random| {
        sheet.in_left(random, 0, |sum, drawn| {
            let life = drawn.asked.life? * 3600 + 3600;
            Some([timed(life.saturating_sub(sum.now.into())), String::new()])
        })
    }),
    ("a lamp's pace is that of all its seconds", |sheet, random| {
        sheet.in_left(random, 1, |sum, drawn| drawn.left(&Sum { burnt: sum.now.into(), ..*sum }))
    }),
    ("a lamp that burns not in the log has a day", |sheet, random| {
        sheet.in_left(random, 1, |sum, _| (sum.burnt == 0).then(|| [String::new(), "0 days".to_string()]))
    }),
    ("a bar has no title", |sheet, random| Some(sheet.without(any(sheet.bars(), random)?.0.titled.clone()))),
    // "a row for each day, week or month in which a lamp burnt", "a band for each lamp, with its number"
    ("days have no row", |sheet, random| Some(sheet.without(any(sheet.rows(), random)?))),
    ("days have two rows", |sheet, random| {
        let row = any(sheet.rows(), random)?;
        Some(sheet.with([(row.end..row.end, sheet.text[row].to_string())]))
    }),
    ("two rows stand in the other order", |sheet, random| {
        let rows = sheet.rows();
        let later = random.from_to(1, rows.len().checked_sub(1).filter(|last| *last > 0)?);
        let [first, second] = [rows[later - 1].clone(), rows[later].clone()];
        let texts = [first.clone(), second.clone()].map(|row| sheet.text[row].to_string());
        let [one, other] = texts;
        Some(sheet.with([(first, other), (second, one)]))
    }),
    ("the day after the log's last second has a row", |sheet, _| {
        let row = sheet.rows().pop()?;
        let day = sheet.drawn.day(sheet.drawn.days + 1);
        let next = format!("<tr><th scope=\"row\">{day}</th><td>no lamp burnt</td></tr>");
        Some(sheet.with([(row.end..row.end, next)]))
    }),
    ("days without a burn end a day early", |sheet, random| {
        sheet.in_name(random, |row| match row {
            Row::Idle(first, last) if first < last => Row::Idle(*first, last - 1),
            other => *other,
        })
    }),
    ("days without a burn begin a day late", |sheet, random| {
        sheet.in_name(random, |row| match row {
            Row::Idle(first, last) if first < last => Row::Idle(first + 1, *last),
            other => *other,
        })
    }),
    ("of days with a burn it is said that no lamp burnt", |sheet, random| {
        let pictures = sheet.page.rows.iter().filter(|row| matches!(row.shown, Shown::Picture(..)));
        let row = any(pictures.collect(), random)?;
        let line = format!("<tr><th scope=\"row\">{}</th><td>no lamp burnt</td></tr>", row.name.text);
        Some(sheet.with([(row.range.clone(), line)]))
    }),
    ("of days without a burn it is said that a lamp burnt", |sheet, random| {
        let words = sheet.words(|row| matches!(row, Row::Idle(..)));
        Some(sheet.with([(any(words, random)?.1.range(), "a lamp burnt".to_string())]))
    }),
    // "each day in it that has a burn beyond `--long` is still reported by itself"
    ("a day with a long burn has no line", |sheet, random| {
        Some(sheet.without(any(sheet.words(|row| matches!(row, Row::Long(_))), random)?.0))
    }),
    ("a day with a long burn has two lines", |sheet, random| {
        let range = any(sheet.words(|row| matches!(row, Row::Long(_))), random)?.0;
        Some(sheet.with([(range.end..range.end, sheet.text[range].to_string())]))
    }),
    ("a long burn is that of another day", |sheet, random| {
        sheet.in_name(random, |row| match row {
            Row::Long(day) => Row::Long(day + 1),
            other => *other,
        })
    }),
    ("a long burn is said of more hours", |sheet, random| {
        let words = any(sheet.words(|row| matches!(row, Row::Long(_))), random)?.1;
        let hours = sheet.drawn.asked.long? + 1;
        Some(sheet.with([(words.range(), format!("a burn of more than {hours} h"))]))
    }),
    ("of days with a burn that is not long a long one is said", |sheet, random| {
        let rows = sheet.page.rows.iter().zip(sheet.drawn.rows());
        let rows =
            rows.filter_map(|(shown, row)| if let Row::Days(first, _) = row { Some((shown, first)) } else { None });
        let long = sheet.drawn.rows();
        let (shown, day) = any(rows.filter(|(_, day)| !long.contains(&Row::Long(*day))).collect(), random)?;
        let (name, hours, end) = (sheet.drawn.day(day), sheet.drawn.asked.long.unwrap_or(12), shown.range.end);
        let line = format!("<tr><th scope=\"row\">{name}</th><td>a burn of more than {hours} h</td></tr>");
        Some(sheet.with([(end..end, line)]))
    }),
    ("not all bands of a row are seen", |sheet, random| {
        let picture = any(sheet.page.pictures().collect(), random)?;
        Some(sheet.with([(picture.seen[3].range(), "8".to_string())]))
    }),
    ("a row has no name", |sheet, random| {
        let row = any(sheet.page.rows.iter().collect(), random)?;
        Some(sheet.with([(row.name.range(), String::new())]))
    }),
    ("who does not see a picture is told of other days", |sheet, random| {
        let pictures = sheet.page.pictures().collect::<Vec<_>>();
        let [one, other] = [any(pictures.clone(), random)?.label, any(pictures, random)?.label];
        (one.text != other.text).then(|| sheet.with([(one.range(), other.text.to_string())]))
    }),
    ("days are numbered from 0, or a day early", |sheet, random| {
        sheet.in_name(random, |row| match row {
            Row::Days(first, last) => Row::Days(first - 1, last - 1),
            Row::Idle(first, last) => Row::Idle(first - 1, last - 1),
            Row::Long(day) => Row::Long(day - 1),
        })
    }),
    ("a day is the next one", |sheet, random| {
        sheet.in_name(random, |row| match row {
            Row::Days(first, last) => Row::Days(first + 1, last + 1),
            Row::Idle(first, last) => Row::Idle(first + 1, last + 1),
            Row::Long(day) => Row::Long(day + 1),
        })
    }),
    ("a row is named by its first day", |sheet, random| {
        sheet.in_name(random, |row| match row {
            Row::Days(first, _) => Row::Days(*first, *first),
            other => *other,
        })
    }),
    ("the last row's name ends with the log", |sheet, random| {
        let days = sheet.drawn.days;
        sheet.in_name(random, |row| match row {
            Row::Days(first, last) => Row::Days(*first, days.min(*last)),
            other => *other,
        })
    }),
    ("a row has a day of the next one", |sheet, random| {
        sheet.in_name(random, |row| match row {
            Row::Days(first, last) => Row::Days(*first, last + 1),
            other => *other,
        })
    }),
    // "with `--began` the days are those of the calendar, the hours those of the clock"
    ("the page does not say when the log began, or that it knows no clock", |sheet, _| {
        Some(sheet.with([(sheet.page.clocks.first()?.text.range(), "A row is a day.".to_string())]))
    }),
    ("a row is said to be another length", |sheet, _| {
        let text = sheet.page.clocks.first()?.text;
        let other = if sheet.drawn.scale == Scale::Day { "week" } else { "day" };
        let words = format!("A row is a {}", row_word(sheet.drawn));
        Some(sheet.with([(text.range(), text.text.replace(&words, &format!("A row is a {other}")))]))
    }),
    ("the heads are those of another scale, or of another clock", |sheet, random| {
        let scales = [Scale::Day, Scale::Week, Scale::Month];
        let heads = scales.into_iter().flat_map(|scale| [true, false].map(|has_clock| scale.heads(has_clock)));
        let heads = any(heads.collect(), random)?;
        let change = sheet.page.heads.iter().zip(heads).map(|(head, (_, name))| (head.text.range(), name));
        let other = sheet.with(change);
        (other != sheet.text).then_some(other)
    }),
    ("a week begins with another day", |sheet, random| {
        let (place, head) = any(sheet.page.heads.iter().enumerate().collect(), random)?;
        let names = sheet.drawn.scale.heads(true).into_iter().map(|(_, name)| name).collect::<Vec<_>>();
        let other = names[(place + 1) % names.len()].clone();
        (other != head.text.text).then(|| sheet.with([(head.text.range(), other)]))
    }),
    ("a day has a weekday that is not its own", |sheet, random| {
        let (shown, first, last) = any(sheet.named(), random)?;
        let wrong = match sheet.drawn.asked.began {
            Some(began) => began.day(first + 6)[..3].to_string() + &shown.text[3..],
            None => format!("Mon {}", sheet.drawn.name(&Row::Days(first, last))),
        };
        Some(sheet.with([(shown.range(), wrong)]))
    }),
    ("a day is named as where a clock is known, or not", |sheet, random| {
        let (shown, first, _) = any(sheet.named(), random)?;
        let wrong =
            if sheet.drawn.asked.began.is_some() { format!("day {first}") } else { "Mon 2026-11-23".to_string() };
        Some(sheet.with([(shown.range(), wrong)]))
    }),
    ("x is counted from another second than midnight", |sheet, random| {
        let second = sheet.drawn.asked.began.map_or(21_600, |began| u64::from(began.second));
        sheet.at_x(random, |bar| (bar.from + DAY as u64 - second) % DAY as u64)
    }),
    ("lamps are numbered from 0", |sheet, random| {
        let picture = any(sheet.page.pictures().collect(), random)?;
        let bands = picture.bands.iter().enumerate();
        Some(sheet.with(bands.map(|(place, band)| (band.lamp.text.range(), format!("lamp {place}")))))
    }),
    ("a lamp has no band", |sheet, random| {
        let band = any(sheet.bands(), random)?;
        let bars = band.bars.iter().map(|bar| bar.rect.range.clone());
        let gone = bars.chain([band.lane.range.clone(), band.lamp.range.clone()]);
        Some(sheet.with(gone.map(|range| (range, String::new()))))
    }),
    ("a band has no number", |sheet, random| Some(sheet.without(any(sheet.bands(), random)?.lamp.range.clone()))),
    ("a head is left out", |sheet, random| Some(sheet.without(any(sheet.heads(), random)?.range.clone()))),
    ("a head stands an hour late", |sheet, random| {
        let head = any(sheet.heads(), random)?;
        let share: f64 = head.share.text.parse().ok()?;
        Some(sheet.with([(head.share.range(), (share + 360_000.0 / sheet.drawn.scale.wide() as f64).to_string())]))
    }),
    ("a head stands where it would in a month of 30 days", |sheet, random| {
        let heads = sheet.heads().into_iter().skip(1).filter(|_| sheet.drawn.scale == Scale::Month);
        let head = any(heads.collect(), random)?;
        let share: f64 = head.share.text.parse().ok()?;
        Some(sheet.with([(head.share.range(), (share * 31.0 / 30.0).to_string())]))
    }),
    // "Below stands a table: each lamp's seconds at the start, burnt, and now"
    ("a lamp has no row in the table", |sheet, random| {
        Some(sheet.without(any(sheet.page.table.lines.iter().collect(), random)?.range.clone()))
    }),
    ("a lamp has two rows in the table", |sheet, random| {
        let range = any(sheet.page.table.lines.iter().collect(), random)?.range.clone();
        Some(sheet.with([(range.end..range.end, sheet.text[range].to_string())]))
    }),
    ("a table's lamp is numbered from 0", |sheet, random| sheet.in_total(random, 0, |lamp, _| format!("lamp {lamp}"))),
    ("a lamp's start is one more", |sheet, random| {
        sheet.in_total(random, 1, |_, sum| timed(u128::from(sum.start) + 1))
    }),
    ("what a lamp burnt is one less", |sheet, random| {
        sheet.in_total(random, 2, |_, sum| timed(sum.burnt.saturating_sub(1)))
    }),
    ("what a lamp burnt stops at its limit", |sheet, random| {
        sheet.in_total(random, 2, |_, sum| timed((sum.now - sum.start).into()))
    }),
    ("a lamp's seconds now are what it burnt", |sheet, random| sheet.in_total(random, 3, |_, sum| timed(sum.burnt))),
    ("a lamp's seconds now pass their limit", |sheet, random| {
        sheet.in_total(random, 3, |_, sum| timed(u128::from(sum.start) + sum.burnt))
    }),
    ("a lamp's minutes are rounded up", |sheet, random| {
        sheet.in_total(random, 2, |_, sum| {
            let minutes = sum.burnt.div_ceil(60);
            format!("{} h {} min ({} s)", minutes / 60, minutes % 60, sum.burnt)
        })
    }),
    ("a lamp's hours are told as minutes", |sheet, random| {
        sheet.in_total(random, 2, |_, sum| format!("0 h {} min ({} s)", sum.burnt / 60, sum.burnt))
    }),
    ("two columns of the table stand in the other order", |sheet, random| {
        let place = random.from_to(1, 2);
        let [one, other] = [sheet.page.table.heads[place], sheet.page.table.heads[place + 1]];
        Some(sheet.with([(one.range(), other.text.to_string()), (other.range(), one.text.to_string())]))
    }),
    // "a table of the stretches: one row each, a stretch over midnight once"
    ("there is no table of the stretches", |sheet, _| {
        Some(sheet.without(sheet.page.stretches.as_ref()?.range.clone()))
    }),
    ("a stretch has no row in the table", |sheet, random| {
        Some(sheet.without(any(sheet.listed(), random)?.0.range.clone()))
    }),
    ("the last stretch has no row in the table", |sheet, _| Some(sheet.without(sheet.listed().pop()?.0.range.clone()))),
    ("a stretch has two rows in the table", |sheet, random| {
        let range = any(sheet.listed(), random)?.0.range.clone();
        Some(sheet.with([(range.end..range.end, sheet.text[range].to_string())]))
    }),
    ("two stretches stand in the other order", |sheet, random| {
        let lines = sheet.listed();
        let later = random.from_to(1, lines.len().checked_sub(1).filter(|last| *last > 0)?);
        let [first, second] = [lines[later - 1].0.range.clone(), lines[later].0.range.clone()];
        let [one, other] = [first.clone(), second.clone()].map(|range| sheet.text[range].to_string());
        (one != other).then(|| sheet.with([(first, other), (second, one)]))
    }),
    ("a stretch over midnight has two rows", |sheet, random| {
        let midnight = sheet.drawn.asked.began.map_or(0, |began| u128::from(began.second));
        let middle = |stretch: &Stretch| ((midnight + stretch.to - 1) / DAY * DAY).checked_sub(midnight);
        let over = sheet.listed().into_iter().filter_map(|(line, (place, stretch))| {
            Some((line, place, stretch, middle(&stretch).filter(|middle| stretch.from < *middle)?))
        });
        let (line, place, Stretch { from, to }, middle) = any(over.collect(), random)?;
        let part = |from, to| {
            let cells = sheet.drawn.listed(&(place, Stretch { from, to }));
            let changes = line.cells.iter().zip(cells).map(|(cell, words)| (cell.range(), words));
            with(sheet.text, line.range.clone(), changes)
        };
        Some(sheet.with([(line.range.clone(), part(from, middle) + &part(middle, to))]))
    }),
    ("a stretch is another lamp's in the table", |sheet, random| {
        sheet.in_listed(random, 0, |place, _| format!("lamp {}", place + 2))
    }),
    ("lamps are numbered from 0 in the table of the stretches", |sheet, random| {
        sheet.in_listed(random, 0, |place, _| format!("lamp {place}"))
    }),
    ("a stretch begins a second late in the table", |sheet, random| {
        sheet.in_listed(random, 1, |_, stretch| sheet.drawn.asked.instant(stretch.from + 1))
    }),
    ("a stretch ends with its last second in the table", |sheet, random| {
        sheet.in_listed(random, 2, |_, stretch| sheet.drawn.asked.instant(stretch.to - 1))
    }),
    ("the table has seconds of the log where a clock is known, or not", |sheet, random| {
        sheet.in_listed(random, 1, |_, stretch| format!("{} s", stretch.from))
    }),
    ("a stretch has a second more in the table", |sheet, random| {
        sheet.in_listed(random, 3, |_, stretch| timed(stretch.to - stretch.from + 1))
    }),
    ("a stretch has no note in the table", |sheet, random| sheet.in_listed(random, 4, |_, _| String::new())),
    ("a stretch has a note in the table that it has not", |sheet, random| {
        sheet.in_listed(random, 4, |_, _| "over midnight".to_string())
    }),
    ("two heads of the table of the stretches are exchanged", |sheet, _| {
        let [_, from, to, ..] = sheet.page.stretches.as_ref()?.heads[..] else { return None };
        Some(sheet.with([(from.range(), to.text.to_string()), (to.range(), from.text.to_string())]))
    }),
    ("it is not said that no lamp burnt", |sheet, _| Some(sheet.without(sheet.page.nones.first()?.range.clone()))),
    ("it is said that no lamp burnt where one did", |sheet, _| {
        let end = sheet.page.stretches.as_ref()?.range.end;
        Some(sheet.with([(end..end, "<p>No lamp burnt.</p>".to_string())]))
    }),
    ("a table of no stretches stands there", |sheet, _| {
        let none = sheet.page.nones.first()?.range.clone();
        let heads = ["lamp", "from", "to", "burnt", "note"].map(|head| format!("<th scope=\"col\">{head}</th>"));
        let table = format!("<table><thead><tr>{}</tr></thead><tbody></tbody></table>", heads.concat());
        Some(sheet.with([(none, table)]))
    }),
    // "on the page a paragraph with these words"
    ("it is not said that a line does not belong", |sheet, _| {
        Some(sheet.without(sheet.page.strays.first()?.range.clone()))
    }),
    ("it is said twice that a line does not belong", |sheet, _| {
        let range = sheet.page.strays.first()?.range.clone();
        Some(sheet.with([(range.end..range.end, sheet.text[range].to_string())]))
    }),
    ("another line is said not to belong", |sheet, _| {
        let text = sheet.page.strays.first()?.text;
        let (number, why) = text.text.strip_prefix("! line ")?.split_once(':')?;
        let next = number.parse::<u64>().ok()? + 1;
        Some(sheet.with([(text.range(), format!("! line {next}:{why}"))]))
    }),
    ("another reason is said why a line does not belong", |sheet, _| {
        let text = sheet.page.strays.first()?.text;
        let (number, why) = text.text.split_once(": ")?;
        let other = if why == "another sum" { "no such line" } else { "another sum" };
        Some(sheet.with([(text.range(), format!("{number}: {other}"))]))
    }),
    ("a line is said not to belong where each does", |sheet, random| {
        let before = any(sheet.rows(), random)?.start;
        let words = "<p>! line 1: no such line</p>".to_string();
        sheet.page.strays.is_empty().then(|| sheet.with([(before..before, words)]))
    }),
    // "is said last, in one paragraph"
    ("it is not said what was not played", |sheet, _| Some(sheet.without(sheet.page.others.first()?.range.clone()))),
    ("it is said twice what was not played", |sheet, _| {
        let range = sheet.page.others.first()?.range.clone();
        Some(sheet.with([(range.end..range.end, sheet.text[range].to_string())]))
    }),
    ("another number of lines or calls was not played", |sheet, _| {
        let text = sheet.page.others.first()?.text;
        let (of, count) = text.text.split_once(';')?.0.rsplit_once(' ')?;
        let (start, next) = (text.at + of.len() + 1, count.parse::<u64>().ok()? + 1);
        Some(sheet.with([(start..start + count.len(), next.to_string())]))
    }),
    ("of lines and calls that were not played the calls are left out", |sheet, _| {
        let text = sheet.page.others.first()?.text;
        let lines = text.text.find("calls refused: ").filter(|at| *at > 0)?;
        Some(sheet.with([(text.at + lines..text.range().end, String::new())]))
    }),
    ("what was not played stands above the lamps", |sheet, _| {
        let (range, table) = (sheet.page.others.first()?.range.clone(), sheet.page.table.range.start);
        Some(sheet.with([(table..table, sheet.text[range.clone()].to_string()), (range, String::new())]))
    }),
    ("a call is said to be refused where none was", |sheet, _| {
        let end = sheet.page.table.range.end;
        let words = "<p>calls refused: 1; line 1: place 0 is not closed (5)</p>".to_string();
        sheet.page.others.is_empty().then(|| sheet.with([(end..end, words)]))
    }),
    // "one HTML document with no script in it"
    ("a closing tag is left out", |sheet, random| Some(sheet.without(any(sheet.page.closings.clone(), random)?))),
    ("a drawing is not closed", |sheet, random| {
        let drawings = sheet.page.closings.iter().filter(|range| sheet.text[(*range).clone()] == *"</svg>");
        Some(sheet.without(any(drawings.cloned().collect(), random)?))
    }),
    ("the document is not closed", |sheet, _| {
        Some(sheet.without(sheet.page.closings.iter().max_by_key(|range| range.end)?.clone()))
    }),
    ("the page ends somewhere", |sheet, random| {
        let end = random.below(sheet.text.trim_ascii_end().len());
        Some(sheet.text.get(..end)?.to_string())
    }),
    ("something follows the document", |sheet, _| Some(sheet.text.to_string() + "! broken off\n")),
    ("there is a script in it", |sheet, random| {
        let before = any(sheet.rows(), random)?.start;
        Some(sheet.with([(before..before, "<script>1</script>".to_string())]))
    }),
    // the last one needs a long page
    ("a title has seconds of 32 bits", |sheet, random| {
        sheet.in_title(random, |bar| {
            let Range { start, end } = bar.stretch.from..bar.stretch.to;
            let seconds = end - start;
            format!("lamp {} from {} to {}: {seconds} seconds", bar.lamp, start as u32, end as u32)
        })
    }),
    // "The first row begins with the log's first day": only with `--began` can it be shorter than its scale
    ("the first row's bars begin where a whole row's would", |sheet, random| {
        let lead = |bar: &drawn::Bar| sheet.drawn.spans[bar.span].band().0;
        sheet.at_x(random, |bar| bar.from - lead(bar))
    }),
    ("the first row's band begins at its picture's edge", |sheet, random| {
        let bands = sheet.bands().into_iter().filter(|band| band.lane.x.text != "0");
        Some(sheet.with([(any(bands.collect(), random)?.lane.x.range(), "0".to_string())]))
    }),
    ("the first row is as long as each", |sheet, random| {
        sheet.in_name(random, |row| match row {
            Row::Days(first, last) => Row::Days(*first, last + sheet.drawn.span(*first).lead),
            other => *other,
        })
    }),
];

fn any<T>(mut all: Vec<T>, random: &mut Random) -> Option<T> {
    if all.is_empty() { None } else { Some(all.swap_remove(random.below(all.len()))) }
}

/// These bytes of a text, with some of them said otherwise.
fn with(text: &str, part: Range<usize>, changes: impl IntoIterator<Item = (Range<usize>, String)>) -> String {
    let mut changes: Vec<(Range<usize>, String)> = changes.into_iter().collect();
    changes.sort_by_key(|(range, _)| (range.start, range.end));
    let mut changed = String::new();
    let mut at = part.start;
    for (range, new) in changes {
        changed.push_str(&text[at..range.start]);
        changed.push_str(&new);
        at = range.end;
    }
    changed + &text[at..part.end]
}

impl<'a> Sheet<'a> {
    fn with(&self, changes: impl IntoIterator<Item = (Range<usize>, String)>) -> String {
        with(self.text, 0..self.text.len(), changes)
    }

    fn without(&self, range: Range<usize>) -> String {
        self.with([(range, String::new())])
    }

    fn bands(&self) -> Vec<&'a Band<'a>> {
        self.page.bands().collect()
    }

    /// The places of the rows that have a picture.
    fn spans(&self) -> Vec<usize> {
        let spans = self.drawn.spans.iter().enumerate();
        spans.filter(|(_, span)| span.lamps.iter().any(|bars| !bars.is_empty())).map(|(place, _)| place).collect()
    }

    fn picture_of(&self, span: usize) -> &'a Picture<'a> {
        let place = self.spans().into_iter().position(|drawn| drawn == span);
        self.page.pictures().nth(place.expect("a bar lies in a picture")).expect("each row has its picture")
    }

    /// The rows of words that are of such a kind, and the words.
    fn words(&self, is_such: impl Fn(&Row) -> bool) -> Vec<(Range<usize>, Part<'a>)> {
        let rows = self.page.rows.iter().zip(self.drawn.rows()).filter(|(_, row)| is_such(row));
        let words = rows.filter_map(|(shown, _)| match &shown.shown {
            Shown::Words(words) => Some((shown.range.clone(), *words)),
            Shown::Picture(..) => None,
        });
        words.collect()
    }

    /// The names of the rows that have a picture, with their first and last day.
    fn named(&self) -> Vec<(Part<'a>, usize, usize)> {
        let rows = self.page.rows.iter().zip(self.drawn.rows());
        let named = rows.filter_map(|(shown, row)| match row {
            Row::Days(first, last) => Some((shown.name, first, last)),
            _ => None,
        });
        named.collect()
    }

    /// The rows of the table of the stretches, each with its lamp's place and its stretch.
    fn listed(&self) -> Vec<(&'a Line<'a>, (usize, Stretch))> {
        let lines = self.page.stretches.iter().flat_map(|table| &table.lines);
        lines.zip(self.drawn.told.iter().copied()).collect()
    }

    /// A cell of that table.
    fn in_listed(
        &self,
        random: &mut Random,
        column: usize,
        wrong: impl Fn(usize, Stretch) -> String,
    ) -> Option<String> {
        let cells =
            self.listed().into_iter().map(|(line, (place, stretch))| (line.cells[column], wrong(place, stretch)));
        let (cell, wrong) = any(cells.filter(|(cell, wrong)| cell.text != wrong).collect(), random)?;
        Some(self.with([(cell.range(), wrong)]))
    }

    /// One of the rows that mistake names otherwise.
    fn in_name(&self, random: &mut Random, wrong: impl Fn(&Row) -> Row) -> Option<String> {
        let rows = self.page.rows.iter().zip(self.drawn.rows()).filter(|(_, row)| wrong(row) != *row);
        let (shown, row) = any(rows.collect(), random)?;
        Some(self.with([(shown.name.range(), self.drawn.name(&wrong(&row)))]))
    }

    /// Each with what has to be drawn there.
    fn bars(&self) -> Vec<(&'a Bar<'a>, &'a drawn::Bar)> {
        let drawn = self.drawn.spans.iter().flat_map(|span| &span.lamps).flatten();
        self.bands().into_iter().flat_map(|band| &band.bars).zip(drawn).collect()
    }

    fn rows(&self) -> Vec<Range<usize>> {
        self.page.rows.iter().map(|row| row.range.clone()).collect()
    }

    fn heads(&self) -> Vec<&'a Head<'a>> {
        self.page.heads.iter().collect()
    }

    /// One of the bars whose x that mistake says otherwise.
    fn at_x(&self, random: &mut Random, wrong: impl Fn(&drawn::Bar) -> u64) -> Option<String> {
        self.said(random, |bar| bar.rect.x, |bar| bar.from.to_string(), |bar| wrong(bar).to_string())
    }

    fn in_width(&self, random: &mut Random, wrong: impl Fn(&drawn::Bar) -> u64) -> Option<String> {
        self.said(random, |bar| bar.rect.width, |bar| bar.seconds().to_string(), |bar| wrong(bar).to_string())
    }

    fn in_title(&self, random: &mut Random, wrong: impl Fn(&drawn::Bar) -> String) -> Option<String> {
        self.said(random, |bar| bar.title, drawn::Bar::title, wrong)
    }

    fn said(
        &self,
        random: &mut Random,
        place: impl Fn(&Bar<'a>) -> Part<'a>,
        right: impl Fn(&drawn::Bar) -> String,
        wrong: impl Fn(&drawn::Bar) -> String,
    ) -> Option<String> {
        let bars = self.bars().into_iter().filter(|(_, drawn)| wrong(drawn) != right(drawn));
        let (bar, drawn) = any(bars.collect(), random)?;
        Some(self.with([(place(bar).range(), wrong(drawn))]))
    }

    /// A row's sum.
    fn in_sum(&self, random: &mut Random, wrong: impl Fn(&Span, &Drawn) -> u128) -> Option<String> {
        let rows = self.page.rows.iter().zip(self.drawn.rows());
        let sums = rows.filter_map(|(shown, row)| match (&shown.shown, row) {
            (Shown::Picture(_, sum), Row::Days(first, _)) => {
                Some((*sum, short(wrong(self.drawn.span(first), self.drawn))))
            }
            _ => None,
        });
        let (sum, wrong) = any(sums.filter(|(sum, wrong)| sum.text != wrong).collect(), random)?;
        Some(self.with([(sum.range(), wrong)]))
    }

    /// What is left of a lamp, or until when.
    fn in_left(
        &self,
        random: &mut Random,
        which: usize,
        wrong: impl Fn(&Sum, &Drawn) -> Option<[String; 2]>,
    ) -> Option<String> {
        let totals = self.page.table.lines.iter().zip(&self.drawn.sums);
        let cells = totals
            .filter_map(|(total, sum)| Some((*total.cells.get(4 + which)?, wrong(sum, self.drawn)?[which].clone())));
        let (cell, wrong) = any(cells.filter(|(cell, wrong)| cell.text != wrong).collect(), random)?;
        Some(self.with([(cell.range(), wrong)]))
    }

    /// A lamp's number in that column of the table.
    fn in_total(&self, random: &mut Random, column: usize, wrong: impl Fn(usize, &Sum) -> String) -> Option<String> {
        let totals = self.page.table.lines.iter().zip(&self.drawn.sums).enumerate();
        let totals = totals.map(|(place, (total, sum))| (total.cells[column], wrong(place, sum)));
        let (cell, wrong) = any(totals.filter(|(cell, wrong)| cell.text != wrong).collect(), random)?;
        Some(self.with([(cell.range(), wrong)]))
    }
}
