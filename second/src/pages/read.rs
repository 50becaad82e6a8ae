//! A page read back: its heads, rows, bands, bars and tables, each with the bytes that say it.
//!
//! What belongs to what is taken as somebody sees it who looks at the page, by where it stands: a bar lies on the band that
//! it is drawn over, a band is the lamp's that is written beside it: the names beside a picture are 18 high each, and a
//! picture is as high as it says, however wide it becomes.

use super::html::{self, Element, Node, Part};
use std::ops::Range;

/// The height of a lamp's name beside a picture.
const NAME: u64 = 18;

#[derive(Debug)]
pub struct Page<'a> {
    /// When the log began, or that no clock is known, and what a row is.
    pub clocks: Vec<Paragraph<'a>>,
    /// Along the top of the pictures.
    pub heads: Vec<Head<'a>>,
    /// The table of the rows, and its rows.
    pub days: Range<usize>,
    pub rows: Vec<Row<'a>>,
    pub table: Table<'a>,
    /// The table of the stretches; where there is none, the paragraphs that say so.
    pub stretches: Option<Table<'a>>,
    pub nones: Vec<Paragraph<'a>>,
    /// What it is of.
    pub about: Vec<About<'a>>,
    /// What a stripe says; the longest stretch; from when to when the log goes.
    pub legends: Vec<Paragraph<'a>>,
    pub longest: Vec<Paragraph<'a>>,
    pub spans: Vec<Paragraph<'a>>,
    /// Paragraphs that begin with `! `.
    pub strays: Vec<Paragraph<'a>>,
    /// Those that say neither this, nor what the page is, nor until when its log goes.
    pub others: Vec<Paragraph<'a>>,
    /// What its styles say of classes.
    styles: &'a str,
    /// Every closing tag.
    pub closings: Vec<Range<usize>>,
}

#[derive(Debug)]
pub struct Paragraph<'a> {
    pub range: Range<usize>,
    pub text: Part<'a>,
}

/// A term, and what is said of it.
#[derive(Debug)]
pub struct About<'a> {
    pub range: Range<usize>,
    pub term: Part<'a>,
    pub said: Part<'a>,
}

/// An hour or a day above the pictures.
#[derive(Debug)]
pub struct Head<'a> {
    pub range: Range<usize>,
    pub text: Part<'a>,
    /// Where it stands, as a share of their width.
    pub share: Part<'a>,
}

/// The name of a lamp beside a picture.
#[derive(Clone, Debug)]
pub struct Label<'a> {
    pub range: Range<usize>,
    pub text: Part<'a>,
}

/// Of one day or more, of days in which no lamp burnt, or of a day with a long burn.
#[derive(Debug)]
pub struct Row<'a> {
    pub range: Range<usize>,
    pub name: Part<'a>,
    pub shown: Shown<'a>,
}

#[derive(Debug)]
pub enum Shown<'a> {
    Words(Part<'a>),
    /// And what of its days lamps burnt.
    Picture(Picture<'a>, Part<'a>),
}

#[derive(Debug)]
pub struct Picture<'a> {
    /// What somebody is told who does not see it.
    pub label: Part<'a>,
    /// What can be seen of it: 0, 0, its width and its height.
    pub seen: [Part<'a>; 4],
    /// How it is stretched to the width that there is.
    pub stretched: Part<'a>,
    pub bands: Vec<Band<'a>>,
}

#[derive(Debug)]
pub struct Band<'a> {
    pub lamp: Label<'a>,
    pub lane: Rect<'a>,
    /// At which seconds of it a line is drawn, and what draws them.
    pub lines: Vec<u64>,
    pub drawn: Vec<Part<'a>>,
    /// From left to right.
    pub bars: Vec<Bar<'a>>,
}

#[derive(Debug)]
pub struct Bar<'a> {
    pub rect: Rect<'a>,
    pub title: Part<'a>,
    /// The title's element.
    pub titled: Range<usize>,
    /// What lies along its middle, and is less high than it.
    pub stripes: Vec<Rect<'a>>,
}

#[derive(Clone, Debug)]
pub struct Rect<'a> {
    pub range: Range<usize>,
    pub x: Part<'a>,
    pub y: Part<'a>,
    pub width: Part<'a>,
    /// Its upper edge, and its lower one.
    edges: Range<u64>,
    /// What says its colour: itself, or the class that it names.
    pub colour: Part<'a>,
    is_class: bool,
}

#[derive(Debug)]
pub struct Table<'a> {
    pub range: Range<usize>,
    /// The heads of its columns.
    pub heads: Vec<Part<'a>>,
    pub lines: Vec<Line<'a>>,
}

/// Of a lamp: its seconds at the start, burnt, and now; maybe what is left, and until when. Of a stretch: from when, to
/// when, how long, and its note.
#[derive(Debug)]
pub struct Line<'a> {
    pub range: Range<usize>,
    /// The lamp is the first.
    pub cells: Vec<Part<'a>>,
}

pub fn read(text: &str) -> Result<Page<'_>, String> {
    let html = html::document(text)?;
    let all = html.all();
    let styles = match all.iter().find(|element| element.name == "style") {
        Some(style) => style.text()?.text,
        None => "",
    };
    let closings = all.iter().filter_map(|element| element.closing.clone()).collect();
    let paragraphs = all.iter().filter(|element| element.name == "p");
    let paragraphs = paragraphs.map(|element| Ok(Paragraph { range: element.range.clone(), text: element.text()? }));
    let paragraphs = paragraphs.filter(|said: &Result<_, String>| {
        !said.as_ref().is_ok_and(|said: &Paragraph| said.text.text.starts_with("The log goes until second "))
    });
    let mut others = paragraphs.collect::<Result<Vec<_>, _>>()?;
    let mut taken = |starts: &[&str]| {
        let is_such = |said: &Paragraph| starts.iter().any(|start| said.text.text.starts_with(start));
        let (taken, left) = std::mem::take(&mut others).into_iter().partition(is_such);
        others = left;
        taken
    };
    let clocks = taken(&["The log began on ", "This page knows no clock"]);
    let (strays, legends) = (taken(&["! "]), taken(&["A bar with a stripe "]));
    let (longest, spans, nones) = (taken(&["The longest burn "]), taken(&["The log goes from "]), taken(&["No lamp "]));
    let about = all.iter().filter(|element| ["dt", "dd"].contains(&element.name)).collect::<Vec<_>>();
    let about = about.chunks(2).map(|pair| match pair {
        [term, said] if term.name == "dt" && said.name == "dd" => {
            Ok(About { range: term.range.start..said.range.end, term: term.text()?, said: said.text()? })
        }
        _ => Err("a term has nothing said of it".to_string()),
    });
    let about = about.collect::<Result<_, _>>()?;
    let tables: Vec<_> = all.iter().filter(|element| element.name == "table").collect();
    let (days, lamps, stretches) = match tables[..] {
        [days, lamps] => (days, lamps, None),
        [days, lamps, stretches] => (days, lamps, Some(table(stretches)?)),
        _ => return Err("it has not two or three tables".to_string()),
    };
    let (head, rows) = parts(days)?;
    let head = cells(head)?;
    let [_, _, heads, burnt] = head[..] else { return Err(at(days, "its head has not four cells")) };
    if burnt.text()?.text != "burnt" {
        return Err(at(burnt, "it does not head what lamps burnt"));
    }
    let heads = heads.all().into_iter().filter(|element| element.name == "span");
    let heads = heads.map(head_in).collect::<Result<_, _>>()?;
    let rows = rows.into_iter().map(row).collect::<Result<_, _>>()?;
    let drawings = |element: &Element| element.all().iter().filter(|inside| inside.name == "svg").count();
    if drawings(&html) != drawings(days) {
        return Err("a drawing stands outside the table of the days".to_string());
    }
    let (days, table) = (days.range.clone(), table(lamps)?);
    Ok(Page {
        clocks,
        heads,
        days,
        rows,
        table,
        stretches,
        nones,
        about,
        legends,
        longest,
        spans,
        strays,
        others,
        styles,
        closings,
    })
}

/// The row of a table's head, and the rows below it. Each row of a table is in one of the two.
fn parts<'e, 'a>(table: &'e Element<'a>) -> Result<(&'e Element<'a>, Vec<&'e Element<'a>>), String> {
    let rows_in = |element: &'e Element<'a>| element.all().into_iter().filter(|inside| inside.name == "tr").collect();
    let of = |name| table.elements().find(|inside| inside.name == name).map_or(Vec::new(), rows_in);
    let (heads, rows): (Vec<_>, _) = (of("thead"), of("tbody"));
    match heads[..] {
        [head] if 1 + rows.len() == Vec::len(&rows_in(table)) => Ok((head, rows)),
        _ => Err(at(table, "it has not one head, and its rows below it")),
    }
}

fn cells<'e, 'a>(row: &'e Element<'a>) -> Result<Vec<&'e Element<'a>>, String> {
    let cells: Vec<_> = row.elements().collect();
    match cells.iter().all(|cell| ["th", "td"].contains(&cell.name)) {
        true => Ok(cells),
        false => Err(at(row, "something else than a cell stands in it")),
    }
}

fn head_in<'a>(element: &Element<'a>) -> Result<Head<'a>, String> {
    let style = needed(element, "style")?;
    let share = style.text.strip_prefix("left:").and_then(|share| share.strip_suffix('%'));
    let share = share.ok_or_else(|| at(element, "it does not say where it stands"))?;
    let share = Part { text: share, at: style.at + "left:".len() };
    Ok(Head { range: element.range.clone(), text: element.text()?, share })
}

fn row<'a>(row: &Element<'a>) -> Result<Row<'a>, String> {
    let cells = cells(row)?;
    let (name, shown) = match cells[..] {
        [name, words] => (name, Shown::Words(words.text()?)),
        [name, lamps, drawing, burnt] => {
            let [Node::Element(drawing)] = &drawing.inside[..] else {
                return Err(at(drawing, "not just one drawing stands in it"));
            };
            (name, Shown::Picture(picture(names(lamps)?, drawing)?, burnt.text()?))
        }
        _ => return Err(at(row, "it has not two cells or four")),
    };
    Ok(Row { range: row.range.clone(), name: name.text()?, shown })
}

fn names<'a>(cell: &Element<'a>) -> Result<Vec<Label<'a>>, String> {
    cell.elements().map(|name| Ok(Label { range: name.range.clone(), text: name.text()? })).collect()
}

/// The four numbers of a drawing that say what is seen of it: from 0 and 0 on, so wide and so high.
fn seen<'a>(drawing: &Element<'a>) -> Result<[Part<'a>; 4], String> {
    let all = needed(drawing, "viewBox")?;
    let mut next = all.at;
    let parts = all.text.split(' ').map(|text| {
        let at = next;
        next += text.len() + 1;
        Part { text, at }
    });
    match parts.collect::<Vec<Part>>()[..] {
        [left, top, wide, high] if left.text == "0" && top.text == "0" => Ok([left, top, wide, high]),
        _ => Err(at(drawing, "its viewBox is not 0, 0, a width and a height")),
    }
}

/// What may say so.
const ELSEWHERE: [&str; 5] = ["transform", "style", "display", "visibility", "opacity"];

fn picture<'a>(names: Vec<Label<'a>>, drawing: &Element<'a>) -> Result<Picture<'a>, String> {
    let seen = seen(drawing)?;
    let high = number(seen[3])?;
    if drawing.name != "svg" || number(needed(drawing, "height")?)? != high {
        return Err(at(drawing, "it is no picture, as high as it says"));
    }
    let (mut lanes, mut bars, mut paths) = (Vec::new(), Vec::new(), Vec::new());
    for element in drawing.all() {
        if let Some((name, _)) = element.attributes().find(|(name, _)| ELSEWHERE.contains(name)) {
            return Err(at(element, &format!("by its {name} it is drawn elsewhere than it says, or not at all")));
        }
        let title = element.elements().find(|inside| inside.name == "title");
        match (element.name, title) {
            ("rect", Some(title)) => {
                let (rect, titled) = (rect(element)?, title.range.clone());
                bars.push(Bar { rect, title: title.text()?, titled, stripes: Vec::new() })
            }
            ("rect", None) => {
                let stripe = rect(element)?;
                let is_on =
                    |bar: &&mut Bar| bar.rect.edges.start < stripe.edges.start && stripe.edges.end < bar.rect.edges.end;
                match bars.last_mut().filter(is_on) {
                    Some(bar) => bar.stripes.push(stripe),
                    None => lanes.push(stripe),
                }
            }
            ("path", _) => paths.push(needed(element, "d")?),
            ("svg" | "g" | "title", _) => (),
            _ => return Err(at(element, "it is none of what a page is drawn of")),
        }
    }
    if lanes.iter().any(|lane| lane.edges.end > high) {
        return Err(at(drawing, "not all its bands are seen"));
    }
    if names.len() != lanes.len() {
        return Err(at(drawing, "not each of its bands has a lamp beside it"));
    }
    let mut bands: Vec<Band> = Vec::new();
    for (place, lamp) in names.into_iter().enumerate() {
        let middle = NAME * place as u64 + NAME / 2;
        let beside = lanes.iter().position(|lane| lane.edges.contains(&middle));
        let lane = lanes.remove(beside.ok_or(format!("byte {}: a lamp without a band", lamp.range.start))?);
        bands.push(Band { lamp, lane, lines: Vec::new(), drawn: Vec::new(), bars: Vec::new() });
    }
    for path in paths {
        for (x, edges) in lines(path)? {
            let on = bands.iter_mut().find(|band| band.lane.edges == edges);
            on.ok_or(format!("byte {}: a line lies on no band", path.at))?.lines.push(x);
        }
        let on = bands.iter_mut().filter(|band| !band.lines.is_empty() && band.drawn.is_empty());
        on.for_each(|band| band.drawn.push(path));
    }
    for bar in bars {
        // what comes later is drawn over what came before
        let is_over =
            |band: &&mut Band| bar.rect.edges == band.lane.edges && bar.rect.range.start > band.lane.range.end;
        let on = bands.iter_mut().find(is_over);
        on.ok_or(format!("byte {}: a bar lies on no band", bar.rect.range.start))?.bars.push(bar);
    }
    for band in &mut bands {
        band.bars.sort_by_key(|bar| number(bar.rect.x));
    }
    let stretched = needed(drawing, "preserveAspectRatio")?;
    if stretched.text != "none" {
        return Err(at(drawing, "it is not stretched to the hours above it"));
    }
    Ok(Picture { label: needed(drawing, "aria-label")?, seen, stretched, bands })
}

impl<'a> Page<'a> {
    pub fn pictures(&self) -> impl Iterator<Item = &Picture<'a>> {
        self.rows.iter().filter_map(|row| match &row.shown {
            Shown::Picture(picture, _) => Some(picture),
            Shown::Words(_) => None,
        })
    }

    pub fn bands(&self) -> impl Iterator<Item = &Band<'a>> {
        self.pictures().flat_map(|picture| &picture.bands)
    }

    /// The colour that it is filled with: `#` and six lowercase hex digits.
    pub fn fill(&self, rect: &Rect<'a>) -> Result<&'a str, String> {
        let fill = if rect.is_class { self.fill_of(rect.colour.text) } else { Some(rect.colour.text) };
        let fill = fill.filter(|fill| is_colour(fill));
        fill.ok_or_else(|| format!("byte {}: {} is no colour", rect.range.start, rect.colour.text))
    }

    /// What the styles say, one class a line.
    fn fill_of(&self, class: &str) -> Option<&'a str> {
        let style = self.styles.lines().find_map(|line| line.strip_prefix(&format!(".{class}{{")))?;
        style.strip_suffix('}')?.split(';').find_map(|part| part.strip_prefix("fill:"))
    }
}

fn is_colour(fill: &str) -> bool {
    let is_hex = |digit| matches!(digit, b'0'..=b'9' | b'a'..=b'f');
    fill.strip_prefix('#').is_some_and(|digits| digits.len() == 6 && digits.bytes().all(is_hex))
}

fn at(element: &Element, what: &str) -> String {
    format!("byte {}: <{}>: {what}", element.range.start, element.name)
}

fn needed<'a>(element: &Element<'a>, attribute: &str) -> Result<Part<'a>, String> {
    element.attribute(attribute).ok_or_else(|| at(element, &format!("it says no {attribute}")))
}

fn rect<'a>(element: &Element<'a>) -> Result<Rect<'a>, String> {
    let [x, y, width, height] = ["x", "y", "width", "height"].map(|name| needed(element, name));
    let (y, top) = (y.clone()?, number(y?)?);
    let (colour, is_class) = match element.attribute("fill") {
        Some(colour) => (colour, false),
        None => (needed(element, "class")?, true),
    };
    let edges = top..top + number(height?)?;
    Ok(Rect { range: element.range.clone(), x: x?, y, width: width?, edges, colour, is_class })
}

/// The upright lines of a path: where, and their upper and lower edge. It says `M` and a point, then `v` and a height and
/// `m` and a step, in turn.
fn lines(path: Part) -> Result<Vec<(u64, Range<u64>)>, String> {
    let wrong = || format!("byte {}: {:?} draws no lines", path.at, path.text);
    let steps = path.text.replace('M', " M ").replace('m', " m ").replace('v', " v ").replace('-', " -");
    let mut steps = steps.split_whitespace();
    let (mut x, mut y, mut drawn) = (0i64, 0i64, Vec::new());
    while let Some(step) = steps.next() {
        let mut next = || steps.next().and_then(|text| text.parse::<i64>().ok()).ok_or_else(wrong);
        match step {
            "M" => (x, y) = (next()?, next()?),
            "m" => (x, y) = (x + next()?, y + next()?),
            "v" => {
                let height = next()?;
                if height <= 0 || x < 0 || y < 0 {
                    return Err(wrong());
                }
                drawn.push((x as u64, y as u64..(y + height) as u64));
                y += height;
            }
            _ => return Err(wrong()),
        }
    }
    Ok(drawn)
}

/// "Below stands a table": of the lamps, or of the stretches.
fn table<'a>(table: &Element<'a>) -> Result<Table<'a>, String> {
    let (heads, rows) = parts(table)?;
    let line = |row: &Element<'a>| Ok(Line { range: row.range.clone(), cells: texts(row)? });
    let lines = rows.into_iter().map(line).collect::<Result<_, String>>()?;
    Ok(Table { range: table.range.clone(), heads: texts(heads)?, lines })
}

fn texts<'a>(row: &Element<'a>) -> Result<Vec<Part<'a>>, String> {
    cells(row)?.into_iter().map(Element::text_or_none).collect()
}

/// Digits, without a zero before them.
pub fn number(part: Part) -> Result<u64, String> {
    let is_number =
        part.text.bytes().all(|byte| byte.is_ascii_digit()) && (part.text == "0" || !part.text.starts_with('0'));
    let number = if is_number { part.text.parse().ok() } else { None };
    number.ok_or_else(|| format!("byte {}: {:?} is no number", part.at, part.text))
}
