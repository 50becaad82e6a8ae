//! A document taken apart: elements, what they say of themselves and what stands in them. Each opened one has to be
//! closed, in its order, so that a page that was cut short, or lost a tag, is no document.

use std::ops::Range;

/// Some bytes of the document, and where they stand in it.
#[derive(Clone, Copy, PartialEq, Eq, Debug)]
pub struct Part<'a> {
    pub text: &'a str,
    pub at: usize,
}

impl Part<'_> {
    pub fn range(&self) -> Range<usize> {
        self.at..self.at + self.text.len()
    }
}

#[derive(Debug)]
pub struct Element<'a> {
    pub name: &'a str,
    /// Where it begins, and past its last byte.
    pub range: Range<usize>,
    attributes: Vec<(&'a str, Part<'a>)>,
    pub inside: Vec<Node<'a>>,
    /// Its closing tag, if it has one.
    pub closing: Option<Range<usize>>,
}

#[derive(Debug)]
pub enum Node<'a> {
    Element(Element<'a>),
    Text(Part<'a>),
}

impl<'a> Element<'a> {
    pub fn attribute(&self, name: &str) -> Option<Part<'a>> {
        self.attributes().find(|(other, _)| *other == name).map(|(_, value)| value)
    }

    pub fn attributes(&self) -> impl Iterator<Item = (&'a str, Part<'a>)> {
        self.attributes.iter().copied()
    }

    pub fn elements(&self) -> impl Iterator<Item = &Element<'a>> {
        self.inside.iter().filter_map(|node| match node {
            Node::Element(element) => Some(element),
            Node::Text(_) => None,
        })
    }

    /// It, and each element in it, in their order.
    pub fn all(&self) -> Vec<&Element<'a>> {
        let mut all = vec![self];
        self.elements().for_each(|element| all.extend(element.all()));
        all
    }

    /// The text that is all that stands in it.
    pub fn text(&self) -> Result<Part<'a>, String> {
        match self.inside[..] {
            [Node::Text(text)] => Ok(text),
            _ => Err(format!("byte {}: <{}> has something else than a text in it", self.range.start, self.name)),
        }
    }
}

impl<'a> Element<'a> {
    /// The same, or the empty text before its closing tag, where nothing stands in it.
    pub fn text_or_none(&self) -> Result<Part<'a>, String> {
        match (&self.inside[..], &self.closing) {
            ([], Some(closing)) => Ok(Part { text: "", at: closing.start }),
            _ => self.text(),
        }
    }
}

/// These have no closing tag.
const VOID: [&str; 13] =
    ["area", "base", "br", "col", "embed", "hr", "img", "input", "link", "meta", "source", "track", "wbr"];

/// The element `html` of a document that has nothing else beside its first line, which says that it is HTML.
pub fn document(text: &str) -> Result<Element<'_>, String> {
    let mut reader = Reader { text, at: 0, open: Vec::new() };
    let first = "<!DOCTYPE html>";
    if !text.get(..first.len()).is_some_and(|start| start.eq_ignore_ascii_case(first)) {
        return Err(format!("it does not begin with {first}"));
    }
    reader.at = first.len();
    let mut nodes = reader.nodes()?;
    nodes.retain(|node| !matches!(node, Node::Text(part) if part.text.trim_ascii().is_empty()));
    match <[Node; 1]>::try_from(nodes) {
        Ok([Node::Element(html)]) if html.name == "html" => Ok(html),
        _ => Err("it is not one element html".to_string()),
    }
}

struct Reader<'a> {
    text: &'a str,
    at: usize,
    /// Each stands in the one before it.
    open: Vec<Element<'a>>,
}

impl<'a> Reader<'a> {
    fn nodes(&mut self) -> Result<Vec<Node<'a>>, String> {
        let mut outside = Vec::new();
        while self.at < self.text.len() {
            let ended = if self.takes("<!--") {
                self.until("-->")?;
                self.takes("-->");
                None
            } else if self.takes("</") {
                Some(Node::Element(self.closing()?))
            } else if self.takes("<") {
                self.opening()?.map(Node::Element)
            } else {
                let at = self.at;
                let length = self.rest().find('<').unwrap_or(self.rest().len());
                self.at += length;
                Some(Node::Text(Part { text: &self.text[at..self.at], at }))
            };
            match self.open.last_mut() {
                Some(around) => around.inside.extend(ended),
                None => outside.extend(ended),
            }
        }
        match self.open.last() {
            Some(open) => Err(format!("byte {}: <{}> is not closed", open.range.start, open.name)),
            None => Ok(outside),
        }
    }

    fn rest(&self) -> &'a str {
        &self.text[self.at..]
    }

    fn takes(&mut self, what: &str) -> bool {
        let is_here = self.rest().starts_with(what);
        if is_here {
            self.at += what.len();
        }
        is_here
    }

    fn takes_space(&mut self) {
        self.at = self.text.len() - self.rest().trim_ascii_start().len();
    }

    fn until(&mut self, what: &str) -> Result<Part<'a>, String> {
        let at = self.at;
        let length = self.rest().find(what).ok_or_else(|| self.here(&format!("no {what} follows")))?;
        self.at += length;
        Ok(Part { text: &self.text[at..self.at], at })
    }

    /// Up to what cannot stand in a name.
    fn name(&mut self) -> Result<&'a str, String> {
        let length = self.rest().find(|c: char| !c.is_ascii_alphanumeric() && c != '-' && c != ':');
        let name = &self.rest()[..length.unwrap_or(0)];
        self.at += name.len();
        if name.is_empty() { Err(self.here("no name stands here")) } else { Ok(name) }
    }

    fn here(&self, what: &str) -> String {
        format!("byte {}: {what}", self.at)
    }

    /// After `</`.
    fn closing(&mut self) -> Result<Element<'a>, String> {
        let start = self.at - "</".len();
        let name = self.name()?;
        if !self.takes(">") {
            return Err(self.here("a closing tag does not end"));
        }
        match self.open.pop() {
            Some(mut element) if element.name == name => {
                element.closing = Some(start..self.at);
                element.range.end = self.at;
                Ok(element)
            }
            Some(element) => Err(format!("byte {start}: </{name}> closes <{}>", element.name)),
            None => Err(format!("byte {start}: </{name}> closes nothing")),
        }
    }

    /// After `<`. An element that has no closing tag has ended with this one.
    fn opening(&mut self) -> Result<Option<Element<'a>>, String> {
        let start = self.at - "<".len();
        let name = self.name()?;
        if name.eq_ignore_ascii_case("script") {
            return Err(format!("byte {start}: a script"));
        }
        let mut attributes: Vec<(&str, Part)> = Vec::new();
        let is_whole = loop {
            self.takes_space();
            if self.takes(">") {
                break false;
            }
            if self.takes("/>") {
                break true;
            }
            let attribute = self.name()?;
            let value = if self.takes("=") { self.value()? } else { Part { text: "", at: self.at } };
            if attribute.starts_with("on") || value.text.trim_ascii_start().starts_with("javascript:") {
                return Err(self.here("a script"));
            }
            if attributes.iter().any(|(other, _)| *other == attribute) {
                return Err(self.here(&format!("{attribute} stands twice")));
            }
            attributes.push((attribute, value));
        };
        let in_drawing = name == "svg" || self.open.iter().any(|around| around.name == "svg");
        let mut element = Element { name, range: start..self.at, attributes, inside: Vec::new(), closing: None };
        if VOID.contains(&name) || is_whole && in_drawing {
            return Ok(Some(element));
        }
        if is_whole {
            return Err(format!("byte {start}: <{name}/> closes nothing outside a drawing"));
        }
        if name == "style" {
            element.inside.push(Node::Text(self.until("</style")?));
        }
        self.open.push(element);
        Ok(None)
    }

    fn value(&mut self) -> Result<Part<'a>, String> {
        for quote in ["\"", "'"] {
            if self.takes(quote) {
                let value = self.until(quote)?;
                self.takes(quote);
                return Ok(value);
            }
        }
        let at = self.at;
        let ends = |c: char| c.is_ascii_whitespace() || matches!(c, '>' | '"' | '\'' | '=' | '<' | '`');
        self.at += self.rest().find(ends).unwrap_or(self.rest().len());
        Ok(Part { text: &self.text[at..self.at], at })
    }
}

#[cfg(test)]
mod tests {
    use super::*;

    #[test]
    fn taken_apart() {
        let text = "<!DOCTYPE html>\n<html lang=en><!-- <p> --><meta charset='utf-8'><style>p > a {}</style>\
                    <svg><rect x=\"1\"/><g></g></svg> a </html>\n";
        let html = document(text).unwrap();
        assert_eq!(html.attribute("lang").unwrap().text, "en");
        let names: Vec<&str> = html.all().iter().map(|element| element.name).collect();
        assert_eq!(names, ["html", "meta", "style", "svg", "rect", "g"]);
        let rect = html.all()[4];
        assert_eq!(&text[rect.range.clone()], "<rect x=\"1\"/>");
        assert_eq!(&text[rect.attribute("x").unwrap().range()], "1");
        assert_eq!(html.all()[2].text().unwrap().text, "p > a {}");
        assert_eq!(&text[html.closing.clone().unwrap()], "</html>");
    }

    #[test]
    fn no_documents() {
        let in_html = |inside: &str| format!("<!DOCTYPE html><html>{inside}</html>");
        assert!(document(&in_html("<p>a</p>")).is_ok());
        for inside in [
            "<p>a",
            "</p>",
            "<p>a</b>",
            "<p><b>a</p></b>",
            "<p/>",
            "<svg><rect></svg>",
            "<p a=1 a=1></p>",
            "<",
            "<p a=\"1></p>",
            "<script></script>",
            "<p onclick=\"x\"></p>",
            "<a href=\"javascript:x\"></a>",
            "<!-- a",
            "</html><html>",
        ] {
            assert!(document(&in_html(inside)).is_err(), "{inside}");
        }
        for text in ["", "<html></html>", "<!DOCTYPE html>", "<!DOCTYPE html><p></p>", "<!DOCTYPE html><html></html>a"]
        {
            assert!(document(text).is_err(), "{text}");
        }
    }
}
