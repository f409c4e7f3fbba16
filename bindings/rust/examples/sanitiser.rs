//! Reads HTML from standard input and writes it without comments, and without the elements that RULES names. It shows how a matcher is used: its tokenizer reads
//! less than a browser's, so what it lets through isn't safe to show.

use std::io::{self, Read, Write};
use zugrenja::{Attribute, Builder, Error, Matcher, Namespace};

/// What is done with an element: ids of selectors, the least of which decides, and values of open elements.
const REMOVE: u32 = 1;
const UNWRAP: u32 = 2;

const RULES: [(u32, &str); 3] = [
    (REMOVE, "script, style, iframe, object, embed, template, svg, math, noscript"),
    (REMOVE, "[onclick], [onload], [onerror], [href^='javascript:' i], img:not([src])"),
    (UNWRAP, "font, center, p > span:not([class])"),
];

/// Names of elements whose content is text up to their end tag.
const RAW_TEXT: [&[u8]; 8] = [b"script", b"style", b"textarea", b"title", b"xmp", b"iframe", b"noembed", b"noframes"];

enum Token<'a> {
    Text(&'a [u8]),
    Start { raw: &'a [u8], name: &'a [u8], attributes: Vec<Attribute<'a>>, closes: bool },
    End { raw: &'a [u8], name: &'a [u8] },
}

/// What is left of a page, and the name that ends a raw text.
struct Tokens<'a> {
    rest: &'a [u8],
    raw_text: Option<&'a [u8]>,
}

impl<'a> Tokens<'a> {
    /// Takes bytes as long as they are of a kind.
    fn take_while(&mut self, is_taken: impl Fn(u8) -> bool) -> &'a [u8] {
        self.take(self.rest.iter().position(|byte| !is_taken(*byte)).unwrap_or(self.rest.len()))
    }

    fn take(&mut self, len: usize) -> &'a [u8] {
        let (taken, rest) = self.rest.split_at(len.min(self.rest.len()));
        self.rest = rest;
        taken
    }

    /// The length of the text before the next tag.
    fn text_len(&self) -> usize {
        let is_tag = |place: &usize| match (self.raw_text, &self.rest[*place..]) {
            (Some(name), [b'<', b'/', tag @ ..]) => name.eq_ignore_ascii_case(&tag[..name.len().min(tag.len())]),
            (None, [b'<', b'/' | b'!', ..]) => true,
            (None, [b'<', letter, ..]) => letter.is_ascii_alphabetic(),
            _ => false,
        };
        (0..self.rest.len()).find(is_tag).unwrap_or(self.rest.len())
    }

    fn value(&mut self) -> &'a [u8] {
        let Some(quote @ (b'"' | b'\'')) = self.rest.first() else {
            return self.take_while(|byte| !byte.is_ascii_whitespace() && byte != b'>');
        };
        self.take(1);
        let value = self.take_while(|byte| byte != *quote);
        self.take(1);
        value
    }

    /// The attributes up to the end of the tag, if it has one, and whether it closes itself.
    fn attributes(&mut self) -> Option<(Vec<Attribute<'a>>, bool)> {
        let mut attributes = Vec::new();
        loop {
            let blank = self.take_while(|byte| byte.is_ascii_whitespace() || byte == b'/');
            let first = self.rest;
            if *self.take(1).first()? == b'>' {
                return Some((attributes, blank.ends_with(b"/")));
            }
            let len = 1 + self.take_while(|byte| !byte.is_ascii_whitespace() && !b"/>=".contains(&byte)).len();
            self.take_while(|byte| byte.is_ascii_whitespace());
            let value = self.rest.starts_with(b"=").then(|| {
                self.take(1);
                self.take_while(|byte| byte.is_ascii_whitespace());
                self.value()
            });
            attributes.push(Attribute { name: &first[..len], value });
        }
    }
}

impl<'a> Iterator for Tokens<'a> {
    type Item = Token<'a>;

    fn next(&mut self) -> Option<Token<'a>> {
        let (page, text_len) = (self.rest, self.text_len());
        if text_len > 0 || page.is_empty() {
            return (!page.is_empty()).then(|| Token::Text(self.take(text_len)));
        }
        if page.starts_with(b"<!") {
            let end: &[u8] = if page.starts_with(b"<!--") { b"-->" } else { b">" };
            let place = page.windows(end.len()).position(|window| window == end);
            self.take(place.map_or(page.len(), |place| place + end.len()));
            return Some(Token::Text(b""));
        }
        let is_end = page[1] == b'/';
        self.take(1 + usize::from(is_end));
        let name = self.take_while(|byte| !byte.is_ascii_whitespace() && byte != b'/' && byte != b'>');
        let (attributes, closes) = self.attributes()?;
        let raw = &page[..page.len() - self.rest.len()];
        self.raw_text = RAW_TEXT.into_iter().find(|raw| !is_end && raw.eq_ignore_ascii_case(name));
        Some(if is_end { Token::End { raw, name } } else { Token::Start { raw, name, attributes, closes } })
    }
}

fn sanitise(page: &[u8], matcher: &mut Matcher, out: &mut Vec<u8>) -> Result<(), Error> {
    let mut removed = 0;
    for token in (Tokens { rest: page, raw_text: None }) {
        match token {
            Token::Text(text) if removed == 0 => out.extend(text),
            Token::Start { raw, name, attributes, closes } => {
                let namespace = if name.eq_ignore_ascii_case(b"svg") { Namespace::Svg } else { Namespace::Html };
                let action = matcher.tag(name, namespace, &attributes, closes)?.first().copied().unwrap_or(0);
                if removed == 0 && action == 0 {
                    out.extend(raw);
                }
                if matcher.has_opened() {
                    matcher.set_value(action.into())?;
                    removed += usize::from(action == REMOVE);
                }
            }
            Token::End { raw, name } => {
                let closed = matcher.end(name)?;
                removed -= closed.iter().filter(|value| **value == REMOVE.into()).count();
                if removed == 0 && closed.first() == Some(&0) {
                    out.extend(raw);
                }
            }
            Token::Text(_) => {}
        }
    }
    Ok(())
}

fn main() -> Result<(), Box<dyn std::error::Error>> {
    let mut builder = Builder::new()?;
    for (action, selectors) in RULES {
        builder.add(action, selectors)?;
    }
    let (mut page, mut out) = (Vec::new(), Vec::new());
    io::stdin().read_to_end(&mut page)?;
    sanitise(&page, &mut builder.build()?, &mut out)?;
    io::stdout().write_all(&out)?;
    Ok(())
}
