//! Reads a script of selectors and tags (docs/SCRIPT.md) from standard input, tells a matcher of the tags one by one, and writes what
//! lol_match writes. Each line has to be of the right form.

use std::io::{self, Read, Write};
use std::process::ExitCode;
use zugrenja::{Attribute, Builder, Cause, Error, Matcher, Namespace, Reason, Settings, Started};

/// How a run ends before its last line.
enum Stopped {
    BadLine(usize, Cause),
    At(Error),
}

impl From<Error> for Stopped {
    fn from(error: Error) -> Stopped {
        Stopped::At(error)
    }
}

/// The bytes before a separator, and those after it.
fn cut(bytes: &[u8], separator: u8) -> (&[u8], Option<&[u8]>) {
    match bytes.iter().position(|byte| *byte == separator) {
        Some(place) => (&bytes[..place], Some(&bytes[place + 1..])),
        None => (bytes, None),
    }
}

fn text(bytes: &[u8]) -> &str {
    std::str::from_utf8(bytes).unwrap_or_default()
}

fn joined(numbers: impl Iterator<Item = String>) -> String {
    let all: Vec<String> = numbers.collect();
    match all.is_empty() {
        true => "-".to_string(),
        false => all.join(","),
    }
}

/// The lines that say why the last tag was reported; `numbers` are those of the lines of the texts.
fn why(matcher: &mut Matcher, numbers: &[usize]) -> Result<String, Error> {
    let reasons = matcher.explain()?.into_iter();
    let in_lines = reasons.map(|reason| Reason { text: numbers[reason.text], ..reason });
    Ok(in_lines.map(|reason| format!("{reason}\n")).collect())
}

/// The settings of a script, and whether tries are shown.
fn settings_of(script: &[u8]) -> (Settings, bool) {
    let (mut settings, mut shows_tries) = (Settings::default(), false);
    for line in script.split(|byte| *byte == b'\n') {
        match cut(line, b'\t') {
            (b"limit", Some(number)) => settings.max_memory = text(number).parse().unwrap_or(usize::MAX),
            (b"esi", None) => settings.esi = true,
            (b"explain", None) => settings.explain = true,
            (b"tries", None) => shows_tries = true,
            _ => {}
        }
    }
    (settings, shows_tries)
}

/// From how many nodes on a script has rows, if it asks for them. A matcher that explains has none.
fn rows_of(script: &[u8], settings: Settings) -> Option<usize> {
    let asks = |line| match cut(line, b'\t') {
        (b"rows", Some(fewest)) => Some(text(fewest).parse().unwrap_or(usize::MAX)),
        (b"rows", None) => Some(256),
        _ => None,
    };
    let last = script.rsplit(|byte| *byte == b'\n').find_map(asks);
    last.filter(|_| !settings.explain)
}

/// The matcher of a script, before the first tag, and the numbers of the lines of its texts.
fn matcher_of(script: &[u8], settings: Settings) -> Result<(Matcher, Vec<usize>), Stopped> {
    let mut builder = Builder::with_settings(settings)?;
    let mut numbers = Vec::new();
    for (line, number) in script.split(|byte| *byte == b'\n').zip(1..) {
        let (b"select", Some(rest)) = cut(line, b'\t') else { continue };
        let (id, selectors) = cut(rest, b'\t');
        match builder.add(text(id).parse().unwrap_or(0), text(selectors.unwrap_or_default())) {
            Err(Error::Selector { cause, .. }) => return Err(Stopped::BadLine(number, cause)),
            added => added?,
        }
        numbers.push(number);
    }
    if let Some(fewest) = rows_of(script, settings) {
        builder.with_rows_from(fewest)?;
    }
    Ok((builder.build()?, numbers))
}

/// Tells of a start tag, whose number becomes its element's value: the line that answers it.
fn start(matcher: &mut Matcher, fields: &[&[u8]], shows_tries: bool, number: u64) -> Result<String, Error> {
    let slash = fields[1].ends_with(b"/");
    let namespace = match fields[1].strip_suffix(b"/").unwrap_or(fields[1]) {
        b"svg" => Namespace::Svg,
        b"mathml" => Namespace::MathMl,
        _ => Namespace::Html,
    };
    let asked = matcher.start(fields[2], namespace)? == Started::NeedsAttributes;
    if asked && fields[0] == b"drop" {
        return Ok("dropped\n".to_string());
    }
    if asked {
        let attributes = fields[3..].iter().map(|field| cut(field, b'='));
        matcher.finish(&attributes.map(|(name, value)| Attribute { name, value }).collect::<Vec<_>>(), slash)?;
    }
    let mark = if matcher.has_opened() { "" } else { "/" };
    let mut line = format!("start\t{}", joined(matcher.ids().iter().map(|id| format!("{id}{mark}"))));
    if asked {
        line.push_str("\tasked");
    }
    if shows_tries {
        let tries = matcher.tries();
        line.push_str(&format!("\ttries {} {}", tries.names, tries.attributes));
    }
    if matcher.has_opened() {
        matcher.set_value(number)?;
    }
    Ok(line + "\n")
}

/// Runs a script: its output is added to `out`.
fn run(script: &[u8], out: &mut String) -> Result<(), Stopped> {
    let (settings, shows_tries) = settings_of(script);
    let (mut matcher, numbers) = matcher_of(script, settings)?;
    let mut number = 0;
    for line in script.split(|byte| *byte == b'\n') {
        let fields: Vec<&[u8]> = line.split(|byte| *byte == b'\t').collect();
        match fields[0] {
            b"start" | b"drop" => out.push_str(&start(&mut matcher, &fields, shows_tries, number)?),
            b"end" => {
                let closed = matcher.end(fields[1])?.iter();
                out.push_str(&format!("end\t{}\n", joined(closed.map(u64::to_string))));
            }
            _ => continue,
        }
        if settings.explain {
            out.push_str(&why(&mut matcher, &numbers)?);
        }
        number += 1;
    }
    Ok(())
}

fn main() -> io::Result<ExitCode> {
    let (mut script, mut out) = (Vec::new(), String::new());
    io::stdin().read_to_end(&mut script)?;
    let status = match run(&script, &mut out) {
        Ok(()) => 0,
        Err(Stopped::BadLine(number, cause)) => {
            out = match cause {
                Cause::UnsupportedCombinator(sign) => format!("bad line {number}: UnsupportedCombinator({sign})\n"),
                _ => format!("bad line {number}: {cause:?}\n"),
            };
            2
        }
        Err(Stopped::At(error)) => {
            match error {
                Error::MemoryLimitExceeded => out.push_str("refused limit\n"),
                Error::CounterFull => out.push_str("refused counter\n"),
                _ => eprintln!("{error}"),
            }
            3
        }
    };
    io::stdout().write_all(out.as_bytes())?;
    Ok(ExitCode::from(status))
}
