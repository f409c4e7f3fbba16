//! Random documents, as calls and as scripts.
#![allow(dead_code)] // each test uses a part

use zugrenja::{Attribute, Builder, Error, Matcher, Namespace, Reason, Settings, Started};

const SELECTORS: [&str; 16] = [
    "*",
    "div p",
    "div > p",
    "p:nth-child(2n+1)",
    "a[href]",
    "[class~=x]",
    "li:first-of-type",
    ".x > .y",
    "#i",
    "div *:not(p)",
    ":is(a, p)[href^='h' i]",
    "svg path",
    "br",
    "ul li a, p a",
    "p:not([href]):nth-of-type(2)",
    "[lang|=de]",
];
const NAMES: [&str; 10] = ["div", "p", "a", "li", "ul", "br", "svg", "path", "DIV", "esi:include"];
const ATTRIBUTES: [(&str, Option<&str>); 8] = [
    ("href", Some("http://x/")),
    ("HREF", None),
    ("class", Some("x y")),
    ("class", Some("y")),
    ("id", Some("i")),
    ("lang", Some("de-AT")),
    ("href", Some("")),
    ("hidden", None),
];
const NAMESPACES: [(&str, Namespace); 3] =
    [("html", Namespace::Html), ("svg", Namespace::Svg), ("mathml", Namespace::MathMl)];

/// Numbers by xorshift.
pub struct Numbers(u64);

impl Numbers {
    pub fn of(seed: u64) -> Numbers {
        Numbers(seed.wrapping_mul(0x9e37_79b9_7f4a_7c15) | 1)
    }

    /// A number below a bound.
    pub fn below(&mut self, bound: usize) -> usize {
        self.0 ^= self.0 << 13;
        self.0 ^= self.0 >> 7;
        self.0 ^= self.0 << 17;
        (self.0 >> 32) as usize % bound
    }

    fn one_of<T: Copy>(&mut self, all: &[T]) -> T {
        all[self.below(all.len())]
    }
}

pub struct StartTag {
    name: &'static str,
    namespace: (&'static str, Namespace),
    self_closing: bool,
    dropped: bool,
    attributes: Vec<(&'static str, Option<&'static str>)>,
}

pub enum Tag {
    Start(StartTag),
    End(&'static str),
}

pub struct Case {
    settings: Settings,
    selectors: Vec<(u32, &'static str)>,
    pub tags: Vec<Tag>,
}

impl Case {
    pub fn random(numbers: &mut Numbers) -> Case {
        let max_memory = if numbers.below(8) == 0 { 512 } else { usize::MAX };
        let settings = Settings { max_memory, esi: numbers.below(2) == 0, ..Settings::default() };
        let selectors = (0..numbers.below(8)).map(|_| (numbers.below(6) as u32, numbers.one_of(&SELECTORS))).collect();
        let tags = (0..1 + numbers.below(60)).map(|_| Tag::random(numbers)).collect();
        Case { settings: Settings { explain: numbers.below(2) == 0, ..settings }, selectors, tags }
    }

    /// One whose tags are never refused.
    pub fn without_limit(numbers: &mut Numbers) -> Case {
        let mut case = Case::random(numbers);
        case.settings.max_memory = usize::MAX;
        case
    }
}

impl Tag {
    fn random(numbers: &mut Numbers) -> Tag {
        let name = numbers.one_of(&NAMES);
        if numbers.below(3) == 0 {
            return Tag::End(name);
        }
        let namespace = NAMESPACES[numbers.below(12).saturating_sub(9)];
        let attributes = (0..numbers.below(4)).map(|_| numbers.one_of(&ATTRIBUTES)).collect();
        let (self_closing, dropped) = (numbers.below(4) == 0, numbers.below(8) == 0);
        Tag::Start(StartTag { name, namespace, self_closing, dropped, attributes })
    }
}

/// The script of a case: a text stands in the line after that of its number.
pub fn script_of(case: &Case) -> String {
    let mut script = String::new();
    for (id, text) in &case.selectors {
        script += &format!("select\t{id}\t{text}\n");
    }
    script += &format!("limit\t{}\ntries\n", case.settings.max_memory);
    if case.settings.esi {
        script += "esi\n";
    }
    if case.settings.explain {
        script += "explain\n";
    }
    for tag in &case.tags {
        script += &match tag {
            Tag::End(name) => format!("end\t{name}\n"),
            Tag::Start(tag) => line_of(tag),
        };
    }
    script
}

fn line_of(tag: &StartTag) -> String {
    let kind = if tag.dropped { "drop" } else { "start" };
    let slash = if tag.self_closing { "/" } else { "" };
    let mut line = format!("{kind}\t{}{slash}\t{}", tag.namespace.0, tag.name);
    for (name, value) in &tag.attributes {
        line += &format!("\t{name}");
        line += &value.map_or(String::new(), |value| format!("={value}"));
    }
    line + "\n"
}

/// A matcher for a case, built.
pub fn matcher_of(case: &Case) -> Matcher {
    let mut builder = Builder::with_settings(case.settings).unwrap();
    for (id, text) in &case.selectors {
        builder.add(*id, text).unwrap();
    }
    builder.build().unwrap()
}

/// What a matcher answers to a case's tags, as the script's output has it.
pub fn answers_of(case: &Case) -> String {
    let (mut matcher, mut out) = (matcher_of(case), String::new());
    for (tag, number) in case.tags.iter().zip(0..) {
        match answer_of(&mut matcher, tag, number) {
            Ok(answer) => out += &answer,
            Err(Error::MemoryLimitExceeded) => return out + "refused limit\n",
            Err(error) => panic!("{error}"),
        }
    }
    out
}

/// What a matcher answers to a tag, whose number becomes its element's value.
pub fn answer_of(matcher: &mut Matcher, tag: &Tag, number: u64) -> Result<String, Error> {
    match tag {
        Tag::End(name) => Ok(format!("end\t{}\n", joined(matcher.end(name)?, ""))),
        Tag::Start(tag) => Ok(start_of(matcher, tag, number)? + &why(matcher)?),
    }
}

fn start_of(matcher: &mut Matcher, tag: &StartTag, number: u64) -> Result<String, Error> {
    let asked = matcher.start(tag.name, tag.namespace.1)? == Started::NeedsAttributes;
    if asked && tag.dropped {
        return Ok("dropped\n".to_string());
    }
    if asked {
        let given = tag.attributes.iter().map(|(name, value)| match value {
            Some(value) => Attribute::new(*name, *value),
            None => Attribute::bare(*name),
        });
        matcher.finish(&given.collect::<Vec<_>>(), tag.self_closing)?;
    }
    if matcher.has_opened() {
        matcher.set_value(number)?;
    }
    let mark = if matcher.has_opened() { "" } else { "/" };
    let asked = if asked { "\tasked" } else { "" };
    let tries = matcher.tries();
    let ids = joined(matcher.ids(), mark);
    Ok(format!("start\t{ids}{asked}\ttries {} {}\n", tries.names, tries.attributes))
}

/// The lines of the reasons for the last tag, if they are told.
fn why(matcher: &mut Matcher) -> Result<String, Error> {
    let reasons = match matcher.explain() {
        Err(Error::NotExplaining) => Vec::new(),
        explained => explained?,
    };
    let text: String = reasons.iter().map(|reason| format!("{reason}\n")).collect();
    assert_eq!(matcher.explain_text().unwrap_or_default(), text);
    let in_lines = reasons.into_iter().map(|reason| Reason { text: reason.text + 1, ..reason });
    Ok(in_lines.map(|reason| format!("{reason}\n")).collect())
}

fn joined<T: std::fmt::Display>(all: &[T], mark: &str) -> String {
    if all.is_empty() {
        return "-".to_string();
    }
    all.iter().map(|one| format!("{one}{mark}")).collect::<Vec<_>>().join(",")
}
