//! Makes the calls of the table of calls (`bindings/calls.txt`), and checks what each answers. Those that the types rule out are counted.

use std::{fs, iter::Peekable, str::Chars};
use zugrenja::{
    run_script, Attribute, Builder, Cause, Ending, Error, Matcher, Namespace, Place, Reason, Settings, Started,
};

/// A call: its words up to `=`, those in quotes as their bytes, and what it has to answer.
struct Call<'a> {
    words: Vec<Vec<u8>>,
    answer: &'a str,
}

/// Reads a text in quotes, with the times that it is written after `*`.
fn piece(line: &mut Peekable<Chars>) -> Vec<u8> {
    let mut bytes = Vec::new();
    line.next();
    loop {
        match line.next().expect("a text ends") {
            '"' => break,
            '\\' if line.peek() == Some(&'x') => {
                let digits: String = line.skip(1).take(2).collect();
                bytes.push(u8::from_str_radix(&digits, 16).unwrap());
            }
            '\\' => bytes.push(line.next().unwrap() as u8),
            other => bytes.extend(other.to_string().bytes()),
        }
    }
    let mut times = String::new();
    if line.next_if_eq(&'*').is_some() {
        times.extend(std::iter::from_fn(|| line.next_if(char::is_ascii_digit)));
    }
    bytes.repeat(times.parse().unwrap_or(1))
}

impl Call<'_> {
    fn of(line: &str) -> Call<'_> {
        let mut words = Vec::new();
        let mut rest = line.chars().peekable();
        loop {
            let mut word = Vec::new();
            if rest.peek() == Some(&'"') {
                while rest.peek() == Some(&'"') {
                    word.extend(piece(&mut rest));
                }
            } else {
                word.extend(std::iter::from_fn(|| rest.next_if(|&c| c != ' ')).collect::<String>().bytes());
                if word == b"=" {
                    break;
                }
            }
            rest.next();
            words.push(word);
        }
        let answer = rest.collect::<String>().len();
        Call { words, answer: line[line.len() - answer..].strip_prefix(' ').unwrap() }
    }

    fn word(&self, place: usize) -> &str {
        std::str::from_utf8(&self.words[place]).unwrap()
    }

    fn number<T: TryFrom<u64>>(&self, place: usize) -> Option<T> {
        let number = if self.word(place) == "max" { u64::MAX } else { self.word(place).parse().unwrap() };
        T::try_from(number).ok()
    }

    fn flag(&self, place: usize) -> bool {
        self.number::<u64>(place) != Some(0)
    }
}

/// A handle as the types have it.
enum Handle {
    None,
    Adding(Builder),
    Built(Matcher),
}

/// What an error is called in the table.
fn name_of(error: Error) -> String {
    let name = match error {
        Error::Selector { cause, item, offset } => {
            let cause = match cause {
                Cause::UnsupportedCombinator(combinator) => format!("UnsupportedCombinator({combinator})"),
                other => format!("{other:?}"),
            };
            return format!("NOT_ACCEPTED {cause} {item} {offset}");
        }
        Error::OutOfMemory => "OUT_OF_MEMORY",
        Error::MemoryLimitExceeded => "LIMIT",
        Error::CounterFull => "COUNTER",
        Error::TagOutOfMemory => "TAG_OUT_OF_MEMORY",
        Error::Failed => "FAILED",
        Error::NotAsked => "NOT_ASKED",
        Error::OutsideText => "OUTSIDE",
        Error::NotOpened => "NOT_OPENED",
        Error::NotExplaining => "NOT_EXPLAINING",
        Error::TooManyItems => "TOO_MANY_ITEMS",
        Error::Explains => "EXPLAINS",
    };
    name.to_string()
}

fn answer_of(answered: Result<String, Error>) -> Option<String> {
    Some(answered.unwrap_or_else(name_of))
}

fn good(_: ()) -> String {
    "GOOD".to_string()
}

fn joined<T: std::fmt::Display>(all: &[T], mark: &str) -> String {
    if all.is_empty() {
        return "-".to_string();
    }
    all.iter().map(|one| format!("{one}{mark}")).collect::<Vec<_>>().join(",")
}

/// As many of them as there is room for.
fn within<T>(all: &[T], room: usize) -> &[T] {
    &all[..all.len().min(room)]
}

fn explained(reasons: &[Reason]) -> String {
    let shown = |one: &Reason| format!("{} {} {} {}", one.id, one.text, one.item, joined(&one.witness, ""));
    let all: Vec<_> = reasons.iter().map(shown).collect();
    format!("GOOD {}", if all.is_empty() { "-".to_string() } else { all.join("|") })
}

/// The length of a text, and its beginning.
fn beginning(text: &str, room: usize) -> String {
    let shown = text[..room.min(text.len())].replace('\n', "|").replace('\t', " ");
    format!("GOOD {} {}", text.len(), if shown.is_empty() { "-" } else { &shown })
}

fn report(matcher: &Matcher) -> String {
    format!("GOOD {}", joined(matcher.ids(), if matcher.has_opened() { "" } else { "/" }))
}

impl Handle {
    /// What a call is answered: `None` if the types rule it out.
    fn call(&mut self, call: &Call) -> Option<String> {
        if call.word(0) == "script" {
            return answer_of(run_script(&call.words[1]).map(|(ending, output)| script_answer(ending, &output)));
        }
        match (std::mem::replace(self, Handle::None), call.word(0)) {
            (Handle::None, kind @ ("new" | "new_explaining")) => {
                let (max_memory, element_bytes, esi) = (call.number(1)?, call.number(2)?, call.flag(3));
                let settings = Settings { max_memory, element_bytes, esi, explain: kind == "new_explaining" };
                *self = Handle::Adding(Builder::with_settings(settings).unwrap());
                Some(good(()))
            }
            (Handle::None, _) => None,
            (_, "free") => Some(good(())),
            (Handle::Adding(builder), "build") => {
                *self = Handle::Built(builder.build().unwrap());
                Some(good(()))
            }
            (Handle::Adding(mut builder), "with_rows") => {
                let made = call.number(1).map(|fewest| builder.with_rows_from(fewest));
                *self = Handle::Adding(builder);
                made.and_then(|made| answer_of(made.map(good)))
            }
            (Handle::Adding(mut builder), kind) => {
                let text = call.words.get(2).and_then(|text| std::str::from_utf8(text).ok());
                let added = text.filter(|_| kind == "add").map(|text| builder.add(call.number(1).unwrap(), text));
                *self = Handle::Adding(builder);
                added.and_then(|added| answer_of(added.map(good)))
            }
            (Handle::Built(mut matcher), _) => {
                let answer = told(&mut matcher, call);
                *self = Handle::Built(matcher);
                answer
            }
        }
    }
}

fn script_answer(ending: Ending, output: &[u8]) -> String {
    let status = match ending {
        Ending::Good => "GOOD",
        Ending::BadLine => "BAD_LINE",
        Ending::Refused => "REFUSED",
    };
    format!("{status} {}", String::from_utf8_lossy(output).replace('\n', "|").replace('\t', " "))
}

/// What a call is answered by a matcher that is built.
fn told(matcher: &mut Matcher, call: &Call) -> Option<String> {
    answer_of(match call.word(0) {
        "start" => {
            let namespace = match call.word(1) {
                "html" | "0" => Namespace::Html,
                "svg" | "1" => Namespace::Svg,
                "mathml" | "2" => Namespace::MathMl,
                _ => return None,
            };
            matcher.start(&call.words[2], namespace).map(|started| match started {
                Started::Reported => report(matcher),
                Started::NeedsAttributes => "NEEDS_ATTRIBUTES".to_string(),
            })
        }
        "finish" => {
            let attributes: Vec<_> = call.words[2..].iter().map(|word| attribute(word)).collect();
            matcher.finish(&attributes, call.flag(1)).map(|()| report(matcher))
        }
        "finish_in" => {
            let places: Vec<_> = (3..call.words.len()).map(|word| place(call.word(word))).collect();
            matcher.finish_in(&call.words[1], &places, call.flag(2)).map(|()| report(matcher))
        }
        "end" => matcher.end(&call.words[1]).map(|values| format!("GOOD {}", joined(values, ""))),
        "end_in" => {
            let room = call.number(2)?;
            let ended = matcher.end(&call.words[1]);
            ended.map(|values| format!("GOOD {} {}", values.len(), joined(within(values, room), "")))
        }
        "value" => matcher.set_value(call.number(1)?).map(good),
        "explain" => matcher.explain().map(|reasons| explained(&reasons)),
        "explain_text" => {
            let room = call.number(1)?;
            matcher.explain_text().map(|text| beginning(&text, room))
        }
        "ids" => Ok(format!("GOOD {}", joined(matcher.ids(), ""))),
        "ids_in" => {
            let ids = matcher.ids();
            Ok(format!("GOOD {} {}", ids.len(), joined(within(ids, call.number(1)?), "")))
        }
        "opened" => Ok(format!("GOOD {}", u32::from(matcher.has_opened()))),
        "tries" => {
            let tries = matcher.tries();
            Ok(format!("GOOD {} {}", tries.names, tries.attributes))
        }
        _ => return None,
    })
}

fn attribute(word: &[u8]) -> Attribute<'_> {
    match word.iter().position(|&byte| byte == b'=') {
        Some(equals) => Attribute::new(&word[..equals], &word[equals + 1..]),
        None => Attribute::bare(word),
    }
}

fn place(word: &str) -> Place {
    let range = |ends: &str| {
        let (start, end) = ends.split_once('-').unwrap();
        start.parse().unwrap()..end.parse().unwrap()
    };
    match word.split_once(':') {
        Some((name, value)) => Place { name: range(name), value: Some(range(value)) },
        None => Place { name: range(word), value: None },
    }
}

#[test]
fn calls_are_answered_as_the_table_says() {
    let table = fs::read_to_string("../calls.txt").unwrap();
    let (mut handle, mut name) = (Handle::None, "");
    let (mut made, mut ruled_out, mut wrong) = (0, 0, 0);
    for line in table.lines().filter(|line| !line.is_empty() && !line.starts_with('#')) {
        if let Some(case) = line.strip_prefix("case ") {
            (handle, name) = (Handle::None, case);
            continue;
        }
        let call = Call::of(line);
        match handle.call(&call) {
            None => ruled_out += 1,
            Some(answer) => {
                made += 1;
                if answer != call.answer {
                    wrong += 1;
                    println!("{name}: {line}\n  but answered: {answer}");
                }
            }
        }
    }
    println!("{made} calls of the table made, {wrong} answered otherwise, {ruled_out} ruled out by the types");
    assert!(wrong == 0 && made > 2000);
}
