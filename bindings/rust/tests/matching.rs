//! What a matcher answers, call by call.

use std::error::Error as _;
use zugrenja::{run_script, Attribute, Builder, Cause, Ending, Error, Matcher, Namespace, Place, Settings, Started};
use Namespace::{Html, MathMl, Svg};

/// A matcher with this room for open elements.
fn limited(max_memory: usize, element_bytes: usize, texts: &[&str]) -> Matcher {
    built(Settings { max_memory, element_bytes, ..Settings::default() }, texts)
}

/// A matcher for texts under the id 0.
fn built(settings: Settings, texts: &[&str]) -> Matcher {
    let mut builder = Builder::with_settings(settings).unwrap();
    for text in texts {
        builder.add(0, text).unwrap();
    }
    builder.build().unwrap()
}

/// One that explains.
fn explaining(texts: &[&str]) -> Matcher {
    built(Settings { explain: true, ..Settings::default() }, texts)
}

/// The texts, the items and the witnesses of the last tag's reasons, which are all under the id 0.
fn reasons(matcher: &mut Matcher) -> Vec<(usize, usize, Vec<usize>)> {
    let reasons = matcher.explain().unwrap();
    let lines: String = reasons.iter().map(|reason| format!("{reason}\n")).collect();
    assert_eq!(matcher.explain_text(), Ok(lines));
    assert!(reasons.iter().all(|reason| reason.id == 0));
    reasons.into_iter().map(|reason| (reason.text, reason.item, reason.witness)).collect()
}

fn matcher(texts: &[&str]) -> Matcher {
    Matcher::new(texts).unwrap()
}

#[test]
fn each_cause_has_its_place() {
    let refused = [
        ("", Cause::EmptySelector, 0, 0),
        ("a, ,b", Cause::EmptySelector, 1, 3),
        ("div >", Cause::DanglingCombinator, 0, 5),
        ("div.", Cause::UnexpectedEnd, 0, 4),
        ("div@", Cause::UnexpectedToken, 0, 3),
        ("div[=\"foo\"]", Cause::MissingAttributeName, 0, 4),
        ("p, [a=1]", Cause::UnexpectedTokenInAttribute, 1, 6),
        (".foo()", Cause::InvalidClassName, 0, 1),
        ("svg|img", Cause::NamespacedSelector, 0, 3),
        ("a:hover", Cause::UnsupportedPseudoClassOrElement, 0, 2),
        ("a + b", Cause::UnsupportedCombinator('+'), 0, 2),
        ("a ~ b", Cause::UnsupportedCombinator('~'), 0, 2),
        ("ä, é~b", Cause::UnsupportedCombinator('~'), 1, 6),
    ];
    let mut builder = Builder::new().unwrap();
    for (text, cause, item, offset) in refused {
        assert_eq!(builder.add(0, text), Err(Error::Selector { cause, item, offset }), "{text}");
    }
    let deep = format!("{}a{}", ":not(".repeat(129), ")".repeat(129));
    let refused = builder.add(0, &deep).unwrap_err();
    assert!(matches!(refused, Error::Selector { cause: Cause::UnsupportedSyntax, item: 0, .. }), "{refused}");
    builder.add(3, "a").unwrap();
    assert_eq!(builder.build().unwrap().tag("a", Html, &[], false), Ok(&[3][..]));
}

#[test]
fn errors_say_cause_and_place() {
    let refused = Matcher::new(["a", "b, c:root"]).unwrap_err();
    let shown = "Unsupported pseudo-class or pseudo-element in selector. (item 1, byte 5)";
    assert_eq!(refused.to_string(), shown);
    assert!(refused.source().is_none());
    let boxed: Box<dyn std::error::Error + Send + Sync> = refused.into();
    assert_eq!(boxed.to_string(), shown);
}

#[test]
fn ids_ascend_and_stand_once() {
    let mut builder = Builder::new().unwrap();
    for (id, text) in [(u32::MAX, "p"), (4, "*"), (0, "p, body p"), (4, "p")] {
        builder.add(id, text).unwrap();
    }
    let mut matcher = builder.build().unwrap();
    assert_eq!(matcher.tag("body", Html, &[], false), Ok(&[4][..]));
    assert_eq!(matcher.tag("P", Html, &[], false), Ok(&[0, 4, u32::MAX][..]));
    assert_eq!(matcher.end("BODY"), Ok(&[0, 0][..]));
    assert!(matcher.ids().is_empty());
}

#[test]
fn attributes_are_asked_for_where_they_count() {
    let mut matcher = matcher(&["a[href]", "p"]);
    assert_eq!(matcher.start("p", Html), Ok(Started::Reported));
    assert_eq!(matcher.finish(&[], false), Err(Error::NotAsked));
    assert_eq!(matcher.start("a", Html), Ok(Started::NeedsAttributes));
    assert!(matcher.ids().is_empty() && !matcher.has_opened());
    assert_eq!(matcher.finish(&[Attribute::bare("hidden"), Attribute::bare("HREF")], false), Ok(()));
    assert_eq!(matcher.ids(), [0]);
    assert_eq!(matcher.finish(&[], false), Err(Error::NotAsked));
}

#[test]
fn values_are_bytes() {
    let mut matcher = matcher(&["[a='']", "[a=é]", "[b]"]);
    let none: [u32; 0] = [];
    assert_eq!(matcher.tag("p", Html, &[Attribute::new("a", "")], false), Ok(&[0][..]));
    assert_eq!(matcher.tag("p", Html, &[Attribute::bare("a")], false), Ok(&[0][..]));
    assert_eq!(matcher.tag("p", Html, &[Attribute::new("a", "é".as_bytes())], false), Ok(&[1][..]));
    assert_eq!(matcher.tag("p", Html, &[Attribute::new("a", b"\xe9")], false), Ok(&none[..]));
    assert_eq!(matcher.tag(b"\xff\0", Html, &[Attribute::new("b", b"\xff")], false), Ok(&[2][..]));
    assert_eq!(matcher.tag("", Html, &[Attribute::new("", "")], false), Ok(&none[..]));
    assert_eq!(matcher.end(b"\xff\0").map(<[u64]>::len), Ok(2));
}

#[test]
fn places_lie_in_the_text() {
    let place = |name, value| [Place { name, value }];
    let mut matcher = matcher(&["[id=a]"]);
    assert_eq!(matcher.start("p", Html), Ok(Started::NeedsAttributes));
    let reversed = std::ops::Range { start: 5, end: 3 };
    for places in [
        place(3..5, Some(6..8)),
        place(3..8, None),
        place(reversed.clone(), None),
        place(3..5, Some(reversed)),
        place(usize::MAX..usize::MAX, None),
    ] {
        assert_eq!(matcher.finish_in("<p id=a", &places, false), Err(Error::OutsideText), "{places:?}");
    }
    assert_eq!(matcher.finish_in("<p id=a", &place(3..5, Some(6..7)), false), Ok(()));
    assert_eq!(matcher.ids(), [0]);
}

#[test]
fn a_dropped_tag_counts_as_a_child() {
    let mut matcher = matcher(&["p:nth-child(2)", "b[x]"]);
    matcher.tag("div", Html, &[Attribute::bare("x")], false).unwrap();
    assert_eq!(matcher.start("b", Html), Ok(Started::NeedsAttributes));
    assert_eq!(matcher.start("p", Html), Ok(Started::Reported));
    assert_eq!(matcher.ids(), [0]);
    assert_eq!(matcher.finish(&[Attribute::bare("x")], false), Err(Error::NotAsked));
    assert_eq!(matcher.start("b", Html), Ok(Started::NeedsAttributes));
    assert_eq!(matcher.end("div").map(<[u64]>::len), Ok(2));
    assert_eq!(matcher.finish(&[], false), Err(Error::NotAsked));
}

#[test]
fn content_depends_on_name_namespace_and_slash() {
    let mut matcher = matcher(&["*"]);
    let mut opens = |name: &str, namespace, closes| {
        matcher.tag(name, namespace, &[], closes).unwrap();
        assert_eq!(matcher.set_value(1).is_ok(), matcher.has_opened());
        matcher.has_opened()
    };
    assert!(opens("div", Html, true));
    assert!(!opens("br", Html, false));
    assert!(opens("path", Svg, false));
    assert!(!opens("path", Svg, true));
    assert!(!opens("mi", MathMl, true));
    assert!(opens("br", MathMl, false));
    assert!(opens("esi:include", Html, false));
    assert_eq!(matcher.end("div"), Ok(&[1, 1, 1, 1][..]));
    assert_eq!(matcher.set_value(1), Err(Error::NotOpened));
}

#[test]
fn esi_names_are_void_by_the_setting() {
    let mut matcher =
        Builder::with_settings(Settings { esi: true, ..Settings::default() }).and_then(Builder::build).unwrap();
    matcher.tag("esi:include", Html, &[], false).unwrap();
    assert!(!matcher.has_opened());
}

#[test]
fn values_come_back_outermost_first() {
    let mut matcher = matcher(&["a"]);
    for (name, value) in [("a", Some(1)), ("b", None), ("c", Some(u64::MAX)), ("b", Some(4))] {
        matcher.tag(name, Html, &[], false).unwrap();
        if let Some(value) = value {
            matcher.set_value(8).unwrap();
            matcher.set_value(value).unwrap();
        }
    }
    assert_eq!(matcher.end("x"), Ok(&[][..]));
    assert_eq!(matcher.end("b"), Ok(&[4][..]));
    assert_eq!(matcher.end("b"), Ok(&[0, u64::MAX][..]));
    assert_eq!(matcher.end("a"), Ok(&[1][..]));
    assert_eq!(matcher.end("a"), Ok(&[][..]));
    matcher.tag("d", Html, &[], false).unwrap();
    assert_eq!(matcher.end("d"), Ok(&[0][..]));
}

#[test]
fn a_refused_tag_fails_the_later_ones() {
    let mut matcher = limited(0, 64, &["p", "b[x]"]);
    assert_eq!(matcher.start("p", Html), Err(Error::MemoryLimitExceeded));
    assert_eq!(matcher.start("p", Html), Err(Error::Failed));
    assert_eq!(matcher.tag("b", Html, &[], false), Err(Error::Failed));
    assert_eq!(matcher.finish(&[], false), Err(Error::Failed));
    assert_eq!(matcher.end("p"), Ok(&[][..]));
    assert!(matcher.ids().is_empty() && !matcher.has_opened());
}

#[test]
fn open_elements_are_charged() {
    let opens_until_refused = |max_memory, element_bytes| {
        let mut matcher = limited(max_memory, element_bytes, &["p"]);
        (0..1000).take_while(|_| matcher.start("p", Html).is_ok()).count()
    };
    assert_eq!(opens_until_refused(8 * 64, 64), 8);
    assert_eq!(opens_until_refused(16 * 64 - 1, 64), 8);
    assert_eq!(opens_until_refused(16 * 64, 64), 16);
    for element_bytes in [0, 1] {
        assert_eq!(opens_until_refused(127, element_bytes), 0);
        assert_eq!(opens_until_refused(128, element_bytes), 128);
    }
    assert_eq!(opens_until_refused(usize::MAX, usize::MAX), 0);
    assert_eq!(opens_until_refused(usize::MAX, 64), 1000);
}

#[test]
fn tries_are_told() {
    let mut matcher = matcher(&["div > p", "div a[href]"]);
    matcher.tag("div", Html, &[], false).unwrap();
    matcher.tag("a", Html, &[Attribute::bare("href")], false).unwrap();
    let script = "tries\nselect\t0\tdiv > p\nselect\t1\tdiv a[href]\nstart\thtml\tdiv\nstart\thtml\ta\thref\n";
    let (_, output) = run_script(script).unwrap();
    let tries = matcher.tries();
    let last = format!("start\t1\tasked\ttries {} {}\n", tries.names, tries.attributes);
    assert!(String::from_utf8(output).unwrap().ends_with(&last), "{last}");
}

/// A matcher with rows from so many nodes on.
fn with_rows_from(fewest: usize, text: &str) -> Matcher {
    let mut builder = Builder::new().unwrap();
    builder.add(0, text).unwrap();
    builder.with_rows_from(fewest).unwrap();
    builder.build().unwrap()
}

#[test]
fn rows_spare_tries_alone() {
    let (mut without, mut never, mut always) =
        (matcher(&["div p"]), with_rows_from(3, "div p"), with_rows_from(2, "div p"));
    for (name, ids, tries, spared) in [("div", &[][..], 1, 1), ("section", &[], 2, 0), ("p", &[0], 2, 1)] {
        for (matcher, tries) in [(&mut without, tries), (&mut never, tries), (&mut always, spared)] {
            assert_eq!(matcher.tag(name, Html, &[], false), Ok(ids));
            assert!(matcher.has_opened());
            assert_eq!(matcher.tries().names, tries);
        }
    }
}

#[test]
fn rows_pay_from_256_nodes() {
    for (nodes, tries) in [(255, 1), (256, 0)] {
        let mut builder = Builder::new().unwrap();
        builder.add(0, "p ".repeat(nodes).trim_end()).unwrap();
        builder.with_rows().unwrap();
        let mut matcher = builder.build().unwrap();
        matcher.tag("a", Html, &[], false).unwrap();
        assert_eq!(matcher.tries().names, tries);
    }
}

#[test]
fn a_matcher_that_explains_has_no_rows() {
    let mut builder = Builder::with_settings(Settings { explain: true, ..Settings::default() }).unwrap();
    builder.add(0, "p").unwrap();
    assert_eq!(builder.with_rows(), Err(Error::Explains));
    assert_eq!(builder.with_rows_from(0), Err(Error::Explains));
    assert_eq!(Error::Explains.to_string(), "the matcher explains, and has no rows");
    assert_eq!(builder.build().unwrap().tag("p", Html, &[], false), Ok(&[0][..]));
}

#[test]
fn reasons_tell_the_elements_of_the_compounds() {
    let mut matcher = explaining(&["div p", "div > p"]);
    for name in ["div", "section", "p"] {
        matcher.tag(name, Html, &[], false).unwrap();
    }
    assert_eq!(reasons(&mut matcher), [(0, 0, vec![0, 2])]);
    assert_eq!(matcher.explain_text().unwrap(), "why\t0\t0\t0\t0,2\n");
    matcher.end("section").unwrap();
    assert_eq!(reasons(&mut matcher), []);
    matcher.tag("p", Html, &[], false).unwrap();
    assert_eq!(reasons(&mut matcher), [(0, 0, vec![0, 4]), (1, 0, vec![0, 4])]);
}

#[test]
fn reasons_name_each_item_of_each_text() {
    let mut matcher = explaining(&["em, p.new, p", "body > p, [class], body [class=new]"]);
    assert_eq!(reasons(&mut matcher), []);
    matcher.tag("body", Html, &[], false).unwrap();
    assert_eq!(matcher.tag("p", Html, &[Attribute::new("class", "new")], false), Ok(&[0][..]));
    let wanted = [(0, 1, vec![1]), (0, 2, vec![1]), (1, 0, vec![0, 1]), (1, 1, vec![1]), (1, 2, vec![0, 1])];
    assert_eq!(reasons(&mut matcher), wanted);
    matcher.end("p").unwrap();
    matcher.tag("br", Html, &[Attribute::new("class", "new")], false).unwrap();
    assert_eq!(reasons(&mut matcher), [(1, 1, vec![3]), (1, 2, vec![0, 3])]);
}

#[test]
fn tags_that_are_dropped_have_numbers_and_no_reasons() {
    let mut matcher = explaining(&["p[id], b"]);
    assert_eq!(matcher.start("p", Html), Ok(Started::NeedsAttributes));
    assert_eq!(reasons(&mut matcher), []);
    matcher.tag("b", Html, &[], false).unwrap();
    assert_eq!(reasons(&mut matcher), [(0, 1, vec![1])]);
}

#[test]
fn a_tag_that_is_refused_has_no_reasons() {
    let mut matcher = built(Settings { max_memory: 512, explain: true, ..Settings::default() }, &["p"]);
    while matcher.start("p", Html).is_ok() {}
    assert_eq!(reasons(&mut matcher), []);
    assert_eq!(matcher.end("p").map(<[u64]>::len), Ok(1));
    assert_eq!(reasons(&mut matcher), []);
}

#[test]
fn reasons_are_as_many_and_as_long_as_they_come() {
    let mut matcher = explaining(&["p, ".repeat(40).trim_end_matches(", "), "p ".repeat(100).trim_end()]);
    for _ in 0..100 {
        matcher.tag("p", Html, &[], false).unwrap();
    }
    let mut wanted: Vec<_> = (0..40).map(|item| (0, item, vec![99])).collect();
    wanted.push((1, 0, (0..100).collect()));
    assert_eq!(reasons(&mut matcher), wanted);
}

#[test]
fn a_matcher_that_was_made_without_explains_nothing() {
    let mut matcher = matcher(&["p"]);
    for _ in 0..2 {
        assert_eq!(matcher.explain(), Err(Error::NotExplaining));
        assert_eq!(matcher.explain_text(), Err(Error::NotExplaining));
        matcher.tag("p", Html, &[], false).unwrap();
    }
}

#[test]
fn a_matcher_without_selectors_reports_nothing() {
    let mut matcher = matcher(&[]);
    assert_eq!(matcher.tag("p", Html, &[], false), Ok(&[][..]));
    assert_eq!(matcher.end("p"), Ok(&[0][..]));
}

#[test]
fn builders_that_are_dropped_are_freed() {
    for _ in 0..100 {
        let mut builder = Builder::new().unwrap();
        builder.add(0, "a:not(.b, #c)").unwrap();
        drop(builder);
        drop(matcher(&["a b > c"]));
    }
}

#[test]
fn scripts_end_in_three_ways() {
    assert_eq!(run_script(""), Ok((Ending::Good, Vec::new())));
    assert_eq!(run_script(b"select\t0\t\xff\n"), Ok((Ending::BadLine, b"bad line 1: form\n".to_vec())));
    let refused = "limit\t0\nselect\t0\tp\nstart\thtml\tp\n";
    assert_eq!(run_script(refused), Ok((Ending::Refused, b"refused limit\n".to_vec())));
    let ids: String = (0..100).map(|id| format!("select\t{id}\tp\n")).collect();
    let (ending, output) = run_script(ids + &"start\thtml\tp\n".repeat(99)).unwrap();
    assert_eq!((ending, output.len()), (Ending::Good, 99 * 296));
}
