//! CSS selectors against the start tags of a document, as its tags come, over Zugrenja's proved matcher.
//!
//! A [`Builder`] takes selectors under ids and makes a [`Matcher`], which is told of each start tag and each end tag, and says under which
//! ids a start tag is reported. It asks for attributes only where a selector needs them.
//!
//! ```
//! use zugrenja::{Attribute, Builder, Namespace, Started};
//!
//! let mut builder = Builder::new()?;
//! builder.add(7, "main > a[href^='https:']")?;
//! builder.add(9, "img:not([alt])")?;
//! let mut matcher = builder.build()?;
//!
//! assert_eq!(matcher.start("main", Namespace::Html)?, Started::Reported);
//! assert_eq!(matcher.start("a", Namespace::Html)?, Started::NeedsAttributes);
//! matcher.finish(&[Attribute::new("href", "https://example.org/")], false)?;
//! assert_eq!(matcher.ids(), [7]);
//! matcher.end("main")?;
//! # Ok::<(), zugrenja::Error>(())
//! ```
//!
//! A matcher that is built with [`Settings::explain`] also says why the last tag was reported: [`Matcher::explain`].
//!
//! The selectors that are accepted stand in `docs/SELECTORS.md`. What is proved is the contract of each function of `crates/zugrenja_c`;
//! this package, which calls them, is tested only. Beside what a matcher is refused, a vector of this package that finds no memory
//! ends the program, as everywhere in Rust.
#![warn(missing_docs)]

mod error;
mod ffi;
mod reason;
mod script;

pub use error::{Cause, Error};
pub use reason::Reason;
pub use script::{run_script, Ending};

use std::ops::Range;

/// The namespace of an element.
#[derive(Clone, Copy, Debug, PartialEq, Eq, Hash)]
pub enum Namespace {
    /// HTML.
    Html = 0,
    /// SVG.
    Svg = 1,
    /// MathML.
    MathMl = 2,
}

/// What is answered to a start tag.
#[derive(Clone, Copy, Debug, PartialEq, Eq, Hash)]
#[must_use]
pub enum Started {
    /// It is reported: [`Matcher::ids`] has its ids.
    Reported,
    /// Its attributes are asked for, by [`Matcher::finish`]. Another call that tells of a tag drops it: its element counts as a child then,
    /// and is neither reported nor opened.
    NeedsAttributes,
}

/// An attribute of a start tag: bytes as the tag has them.
#[derive(Clone, Copy, Debug, PartialEq, Eq, Hash)]
pub struct Attribute<'a> {
    /// The name, compared without case.
    pub name: &'a [u8],
    /// The value, if it has one.
    pub value: Option<&'a [u8]>,
}

impl<'a> Attribute<'a> {
    /// An attribute with a value.
    pub fn new<N, V>(name: &'a N, value: &'a V) -> Attribute<'a>
    where
        N: AsRef<[u8]> + ?Sized,
        V: AsRef<[u8]> + ?Sized,
    {
        Attribute { name: name.as_ref(), value: Some(value.as_ref()) }
    }

    /// An attribute without a value.
    pub fn bare<N: AsRef<[u8]> + ?Sized>(name: &'a N) -> Attribute<'a> {
        Attribute { name: name.as_ref(), value: None }
    }
}

/// Where an attribute stands in a text.
#[derive(Clone, Debug, PartialEq, Eq, Hash)]
pub struct Place {
    /// The name's bytes.
    pub name: Range<usize>,
    /// The value's bytes, if it has one.
    pub value: Option<Range<usize>>,
}

impl Place {
    fn raw(&self) -> ffi::Attribute {
        let value = self.value.clone().unwrap_or(0..0);
        ffi::Attribute {
            name_start: self.name.start,
            name_end: self.name.end,
            value_start: value.start,
            value_end: value.end,
            has_value: self.value.is_some().into(),
        }
    }
}

/// Settings of a matcher.
#[derive(Clone, Copy, Debug, PartialEq, Eq)]
pub struct Settings {
    /// The most bytes that open elements may be charged for.
    pub max_memory: usize,
    /// The bytes that each open element is charged for; 0 counts as 1.
    pub element_bytes: usize,
    /// Whether `esi:include` and `esi:comment` are void names, those of elements without content.
    pub esi: bool,
    /// Whether the matcher explains its reports, which takes more memory and time at each tag.
    pub explain: bool,
}

impl Default for Settings {
    /// No bound, 64 bytes for each element, no names of ESI, and no explanations.
    fn default() -> Settings {
        Settings { max_memory: usize::MAX, element_bytes: 64, esi: false, explain: false }
    }
}

/// A handle that owns its matcher, at an address that never changes.
#[derive(Debug)]
struct Handle(Box<ffi::Handle>);

// SAFETY: a handle owns all that it points to, and only calls with the handle get there. What the calls share is memory for reading alone,
// and malloc, which any thread may call. So it makes no difference which thread calls, as long as it is one at a time.
unsafe impl Send for Handle {}

impl Handle {
    fn raw(&mut self) -> *mut ffi::Handle {
        &mut *self.0
    }
}

impl Drop for Handle {
    fn drop(&mut self) {
        // SAFETY: the handle began as zeros, and only calls changed it. One without a matcher is answered NO_MATCHER.
        unsafe { ffi::zugrenja_free(self.raw()) };
    }
}

/// Selectors and settings, of which a matcher is made.
#[derive(Debug)]
pub struct Builder(Handle);

impl Builder {
    /// A builder with the settings of [`Settings::default`].
    ///
    /// # Errors
    /// [`Error::OutOfMemory`].
    pub fn new() -> Result<Builder, Error> {
        Builder::with_settings(Settings::default())
    }

    /// A builder without selectors.
    ///
    /// # Errors
    /// [`Error::OutOfMemory`].
    pub fn with_settings(settings: Settings) -> Result<Builder, Error> {
        let Settings { max_memory, element_bytes, esi, explain } = settings;
        let new = if explain { ffi::zugrenja_new_explaining } else { ffi::zugrenja_new };
        let mut handle = Handle(Box::new(ffi::Handle::ZEROS));
        // SAFETY: the handle is all zeros.
        match unsafe { new(handle.raw(), max_memory, element_bytes, esi.into()) } {
            ffi::GOOD => Ok(Builder(handle)),
            status => Err(Error::of(status)),
        }
    }

    /// Adds the selectors of a text, a list of them with commas, under an id. Several texts may have one id. The text isn't kept.
    ///
    /// # Errors
    /// [`Error::Selector`], with the cause and the place, and [`Error::OutOfMemory`]. The builder is as it was then.
    ///
    /// ```
    /// use zugrenja::{Builder, Cause, Error};
    ///
    /// let refused = Builder::new()?.add(0, "img, a + img").unwrap_err();
    /// assert_eq!(refused, Error::Selector { cause: Cause::UnsupportedCombinator('+'), item: 1, offset: 7 });
    /// assert_eq!(refused.to_string(), "Unsupported combinator `+` in selector. (item 1, byte 7)");
    /// # Ok::<(), Error>(())
    /// ```
    pub fn add(&mut self, id: u32, selectors: &str) -> Result<(), Error> {
        let mut refusal = ffi::Refusal::default();
        // SAFETY: `selectors` and `refusal` live.
        match unsafe { ffi::zugrenja_add(self.0.raw(), id, selectors.as_ptr(), selectors.len(), &mut refusal) } {
            ffi::GOOD => Ok(()),
            ffi::NOT_ACCEPTED => Err(Error::refusal(&refusal)),
            status => Err(Error::of(status)),
        }
    }

    /// Has the matcher made with rows if at least 256 nodes were added, from where rows pay: it spares the nodes that a tag's name, id,
    /// classes and attributes rule out. It answers the same, and tries fewer nodes.
    ///
    /// Call it after the selectors were added. A selector gives as many nodes as it has compounds, but for those that begin as another one
    /// does.
    ///
    /// # Errors
    /// [`Error::Explains`] for a builder with [`Settings::explain`], whose matcher has no rows. The builder is as it was then.
    pub fn with_rows(&mut self) -> Result<(), Error> {
        self.with_rows_from(ffi::ROWS_PAY_FROM)
    }

    /// As [`Builder::with_rows`], if at least so many nodes were added: always with 0. A second call takes no rows away.
    ///
    /// # Errors
    /// Those of [`Builder::with_rows`].
    ///
    /// ```
    /// use zugrenja::{Builder, Namespace};
    ///
    /// let mut builder = Builder::new()?;
    /// builder.add(7, "div p")?;
    /// builder.with_rows_from(0)?;
    /// let mut matcher = builder.build()?;
    /// matcher.tag("div", Namespace::Html, &[], false)?;
    /// matcher.tag("section", Namespace::Html, &[], false)?;
    /// assert_eq!(matcher.tries().names, 0); // and 2 without rows
    /// assert_eq!(matcher.tag("p", Namespace::Html, &[], false)?, [7]);
    /// # Ok::<(), zugrenja::Error>(())
    /// ```
    pub fn with_rows_from(&mut self, fewest: usize) -> Result<(), Error> {
        // SAFETY: only the handle is given.
        match unsafe { ffi::zugrenja_with_rows(self.0.raw(), fewest) } {
            ffi::GOOD => Ok(()),
            status => Err(Error::of(status)),
        }
    }

    /// The matcher, before a document's first tag.
    ///
    /// # Errors
    /// [`Error::OutOfMemory`], and [`Error::TooManyItems`] if it is to explain: the builder is gone then.
    pub fn build(mut self) -> Result<Matcher, Error> {
        // SAFETY: only the handle is given.
        match unsafe { ffi::zugrenja_build(self.0.raw()) } {
            ffi::GOOD => Ok(Matcher::of(self.0)),
            status => Err(Error::of(status)),
        }
    }
}

/// Matches selectors against the start tags of a document, as its tags come.
///
/// A matcher may go to another thread, but two threads can't share one:
///
/// ```
/// fn is_send<T: Send>() {}
/// is_send::<zugrenja::Matcher>();
/// ```
///
/// ```compile_fail,E0277
/// fn is_sync<T: Sync>() {}
/// is_sync::<zugrenja::Matcher>();
/// ```
#[derive(Debug)]
pub struct Matcher {
    handle: Handle,
    ids: Vec<u32>,
    has_opened: bool,
    /// How many elements are open.
    open: usize,
    /// Room for the values of as many as were ever open at an end tag.
    values: Vec<u64>,
    places: Vec<ffi::Attribute>,
    text: Vec<u8>,
    /// Room for as many reasons and numbers of tags as there ever were.
    reasons: Vec<ffi::Reason>,
    numbers: Vec<usize>,
}

impl Matcher {
    /// A matcher for texts of selectors under the ids 0, 1, .., with the settings of [`Settings::default`].
    ///
    /// # Errors
    /// As [`Builder::add`], for the first text that isn't accepted.
    ///
    /// ```
    /// use zugrenja::{Attribute, Matcher, Namespace};
    ///
    /// let mut matcher = Matcher::new(["ul > li:first-child", "li.new"])?;
    /// matcher.tag("ul", Namespace::Html, &[], false)?;
    /// assert_eq!(matcher.tag("li", Namespace::Html, &[Attribute::new("class", "big new")], false)?, [0, 1]);
    /// # Ok::<(), zugrenja::Error>(())
    /// ```
    pub fn new<T: AsRef<str>>(texts: impl IntoIterator<Item = T>) -> Result<Matcher, Error> {
        let mut builder = Builder::new()?;
        for (text, id) in texts.into_iter().zip(0..) {
            builder.add(id, text.as_ref())?;
        }
        builder.build()
    }

    fn of(handle: Handle) -> Matcher {
        Matcher {
            handle,
            ids: Vec::new(),
            has_opened: false,
            open: 0,
            values: Vec::new(),
            places: Vec::new(),
            text: Vec::new(),
            reasons: Vec::new(),
            numbers: Vec::new(),
        }
    }

    /// Tells of a start tag by its name, which is compared without case: it is reported, or its attributes are asked for. A tag outside
    /// HTML always waits for them.
    ///
    /// # Errors
    /// [`Error::MemoryLimitExceeded`], [`Error::CounterFull`], [`Error::TagOutOfMemory`], and [`Error::Failed`] after one of these.
    pub fn start(&mut self, name: impl AsRef<[u8]>, namespace: Namespace) -> Result<Started, Error> {
        let (name, mut matched) = (name.as_ref(), 0);
        self.forget_report();
        let handle = self.handle.raw();
        // SAFETY: `name` and `matched` live.
        match unsafe { ffi::zugrenja_start(handle, name.as_ptr(), name.len(), namespace as u32, &mut matched) } {
            ffi::GOOD => {
                self.read_report(matched);
                Ok(Started::Reported)
            }
            ffi::NEEDS_ATTRIBUTES => Ok(Started::NeedsAttributes),
            status => Err(Error::of(status)),
        }
    }

    /// Hands the attributes over that the last start tag waits for; it is reported then. With `self_closing` the tag closes itself, which
    /// counts outside HTML. Of two attributes of one name the first counts.
    ///
    /// # Errors
    /// Those of [`Matcher::start`]; [`Error::NotAsked`] if no tag waits; [`Error::OutOfMemory`], and the tag still waits.
    pub fn finish(&mut self, attributes: &[Attribute<'_>], self_closing: bool) -> Result<(), Error> {
        let mut text = std::mem::take(&mut self.text);
        text.clear();
        let mut append = |bytes: &[u8]| {
            let start = text.len();
            text.extend_from_slice(bytes);
            start..text.len()
        };
        self.places.clear();
        for attribute in attributes {
            let place = Place { name: append(attribute.name), value: attribute.value.map(&mut append) };
            self.places.push(place.raw());
        }
        let finished = self.finish_waiting(&text, self_closing);
        self.text = text;
        finished
    }

    /// As [`Matcher::finish`], with the attributes' places in a text, which may be the document itself: no byte is copied.
    ///
    /// # Errors
    /// Those of [`Matcher::finish`]; [`Error::OutsideText`] if a place isn't in the text, and a tag that waits still does.
    ///
    /// ```
    /// use zugrenja::{Matcher, Namespace, Place, Started};
    ///
    /// let mut matcher = Matcher::new(["[lang=de]"])?;
    /// assert_eq!(matcher.start("p", Namespace::Html)?, Started::NeedsAttributes);
    /// matcher.finish_in("<p lang=de hidden>", &[Place { name: 3..7, value: Some(8..10) }, Place { name: 11..17, value: None }], false)?;
    /// assert_eq!(matcher.ids(), [0]);
    /// # Ok::<(), zugrenja::Error>(())
    /// ```
    pub fn finish_in(&mut self, text: impl AsRef<[u8]>, places: &[Place], self_closing: bool) -> Result<(), Error> {
        self.places.clear();
        self.places.extend(places.iter().map(Place::raw));
        self.finish_waiting(text.as_ref(), self_closing)
    }

    fn finish_waiting(&mut self, text: &[u8], self_closing: bool) -> Result<(), Error> {
        let mut matched = 0;
        // SAFETY: `text`, the places and `matched` live.
        let status = unsafe {
            ffi::zugrenja_finish(
                self.handle.raw(),
                text.as_ptr(),
                text.len(),
                self.places.as_ptr(),
                self.places.len(),
                self_closing.into(),
                &mut matched,
            )
        };
        if status != ffi::GOOD {
            return Err(Error::of(status));
        }
        self.read_report(matched);
        Ok(())
    }

    /// Tells of a start tag and hands its attributes over if they are asked for: the ids that it is reported under, as [`Matcher::ids`].
    ///
    /// # Errors
    /// Those of [`Matcher::start`], and [`Error::OutOfMemory`].
    pub fn tag(
        &mut self,
        name: impl AsRef<[u8]>,
        namespace: Namespace,
        attributes: &[Attribute<'_>],
        self_closing: bool,
    ) -> Result<&[u32], Error> {
        if self.start(name, namespace)? == Started::NeedsAttributes {
            self.finish(attributes, self_closing)?;
        }
        Ok(&self.ids)
    }

    /// Keeps what is reported of the last start tag, under so many ids.
    fn read_report(&mut self, matched: usize) {
        self.ids.resize(matched, 0);
        let (handle, mut count, mut opened) = (self.handle.raw(), 0, 0);
        // SAFETY: `ids`, `count` and `opened` live.
        unsafe {
            ffi::zugrenja_ids(handle, self.ids.as_mut_ptr(), self.ids.len(), &mut count);
            ffi::zugrenja_has_opened(handle, &mut opened);
        }
        debug_assert_eq!(count, matched);
        self.has_opened = opened != 0;
        self.open += usize::from(self.has_opened);
    }

    fn forget_report(&mut self) {
        self.ids.clear();
        self.has_opened = false;
    }

    /// The ids that the last tag was reported under, ascending, each once: none after an end tag, or where a tag waits or is refused.
    pub fn ids(&self) -> &[u32] {
        &self.ids
    }

    /// Whether the last tag has opened its element, which has content then.
    pub fn has_opened(&self) -> bool {
        self.has_opened
    }

    /// Gives a value to the element that the last tag has opened, in the place of the one that it had. It takes no memory.
    ///
    /// # Errors
    /// [`Error::NotOpened`] if the last tag has opened none.
    pub fn set_value(&mut self, value: u64) -> Result<(), Error> {
        // SAFETY: only the handle is given.
        match unsafe { ffi::zugrenja_set_value(self.handle.raw(), value) } {
            ffi::GOOD => Ok(()),
            status => Err(Error::of(status)),
        }
    }

    /// Tells of an end tag by its name, which is compared without case: it closes the last open element of that name, and all inside it;
    /// none if none is open. Returns the values of those that it closes, the outermost first, 0 for one that was given none.
    ///
    /// # Errors
    /// [`Error::OutOfMemory`], and no element is closed. It takes memory for as many numbers as elements are open.
    ///
    /// ```
    /// use zugrenja::{Matcher, Namespace};
    ///
    /// let mut matcher = Matcher::new(["p"])?;
    /// for (name, value) in [("div", 5), ("p", 7)] {
    ///     matcher.tag(name, Namespace::Html, &[], false)?;
    ///     matcher.set_value(value)?;
    /// }
    /// matcher.tag("em", Namespace::Html, &[], false)?;
    /// assert_eq!(matcher.end("p")?, [7, 0]);
    /// assert_eq!(matcher.end("p")?, []);
    /// assert_eq!(matcher.end("div")?, [5]);
    /// # Ok::<(), zugrenja::Error>(())
    /// ```
    pub fn end(&mut self, name: impl AsRef<[u8]>) -> Result<&[u64], Error> {
        let (name, mut closed) = (name.as_ref(), 0);
        make_room(&mut self.values, self.open)?;
        let (handle, values) = (self.handle.raw(), self.values.as_mut_ptr());
        // SAFETY: `name`, `values` and `closed` live.
        match unsafe { ffi::zugrenja_end(handle, name.as_ptr(), name.len(), values, self.values.len(), &mut closed) } {
            ffi::GOOD => {}
            status => return Err(Error::of(status)),
        }
        self.forget_report();
        self.open -= closed;
        Ok(&self.values[..closed])
    }

    /// How many nodes of the selectors' tree were tried for the last start tag, by their names and by their attributes.
    pub fn tries(&mut self) -> Tries {
        let mut tries = Tries::default();
        // SAFETY: both numbers live. The matcher is built, so both are written.
        unsafe { ffi::zugrenja_tries(self.handle.raw(), &mut tries.names, &mut tries.attributes) };
        tries
    }

    /// Why the last tag was reported: a reason for each item of a text that matches its element, in the order of adding and of the list.
    /// There are none after an end tag, or where a tag waits or is refused.
    ///
    /// Tags are numbered from 0 in the order in which they are told, end tags and dropped tags too; one that was refused has no number.
    ///
    /// # Errors
    /// [`Error::NotExplaining`] for a matcher that was made without [`Settings::explain`], and [`Error::OutOfMemory`].
    ///
    /// ```
    /// use zugrenja::{Builder, Namespace, Reason, Settings};
    ///
    /// let mut builder = Builder::with_settings(Settings { explain: true, ..Settings::default() })?;
    /// builder.add(7, "li, div p")?;
    /// let mut matcher = builder.build()?;
    /// for name in ["div", "section", "p"] {
    ///     matcher.tag(name, Namespace::Html, &[], false)?;
    /// }
    /// assert_eq!(matcher.explain()?, [Reason { id: 7, text: 0, item: 1, witness: vec![0, 2] }]);
    /// # Ok::<(), zugrenja::Error>(())
    /// ```
    pub fn explain(&mut self) -> Result<Vec<Reason>, Error> {
        loop {
            let (handle, mut reasons, mut numbers) = (self.handle.raw(), 0, 0);
            // SAFETY: both vectors and both counts live.
            let status = unsafe {
                ffi::zugrenja_explain(
                    handle,
                    self.reasons.as_mut_ptr(),
                    self.reasons.len(),
                    self.numbers.as_mut_ptr(),
                    self.numbers.len(),
                    &mut reasons,
                    &mut numbers,
                )
            };
            if status != ffi::GOOD {
                return Err(Error::of(status));
            }
            if reasons <= self.reasons.len() && numbers <= self.numbers.len() {
                return Ok(self.reasons[..reasons].iter().map(|one| Reason::of(one, &self.numbers)).collect());
            }
            make_room(&mut self.reasons, reasons)?;
            make_room(&mut self.numbers, numbers)?;
        }
    }

    /// The same as text: for each reason its line, as [`Reason`] is shown. It is what a script's `explain` writes (`docs/SCRIPT.md`), with
    /// the text's number in the place of its line's.
    ///
    /// # Errors
    /// Those of [`Matcher::explain`].
    pub fn explain_text(&mut self) -> Result<String, Error> {
        let mut out = vec![0; 256];
        loop {
            let mut written = 0;
            // SAFETY: `out` and `written` live.
            let status =
                unsafe { ffi::zugrenja_explain_text(self.handle.raw(), out.as_mut_ptr(), out.len(), &mut written) };
            if status != ffi::GOOD {
                return Err(Error::of(status));
            }
            if written <= out.len() {
                return Ok(String::from_utf8_lossy(&out[..written]).into_owned());
            }
            make_room(&mut out, written)?;
        }
    }
}

/// Makes a vector at least so long.
fn make_room<T: Clone + Default>(vector: &mut Vec<T>, length: usize) -> Result<(), Error> {
    let more = length.saturating_sub(vector.len());
    vector.try_reserve(more).map_err(|_| Error::OutOfMemory)?;
    vector.resize(vector.len() + more, T::default());
    Ok(())
}

/// How many nodes of the selectors' tree were tried for a start tag.
#[derive(Clone, Copy, Debug, Default, PartialEq, Eq)]
pub struct Tries {
    /// By their names.
    pub names: u64,
    /// By their attributes.
    pub attributes: u64,
}
