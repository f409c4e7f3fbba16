//! Why a call was refused.

use crate::ffi;
use std::{error, fmt};

/// Why a text isn't accepted as a selector.
#[derive(Clone, Copy, Debug, PartialEq, Eq, Hash)]
pub enum Cause {
    /// A token that can't stand where it does.
    UnexpectedToken,
    /// The text, or a bracket, ends where a token is wanted.
    UnexpectedEnd,
    /// `[` without a name after it.
    MissingAttributeName,
    /// An empty text, or an empty item of a list.
    EmptySelector,
    /// A combinator without a compound after it.
    DanglingCombinator,
    /// A token that can't stand where it does between `[` and `]`.
    UnexpectedTokenInAttribute,
    /// A pseudo-class or a pseudo-element that isn't supported.
    UnsupportedPseudoClassOrElement,
    /// Of lol_html's causes; no text has it here.
    NestedNegation,
    /// A name with a namespace.
    NamespacedSelector,
    /// `.` without a name directly after it.
    InvalidClassName,
    /// Of lol_html's causes; no text has it here.
    EmptyNegation,
    /// A combinator that isn't supported.
    UnsupportedCombinator(char),
    /// Syntax that isn't supported.
    UnsupportedSyntax,
}

impl Cause {
    fn of(cause: u32, combinator: u32) -> Cause {
        match cause {
            0 => Cause::UnexpectedToken,
            1 => Cause::UnexpectedEnd,
            2 => Cause::MissingAttributeName,
            3 => Cause::EmptySelector,
            4 => Cause::DanglingCombinator,
            5 => Cause::UnexpectedTokenInAttribute,
            6 => Cause::UnsupportedPseudoClassOrElement,
            7 => Cause::NestedNegation,
            8 => Cause::NamespacedSelector,
            9 => Cause::InvalidClassName,
            10 => Cause::EmptyNegation,
            11 => Cause::UnsupportedCombinator(char::from_u32(combinator).unwrap_or(char::REPLACEMENT_CHARACTER)),
            12 => Cause::UnsupportedSyntax,
            _ => panic!("no cause has the number {cause}: the archive is of another version"),
        }
    }

    /// Its number, and the combinator's code point or 0.
    fn numbers(&self) -> (u32, u32) {
        match *self {
            Cause::UnexpectedToken => (0, 0),
            Cause::UnexpectedEnd => (1, 0),
            Cause::MissingAttributeName => (2, 0),
            Cause::EmptySelector => (3, 0),
            Cause::DanglingCombinator => (4, 0),
            Cause::UnexpectedTokenInAttribute => (5, 0),
            Cause::UnsupportedPseudoClassOrElement => (6, 0),
            Cause::NestedNegation => (7, 0),
            Cause::NamespacedSelector => (8, 0),
            Cause::InvalidClassName => (9, 0),
            Cause::EmptyNegation => (10, 0),
            Cause::UnsupportedCombinator(combinator) => (11, combinator.into()),
            Cause::UnsupportedSyntax => (12, 0),
        }
    }
}

impl fmt::Display for Cause {
    fn fmt(&self, f: &mut fmt::Formatter<'_>) -> fmt::Result {
        let (cause, combinator) = self.numbers();
        write_text(f, ffi::NOT_ACCEPTED, cause, combinator)
    }
}

/// Writes what the library says of a status, and of a cause if the status is that of a text that isn't accepted.
fn write_text(f: &mut fmt::Formatter<'_>, status: u32, cause: u32, combinator: u32) -> fmt::Result {
    let mut text = [0; ffi::TEXT];
    // SAFETY: `text` lives.
    let length = unsafe { ffi::zugrenja_text(status, cause, combinator, text.as_mut_ptr(), text.len()) };
    f.write_str(&String::from_utf8_lossy(&text[..length]))
}

/// Why a call was refused. What has changed then stands at each call.
#[derive(Clone, Copy, Debug, PartialEq, Eq, Hash)]
pub enum Error {
    /// A text isn't accepted as a selector.
    Selector {
        /// Why.
        cause: Cause,
        /// Which item of the list, from 0.
        item: usize,
        /// Where, as a byte offset in the text, from 0.
        offset: usize,
    },
    /// Memory was refused, and the matcher is as it was.
    OutOfMemory,
    /// The tag's element has no room below the memory limit. Each later start tag is [`Error::Failed`].
    MemoryLimitExceeded,
    /// The tag's parent has 2,147,483,647 children. Each later start tag is [`Error::Failed`].
    CounterFull,
    /// Memory was refused for the tag. Each later start tag is [`Error::Failed`].
    TagOutOfMemory,
    /// An earlier start tag was refused.
    Failed,
    /// No start tag waits for its attributes.
    NotAsked,
    /// A name or a value lies outside the text. A tag that waits still does.
    OutsideText,
    /// The last tag has opened no element.
    NotOpened,
    /// The matcher doesn't explain: it was made without [`Settings::explain`](crate::Settings::explain).
    NotExplaining,
    /// A matcher that explains has more items of selectors than there are ids, 4,294,967,296.
    TooManyItems,
    /// The matcher is to explain, and has no rows: it was made with [`Settings::explain`](crate::Settings::explain).
    Explains,
}

impl Error {
    /// The error of a status.
    ///
    /// # Panics
    /// For a status that no call of this package is answered with, which would show an archive of another version.
    pub(crate) fn of(status: u32) -> Error {
        match status {
            ffi::OUT_OF_MEMORY => Error::OutOfMemory,
            ffi::LIMIT => Error::MemoryLimitExceeded,
            ffi::COUNTER => Error::CounterFull,
            ffi::TAG_OUT_OF_MEMORY => Error::TagOutOfMemory,
            ffi::FAILED => Error::Failed,
            ffi::NOT_ASKED => Error::NotAsked,
            ffi::OUTSIDE => Error::OutsideText,
            ffi::NOT_OPENED => Error::NotOpened,
            ffi::NOT_EXPLAINING => Error::NotExplaining,
            ffi::TOO_MANY_ITEMS => Error::TooManyItems,
            ffi::EXPLAINS => Error::Explains,
            _ => panic!("no error has the status {status}: the archive is of another version"),
        }
    }

    pub(crate) fn refusal(refusal: &ffi::Refusal) -> Error {
        Error::Selector {
            cause: Cause::of(refusal.cause, refusal.combinator),
            item: refusal.item,
            offset: refusal.offset,
        }
    }

    /// What people are told of the text that is refused: the cause, the text's line, and under it a caret at the place, beside which stands
    /// what is refused and, for some causes, what to write in its place. Nothing of another error.
    ///
    /// ```
    /// use zugrenja::Builder;
    ///
    /// let refused = Builder::new()?.add(0, "img, a + img").unwrap_err();
    /// let message = refused.message("img, a + img").unwrap();
    /// assert!(message.starts_with("Unsupported combinator `+` in selector.\n    img, a + img\n           ^ `+`"), "{message}");
    /// # Ok::<(), zugrenja::Error>(())
    /// ```
    pub fn message(&self, text: &str) -> Option<String> {
        let Error::Selector { cause, item, offset } = *self else {
            return None;
        };
        let (cause, combinator) = cause.numbers();
        let refusal = ffi::Refusal { cause, combinator, item, offset };
        let write = |out: &mut [u8]| {
            // SAFETY: `text`, `refusal` and `out` live.
            unsafe { ffi::zugrenja_message(text.as_ptr(), text.len(), &refusal, out.as_mut_ptr(), out.len()) }
        };
        let mut told = vec![0; write(&mut [])];
        write(&mut told);
        String::from_utf8(told).ok()
    }
}

impl fmt::Display for Error {
    fn fmt(&self, f: &mut fmt::Formatter<'_>) -> fmt::Result {
        let status = match self {
            Error::Selector { cause, item, offset } => return write!(f, "{cause} (item {item}, byte {offset})"),
            Error::OutOfMemory => ffi::OUT_OF_MEMORY,
            Error::MemoryLimitExceeded => ffi::LIMIT,
            Error::CounterFull => ffi::COUNTER,
            Error::TagOutOfMemory => ffi::TAG_OUT_OF_MEMORY,
            Error::Failed => ffi::FAILED,
            Error::NotAsked => ffi::NOT_ASKED,
            Error::OutsideText => ffi::OUTSIDE,
            Error::NotOpened => ffi::NOT_OPENED,
            Error::NotExplaining => ffi::NOT_EXPLAINING,
            Error::TooManyItems => ffi::TOO_MANY_ITEMS,
            Error::Explains => ffi::EXPLAINS,
        };
        write_text(f, status, 0, 0)
    }
}

impl error::Error for Error {}

#[cfg(test)]
mod tests {
    use super::*;

    #[test]
    fn statuses_are_put_into_words() {
        assert_eq!(Error::of(4).to_string(), "out of memory");
        assert_eq!(Error::of(14).to_string(), "out of memory");
        assert_eq!(Error::of(18).to_string(), "the last tag has opened no element");
        let shown: std::collections::HashSet<_> = (12..22).map(|status| Error::of(status).to_string()).collect();
        assert_eq!(shown.len(), 10);
    }

    #[test]
    fn causes_are_their_own() {
        for cause in 0..13 {
            assert_eq!(Cause::of(cause, 43).numbers().0, cause);
        }
        let shown: std::collections::HashSet<_> = (0..13).map(|cause| Cause::of(cause, 43).to_string()).collect();
        assert_eq!(shown.len(), 13);
        assert_eq!(Cause::of(11, 0x7e).to_string(), "Unsupported combinator `~` in selector.");
    }

    #[test]
    #[should_panic(expected = "another version")]
    fn other_statuses_are_no_errors() {
        Error::of(22);
    }
}
