//! Why a tag was reported.

use crate::ffi;
use std::fmt;

/// Why a tag was reported: an item of a list of selectors that matches its element.
///
/// It is shown as its line in [`Matcher::explain_text`](crate::Matcher::explain_text), without the line's end:
///
/// ```
/// let reason = zugrenja::Reason { id: 7, text: 1, item: 0, witness: vec![0, 2] };
/// assert_eq!(reason.to_string(), "why\t7\t1\t0\t0,2");
/// ```
#[derive(Clone, Debug, PartialEq, Eq, Hash)]
pub struct Reason {
    /// The id that the text was added under.
    pub id: u32,
    /// The number of the text in the order of adding, from 0.
    pub text: usize,
    /// The item of its list, from 0.
    pub item: usize,
    /// For each compound of the item the number of the start tag whose element it is passed by, the outermost first, that of the tag
    /// itself last.
    pub witness: Vec<usize>,
}

impl Reason {
    /// A reason whose numbers are among those of all.
    pub(crate) fn of(raw: &ffi::Reason, numbers: &[usize]) -> Reason {
        let witness = numbers[raw.numbers_start..][..raw.numbers_len].to_vec();
        Reason { id: raw.id, text: raw.text, item: raw.item, witness }
    }
}

impl fmt::Display for Reason {
    fn fmt(&self, f: &mut fmt::Formatter<'_>) -> fmt::Result {
        write!(f, "why\t{}\t{}\t{}", self.id, self.text, self.item)?;
        for (place, number) in self.witness.iter().enumerate() {
            let sign = if place == 0 { '\t' } else { ',' };
            write!(f, "{sign}{number}")?;
        }
        Ok(())
    }
}
