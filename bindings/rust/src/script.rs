//! Scripts of selectors and tags.

use crate::error::Error;
use crate::ffi;

/// How a script ends.
#[derive(Clone, Copy, Debug, PartialEq, Eq, Hash)]
pub enum Ending {
    /// Each line was good, and each tag was answered.
    Good,
    /// A line was bad: the output is its number and the cause.
    BadLine,
    /// A tag was refused: the output ends with `refused limit` or `refused counter`.
    Refused,
}

/// Runs a script of selectors and tags (`docs/SCRIPT.md`): how it ends, and its output. No matcher is needed.
///
/// # Errors
/// [`Error::OutOfMemory`].
///
/// ```
/// use zugrenja::{run_script, Ending};
///
/// let output = run_script("select\t7\tdiv > p\nstart\thtml\tdiv\nstart\thtml\tp\nend\tdiv\n")?;
/// assert_eq!(output, (Ending::Good, b"start\t-\nstart\t7\nend\t0,1\n".to_vec()));
/// # Ok::<(), zugrenja::Error>(())
/// ```
pub fn run_script(script: impl AsRef<[u8]>) -> Result<(Ending, Vec<u8>), Error> {
    let script = script.as_ref();
    let mut out = vec![0; script.len() + 64];
    loop {
        let mut written = 0;
        // SAFETY: `script`, `out` and `written` live.
        let status = unsafe {
            ffi::zugrenja_run_script(script.as_ptr(), script.len(), out.as_mut_ptr(), out.len(), &mut written)
        };
        let ending = match status {
            ffi::GOOD => Ending::Good,
            ffi::BAD_LINE => Ending::BadLine,
            ffi::REFUSED => Ending::Refused,
            _ => return Err(Error::of(status)),
        };
        let fits = written <= out.len();
        out.resize(written, 0);
        if fits {
            return Ok((ending, out));
        }
    }
}
