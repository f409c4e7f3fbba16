//! The functions of `bindings/c/zugrenja.h`, as they are declared there; their contracts are proved in `crates/zugrenja_c`.
//!
//! Each call of them owes this:
//! - a handle began as [`Handle::ZEROS`], was changed by these functions alone, and has stayed where it is since its `zugrenja_new`;
//! - no other call with the same handle is under way;
//! - a pointer before a length points to as many bytes, numbers or structs, and every other pointer to one value, all of which live;
//! - what a pointer to `mut` points to overlaps nothing else that is given.
//!
//! Nothing else is owed: whatever the numbers, the bytes and the order of the calls, there is an answer. What single functions write
//! stands at them.

use std::ptr;

pub const GOOD: u32 = 0;
pub const NEEDS_ATTRIBUTES: u32 = 1;
pub const BAD_LINE: u32 = 2;
pub const REFUSED: u32 = 3;
pub const OUT_OF_MEMORY: u32 = 4;
pub const NOT_ACCEPTED: u32 = 10;
pub const LIMIT: u32 = 12;
pub const COUNTER: u32 = 13;
pub const TAG_OUT_OF_MEMORY: u32 = 14;
pub const FAILED: u32 = 15;
pub const NOT_ASKED: u32 = 16;
pub const OUTSIDE: u32 = 17;
pub const NOT_OPENED: u32 = 18;
pub const NOT_EXPLAINING: u32 = 19;
pub const TOO_MANY_ITEMS: u32 = 20;
pub const EXPLAINS: u32 = 21;

/// `ZUGRENJA_ROWS_PAY_FROM`.
pub const ROWS_PAY_FROM: usize = 256;

/// `ZUGRENJA_TEXT`.
pub const TEXT: usize = 96;

/// `zugrenja_matcher`.
#[repr(C)]
#[derive(Debug)]
pub struct Handle {
    at: *mut u8,
    live: u8,
}

impl Handle {
    /// A handle of no matcher.
    pub const ZEROS: Handle = Handle { at: ptr::null_mut(), live: 0 };
}

/// `zugrenja_refusal`.
#[repr(C)]
#[derive(Default)]
pub struct Refusal {
    pub cause: u32,
    pub combinator: u32,
    pub item: usize,
    pub offset: usize,
}

/// `zugrenja_attribute`.
#[repr(C)]
#[derive(Debug)]
pub struct Attribute {
    pub name_start: usize,
    pub name_end: usize,
    pub value_start: usize,
    pub value_end: usize,
    pub has_value: u32,
}

/// `zugrenja_reason`.
#[repr(C)]
#[derive(Clone, Copy, Debug, Default)]
pub struct Reason {
    pub text: usize,
    pub item: usize,
    pub numbers_start: usize,
    pub numbers_len: usize,
    pub id: u32,
}

extern "C" {
    /// GOOD, IN_USE, OUT_OF_MEMORY. After GOOD, `zugrenja_free` is owed before the handle goes.
    pub fn zugrenja_new(matcher: *mut Handle, max_memory: usize, element_bytes: usize, esi: u32) -> u32;

    /// As `zugrenja_new`, but the matcher explains.
    pub fn zugrenja_new_explaining(matcher: *mut Handle, max_memory: usize, element_bytes: usize, esi: u32) -> u32;

    /// GOOD, NOT_ACCEPTED, NOT_UTF8, BUILT, NO_MATCHER, OUT_OF_MEMORY. Writes `refusal` if NOT_ACCEPTED alone, and doesn't keep `text`.
    pub fn zugrenja_add(matcher: *mut Handle, id: u32, text: *const u8, text_len: usize, refusal: *mut Refusal) -> u32;

    /// GOOD, EXPLAINS, BUILT, NO_MATCHER.
    pub fn zugrenja_with_rows(matcher: *mut Handle, fewest: usize) -> u32;

    /// GOOD, BUILT, NO_MATCHER, OUT_OF_MEMORY, TOO_MANY_ITEMS. After the last two the matcher is freed.
    pub fn zugrenja_build(matcher: *mut Handle) -> u32;

    /// GOOD, NEEDS_ATTRIBUTES, LIMIT, COUNTER, TAG_OUT_OF_MEMORY, FAILED, NO_NAMESPACE, NOT_BUILT, NO_MATCHER. Writes `matched` always, and
    /// doesn't keep `name`.
    pub fn zugrenja_start(
        matcher: *mut Handle,
        name: *const u8,
        name_len: usize,
        name_space: u32,
        matched: *mut usize,
    ) -> u32;

    /// GOOD, NOT_ASKED, OUTSIDE, LIMIT, COUNTER, TAG_OUT_OF_MEMORY, FAILED, NOT_BUILT, NO_MATCHER, OUT_OF_MEMORY. Writes `matched` always,
    /// and keeps neither `text` nor `attributes`.
    pub fn zugrenja_finish(
        matcher: *mut Handle,
        text: *const u8,
        text_len: usize,
        attributes: *const Attribute,
        attributes_len: usize,
        self_closing: u32,
        matched: *mut usize,
    ) -> u32;

    /// GOOD, NOT_BUILT, NO_MATCHER, OUT_OF_MEMORY. Writes `closed` always, and as many `values` as are closed and fit.
    pub fn zugrenja_end(
        matcher: *mut Handle,
        name: *const u8,
        name_len: usize,
        values: *mut u64,
        values_len: usize,
        closed: *mut usize,
    ) -> u32;

    /// GOOD, NOT_OPENED, NOT_BUILT, NO_MATCHER.
    pub fn zugrenja_set_value(matcher: *mut Handle, value: u64) -> u32;

    /// GOOD, NOT_BUILT, NO_MATCHER. If GOOD, writes `matched`, and as many `ids` as there are and fit.
    pub fn zugrenja_ids(matcher: *mut Handle, ids: *mut u32, ids_len: usize, matched: *mut usize) -> u32;

    /// GOOD, NOT_BUILT, NO_MATCHER. Writes `opened` if GOOD.
    pub fn zugrenja_has_opened(matcher: *mut Handle, opened: *mut u32) -> u32;

    /// GOOD, NOT_BUILT, NO_MATCHER. Writes both numbers if GOOD.
    pub fn zugrenja_tries(matcher: *mut Handle, names: *mut u64, attributes: *mut u64) -> u32;

    /// GOOD, NOT_EXPLAINING, NOT_BUILT, NO_MATCHER, OUT_OF_MEMORY. Writes both counts always, and as many `reasons` and `numbers` as there
    /// are and fit.
    pub fn zugrenja_explain(
        matcher: *mut Handle,
        reasons: *mut Reason,
        reasons_len: usize,
        numbers: *mut usize,
        numbers_len: usize,
        reasons_count: *mut usize,
        numbers_count: *mut usize,
    ) -> u32;

    /// GOOD, NOT_EXPLAINING, NOT_BUILT, NO_MATCHER, OUT_OF_MEMORY. Writes `written` always, and of `out` what fits of the text.
    pub fn zugrenja_explain_text(matcher: *mut Handle, out: *mut u8, out_len: usize, written: *mut usize) -> u32;

    /// GOOD, NO_MATCHER.
    pub fn zugrenja_free(matcher: *mut Handle) -> u32;

    /// The length of a text, at most [`TEXT`]. Writes what fits of it. It needs no handle.
    pub fn zugrenja_text(status: u32, cause: u32, combinator: u32, out: *mut u8, out_len: usize) -> usize;

    /// The length of a message. Writes what fits of it. It needs no handle.
    pub fn zugrenja_message(
        text: *const u8,
        text_len: usize,
        refusal: *const Refusal,
        out: *mut u8,
        out_len: usize,
    ) -> usize;

    /// GOOD, BAD_LINE, REFUSED, OUT_OF_MEMORY. Writes `written` always, and of `out` what fits of the output. It needs no handle.
    pub fn zugrenja_run_script(
        script: *const u8,
        script_len: usize,
        out: *mut u8,
        out_len: usize,
        written: *mut usize,
    ) -> u32;
}
