//! The library's side: its C interface.

use crate::query::Query;

unsafe extern "C" {
    fn nuqsillay_accuracy(
        n320: u32,
        n300: u32,
        n200: u32,
        n100: u32,
        n50: u32,
        misses: u32,
        classic: bool,
        value: *mut f64,
    ) -> u32;

    fn nuqsillay_target(
        n_objects: u32,
        n_hold_notes: u32,
        classic: bool,
        presence: u8,
        misses: u32,
        passed: u32,
        holds_given: bool,
        holds_passed: u32,
        acc: f64,
        out: *mut u32,
        out_len: usize,
    ) -> u32;

    fn nuqsillay_generate(
        n_objects: u32,
        n_hold_notes: u32,
        method: u8,
        priority: u8,
        classic: bool,
        presence: u8,
        n320: u32,
        n300: u32,
        n200: u32,
        n100: u32,
        n50: u32,
        misses: u32,
        passed: u32,
        holds_given: bool,
        holds_passed: u32,
        acc: f64,
        out: *mut u32,
        out_len: usize,
    ) -> u32;

    fn nuqsillay_strides(
        a320: u32,
        a300: u32,
        a200: u32,
        a100: u32,
        a50: u32,
        b320: u32,
        b300: u32,
        b200: u32,
        b100: u32,
        b50: u32,
        out: *mut u32,
        out_len: usize,
    ) -> u32;

    fn nuqsillay_relay(
        classic: bool,
        acc_given: bool,
        acc: f64,
        plays: *const u32,
        plays_len: usize,
        out: *mut u32,
        out_len: usize,
    ) -> u32;

    fn nuqsillay_work_sheet(
        sheet: *const u8,
        sheet_len: usize,
        out: *mut u8,
        out_len: usize,
        totals: *mut u64,
        totals_len: usize,
    ) -> u32;
}

#[cfg(typed_calls)]
unsafe extern "C" {
    fn nuqsillay_sheet_of(
        text: *const u8,
        text_len: usize,
        out: *mut u8,
        out_len: usize,
        told: *mut u64,
        told_len: usize,
    ) -> u32;

    fn nuqsillay_text_of(
        sheet: *const u8,
        sheet_len: usize,
        out: *mut u8,
        out_len: usize,
        told: *mut u64,
        told_len: usize,
    ) -> u32;
}

/// Whether the library has the calls for typed sheets; build.rs looks for them.
pub const HAS_TYPED: bool = cfg!(typed_calls);

/// `told` is what the call tells: the sheet's length, or a fault's line and word.
#[cfg(typed_calls)]
pub fn sheet_of(text: &[u8], out: &mut [u8], told: &mut [u64]) -> u32 {
    // SAFETY: the call reads and writes only inside the slices whose lengths it is told.
    unsafe {
        nuqsillay_sheet_of(
            text.as_ptr(),
            text.len(),
            out.as_mut_ptr(),
            out.len(),
            told.as_mut_ptr(),
            told.len(),
        )
    }
}

/// `told` is what the call tells: the text's length, or the index of the row that has none.
#[cfg(typed_calls)]
pub fn text_of(sheet: &[u8], out: &mut [u8], told: &mut [u64]) -> u32 {
    // SAFETY: the call reads and writes only inside the slices whose lengths it is told.
    unsafe {
        nuqsillay_text_of(
            sheet.as_ptr(),
            sheet.len(),
            out.as_mut_ptr(),
            out.len(),
            told.as_mut_ptr(),
            told.len(),
        )
    }
}

#[cfg(not(typed_calls))]
pub fn sheet_of(_text: &[u8], _out: &mut [u8], _told: &mut [u64]) -> u32 {
    unreachable!("the library does not read typed sheets");
}

#[cfg(not(typed_calls))]
pub fn text_of(_sheet: &[u8], _out: &mut [u8], _told: &mut [u64]) -> u32 {
    unreachable!("the library does not write typed sheets");
}

/// `counts` are the five counts and misses.
pub fn accuracy(counts: &[u32; 6], classic: bool, value: &mut f64) -> u32 {
    let [n320, n300, n200, n100, n50, misses] = *counts;

    // SAFETY: the call writes at most the one f64 that is lent.
    unsafe { nuqsillay_accuracy(n320, n300, n200, n100, n50, misses, classic, value) }
}

/// The number of the holds passed; where they are not given, one that would shorten the play.
fn holds_passed(q: &Query) -> u32 {
    q.holds_passed.unwrap_or(q.n_hold_notes / 2)
}

pub fn target(q: &Query, out: &mut [u32]) -> u32 {
    // SAFETY: the call writes only inside the slice whose length it is told.
    unsafe {
        nuqsillay_target(
            q.n_objects,
            q.n_hold_notes,
            q.classic,
            q.presence,
            q.misses,
            q.passed,
            q.holds_passed.is_some(),
            holds_passed(q),
            q.acc,
            out.as_mut_ptr(),
            out.len(),
        )
    }
}

pub fn generate(q: &Query, out: &mut [u32]) -> u32 {
    let [n320, n300, n200, n100, n50] = q.counts;

    // SAFETY: the call writes only inside the slice whose length it is told.
    unsafe {
        nuqsillay_generate(
            q.n_objects,
            q.n_hold_notes,
            q.method,
            q.priority,
            q.classic,
            q.presence,
            n320,
            n300,
            n200,
            n100,
            n50,
            q.misses,
            q.passed,
            q.holds_passed.is_some(),
            holds_passed(q),
            q.acc,
            out.as_mut_ptr(),
            out.len(),
        )
    }
}

pub fn work_sheet(sheet: &[u8], out: &mut [u8], totals: &mut [u64]) -> u32 {
    // SAFETY: the call reads and writes only inside the slices whose lengths it is told.
    unsafe {
        nuqsillay_work_sheet(
            sheet.as_ptr(),
            sheet.len(),
            out.as_mut_ptr(),
            out.len(),
            totals.as_mut_ptr(),
            totals.len(),
        )
    }
}

/// `sets` are two times five weights, from n320 to n50.
pub fn strides(sets: &[[u32; 5]; 2], out: &mut [u32]) -> u32 {
    let [[a320, a300, a200, a100, a50], [b320, b300, b200, b100, b50]] = *sets;

    // SAFETY: the call writes only inside the slice whose length it is told.
    unsafe {
        nuqsillay_strides(
            a320,
            a300,
            a200,
            a100,
            a50,
            b320,
            b300,
            b200,
            b100,
            b50,
            out.as_mut_ptr(),
            out.len(),
        )
    }
}

/// `acc` is whether the accuracy is given and its number; `plays` are objects, hold notes and misses of
/// each chart.
pub fn relay(classic: bool, acc: (bool, f64), plays: &[u32], out: &mut [u32]) -> u32 {
    // SAFETY: the call reads and writes only inside the slices whose lengths it is told.
    unsafe {
        nuqsillay_relay(
            classic,
            acc.0,
            acc.1,
            plays.as_ptr(),
            plays.len(),
            out.as_mut_ptr(),
            out.len(),
        )
    }
}
