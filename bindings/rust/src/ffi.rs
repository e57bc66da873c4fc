//! The library's function.

use crate::{Bar, Thresholds};
use std::mem::size_of_val;

extern "C" {
    fn jcc_label(
        recogniser: u32,
        offset: u32,
        th0: f64,
        z2: u32,
        th2: u32,
        z3: u32,
        th3: u32,
        zdf5: u32,
        th6: u32,
        zdf7: u32,
        th8: f64,
        zf8: u32,
        th10: u32,
        th13: u32,
        th14: u32,
        bars: *const u8,
        len: usize,
    ) -> u32;
}

/// What a history may be made of: types without padding, each byte of which may be read.
pub(crate) trait Plain {}

impl Plain for u8 {}

/// Four `f64` in the order of the library's bytes; `repr(C)` leaves nothing between them.
impl Plain for Bar {}

const _: () = assert!(std::mem::size_of::<Bar>() == 32);

/// The result of a call over the bytes of a slice: v1 × 256 + v2, or 65,536 plus the refusal.
pub(crate) fn call<T: Plain>(recogniser: u32, offset: u32, t: &Thresholds, history: &[T]) -> u32 {
    // SAFETY: the pointer and the length are those of one slice, which stays borrowed during the
    // call, and `Plain` says that all its bytes may be read; a slice without elements has a pointer
    // that is not null and the length 0. The function has no other precondition: it is proved to
    // read within these bytes for every value of the numbers. It writes nothing, keeps no pointer
    // and takes bytes of any alignment.
    unsafe {
        jcc_label(
            recogniser,
            offset,
            t.th0,
            t.z2,
            t.th2,
            t.z3,
            t.th3,
            t.zdf5,
            t.th6,
            t.zdf7,
            t.th8,
            t.zf8,
            t.th10,
            t.th13,
            t.th14,
            history.as_ptr().cast(),
            size_of_val(history),
        )
    }
}
