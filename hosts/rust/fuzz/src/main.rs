//! One input of libFuzzer or afl++: all five calls of the library and of the ordinary implementation on the same bytes.

#![no_main]

use notebook_hosts::comparison::Comparison;
use std::cell::RefCell;

thread_local! {
    static COMPARISON: RefCell<Comparison> = RefCell::new(Comparison::new(1));
}

/// # Safety
///
/// The fuzzer lends `size` bytes at `data`.
#[no_mangle]
pub unsafe extern "C" fn LLVMFuzzerTestOneInput(data: *const u8, size: usize) -> i32 {
    let input = if size == 0 { &[][..] } else { std::slice::from_raw_parts(data, size) };
    COMPARISON.with_borrow_mut(|comparison| {
        comparison.compare_bytes(input);
        assert_eq!(comparison.differences(), 0, "\n{}", comparison.shown.concat());
    });
    0
}
