//! The calls with the numbers of the answers as they are.
//!
//! [`load`](crate::load), [`Linked`](crate::Linked), [`chain_length`](crate::chain_length), [`nearest`](crate::nearest) and
//! [`count_structs`](crate::count_structs) say the same in types.

#![allow(unsafe_code)]

mod ffi {
    extern "C" {
        pub fn paqlluri_load(
            sheet: *const u8,
            sheet_len: usize,
            hosts: *const u8,
            hosts_len: usize,
            table: *mut u32,
            table_len: usize,
            work: *mut u32,
            work_len: usize,
            answer: *mut [u32; 6],
        );

        pub fn paqlluri_descends(table: *const u32, table_len: usize, t: u32, a: u32) -> u32;

        pub fn paqlluri_family_size(
            table: *const u32,
            table_len: usize,
            a: u32,
            answer: *mut [u32; 2],
        );

        pub fn paqlluri_chain_length(
            table: *const u32,
            table_len: usize,
            t: u32,
            answer: *mut [u32; 2],
        );

        pub fn paqlluri_nearest(
            table: *const u32,
            table_len: usize,
            t: u32,
            u: u32,
            answer: *mut [u32; 2],
        );

        pub fn paqlluri_count_structs(sheet: *const u8, sheet_len: usize, answer: *mut [u32; 2]);
    }
}

/// Loads a sheet under a host list; gives kind, word, number, second, function + 1, position + 1.
///
/// Kind 0 is accepted: the first `number` words of `table` are the linked table.
/// What `table` and `work` hold after the call is said at [`crate::load`].
pub fn load(sheet: &[u8], hosts: &[u8], table: &mut [u32], work: &mut [u32]) -> [u32; 6] {
    let mut answer = [0; 6];
    // SAFETY: each pointer and length is a slice's, exclusive where it is written through, and the
    // function takes any bytes and words, keeps no pointer, and writes within the last three alone.
    unsafe {
        ffi::paqlluri_load(
            sheet.as_ptr(),
            sheet.len(),
            hosts.as_ptr(),
            hosts.len(),
            table.as_mut_ptr(),
            table.len(),
            work.as_mut_ptr(),
            work.len(),
            &raw mut answer,
        );
    }
    answer
}

/// Whether type `t` is type `a` or descends from it: 1 yes, 0 no, 25 where the words are no linked table.
#[must_use]
pub fn descends(table: &[u32], t: u32, a: u32) -> u32 {
    // SAFETY: pointer and length are a slice's, and the function reads any words within it alone.
    unsafe { ffi::paqlluri_descends(table.as_ptr(), table.len(), t, a) }
}

/// How many types descend from type `a`, itself included: 0 and the size, or 25 and 0 where the words are no linked table.
#[must_use]
#[inline]
pub fn family_size(table: &[u32], a: u32) -> [u32; 2] {
    let mut answer = [0; 2];
    // SAFETY: pointer and length are a slice's; the function reads any words within it alone, and writes the answer.
    unsafe { ffi::paqlluri_family_size(table.as_ptr(), table.len(), a, &raw mut answer) }
    answer
}

/// How many types are on the chain of type `t`, from itself up to its root: 0 and the length, which is 0 where `t` is no struct
/// type, or 25 and 0 where the words are no linked table.
#[must_use]
#[inline]
pub fn chain_length(table: &[u32], t: u32) -> [u32; 2] {
    let mut answer = [0; 2];
    // SAFETY: pointer and length are a slice's; the function reads any words within it alone, and writes the answer.
    unsafe { ffi::paqlluri_chain_length(table.as_ptr(), table.len(), t, &raw mut answer) }
    answer
}

/// The nearest family of types `t` and `u`: 0 and the type, 1 and 0 where there is none, which is not `load`'s kind 1, or
/// 25 and 0 where the words are no linked table.
#[must_use]
pub fn nearest(table: &[u32], t: u32, u: u32) -> [u32; 2] {
    let mut answer = [0; 2];
    // SAFETY: pointer and length are a slice's; the function reads any words within it alone, and writes the answer.
    unsafe { ffi::paqlluri_nearest(table.as_ptr(), table.len(), t, u, &raw mut answer) }
    answer
}

/// How many struct types a sheet declares: 0 and the count, or 1 and 0 where the layout is broken.
#[must_use]
pub fn count_structs(sheet: &[u8]) -> [u32; 2] {
    let mut answer = [0; 2];
    // SAFETY: pointer and length are a slice's; the function reads any bytes within it alone, and writes the answer.
    unsafe { ffi::paqlluri_count_structs(sheet.as_ptr(), sheet.len(), &raw mut answer) }
    answer
}
