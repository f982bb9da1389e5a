//! The library itself: the declarations of pump.h, and the same calls over slices.

use crate::Pump;

mod c {
    extern "C" {
        pub fn pump_fresh(w: usize, h: usize, buffer: *mut u8, size: usize, used: *mut usize) -> usize;
        pub fn pump_set(buffer: *mut u8, size: usize, used: *mut usize, m: usize, n: usize, value: usize) -> usize;
        pub fn pump_split(
            buffer: *mut u8,
            size: usize,
            used: *mut usize,
            direction: usize,
            position: usize,
            from: usize,
            to: usize,
            allowance: usize,
        ) -> usize;
        pub fn pump_place(file: *const u8, length: usize, place: usize, out: *mut u8, size: usize) -> usize;
        pub fn pump_reading(file: *const u8, length: usize, u: usize, v: usize, litres: *mut usize) -> usize;
        pub fn pump_weights(file: *const u8, length: usize, u: usize, v: usize, out: *mut u8, size: usize) -> usize;
        pub fn pump_row(
            file: *const u8,
            length: usize,
            v: usize,
            wanted: usize,
            count: *mut usize,
            first: *mut usize,
        ) -> usize;
        pub fn pump_column(
            file: *const u8,
            length: usize,
            u: usize,
            wanted: usize,
            count: *mut usize,
            first: *mut usize,
        ) -> usize;
        pub fn pump_same(
            first: *const u8,
            first_length: usize,
            second: *const u8,
            second_length: usize,
            yes: *mut usize,
        ) -> usize;
        pub fn pump_check(file: *const u8, length: usize) -> usize;
        pub fn pump_payload(
            bytes: *const u8,
            length: usize,
            place: usize,
            from: *mut usize,
            count: *mut usize,
        ) -> usize;
        pub fn pump_table(file: *const u8, length: usize, out: *mut u8, size: usize, count: *mut usize) -> usize;
    }
}

/// The library. Its calls are safe over slices: a slice is as long as it says and is never null, and what is lent to be
/// changed overlaps nothing else.
pub struct Library;

impl Pump for Library {
    fn name(&self) -> &'static str {
        "library"
    }

    fn fresh(&self, w: usize, h: usize, buffer: &mut [u8], used: &mut usize) -> usize {
        unsafe { c::pump_fresh(w, h, buffer.as_mut_ptr(), buffer.len(), used) }
    }

    fn set(&self, buffer: &mut [u8], used: &mut usize, m: usize, n: usize, value: usize) -> usize {
        unsafe { c::pump_set(buffer.as_mut_ptr(), buffer.len(), used, m, n, value) }
    }

    fn split(&self, buffer: &mut [u8], used: &mut usize, split: [usize; 4], allowance: usize) -> usize {
        let [direction, position, from, to] = split;
        unsafe { c::pump_split(buffer.as_mut_ptr(), buffer.len(), used, direction, position, from, to, allowance) }
    }

    fn place(&self, file: &[u8], place: usize, out: &mut [u8]) -> usize {
        unsafe { c::pump_place(file.as_ptr(), file.len(), place, out.as_mut_ptr(), out.len()) }
    }

    fn reading(&self, file: &[u8], u: usize, v: usize, litres: &mut usize) -> usize {
        unsafe { c::pump_reading(file.as_ptr(), file.len(), u, v, litres) }
    }

    fn weights(&self, file: &[u8], u: usize, v: usize, out: &mut [u8]) -> usize {
        unsafe { c::pump_weights(file.as_ptr(), file.len(), u, v, out.as_mut_ptr(), out.len()) }
    }

    fn row(&self, file: &[u8], v: usize, wanted: usize, count: &mut usize, first: &mut usize) -> usize {
        unsafe { c::pump_row(file.as_ptr(), file.len(), v, wanted, count, first) }
    }

    fn column(&self, file: &[u8], u: usize, wanted: usize, count: &mut usize, first: &mut usize) -> usize {
        unsafe { c::pump_column(file.as_ptr(), file.len(), u, wanted, count, first) }
    }

    fn same(&self, first: &[u8], second: &[u8], yes: &mut usize) -> usize {
        unsafe { c::pump_same(first.as_ptr(), first.len(), second.as_ptr(), second.len(), yes) }
    }

    fn check(&self, file: &[u8]) -> usize {
        unsafe { c::pump_check(file.as_ptr(), file.len()) }
    }

    fn payload(&self, bytes: &[u8], place: usize, from: &mut usize, count: &mut usize) -> usize {
        unsafe { c::pump_payload(bytes.as_ptr(), bytes.len(), place, from, count) }
    }

    fn table(&self, file: &[u8], out: &mut [u8], count: &mut usize) -> usize {
        unsafe { c::pump_table(file.as_ptr(), file.len(), out.as_mut_ptr(), out.len(), count) }
    }
}
