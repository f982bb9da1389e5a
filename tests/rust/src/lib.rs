//! Tests of the pump map library: the calls of pump.h, answered by an independent model of documents 01 and 02, by a plain
//! fast implementation, and by the library itself.

pub mod calls;
pub mod draw;
#[cfg(feature = "library")]
pub mod ffi;
pub mod files;
pub mod maps;
pub mod model;
pub mod plain;

/// The size of the largest file: 60 splits and 1,024 blends.
pub const LARGEST_FILE: usize = 13_020;

/// The calls of pump.h over slices. The number is handed back; the rest goes where pump.h puts it.
pub trait Pump: Sync {
    fn name(&self) -> &'static str;
    fn fresh(&self, w: usize, h: usize, buffer: &mut [u8], used: &mut usize) -> usize;
    fn set(&self, buffer: &mut [u8], used: &mut usize, m: usize, n: usize, value: usize) -> usize;
    /// A split is direction, position, from, to.
    fn split(&self, buffer: &mut [u8], used: &mut usize, split: [usize; 4], allowance: usize) -> usize;
    fn place(&self, file: &[u8], place: usize, out: &mut [u8]) -> usize;
    fn reading(&self, file: &[u8], u: usize, v: usize, litres: &mut usize) -> usize;
    fn weights(&self, file: &[u8], u: usize, v: usize, out: &mut [u8]) -> usize;
    fn row(&self, file: &[u8], v: usize, wanted: usize, count: &mut usize, first: &mut usize) -> usize;
    fn column(&self, file: &[u8], u: usize, wanted: usize, count: &mut usize, first: &mut usize) -> usize;
    fn same(&self, first: &[u8], second: &[u8], yes: &mut usize) -> usize;
    fn check(&self, file: &[u8]) -> usize;
    fn payload(&self, bytes: &[u8], place: usize, from: &mut usize, count: &mut usize) -> usize;
    fn table(&self, file: &[u8], out: &mut [u8], count: &mut usize) -> usize;
}

/// What is compared with the model.
pub fn subjects() -> Vec<&'static dyn Pump> {
    vec![
        &plain::Plain,
        #[cfg(feature = "library")]
        &ffi::Library,
    ]
}
