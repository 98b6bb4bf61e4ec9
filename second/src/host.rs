//! The exported C library, linked in with the feature `library`.
//!
//! Each function is declared once. What it is lent is a reference to an array of the
//! length that the library takes: never null, aligned, and not overlapping with what it
//! may write, which is all that it asks for; so safe code may call it. The functions that
//! take bytes, or any number of loads, take a pointer and a length; each has a function here
//! that keeps the two together.

use crate::plant::Record;
use crate::tables::{Asm1, Digester};

unsafe extern "C" {
    /// Answers a line; `line` below calls it.
    fn jilghvani_line(
        record: &mut Record,
        line: *const u8,
        line_len: usize,
        buf: *mut u8,
        buf_len: usize,
    ) -> usize;
    /// Writes the held line; `held` below calls it.
    fn jilghvani_held(record: &Record, buf: *mut u8, buf_len: usize) -> usize;
    /// Tells how long answers will be; `answer_bytes` below calls it.
    fn jilghvani_answer_bytes(record: &Record, lines: *const u8, len: usize, told: &mut [u64; 2]);
    /// Writes the line of a receive; `write_receive` below calls it.
    fn jilghvani_write_receive(v: &Asm1, preview: u64, buf: *mut u8, buf_len: usize) -> usize;
    /// Writes the line of a feed; `write_feed` below calls it.
    fn jilghvani_write_feed(k: u64, preview: u64, buf: *mut u8, buf_len: usize) -> usize;
    /// Writes the line of a settle; `write_settle` below calls it.
    fn jilghvani_write_settle(
        gas: u64,
        d: &Digester,
        preview: u64,
        buf: *mut u8,
        buf_len: usize,
    ) -> usize;
    /// Writes the line of a return; `write_return` below calls it.
    fn jilghvani_write_return(k: u64, preview: u64, buf: *mut u8, buf_len: usize) -> usize;
    /// Writes the line of a release; `write_release` below calls it.
    fn jilghvani_write_release(k: u64, preview: u64, buf: *mut u8, buf_len: usize) -> usize;
    /// Writes the line of a recycle; `write_recycle` below calls it.
    fn jilghvani_write_recycle(k: u64, preview: u64, buf: *mut u8, buf_len: usize) -> usize;
    /// Writes the line of a draw; `write_draw` below calls it.
    fn jilghvani_write_draw(k: u64, preview: u64, buf: *mut u8, buf_len: usize) -> usize;
    /// Writes the line of an accept; `write_accept` below calls it.
    fn jilghvani_write_accept(
        v: &Asm1,
        n: u64,
        preview: u64,
        buf: *mut u8,
        buf_len: usize,
    ) -> usize;
    /// Blends hauled loads; `blend` below calls it.
    fn jilghvani_blend(
        record: &mut Record,
        loads: *mut u64,
        loads_len: usize,
        ks: *const u64,
        ks_len: usize,
    ) -> u64;
    /// The same as `numbers::make`.
    pub safe fn jilghvani_make(record: &mut Record, figures: &[u64; 9]) -> u64;
    /// The same as `numbers::fresh`.
    pub safe fn jilghvani_fresh(record: &mut Record);
    /// The same as `numbers::receive`.
    pub safe fn jilghvani_receive(record: &mut Record, v: &Asm1) -> u64;
    /// The same as `numbers::sheet`.
    pub safe fn jilghvani_sheet(
        record: &mut Record,
        kinds: &[u8; 13],
        values: &[f32; 13],
        told: &mut [u64; 4],
    ) -> u64;
    /// The same as `numbers::feed`.
    pub safe fn jilghvani_feed(record: &mut Record, k: u64, told: &mut [u64; 4]) -> u64;
    /// The same as `numbers::settle`.
    pub safe fn jilghvani_settle(record: &mut Record, gas: u64, d: &Digester) -> u64;
    /// The same as `numbers::give_back`.
    pub safe fn jilghvani_return(record: &mut Record, k: u64, told: &mut [u64; 1]) -> u64;
    /// The same as `numbers::release`.
    pub safe fn jilghvani_release(record: &mut Record, k: u64, v: &mut Asm1) -> u64;
    /// The same as `numbers::recycle`.
    pub safe fn jilghvani_recycle(record: &mut Record, k: u64) -> u64;
    /// The same as `numbers::draw`.
    pub safe fn jilghvani_draw(record: &mut Record, k: u64, v: &mut Asm1) -> u64;
    /// The same as `numbers::accept`.
    pub safe fn jilghvani_accept(record: &mut Record, v: &Asm1, n: u64, told: &mut [u64; 1])
        -> u64;
    /// The same as `numbers::totals`.
    pub safe fn jilghvani_totals(record: &Record, told: &mut [u64; 4]) -> u64;
    /// The same as `numbers::asm_to_adm`.
    pub safe fn jilghvani_asm_to_adm(
        figures: &[u64; 9],
        v: &Asm1,
        d: &mut Digester,
        told: &mut [u64; 4],
    ) -> u64;
    /// The same as `numbers::adm_to_asm`.
    pub safe fn jilghvani_adm_to_asm(
        figures: &[u64; 9],
        d: &Digester,
        v: &mut Asm1,
        told: &mut [u64; 1],
    ) -> u64;
    /// The same as `numbers::close`.
    pub safe fn jilghvani_close(record: &Record, d: &mut Digester, told: &mut [u64; 1]) -> u64;
    /// The same as `numbers::gap`.
    pub safe fn jilghvani_gap(record: &Record, d: &Digester, told: &mut [u64; 3]) -> u64;
}

/// Answers a line on the record; gives the count of answer bytes.
pub fn line(record: &mut Record, line: &[u8], buffer: &mut [u8]) -> usize {
    let (bytes, length) = (buffer.as_mut_ptr(), buffer.len());
    // Each pointer goes with its own length.
    unsafe { jilghvani_line(record, line.as_ptr(), line.len(), bytes, length) }
}

/// Writes the record's held line; gives the count of its bytes.
pub fn held(record: &Record, buffer: &mut [u8]) -> usize {
    // The pointer goes with its own length.
    unsafe { jilghvani_held(record, buffer.as_mut_ptr(), buffer.len()) }
}

/// The same as `numbers::answer_bytes`.
pub fn answer_bytes(record: &Record, lines: &[u8], told: &mut [u64; 2]) {
    // The pointer goes with its own length.
    unsafe { jilghvani_answer_bytes(record, lines.as_ptr(), lines.len(), told) }
}

/// Writes the line of a receive, or of its preview; gives the count of bytes written.
pub fn write_receive(v: &Asm1, preview: u64, buffer: &mut [u8]) -> usize {
    // The pointer goes with its own length.
    unsafe { jilghvani_write_receive(v, preview, buffer.as_mut_ptr(), buffer.len()) }
}

/// Writes the line of a feed, or of its preview; gives the count of bytes written.
pub fn write_feed(k: u64, preview: u64, buffer: &mut [u8]) -> usize {
    // The pointer goes with its own length.
    unsafe { jilghvani_write_feed(k, preview, buffer.as_mut_ptr(), buffer.len()) }
}

/// Writes the line of a settle, or of its preview; gives the count of bytes written.
pub fn write_settle(gas: u64, d: &Digester, preview: u64, buffer: &mut [u8]) -> usize {
    // The pointer goes with its own length.
    unsafe { jilghvani_write_settle(gas, d, preview, buffer.as_mut_ptr(), buffer.len()) }
}

/// Writes the line of a return, or of its preview; gives the count of bytes written.
pub fn write_return(k: u64, preview: u64, buffer: &mut [u8]) -> usize {
    // The pointer goes with its own length.
    unsafe { jilghvani_write_return(k, preview, buffer.as_mut_ptr(), buffer.len()) }
}

/// Writes the line of a release, or of its preview; gives the count of bytes written.
pub fn write_release(k: u64, preview: u64, buffer: &mut [u8]) -> usize {
    // The pointer goes with its own length.
    unsafe { jilghvani_write_release(k, preview, buffer.as_mut_ptr(), buffer.len()) }
}

/// Writes the line of a recycle, or of its preview; gives the count of bytes written.
pub fn write_recycle(k: u64, preview: u64, buffer: &mut [u8]) -> usize {
    // The pointer goes with its own length.
    unsafe { jilghvani_write_recycle(k, preview, buffer.as_mut_ptr(), buffer.len()) }
}

/// Writes the line of a draw, or of its preview; gives the count of bytes written.
pub fn write_draw(k: u64, preview: u64, buffer: &mut [u8]) -> usize {
    // The pointer goes with its own length.
    unsafe { jilghvani_write_draw(k, preview, buffer.as_mut_ptr(), buffer.len()) }
}

/// Writes the line of an accept, or of its preview; gives the count of bytes written.
pub fn write_accept(v: &Asm1, n: u64, preview: u64, buffer: &mut [u8]) -> usize {
    // The pointer goes with its own length.
    unsafe { jilghvani_write_accept(v, n, preview, buffer.as_mut_ptr(), buffer.len()) }
}

/// The same as `numbers::blend`.
pub fn blend(record: &mut Record, loads: &mut [u64], ks: &[u64]) -> u64 {
    // Each pointer goes with its own length.
    unsafe { jilghvani_blend(record, loads.as_mut_ptr(), loads.len(), ks.as_ptr(), ks.len()) }
}
