//! The functions of bindings/c/dilforec.h.
use crate::values::Stats;
use crate::Error;
use std::ffi::c_void;
use std::ptr::null_mut;

/// A handle; closed, if it is null.
#[repr(C)]
#[derive(Debug)]
pub struct Raw {
    at: *mut c_void,
}

impl Raw {
    pub const CLOSED: Raw = Raw { at: null_mut() };
}

extern "C" {
    pub fn dilforec_open(slot: *mut Raw) -> i32;
    pub fn dilforec_execute(index: *mut Raw, line: *const u8, length: usize) -> i32;
    pub fn dilforec_execute_lines(index: *mut Raw, block: *const u8, length: usize, done: *mut usize) -> i32;
    pub fn dilforec_execute_fields(
        index: *mut Raw,
        line: *const u8,
        length: usize,
        names: *const u8,
        names_length: usize,
    ) -> i32;
    pub fn dilforec_execute_groups(index: *mut Raw, line: *const u8, length: usize, limit: usize) -> i32;
    pub fn dilforec_transaction(index: *mut Raw, block: *const u8, length: usize, done: *mut usize) -> i32;
    pub fn dilforec_replace(
        index: *mut Raw,
        delete: *const u8,
        delete_length: usize,
        add: *const u8,
        add_length: usize,
    ) -> i32;
    pub fn dilforec_reply(index: *mut Raw, out: *mut u8, room: usize) -> usize;
    pub fn dilforec_stats(index: *mut Raw, stats: *mut Stats) -> i32;
    pub fn dilforec_syntax_at(query: *const u8, length: usize, at: *mut usize) -> i32;
    pub fn dilforec_close(index: *mut Raw) -> i32;
    pub fn dilforec_searcher(index: *mut Raw, slot: *mut Raw) -> i32;
    pub fn dilforec_searcher_again(searcher: *mut Raw, slot: *mut Raw) -> i32;
    pub fn dilforec_search(searcher: *mut Raw, line: *const u8, length: usize) -> i32;
    pub fn dilforec_search_fields(
        searcher: *mut Raw,
        line: *const u8,
        length: usize,
        names: *const u8,
        names_length: usize,
    ) -> i32;
    pub fn dilforec_search_groups(searcher: *mut Raw, line: *const u8, length: usize, limit: usize) -> i32;
    pub fn dilforec_searcher_reply(searcher: *mut Raw, out: *mut u8, room: usize) -> usize;
    pub fn dilforec_searcher_stats(searcher: *mut Raw, stats: *mut Stats) -> i32;
    pub fn dilforec_searcher_close(searcher: *mut Raw) -> i32;
    pub fn dilforec_limit_merges(index: *mut Raw, limit: u32) -> i32;
    pub fn dilforec_merge_begin(index: *mut Raw, slot: *mut Raw) -> i32;
    pub fn dilforec_merge_run(merge: *mut Raw) -> i32;
    pub fn dilforec_merge_end(index: *mut Raw) -> i32;
    pub fn dilforec_merge_close(merge: *mut Raw) -> i32;
}

/// There is nothing to merge, or no merge to end.
pub const NOTHING: i32 = 5;

/// What a merge joined is gone.
pub const GONE: i32 = 6;

/// The limit of merges that is none.
pub const NO_LIMIT: u32 = u32::MAX;

/// The most bytes of the reply to a line that isn't a search.
const REPLY_TO_CHANGE: usize = 128;

/// The most bytes of a buffer that is kept for the next reply.
const KEPT_ROOM: usize = 1 << 20;

/// The byte of a query that has no `Syntax`.
const NO_BYTE: usize = usize::MAX;

/// Makes room for the replies to some lines that change something, so that no error follows a change.
pub fn make_room(buffer: &mut Vec<u8>, lines: usize) -> Result<(), Error> {
    if buffer.capacity() > KEPT_ROOM {
        *buffer = Vec::new();
    }
    buffer.clear();
    buffer.try_reserve(lines * REPLY_TO_CHANGE).map_err(|_| Error::Memory)
}

/// The byte from which on a query can't be read, if it isn't in the grammar. None also if memory is short.
pub fn syntax_at(query: &str) -> Option<usize> {
    let mut at = NO_BYTE;
    // SAFETY: the query is as long as is said, and the place of its byte is ours.
    let code = unsafe { dilforec_syntax_at(query.as_ptr(), query.len(), &mut at) };
    (code == 0 && at != NO_BYTE).then_some(at)
}

/// How large an index is, by a call that fills it in.
pub fn stats(call: impl FnOnce(&mut Stats) -> i32) -> Result<Stats, Error> {
    let mut stats = Stats { segments: 0, documents: 0, live: 0 };
    Error::of(call(&mut stats))?;
    Ok(stats)
}

/// Copies a reply into a buffer that has room for a short one. `copy` takes a place and its room, and tells the length.
pub fn read(buffer: &mut Vec<u8>, mut copy: impl FnMut(*mut u8, usize) -> usize) -> Result<&str, Error> {
    let mut length = copy(buffer.as_mut_ptr(), buffer.capacity());
    if length > buffer.capacity() {
        // This long is a reply to a search alone, which may be asked again.
        buffer.try_reserve(length).map_err(|_| Error::Memory)?;
        length = copy(buffer.as_mut_ptr(), buffer.capacity());
    }
    // SAFETY: `copy` filled as many bytes, and the capacity is no less.
    unsafe { buffer.set_len(length) };
    // A reply is JSON in UTF-8, and an LF.
    std::str::from_utf8(buffer).map_err(|_| Error::Reply)
}
