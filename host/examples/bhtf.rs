//! What the examples in Rust call of libbhtf: a file that closes itself, and
//! errors in words. To be taken as it stands, or as far as it is needed.
#![allow(dead_code)] // each example calls a part of it

use std::ffi::{c_char, c_int, c_void, CStr, CString};
use std::ptr::{null, null_mut};

const KEY_MAX: usize = 32;
const SUM: usize = 32;
const ABSENT: u32 = 14;
const SHORT: u32 = 16;
pub const WRITE: u32 = 1;

#[repr(C)]
struct Options {
    size: usize,
    flags: u32,
    wait: u32,
    give_up: Option<extern "C" fn(*mut c_void) -> c_int>,
    with: *mut c_void,
}

#[repr(C)]
struct Why {
    number: u32,
    error: c_int,
    words: [c_char; 512],
}

#[repr(C)]
pub struct Applied {
    pub applied: u32,
    pub passed: u32,
    record: u32,
    sum: [u8; SUM],
}

type Handle = *mut c_void;

#[link(name = "bhtf")]
extern "C" {
    fn bhtf_file_open_with(path: *const c_char, options: *const Options, why: *mut Why) -> Handle;
    fn bhtf_file_close(file: Handle) -> u32;
    fn bhtf_file_error(file: Handle) -> *const Why;
    fn bhtf_file_key(file: Handle, name: *const c_char, key: *mut u8, length: *mut usize) -> u32;
    fn bhtf_file_lookup(file: Handle, key: *const u8, key_len: usize, text: *mut *const u8, length: *mut usize) -> u32;
    fn bhtf_file_read_columns(file: Handle, key: *const u8, key_len: usize, to: *mut u8, room: usize, width: *mut u32, length: *mut usize) -> u32;
    fn bhtf_file_store_columns(file: Handle, key: *const u8, key_len: usize, records: *const u8, records_len: usize, width: u32) -> u32;
    fn bhtf_file_apply(file: Handle, records: *const u8, records_len: usize, end: *const u8, done: *mut Applied) -> u32;
}

fn words(why: &Why) -> String {
    unsafe { CStr::from_ptr(why.words.as_ptr()) }.to_string_lossy().into_owned()
}

fn c_string(word: &str) -> Result<CString, String> {
    CString::new(word).map_err(|_| format!("{word:?} has a zero byte"))
}

pub struct File(Handle);

impl File {
    pub fn open(path: &str, flags: u32) -> Result<File, String> {
        let options =
            Options { size: std::mem::size_of::<Options>(), flags, wait: 10_000, give_up: None, with: null_mut() };
        let mut why = Why { number: 0, error: 0, words: [0; 512] };
        let path = c_string(path)?;
        let handle = unsafe { bhtf_file_open_with(path.as_ptr(), &options, &mut why) };
        if handle.is_null() { Err(words(&why)) } else { Ok(File(handle)) }
    }

    fn must(&self, number: u32) -> Result<(), String> {
        if number == 0 { Ok(()) } else { Err(words(unsafe { &*bhtf_file_error(self.0) })) }
    }

    /// The key of a name; one that is too long is refused.
    fn key(&self, name: &str) -> Result<Vec<u8>, String> {
        let (mut key, mut size) = (vec![0u8; KEY_MAX], 0usize);
        let name = c_string(name)?;
        self.must(unsafe { bhtf_file_key(self.0, name.as_ptr(), key.as_mut_ptr(), &mut size) })?;
        key.truncate(size);
        Ok(key)
    }

    /// A point's text, copied; None without one.
    pub fn text(&self, name: &str) -> Result<Option<Vec<u8>>, String> {
        let key = self.key(name)?;
        let (mut text, mut length) = (null(), 0usize);
        self.must(unsafe { bhtf_file_lookup(self.0, key.as_ptr(), key.len(), &mut text, &mut length) })?;
        if text.is_null() {
            return Ok(None);
        }
        Ok(Some(unsafe { std::slice::from_raw_parts(text, length) }.to_vec()))
    }

    /// Records that were stored by column, of this width; none of a name that
    /// is not there.
    pub fn records(&self, name: &str, width: u32) -> Result<Vec<u8>, String> {
        let key = self.key(name)?;
        let (mut records, mut found, mut length) = (Vec::new(), 0u32, 0usize);
        let mut read = |to: &mut Vec<u8>, length: &mut usize| unsafe {
            bhtf_file_read_columns(self.0, key.as_ptr(), key.len(), to.as_mut_ptr(), to.len(), &mut found, length)
        };
        let mut number = read(&mut records, &mut length);
        if number == SHORT {
            records.resize(length, 0);
            number = read(&mut records, &mut length);
        }
        if number == ABSENT {
            return Ok(Vec::new());
        }
        self.must(number)?;
        if found == width { Ok(records) } else { Err(format!("the records of {name} have {found} bytes each")) }
    }

    /// Stores records by column, in place of what the name has.
    pub fn store(&mut self, name: &str, records: &[u8], width: u32) -> Result<(), String> {
        let key = self.key(name)?;
        self.must(unsafe {
            bhtf_file_store_columns(self.0, key.as_ptr(), key.len(), records.as_ptr(), records.len(), width)
        })
    }

    /// Applies an office's records as one change.
    pub fn apply(&mut self, records: &[u8]) -> Result<Applied, String> {
        let mut done = Applied { applied: 0, passed: 0, record: 0, sum: [0; SUM] };
        self.must(unsafe { bhtf_file_apply(self.0, records.as_ptr(), records.len(), null(), &mut done) })?;
        Ok(done)
    }
}

impl Drop for File {
    fn drop(&mut self) {
        unsafe { bhtf_file_close(self.0) };
    }
}
