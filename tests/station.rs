//! The static library linked into Rust: random lists of calls on a file, beside a plain book written from documents 01 and 02.
//!   station [--seed S] [--lists N]
//! N lists start from create, N from a sound image that no call made, with the book read off it.
//! Compared after every call: the number, C, the message's bytes, and the slots read, which are counted here on the image before the
//! call and may not be more than its points and one; the list of what changed, byte for byte, and that a copy of the file before the
//! call is the file after it once the listed stretches are copied; the journal, byte for byte, and that recovery makes the file after
//! the call of the one before; the records that are read by column, the slots listed for ranges of names, and the lent slice behind
//! them; the epoch shown, and its message; the target of a conversion, byte for byte, in which the list goes on; after every list: that the file finds the book's points with the book's texts, that the
//! walk shows each of them once, and that the check calls the file sound. Then the file grows into a second image, with calls on the pair
//! until no point is left in the old one.
//! Status 0 if every list agreed.
use std::sync::atomic::{AtomicUsize, Ordering};
use std::collections::{BTreeMap, BTreeSet};

extern "C" {
    fn bhtf_create(image: *mut u8, len: usize, key_size: u32, slots: u32, seed: u32) -> u32;
    fn bhtf_add(image: *mut u8, len: usize, key: *const u8, key_len: usize, data: *const u8, data_len: usize, mode: u32) -> u32;
    fn bhtf_delete(image: *mut u8, len: usize, key: *const u8, key_len: usize) -> u32;
    fn bhtf_lookup(image: *const u8, len: usize, key: *const u8, key_len: usize, offset: *mut u32, length: *mut u32) -> u32;
    fn bhtf_count(image: *const u8, len: usize, count: *mut u32) -> u32;
    fn bhtf_walk(image: *const u8, len: usize, from: u32, slot: *mut u32, place: *mut u32) -> u32;
    fn bhtf_check(image: *const u8, len: usize, verdict: *mut u32, slot: *mut u32) -> u32;
    fn bhtf_add_slots(
        image: *mut u8,
        len: usize,
        key: *const u8,
        key_len: usize,
        data: *const u8,
        data_len: usize,
        mode: u32,
        slots_read: *mut u32,
    ) -> u32;
    fn bhtf_delete_slots(image: *mut u8, len: usize, key: *const u8, key_len: usize, slots_read: *mut u32) -> u32;
    fn bhtf_lookup_slots(
        image: *const u8,
        len: usize,
        key: *const u8,
        key_len: usize,
        offset: *mut u32,
        length: *mut u32,
        slots_read: *mut u32,
    ) -> u32;
    fn bhtf_compact(image: *mut u8, len: usize) -> u32;
    fn bhtf_convert(source: *const u8, source_len: usize, target: *mut u8, target_len: usize) -> u32;
    fn bhtf_store_columns(
        image: *mut u8,
        len: usize,
        key: *const u8,
        key_len: usize,
        records: *const u8,
        records_len: usize,
        width: u32,
    ) -> u32;
    fn bhtf_read_columns(
        image: *const u8,
        len: usize,
        key: *const u8,
        key_len: usize,
        out: *mut u8,
        out_len: usize,
        bytes: *mut u32,
    ) -> u32;
    fn bhtf_select(
        image: *const u8,
        len: usize,
        lowest: *const u8,
        lowest_len: usize,
        highest: *const u8,
        highest_len: usize,
        list: *mut u8,
        list_len: usize,
        found: *mut u32,
    ) -> u32;
    fn bhtf_at_epoch(
        image: *const u8,
        len: usize,
        name: *const u8,
        name_len: usize,
        epoch: u32,
        shown: *mut u32,
        offset: *mut u32,
        length: *mut u32,
    ) -> u32;
    fn bhtf_grow(old: *const u8, old_len: usize, new: *const u8, new_len: usize) -> u32;
    fn bhtf_grow_add(
        old: *mut u8,
        old_len: usize,
        new: *mut u8,
        new_len: usize,
        key: *const u8,
        key_len: usize,
        data: *const u8,
        data_len: usize,
        mode: u32,
    ) -> u32;
    fn bhtf_grow_delete(
        old: *mut u8,
        old_len: usize,
        new: *mut u8,
        new_len: usize,
        key: *const u8,
        key_len: usize,
    ) -> u32;
    fn bhtf_grow_lookup(
        old: *const u8,
        old_len: usize,
        new: *const u8,
        new_len: usize,
        key: *const u8,
        key_len: usize,
        in_new: *mut u32,
        offset: *mut u32,
        length: *mut u32,
    ) -> u32;
    fn bhtf_grow_count(old: *const u8, old_len: usize, new: *const u8, new_len: usize, count: *mut u32) -> u32;
    fn bhtf_add_listed(
        image: *mut u8,
        len: usize,
        key: *const u8,
        key_len: usize,
        data: *const u8,
        data_len: usize,
        mode: u32,
        work: *mut u8,
        work_len: usize,
        list: *mut u8,
        list_len: usize,
        pairs: *mut u32,
    ) -> u32;
    fn bhtf_delete_listed(
        image: *mut u8,
        len: usize,
        key: *const u8,
        key_len: usize,
        work: *mut u8,
        work_len: usize,
        list: *mut u8,
        list_len: usize,
        pairs: *mut u32,
    ) -> u32;
    fn bhtf_compact_listed(
        image: *mut u8,
        len: usize,
        work: *mut u8,
        work_len: usize,
        list: *mut u8,
        list_len: usize,
        pairs: *mut u32,
    ) -> u32;
    fn bhtf_next_change(
        before: *const u8,
        before_len: usize,
        after: *const u8,
        after_len: usize,
        from: usize,
        size: *mut usize,
    ) -> usize;
    fn bhtf_add_journaled(
        image: *mut u8,
        len: usize,
        key: *const u8,
        key_len: usize,
        data: *const u8,
        data_len: usize,
        mode: u32,
        work: *mut u8,
        work_len: usize,
        journal: *mut u8,
        journal_len: usize,
    ) -> u32;
    fn bhtf_delete_journaled(
        image: *mut u8,
        len: usize,
        key: *const u8,
        key_len: usize,
        work: *mut u8,
        work_len: usize,
        journal: *mut u8,
        journal_len: usize,
    ) -> u32;
    fn bhtf_compact_journaled(
        image: *mut u8,
        len: usize,
        work: *mut u8,
        work_len: usize,
        journal: *mut u8,
        journal_len: usize,
    ) -> u32;
    fn bhtf_recover(image: *mut u8, len: usize, journal: *mut u8, journal_len: usize) -> u32;
}

const PAIR: usize = 8;
const COUNT: usize = 4;
const MARK: u8 = 0xA5;
const SCRAMBLE: usize = 512;
const TABLE: usize = 2048;

/// A message's bytes, maybe none of them; or no message.
type Text = Option<Vec<u8>>;

/// The file: the calls on one image.
struct File(Vec<u8>);

impl File {
    fn create(length: usize, key_size: u32, slots: u32, seed: u32) -> (u32, File) {
        let mut image = vec![0xA5; length];
        let number = unsafe { bhtf_create(image.as_mut_ptr(), length, key_size, slots, seed) };
        (number, File(image))
    }

    fn add(&mut self, key: &[u8], data: &[u8], mode: u32) -> u32 {
        unsafe { bhtf_add(self.0.as_mut_ptr(), self.0.len(), key.as_ptr(), key.len(), data.as_ptr(), data.len(), mode) }
    }

    fn delete(&mut self, key: &[u8]) -> u32 {
        unsafe { bhtf_delete(self.0.as_mut_ptr(), self.0.len(), key.as_ptr(), key.len()) }
    }

    fn lookup(&self, key: &[u8]) -> (u32, Text) {
        let (mut at, mut length) = (!0, !0);
        let number = unsafe { bhtf_lookup(self.0.as_ptr(), self.0.len(), key.as_ptr(), key.len(), &mut at, &mut length) };
        (number, self.shown(at, length))
    }

    /// The message that a lookup hands back: none has offset and length 0, an empty one an offset.
    fn shown(&self, at: u32, length: u32) -> Text {
        let bytes = self.0[at as usize..(at + length) as usize].to_vec();
        (at != 0 || length != 0).then_some(bytes)
    }

    // The same with the slots read behind.

    fn add_slots(&mut self, key: &[u8], data: &[u8], mode: u32) -> (u32, u32) {
        let (image, mut read) = (&mut self.0, !0);
        let (data, data_len) = (data.as_ptr(), data.len());
        let number =
            unsafe { bhtf_add_slots(image.as_mut_ptr(), image.len(), key.as_ptr(), key.len(), data, data_len, mode, &mut read) };
        (number, read)
    }

    fn delete_slots(&mut self, key: &[u8]) -> (u32, u32) {
        let (image, mut read) = (&mut self.0, !0);
        let number = unsafe { bhtf_delete_slots(image.as_mut_ptr(), image.len(), key.as_ptr(), key.len(), &mut read) };
        (number, read)
    }

    fn lookup_slots(&self, key: &[u8]) -> (u32, Text, u32) {
        let (image, mut at, mut length, mut read) = (&self.0, !0, !0, !0);
        let number =
            unsafe { bhtf_lookup_slots(image.as_ptr(), image.len(), key.as_ptr(), key.len(), &mut at, &mut length, &mut read) };
        (number, self.shown(at, length), read)
    }

    fn compact(&mut self) -> u32 {
        unsafe { bhtf_compact(self.0.as_mut_ptr(), self.0.len()) }
    }

    fn convert(&self, target: &mut [u8]) -> u32 {
        unsafe { bhtf_convert(self.0.as_ptr(), self.0.len(), target.as_mut_ptr(), target.len()) }
    }

    fn store_columns(&mut self, key: &[u8], records: &[u8], width: u32) -> u32 {
        let (image, len) = (self.0.as_mut_ptr(), self.0.len());
        unsafe { bhtf_store_columns(image, len, key.as_ptr(), key.len(), records.as_ptr(), records.len(), width) }
    }

    /// Fills the slice; number and bytes.
    fn read_columns(&self, key: &[u8], out: &mut [u8]) -> (u32, u32) {
        let (image, len, mut bytes) = (self.0.as_ptr(), self.0.len(), !0);
        let (out, out_len) = (out.as_mut_ptr(), out.len());
        let number = unsafe { bhtf_read_columns(image, len, key.as_ptr(), key.len(), out, out_len, &mut bytes) };
        (number, bytes)
    }

    /// Fills the list; number and slots found.
    fn select(&self, lowest: &[u8], highest: &[u8], list: &mut [u8]) -> (u32, u32) {
        let (image, len, mut found) = (self.0.as_ptr(), self.0.len(), !0);
        let (low, low_len) = (lowest.as_ptr(), lowest.len());
        let (high, high_len) = (highest.as_ptr(), highest.len());
        let (list, list_len) = (list.as_mut_ptr(), list.len());
        let number = unsafe { bhtf_select(image, len, low, low_len, high, high_len, list, list_len, &mut found) };
        (number, found)
    }

    /// Number, epoch and message.
    fn at_epoch(&self, name: &[u8], epoch: u32) -> (u32, u32, Text) {
        let (image, mut shown, mut at, mut length) = (&self.0, !0, !0, !0);
        let (start, size) = (name.as_ptr(), name.len());
        let number =
            unsafe { bhtf_at_epoch(image.as_ptr(), image.len(), start, size, epoch, &mut shown, &mut at, &mut length) };
        (number, shown, self.shown(at, length))
    }

    // The calls that write, with the list of what changed.

    fn add_listed(&mut self, key: &[u8], data: &[u8], mode: u32, lent: &mut Lent) -> u32 {
        let (image, len) = (self.0.as_mut_ptr(), self.0.len());
        let (work, work_len) = (lent.work.as_mut_ptr(), lent.work.len());
        let (list, list_len) = (lent.list.as_mut_ptr(), lent.list.len());
        let (data, data_len) = (data.as_ptr(), data.len());
        let pairs = &mut lent.pairs;
        unsafe {
            bhtf_add_listed(
                image, len, key.as_ptr(), key.len(), data, data_len, mode, work, work_len, list, list_len, pairs,
            )
        }
    }

    fn delete_listed(&mut self, key: &[u8], lent: &mut Lent) -> u32 {
        let (image, len) = (self.0.as_mut_ptr(), self.0.len());
        let (work, work_len) = (lent.work.as_mut_ptr(), lent.work.len());
        let (list, list_len) = (lent.list.as_mut_ptr(), lent.list.len());
        let pairs = &mut lent.pairs;
        unsafe { bhtf_delete_listed(image, len, key.as_ptr(), key.len(), work, work_len, list, list_len, pairs) }
    }

    fn compact_listed(&mut self, lent: &mut Lent) -> u32 {
        let (image, len) = (self.0.as_mut_ptr(), self.0.len());
        let (work, work_len) = (lent.work.as_mut_ptr(), lent.work.len());
        let (list, list_len) = (lent.list.as_mut_ptr(), lent.list.len());
        unsafe { bhtf_compact_listed(image, len, work, work_len, list, list_len, &mut lent.pairs) }
    }

    // The same by way of a journal, and recovery.

    fn add_journaled(&mut self, key: &[u8], data: &[u8], mode: u32, work: &mut [u8], journal: &mut [u8]) -> u32 {
        let (image, len) = (self.0.as_mut_ptr(), self.0.len());
        let (work, work_len) = (work.as_mut_ptr(), work.len());
        let (journal, journal_len) = (journal.as_mut_ptr(), journal.len());
        let (data, data_len) = (data.as_ptr(), data.len());
        unsafe {
            bhtf_add_journaled(
                image, len, key.as_ptr(), key.len(), data, data_len, mode, work, work_len, journal, journal_len,
            )
        }
    }

    fn delete_journaled(&mut self, key: &[u8], work: &mut [u8], journal: &mut [u8]) -> u32 {
        let (image, len) = (self.0.as_mut_ptr(), self.0.len());
        let (work, work_len) = (work.as_mut_ptr(), work.len());
        let (journal, journal_len) = (journal.as_mut_ptr(), journal.len());
        unsafe { bhtf_delete_journaled(image, len, key.as_ptr(), key.len(), work, work_len, journal, journal_len) }
    }

    fn compact_journaled(&mut self, work: &mut [u8], journal: &mut [u8]) -> u32 {
        let (image, len) = (self.0.as_mut_ptr(), self.0.len());
        let (work, work_len) = (work.as_mut_ptr(), work.len());
        unsafe { bhtf_compact_journaled(image, len, work, work_len, journal.as_mut_ptr(), journal.len()) }
    }

    fn recover(&mut self, journal: &mut [u8]) -> u32 {
        unsafe { bhtf_recover(self.0.as_mut_ptr(), self.0.len(), journal.as_mut_ptr(), journal.len()) }
    }

    fn count(&self) -> (u32, u32) {
        let mut points = !0;
        let number = unsafe { bhtf_count(self.0.as_ptr(), self.0.len(), &mut points) };
        (number, points)
    }

    /// All names, as the walk shows them.
    fn names(&self, key_size: usize) -> Vec<Vec<u8>> {
        let (mut from, mut names) = (0, Vec::new());
        loop {
            let (mut slot, mut place) = (!0, !0);
            let number = unsafe { bhtf_walk(self.0.as_ptr(), self.0.len(), from, &mut slot, &mut place) };
            if number != 0 || place == 0 {
                return names;
            }
            names.push(self.0[place as usize..place as usize + key_size].to_vec());
            from = slot + 1;
        }
    }

    fn sound(&self) -> bool {
        let (mut verdict, mut slot) = (!0, !0);
        unsafe { bhtf_check(self.0.as_ptr(), self.0.len(), &mut verdict, &mut slot) == 0 && verdict == 0 }
    }
}

/// What a call is lent to list what it changed, a working slice and the list; and the pairs that it answers.
struct Lent {
    work: Vec<u8>,
    list: Vec<u8>,
    pairs: u32,
}

impl Lent {
    /// For an image of that length; now and then too short, and the list often too short for the pairs.
    fn new(chance: &mut Chance, length: usize) -> Lent {
        let work = if chance.one_in(16) { chance.below(length) } else { length + chance.below(2) };
        let list = [chance.below(2 * PAIR), PAIR + chance.below(64), 200][chance.below(3)];
        Lent { work: vec![chance.below(256) as u8; work], list: chance.bytes(list), pairs: !0 }
    }

    fn too_short(&self, length: usize) -> bool {
        self.list.len() < PAIR || self.work.len() < length
    }

    /// The image before once the listed stretches of the one after are copied into it; none if they leave it.
    fn copied(&self, mut before: Vec<u8>, after: &[u8]) -> Option<Vec<u8>> {
        for pair in self.list.chunks(PAIR).take(self.pairs as usize) {
            let (at, length) = (field(pair, 0), field(pair, 4));
            before.get_mut(at..at + length)?.copy_from_slice(&after[at..at + length]);
        }
        Some(before)
    }
}

/// Offset and length of each unbroken run of bytes that differ.
fn changes(before: &[u8], after: &[u8]) -> Vec<(usize, usize)> {
    let mut runs: Vec<(usize, usize)> = Vec::new();
    for i in (0..before.len()).filter(|&i| before[i] != after[i]) {
        match runs.last_mut() {
            Some((at, length)) if *at + *length == i => *length += 1,
            _ => runs.push((i, 1)),
        }
    }
    runs
}

/// The same, as the library tells them one at a time.
fn told_changes(before: &[u8], after: &[u8]) -> Vec<(usize, usize)> {
    let (mut runs, mut from) = (Vec::new(), 0);
    loop {
        let mut size = !0;
        let at = unsafe {
            bhtf_next_change(before.as_ptr(), before.len(), after.as_ptr(), after.len(), from, &mut size)
        };
        if size == 0 {
            return runs;
        }
        runs.push((at, size));
        from = at + size;
    }
}

/// Writes the runs, or the pair 0, L if they do not fit; how many pairs.
fn write_list(list: &mut [u8], runs: &[(usize, usize)], length: usize) -> u32 {
    let pairs = if runs.len() * PAIR > list.len() { &[(0, length)] } else { runs };
    for (i, &(at, length)) in pairs.iter().enumerate() {
        put(list, i * PAIR, at);
        put(list, i * PAIR + 4, length);
    }
    pairs.len() as u32
}

/// What a journal takes: the count, the pairs, the new bytes.
fn content(before: &[u8], after: &[u8]) -> Vec<u8> {
    let runs = changes(before, after);
    let mut content = vec![0; COUNT + runs.len() * PAIR];
    put(&mut content, 0, runs.len());
    write_list(&mut content[COUNT..], &runs, before.len());
    runs.iter().for_each(|&(at, length)| content.extend_from_slice(&after[at..at + length]));
    content
}

/// A point of the book: its text, how many bytes its place holds, and whether it has one.
#[derive(Default)]
struct Point {
    text: Text,
    held: usize,
    placed: bool,
}

struct Book {
    key_size: usize,
    slots: usize,
    header: usize,
    room: usize,
    used: usize,
    points: BTreeMap<Vec<u8>, Point>,
}

/// The number at that place of an image.
fn field(image: &[u8], at: usize) -> usize {
    u32::from_be_bytes(image[at..at + 4].try_into().unwrap()) as usize
}

/// A message's header is a letter and 3 bytes, in version 2.0.0 a letter and 4.
fn header_size(image: &[u8]) -> usize {
    if image[5] == 2 { 5 } else { 4 }
}

fn length_at(image: &[u8], offset: usize) -> usize {
    let digits = &image[offset + 1..offset + header_size(image)];
    digits.iter().fold(0, |length, &digit| length << 8 | digit as usize)
}

fn message(header: usize, text: &[u8]) -> Vec<u8> {
    let length = (text.len() as u32).to_be_bytes();
    [b"a", &length[5 - header..], text].concat()
}

impl Point {
    /// A taken slot's point: an inactive message holds its bytes and shows no text.
    fn read(image: &[u8], offset: usize) -> Point {
        if offset == 0 {
            return Point::default();
        }
        let start = offset + header_size(image);
        let held = length_at(image, offset);
        let shown = image[offset] == b'a';
        Point { text: shown.then(|| image[start..start + held].to_vec()), held, placed: true }
    }
}

impl Book {
    /// The book that a sound image holds.
    fn read(image: &[u8]) -> Book {
        let (key_size, slots) = (field(image, 12), field(image, 16));
        let (data, next) = (field(image, 48), field(image, 52));
        let table = image[TABLE..].chunks(key_size + 4).take(slots);
        let taken = table.filter(|slot| slot[..key_size].iter().any(|&c| c != 0));
        let points = taken
            .map(|slot| (slot[..key_size].to_vec(), Point::read(image, field(slot, key_size))))
            .collect();
        Book { key_size, slots, header: header_size(image), room: image.len() - data, used: next - data, points }
    }

    fn named(&self, key: &[u8]) -> bool {
        key.len() == self.key_size && key.iter().any(|&c| c != 0)
    }

    /// Questions 12 and 13; then the space is taken.
    fn take(&mut self, length: usize) -> u32 {
        if length > if self.header == 5 { 0x3FFF_FFFF } else { 0xFF_FFFF } {
            return 12;
        }
        if self.used + self.header + length > self.room {
            return 13;
        }
        self.used += self.header + length;
        0
    }

    fn place(&mut self, key: &[u8], text: Vec<u8>) -> u32 {
        let number = self.take(text.len());
        if number == 0 {
            let held = text.len();
            self.points.insert(key.to_vec(), Point { text: Some(text), held, placed: true });
        }
        number
    }

    fn add(&mut self, key: &[u8], data: &[u8], mode: u32) -> u32 {
        if !self.named(key) {
            return 7;
        }
        if !(1..=4).contains(&mode) {
            return 8;
        }
        match self.points.get(key) {
            Some(_) => self.add_present(key, data, mode),
            None if mode == 4 => 14,
            None => self.add_absent(key, data, mode),
        }
    }

    fn add_absent(&mut self, key: &[u8], data: &[u8], mode: u32) -> u32 {
        if self.points.len() >= self.slots {
            return 10;
        }
        if data.is_empty() && mode == 3 {
            self.points.insert(key.to_vec(), Point::default());
            return 0;
        }
        self.place(key, data.to_vec())
    }

    fn add_present(&mut self, key: &[u8], data: &[u8], mode: u32) -> u32 {
        let point = self.points.get_mut(key).unwrap();
        match mode {
            1 => 9,
            2 if point.placed && data.len() <= point.held => {
                point.text = Some(data.to_vec());
                point.held = data.len();
                0
            }
            2 => self.place(key, data.to_vec()),
            4 => {
                point.text = None;
                0
            }
            _ if data.is_empty() => 0,
            _ => {
                let mut text = point.text.clone().unwrap_or_default();
                text.extend_from_slice(data);
                self.place(key, text)
            }
        }
    }

    /// As mode 2 stores the width and then column after column.
    fn store_columns(&mut self, key: &[u8], records: &[u8], width: u32) -> u32 {
        if !self.named(key) {
            return 7;
        }
        if !(1..=64).contains(&width) || records.len() % width as usize != 0 {
            return 19;
        }
        let mut text = vec![width as u8];
        (0..width as usize).for_each(|column| text.extend(records.chunks(width as usize).map(|record| record[column])));
        self.add(key, &text, 2)
    }

    /// The records by the text, if they fit so many bytes.
    fn read_columns(&self, key: &[u8], room: usize) -> (u32, Vec<u8>) {
        let (number, text) = self.lookup(key);
        if number != 0 {
            return (number, Vec::new());
        }
        match text.unwrap_or_default().split_first() {
            Some((&width, rest)) if (1..=64).contains(&width) && rest.len() % width as usize == 0 && rest.len() <= room => {
                let count = rest.len() / width as usize;
                let record = |i| (0..width as usize).map(move |column| rest[column * count + i]);
                (0, (0..count).flat_map(record).collect())
            }
            _ => (19, Vec::new()),
        }
    }

    /// The names in the ranges, if a list of so many bytes can hold the table's slots.
    fn select(&self, lowest: &[u8], highest: &[u8], room: usize) -> (u32, Vec<Vec<u8>>) {
        let within = |name: &Vec<u8>| (0..self.key_size).all(|i| (lowest[i]..=highest[i]).contains(&name[i]));
        if lowest.len() != self.key_size || highest.len() != self.key_size || lowest.iter().zip(highest).any(|(l, h)| l > h) {
            return (22, Vec::new());
        }
        if room < 4 * self.slots {
            return (16, Vec::new());
        }
        (0, self.points.keys().filter(|name| within(name)).cloned().collect())
    }

    /// The last epoch of that name up to this one, and its text. Names are in the order of their epochs.
    fn at_epoch(&self, name: &[u8], epoch: u32) -> (u32, u32, Text) {
        if self.key_size < 5 {
            return (23, 0, None);
        }
        if name.len() != self.key_size - 4 {
            return (7, 0, None);
        }
        let [first, last] = [0, epoch].map(|epoch: u32| [name, &epoch.to_be_bytes()].concat());
        match self.points.range(first..=last).next_back() {
            Some((key, point)) => (0, field(key, name.len()) as u32, point.text.clone()),
            None => (14, 0, None),
        }
    }

    /// Only texts take space now, and as much as they are long.
    fn compact(&mut self) -> u32 {
        for point in self.points.values_mut() {
            point.placed = point.text.is_some();
            point.held = point.text.as_ref().map_or(0, Vec::len);
        }
        self.used = self.points.values().filter(|p| p.placed).map(|p| self.header + p.held).sum();
        0
    }

    /// Into a target of that length: compaction with the other version's header, and the target's room. No text here is too long.
    fn convert(&mut self, length: usize) -> u32 {
        let data = data_start(self.key_size, self.slots);
        let texts = || self.points.values().filter_map(|p| p.text.as_ref());
        let header = 9 - self.header;
        if length % 4096 != 0 || length == 0 {
            return 1;
        }
        if data + texts().map(|t| header + t.len()).sum::<usize>() > length {
            return 13;
        }
        (self.header, self.room) = (header, length - data);
        self.compact()
    }

    fn delete(&mut self, key: &[u8]) -> u32 {
        if !self.named(key) {
            return 7;
        }
        if self.points.remove(key).is_some() {
            0
        } else {
            14
        }
    }

    fn lookup(&self, key: &[u8]) -> (u32, Text) {
        if !self.named(key) {
            return (7, None);
        }
        match self.points.get(key) {
            Some(point) => (0, point.text.clone()),
            None => (14, None),
        }
    }
}

/// Marsaglia's xorshift.
struct Chance(u64);

impl Chance {
    fn below(&mut self, n: usize) -> usize {
        self.0 ^= self.0 << 13;
        self.0 ^= self.0 >> 7;
        self.0 ^= self.0 << 17;
        (self.0 >> 16) as usize % n
    }

    fn bytes(&mut self, n: usize) -> Vec<u8> {
        (0..n).map(|_| self.below(256) as u8).collect()
    }

    fn one_in(&mut self, n: usize) -> bool {
        self.below(n) == 0
    }

    fn shuffle<T>(&mut self, list: &mut [T]) {
        for i in (1..list.len()).rev() {
            list.swap(i, self.below(i + 1));
        }
    }
}

fn data_start(key_size: usize, slots: usize) -> usize {
    (2048 + slots * (key_size + 4) + 4095) / 4096 * 4096
}

// ---- sound images that no call made ----

fn put(image: &mut [u8], at: usize, number: usize) {
    image[at..at + 4].copy_from_slice(&(number as u32).to_be_bytes());
}

fn slot_at(image: &[u8], slot: usize) -> usize {
    TABLE + slot * (field(image, 12) + 4)
}

fn slot_offset(image: &[u8], slot: usize) -> usize {
    slot_at(image, slot) + field(image, 12)
}

fn is_taken(image: &[u8], slot: usize) -> bool {
    image[slot_at(image, slot)..slot_offset(image, slot)].iter().any(|&c| c != 0)
}

/// F, E and the scramble: its numbers stay random, or each becomes its own index.
fn make_scramble(chance: &mut Chance, image: &mut [u8]) {
    let any = chance.below(256);
    let above = any + chance.below(256 - any);
    let (first, last) = [(32, 126), (0, 255), (any, any), (any, above)][chance.below(4)];
    put(image, 32, first);
    put(image, 36, last);
    if chance.one_in(4) {
        (0..=last - first).for_each(|i| put(image, SCRAMBLE + 4 * i, i));
    }
}

/// The header of an image of random bytes; serial and M, which may be any number, stay so.
fn make_header(chance: &mut Chance, image: &mut [u8], key_size: usize, slots: usize) {
    let data = data_start(key_size, slots);
    let room = image.len() - data;
    let used = [room, chance.below(room + 1), chance.below(room.min(200) + 1)][chance.below(3)];
    let multiplier = [0x0100_0193, chance.below(1 << 32), chance.below(3)][chance.below(3)];
    let start = [0x811C_9DC5, chance.below(1 << 32)][chance.below(2)];
    image[..7].copy_from_slice(b"BHTFv\x01\x00");
    image[7] = chance.below(3) as u8;
    if chance.one_in(3) {
        image[5..8].copy_from_slice(&[2, 0, 0]);
    }
    let fields = [
        (12, key_size),
        (16, slots),
        (20, 0),
        (24, multiplier),
        (28, start),
        (40, SCRAMBLE),
        (44, TABLE),
        (48, data),
        (52, data + used),
    ];
    fields.iter().for_each(|&(at, number)| put(image, at, number));
}

/// All slots empty, some with bytes left in the offset.
fn clear_table(chance: &mut Chance, image: &mut [u8]) {
    for slot in 0..field(image, 16) {
        let (key, offset) = (slot_at(image, slot), slot_offset(image, slot));
        image[key..offset].fill(0);
        if !chance.one_in(3) {
            put(image, offset, 0);
        }
    }
}

fn home(image: &[u8], key: &[u8]) -> usize {
    let (first, last) = (field(image, 32), field(image, 36));
    let multiplier = field(image, 24) as u32;
    let mut hash = field(image, 28) as u32;
    for c in key.iter().map(|&c| c as usize) {
        hash = hash.wrapping_mul(multiplier);
        if first <= c && c <= last {
            hash ^= field(image, SCRAMBLE + 4 * (c - first)) as u32;
        }
    }
    hash as usize % field(image, 16)
}

/// The slots in the order in which a search for the key reads them.
fn probe(image: &[u8], key: &[u8]) -> impl Iterator<Item = usize> {
    let (home, slots) = (home(image, key), field(image, 16));
    (home..home + slots).map(move |i| i % slots)
}

/// The empty slot where a search for the key ends.
fn empty_slot(image: &[u8], key: &[u8]) -> usize {
    probe(image, key).find(|&slot| !is_taken(image, slot)).expect("an empty slot")
}

/// How many slots a search for the key reads, up to one that is empty or holds it.
fn slots_read(image: &[u8], key: &[u8]) -> usize {
    let ends = |slot| !is_taken(image, slot) || image[slot_at(image, slot)..].starts_with(key);
    probe(image, key).position(ends).map_or(field(image, 16), |before| before + 1)
}

fn take_slot(image: &mut [u8], slot: usize, key: &[u8]) {
    let at = slot_at(image, slot);
    image[at..at + key.len()].copy_from_slice(key);
    put(image, at + key.len(), 0);
    put(image, 20, field(image, 20) + 1);
}

/// A message of the slot at that place or a little behind; answers its end, or the place if there
/// is no room.
fn place_message(chance: &mut Chance, image: &mut [u8], slot: usize, at: usize) -> usize {
    let start = at + [0, 0, chance.below(8)][chance.below(3)];
    let next = field(image, 52);
    let header = header_size(image);
    if start + header > next {
        return at;
    }
    let space = next - start - header;
    let most = if chance.one_in(16) { 300 } else { 12 };
    let some = if chance.one_in(6) { 0 } else { chance.below(space.min(most) + 1) };
    let length = if chance.one_in(40) { space } else { some };
    put(image, start + header - 4, length);
    image[start] = [b'a', b'a', b'd'][chance.below(3)];
    put(image, slot_offset(image, slot), start);
    start + header + length
}

/// Messages from D on, of most taken slots, in any order of the slots.
fn place_messages(chance: &mut Chance, image: &mut [u8]) {
    let mut taken: Vec<usize> = (0..field(image, 16)).filter(|&i| is_taken(image, i)).collect();
    chance.shuffle(&mut taken);
    let most = taken.len() - taken.len() / 4;
    let mut at = field(image, 48);
    for &slot in &taken[..most] {
        at = place_message(chance, image, slot, at);
    }
}

/// Distinct names in any order, at most as many as wanted.
fn distinct_names(chance: &mut Chance, key_size: usize, wanted: usize) -> Vec<Vec<u8>> {
    let few = chance.one_in(2);
    let mut names = BTreeSet::new();
    for _ in 0..wanted {
        names.insert(if few { pool_name(chance, key_size) } else { chance.bytes(key_size) });
    }
    names.remove(&vec![0; key_size]);
    let mut names: Vec<_> = names.into_iter().collect();
    chance.shuffle(&mut names);
    names
}

/// A full table is found through in any order; in another each name goes where its search ends.
fn fill_table(image: &mut [u8], names: &[Vec<u8>]) {
    let full = names.len() == field(image, 16);
    for (i, name) in names.iter().enumerate() {
        let slot = if full { i } else { empty_slot(image, name) };
        take_slot(image, slot, name);
    }
}

/// An image that is not sound answers 15 and stays as it is.
fn refuses_unsound(file: &File) -> Result<(), String> {
    let mut other = File(file.0.clone());
    let points = field(&other.0, 20);
    put(&mut other.0, 20, if points == 0 { 1 } else { points - 1 });
    let before = other.0.clone();
    match other.compact() {
        15 if other.0 == before => {}
        15 => return Err("a refused compaction wrote".into()),
        number => return Err(format!("compaction of a wrong count answered {number}")),
    }
    let mut target = vec![0x5A; before.len()];
    match other.convert(&mut target) {
        15 if target.iter().all(|&c| c == 0x5A) => Ok(()),
        15 => Err("a refused conversion wrote".into()),
        number => Err(format!("conversion of a wrong count answered {number}")),
    }
}

/// The file in the other version, by the document: each point in its slot, its text in the order of the old offsets; zero else.
fn converted(image: &[u8], length: usize) -> Vec<u8> {
    let (header, data) = (9 - header_size(image), field(image, 48));
    let numbers = field(image, 36) - field(image, 32) + 1;
    let mut target = vec![0; length];
    target[..52].copy_from_slice(&image[..52]);
    target[5..8].copy_from_slice(if header == 5 { &[2, 0, 0] } else { &[1, 0, 2] });
    target[SCRAMBLE..SCRAMBLE + 4 * numbers].copy_from_slice(&image[SCRAMBLE..SCRAMBLE + 4 * numbers]);
    let mut texts = BTreeMap::new();
    for slot in (0..field(image, 16)).filter(|&i| is_taken(image, i)) {
        let (key, offset) = (slot_at(image, slot), slot_offset(image, slot));
        target[key..offset].copy_from_slice(&image[key..offset]);
        let at = field(image, offset);
        if at != 0 && image[at] == b'a' {
            let start = at + header_size(image);
            texts.insert(at, (slot, &image[start..start + length_at(image, at)]));
        }
    }
    let mut next = data;
    for (slot, text) in texts.into_values() {
        let bytes = message(header, text);
        target[next..next + bytes.len()].copy_from_slice(&bytes);
        put(&mut target, slot_offset(image, slot), next);
        next += bytes.len();
    }
    put(&mut target, 52, next);
    put(&mut target, 56, if next == data { 0xFFFF_FFFF } else { (next - data - 1) / 4096 });
    target
}

/// Into a target of about the file's length; accepted, the list goes on there.
fn convert(chance: &mut Chance, file: &mut File, book: &mut Book) -> (Answer, Answer) {
    let length = file.0.len();
    let needed = data_start(book.key_size, book.slots) + book.used;
    let whole = (needed + 4095) / 4096 * 4096;
    let length = [length, length + 4096, whole, whole + 4096, whole.max(8192) - 4096, length + 1, 0][chance.below(7)];
    let mut target = chance.bytes(length);
    let before = (file.0.clone(), target.clone());
    let want = book.convert(length);
    let got = file.convert(&mut target);
    let left = if got == 0 && want == 0 { converted(&before.0, length) } else { before.1 };
    let answer = (got, Some(vec![(file.0 == before.0) as u8, (target == left) as u8]), None);
    if got == 0 {
        file.0 = target;
    }
    (answer, (want, Some(vec![1, 1]), None))
}

/// A sound image, and names to call: those it holds, and in a table with empty slots some more.
fn sound_image(chance: &mut Chance) -> (Vec<u8>, Vec<Vec<u8>>) {
    let (key_size, wanted) = shape(chance);
    let names = distinct_names(chance, key_size, wanted);
    let full = chance.one_in(2) && !names.is_empty();
    let slots = if full { names.len() } else { wanted };
    let held = if full { slots } else { chance.below(names.len() + 1) };
    let pages = if chance.one_in(8) { 0 } else { 1 + chance.below(2) };
    let mut image = chance.bytes(data_start(key_size, slots) + 4096 * pages);
    make_header(chance, &mut image, key_size, slots);
    make_scramble(chance, &mut image);
    clear_table(chance, &mut image);
    fill_table(&mut image, &names[..held]);
    place_messages(chance, &mut image);
    (image, names)
}

// ---- lists ----

/// K and N, mostly small.
fn shape(chance: &mut Chance) -> (usize, usize) {
    let large = chance.below(4) == 0;
    let key_size = 1 + if large { chance.below(32) } else { [0, 1, 2, 4, 5][chance.below(5)] };
    (key_size, 1 + chance.below(if large { 300 } else { 8 }))
}

/// A name of a small pool, so that names meet again; where an epoch ends it, mostly a small one.
fn pool_name(chance: &mut Chance, key_size: usize) -> Vec<u8> {
    let mut name: Vec<u8> = (0..key_size).map(|_| chance.below(4) as u8 * 31).collect();
    if key_size > 4 && !chance.one_in(4) {
        name[key_size - 4..key_size - 1].fill(0);
    }
    name
}

/// A name of the pool or a known one; now and then one that is refused.
fn some_name(chance: &mut Chance, key_size: usize, known: &[Vec<u8>]) -> Vec<u8> {
    match chance.below(40) {
        0 => vec![0; key_size],
        1 => vec![1; key_size + 1],
        2 => vec![1; key_size - 1],
        3..=30 if !known.is_empty() => known[chance.below(known.len())].clone(),
        _ => pool_name(chance, key_size),
    }
}

/// What a call answers: its number; the text, or the bytes of C or of the list; and the slots read, where the form reports them.
type Answer = (u32, Text, Option<u32>);

/// A call by the form that lists what changed, on file and book: both answers, of the file what the list must hold.
fn listed(
    chance: &mut Chance,
    file: &mut File,
    call: impl FnOnce(&mut File, &mut Lent) -> u32,
    step: impl FnOnce() -> u32,
) -> (Answer, Answer) {
    let mut lent = Lent::new(chance, file.0.len());
    let (before, mut list) = (file.0.clone(), lent.list.clone());
    let want = if lent.too_short(before.len()) { 16 } else { step() };
    let got = call(file, &mut lent);
    let runs = changes(&before, &file.0);
    let pairs = if want == 0 { write_list(&mut list, &runs, before.len()) } else { 0 };
    let told = told_changes(&before, &file.0) == runs;
    let copied = told && lent.copied(before, &file.0).is_some_and(|copy| copy == file.0);
    let bytes = |pairs: u32, list: &[u8], copied: bool| Some([&pairs.to_be_bytes(), list, &[copied as u8]].concat());
    ((got, bytes(lent.pairs, &lent.list, copied), None), (want, bytes(pairs, &list, true), None))
}

/// A call by way of a journal, on file and book: both answers, of the file also what journal and image must be. The book is told
/// where 17 is due, which is here by what the plain call changes in a copy. Then recovery, from the same journal, of a file that was
/// cut once the mark was written.
fn journaled(
    chance: &mut Chance,
    file: &mut File,
    plain: impl FnOnce(&mut File) -> u32,
    call: impl FnOnce(&mut File, &mut [u8], &mut [u8]) -> u32,
    step: impl FnOnce() -> u32,
) -> (Answer, Answer) {
    let (before, mut after) = (file.0.clone(), File(file.0.clone()));
    let due = plain(&mut after);
    let mut wanted = content(&before, &after.0);
    let length = [wanted.len() + 1, wanted.len() + 2 + chance.below(20), chance.below(wanted.len() + 1)][chance.below(3)];
    let mut journal = chance.bytes(length);
    if let Some(mark) = journal.last_mut() {
        *mark = if chance.one_in(8) { 1 + chance.below(255) as u8 } else { 0 };
    }
    let refuses = length <= wanted.len() || journal[length - 1] != 0;
    let work = if chance.one_in(16) { chance.below(before.len()) } else { before.len() };
    let want = match due {
        _ if work < before.len() => 16,
        0 if refuses => 17,
        _ => step(),
    };
    let accepted = want == 0 && !refuses;
    let (image, left) = if accepted { (&after.0, wanted.len()) } else { (&before, 0) };
    wanted.truncate(left);
    wanted.extend_from_slice(&journal[left..]);
    let got = call(file, &mut vec![chance.below(256) as u8; work], &mut journal);
    let same = file.0 == *image && (!accepted || recovers(File(before.clone()), image, &journal));
    ((got, Some([&journal[..], &[same as u8]].concat()), None), (want, Some([&wanted[..], &[1]].concat()), None))
}

/// Once its journal is marked, the file becomes that one; the mark is 0 then, and a second recovery changes nothing.
fn recovers(mut file: File, after: &[u8], journal: &[u8]) -> bool {
    let mut marked = journal.to_vec();
    marked[journal.len() - 1] = MARK;
    (0..2).all(|_| file.recover(&mut marked) == 0 && file.0 == after && marked == journal)
}

/// Readings stored by column, on file and book.
fn store_columns(chance: &mut Chance, file: &mut File, book: &mut Book, key: &[u8]) -> (Answer, Answer) {
    let width = [chance.below(6), 12, 64, 65, 257, 1 + chance.below(64)][chance.below(6)];
    let size = [width * chance.below(5), chance.below(80), 0][chance.below(3)];
    let records = chance.bytes(size);
    let want = book.store_columns(key, &records, width as u32);
    ((file.store_columns(key, &records, width as u32), None, None), (want, None, None))
}

/// Readings read into a slice, on file and book: the bytes answered, and the whole slice.
fn read_columns(chance: &mut Chance, file: &File, book: &Book, key: &[u8]) -> (Answer, Answer) {
    let needed = book.read_columns(key, usize::MAX).1.len();
    let room = [needed, needed + chance.below(9), chance.below(needed + 1)][chance.below(3)];
    let mut out = chance.bytes(room);
    let mut wanted = out.clone();
    let (want, records) = book.read_columns(key, room);
    wanted[..records.len()].copy_from_slice(&records);
    let (got, bytes) = file.read_columns(key, &mut out);
    let answered = |bytes: u32, slice: &[u8]| Some([&bytes.to_be_bytes(), slice].concat());
    ((got, answered(bytes, &out), None), (want, answered(records.len() as u32, &wanted), None))
}

/// Names in ranges around one, on file and book: how many, the names of the listed slots in the order of the names, whether the
/// slots rise, and the list behind them.
fn select(chance: &mut Chance, file: &File, book: &Book, key: &[u8]) -> (Answer, Answer) {
    let (mut lowest, mut highest) = (key.to_vec(), key.to_vec());
    for i in 0..key.len() {
        let style = chance.below(4);
        lowest[i] = if style < 2 { chance.below(key[i] as usize + 1) as u8 } else { key[i] };
        highest[i] = if style > 0 { 255 - chance.below(256 - key[i] as usize) as u8 } else { key[i] };
    }
    if chance.one_in(20) {
        std::mem::swap(&mut lowest, &mut highest);
    }
    let room = if chance.one_in(8) { chance.below(4 * book.slots) } else { 4 * book.slots + chance.below(5) };
    let mut list = chance.bytes(room);
    let before = list.clone();
    let (want, mut names) = book.select(&lowest, &highest, room);
    let (got, found) = file.select(&lowest, &highest, &mut list);
    let end = list.len().min(4 * found as usize);
    let slots: Vec<usize> = list[..end].chunks(4).map(|number| field(number, 0)).collect();
    let name = |&slot: &usize| file.0[slot_at(&file.0, slot)..slot_offset(&file.0, slot)].to_vec();
    let mut listed: Vec<Vec<u8>> = slots.iter().filter(|&&slot| slot < book.slots).map(name).collect();
    let rises = slots.windows(2).all(|two| two[0] < two[1]);
    listed.sort();
    names.sort();
    let kept = &before[before.len().min(4 * names.len())..];
    let bytes = |found: u32, names: &[Vec<u8>], rises, rest: &[u8]| {
        Some([&found.to_be_bytes()[..], &names.concat(), &[rises as u8], rest].concat())
    };
    ((got, bytes(found, &listed, rises, &list[end..]), None), (want, bytes(names.len() as u32, &names, true, kept), None))
}

/// A name's last epoch up to another one, on file and book: the epoch, and the text.
fn at_epoch(chance: &mut Chance, file: &File, book: &Book, key: &[u8]) -> (Answer, Answer) {
    let (name, epoch) = key.split_at(key.len().saturating_sub(4));
    let own = epoch.iter().fold(0u32, |number, &c| number << 8 | c as u32);
    let epoch = [own, own.wrapping_add(1), own.wrapping_sub(1), !0, 0, chance.below(1 << 32) as u32][chance.below(6)];
    let answered = |(number, shown, text): (u32, u32, Text)| {
        (number, Some([&shown.to_be_bytes()[..], &[text.is_some() as u8], &text.unwrap_or_default()].concat()), None)
    };
    (answered(file.at_epoch(name, epoch)), answered(book.at_epoch(name, epoch)))
}

/// One call on the file and on the book: its name and both answers.
fn call(
    chance: &mut Chance,
    file: &mut File,
    book: &mut Book,
    key: &[u8],
) -> (&'static str, Answer, Answer) {
    let number = |n| (n, None, None);
    let with_read = |(n, read)| (n, None, Some(read));
    let (with_list, with_journal) = (chance.one_in(12), chance.one_in(12));
    let counted = !chance.one_in(4);
    // none where the call is refused before its search
    let searches = if book.named(key) { slots_read(&file.0, key) as u32 } else { 0 };
    let read = |n| counted.then_some(if n == 8 { 0 } else { searches });
    match chance.below(27) {
        0..=9 => {
            let size = [0, 1, 5, 40, book.room][chance.below(5)];
            let length = chance.below(size + 1);
            // what one repeated byte changes is one long run
            let even = chance.one_in(3);
            let data = if even { vec![1 + chance.below(255) as u8; length] } else { chance.bytes(length) };
            let mode = [1, 2, 2, 3, 3, 4, 0, 5, !0][chance.below(9)];
            if with_list {
                let add = |file: &mut File, lent: &mut Lent| file.add_listed(key, &data, mode, lent);
                let (got, want) = listed(chance, file, add, || book.add(key, &data, mode));
                return ("add with a list", got, want);
            }
            if with_journal {
                let plain = |file: &mut File| file.add(key, &data, mode);
                let add = |file: &mut File, work: &mut [u8], journal: &mut [u8]| {
                    file.add_journaled(key, &data, mode, work, journal)
                };
                let (got, want) = journaled(chance, file, plain, add, || book.add(key, &data, mode));
                return ("add with a journal", got, want);
            }
            let want = book.add(key, &data, mode);
            let got =
                if counted { with_read(file.add_slots(key, &data, mode)) } else { number(file.add(key, &data, mode)) };
            ("add", got, (want, None, read(want)))
        }
        10..=13 if with_list => {
            let (got, want) = listed(chance, file, |file, lent| file.delete_listed(key, lent), || book.delete(key));
            ("delete with a list", got, want)
        }
        10..=13 if with_journal => {
            let delete = |file: &mut File, work: &mut [u8], journal: &mut [u8]| file.delete_journaled(key, work, journal);
            let (got, want) = journaled(chance, file, |file| file.delete(key), delete, || book.delete(key));
            ("delete with a journal", got, want)
        }
        10..=13 => {
            let want = book.delete(key);
            let got = if counted { with_read(file.delete_slots(key)) } else { number(file.delete(key)) };
            ("delete", got, (want, None, read(want)))
        }
        14..=17 => {
            let (want, text) = book.lookup(key);
            let got = if counted {
                let (number, text, read) = file.lookup_slots(key);
                (number, text, Some(read))
            } else {
                let (number, text) = file.lookup(key);
                (number, text, None)
            };
            ("lookup", got, (want, text, read(want)))
        }
        18 if with_list => {
            let (got, want) = listed(chance, file, File::compact_listed, || book.compact());
            ("compact with a list", got, want)
        }
        18 if with_journal => {
            let (got, want) = journaled(chance, file, File::compact, File::compact_journaled, || book.compact());
            ("compact with a journal", got, want)
        }
        18 => ("compact", number(file.compact()), number(book.compact())),
        19 | 20 => {
            let (got, want) = store_columns(chance, file, book, key);
            ("store columns", got, want)
        }
        21 => {
            let (got, want) = read_columns(chance, file, book, key);
            ("read columns", got, want)
        }
        22 => {
            let (got, want) = select(chance, file, book, key);
            ("select", got, want)
        }
        23 => {
            let (got, want) = at_epoch(chance, file, book, key);
            ("epoch", got, want)
        }
        24 => {
            let (got, want) = convert(chance, file, book);
            ("convert", got, want)
        }
        _ => {
            let (number, points) = file.count();
            let want = book.points.len() as u32;
            let bytes = |n: u32| Some(n.to_le_bytes().to_vec());
            ("count", (number, bytes(points), None), (0, bytes(want), None))
        }
    }
}

/// A list of calls on both; their number, or the first that differed.
fn calls(
    chance: &mut Chance,
    file: &mut File,
    book: &mut Book,
    known: &[Vec<u8>],
) -> Result<usize, String> {
    let calls = 1 + chance.below(200);
    for i in 0..calls {
        let key = some_name(chance, book.key_size, known);
        let points = book.points.len();
        let (what, got, want) = call(chance, file, book, &key);
        if got != want {
            return Err(format!("call {i}, {what} {key:?}: {got:?}, the book {want:?}"));
        }
        if got.2.is_some_and(|read| read as usize > points + 1) {
            return Err(format!("call {i}, {what} {key:?}: {got:?}, with {points} points"));
        }
    }
    Ok(calls)
}

/// The file holds the book's points with their texts and no others, and is sound.
fn same_points(file: &File, book: &Book) -> Result<(), String> {
    let found = |name: &[u8], point: &Point| file.lookup(name) == (0, point.text.clone());
    let lost = book.points.iter().find(|(name, point)| !found(name, point));
    if let Some((name, _)) = lost {
        return Err(format!("{name:?} is not found with its text"));
    }
    let mut names = file.names(book.key_size);
    names.sort();
    if !names.iter().eq(book.points.keys()) {
        return Err("the walk shows other names than the book's".into());
    }
    if !file.sound() {
        return Err("the check does not say sound".into());
    }
    Ok(())
}

/// One list of calls on a new file and a new book; what differed, if anything.
fn from_create(chance: &mut Chance) -> Result<usize, String> {
    let (key_size, slots) = shape(chance);
    let length = data_start(key_size, slots) + 4096 * chance.below(3);
    let seed = if chance.below(2) == 0 { 0 } else { chance.below(1 << 32) as u32 };
    let (number, mut file) = File::create(length, key_size as u32, slots as u32, seed);
    if number != 0 {
        return Err(format!("create answered {number}"));
    }
    let room = length - data_start(key_size, slots);
    let mut book = Book { key_size, slots, header: 4, room, used: 0, points: BTreeMap::new() };
    let calls = calls(chance, &mut file, &mut book, &[])?;
    same_points(&file, &book)?;
    if !chance.one_in(GROWTHS.load(Ordering::Relaxed)) {
        return Ok(calls);
    }
    grow(chance, file, &mut book, &[]).map(|more| calls + more)
}

/// One list in so many grows: each call on a pair checks both images, which takes as long as some hundred others.
static GROWTHS: AtomicUsize = AtomicUsize::new(1);

/// One list of calls on a sound image and the book read off it; what differed, if anything.
fn from_image(chance: &mut Chance, ran: &mut Ran) -> Result<usize, String> {
    let (image, known) = sound_image(chance);
    let mut file = File(image);
    if !file.sound() {
        return Err("the check does not call the image sound".into());
    }
    let mut book = Book::read(&file.0);
    ran.start(&file.0, &book);
    if chance.one_in(20) {
        refuses_unsound(&file)?;
    }
    let calls = calls(chance, &mut file, &mut book, &known)?;
    same_points(&file, &book)?;
    if !chance.one_in(GROWTHS.load(Ordering::Relaxed)) {
        return Ok(calls);
    }
    grow(chance, file, &mut book, &known).map(|more| calls + more)
}

// ---- growth ----

/// The file in growth: the calls on the pair.
struct Pair {
    old: File,
    new: File,
}

impl Pair {
    fn start(&self) -> u32 {
        let (old, new) = (&self.old.0, &self.new.0);
        unsafe { bhtf_grow(old.as_ptr(), old.len(), new.as_ptr(), new.len()) }
    }

    fn add(&mut self, key: &[u8], data: &[u8], mode: u32) -> u32 {
        let (old, new) = (&mut self.old.0, &mut self.new.0);
        let (old, old_len, new, new_len) = (old.as_mut_ptr(), old.len(), new.as_mut_ptr(), new.len());
        unsafe { bhtf_grow_add(old, old_len, new, new_len, key.as_ptr(), key.len(), data.as_ptr(), data.len(), mode) }
    }

    fn delete(&mut self, key: &[u8]) -> u32 {
        let (old, new) = (&mut self.old.0, &mut self.new.0);
        unsafe { bhtf_grow_delete(old.as_mut_ptr(), old.len(), new.as_mut_ptr(), new.len(), key.as_ptr(), key.len()) }
    }

    fn lookup(&self, key: &[u8]) -> (u32, Text) {
        let (old, new, mut there, mut at, mut length) = (&self.old.0, &self.new.0, !0, !0, !0);
        let (start, size) = (key.as_ptr(), key.len());
        let number = unsafe {
            bhtf_grow_lookup(
                old.as_ptr(), old.len(), new.as_ptr(), new.len(), start, size, &mut there, &mut at, &mut length,
            )
        };
        (number, if there == 1 { self.new.shown(at, length) } else { self.old.shown(at, length) })
    }

    fn count(&self) -> (u32, u32) {
        let (old, new, mut count) = (&self.old.0, &self.new.0, !0);
        (unsafe { bhtf_grow_count(old.as_ptr(), old.len(), new.as_ptr(), new.len(), &mut count) }, count)
    }

    fn points_left(&self) -> usize {
        field(&self.old.0, 20)
    }
}

impl Book {
    /// Compaction, with the second image's slots and room.
    fn grow(&mut self, slots: usize, length: usize) -> u32 {
        let room = length - data_start(self.key_size, slots);
        let texts = self.points.values().filter_map(|p| p.text.as_ref());
        if slots <= self.slots || texts.map(|t| self.header + t.len()).sum::<usize>() > room {
            return 21;
        }
        (self.slots, self.room) = (slots, room);
        self.compact()
    }
}

/// A second image without points, of the file's version; now and then too small, or with no more slots.
fn second(chance: &mut Chance, book: &Book) -> (File, usize) {
    let slots = book.slots + [0, 1, 1 + chance.below(30)][chance.below(3)];
    let texts: usize = book.points.values().filter_map(|p| p.text.as_ref()).map(|t| book.header + t.len()).sum();
    let pages = texts.div_ceil(4096) + chance.below(3);
    let pages = if chance.one_in(6) { pages.saturating_sub(1) } else { pages };
    let length = data_start(book.key_size, slots) + 4096 * pages;
    let (_, mut file) = File::create(length, book.key_size as u32, slots as u32, chance.below(1 << 32) as u32);
    if book.header == 5 {
        file.0[5..8].copy_from_slice(&[2, 0, 0]);
    }
    (file, slots)
}

/// One call on the pair and on the book, both answers.
fn call_pair(chance: &mut Chance, pair: &mut Pair, book: &mut Book, key: &[u8]) -> (&'static str, Answer, Answer) {
    let number = |n| (n, None, None);
    match chance.below(8) {
        0..=3 => {
            let left = book.room.saturating_sub(book.used + book.header);
            let length = [chance.below(9), chance.below(60), left, left + 1][chance.below(4)];
            let data = chance.bytes(length);
            let mode = [1, 2, 2, 3, 3, 4, 0, 5][chance.below(8)];
            ("add to the pair", number(pair.add(key, &data, mode)), number(book.add(key, &data, mode)))
        }
        4 | 5 => ("delete from the pair", number(pair.delete(key)), number(book.delete(key))),
        6 => {
            let (got, want) = (pair.lookup(key), book.lookup(key));
            ("lookup in the pair", (got.0, got.1, None), (want.0, want.1, None))
        }
        _ => {
            let (got, points) = pair.count();
            let bytes = |n: u32| Some(n.to_le_bytes().to_vec());
            ("count of the pair", (got, bytes(points), None), (0, bytes(book.points.len() as u32), None))
        }
    }
}

/// Starts growth, and goes on until no point is left in the old image: the calls, or what differed.
fn grow(chance: &mut Chance, file: File, book: &mut Book, known: &[Vec<u8>]) -> Result<usize, String> {
    let (new, slots) = second(chance, book);
    let mut pair = Pair { old: file, new };
    let (got, want) = (pair.start(), book.grow(slots, pair.new.0.len()));
    if got != want {
        return Err(format!("start: {got}, the book {want}"));
    }
    let mut calls = 1;
    while got == 0 && pair.points_left() > 0 {
        // Chance alone may meet no name that is held, in images without room: every eighth call appends nothing to one that is.
        let held = if calls % 8 == 0 { book.points.keys().nth(chance.below(book.points.len())).cloned() } else { None };
        let key = held.clone().unwrap_or_else(|| some_name(chance, book.key_size, known));
        let (left, before) = (pair.points_left(), (pair.old.0.clone(), pair.new.0.clone()));
        let (what, got, want) = match held {
            Some(_) => ("nothing appended in the pair", (pair.add(&key, &[], 3), None, None), (0, None, None)),
            None => call_pair(chance, &mut pair, book, &key),
        };
        if got != want {
            return Err(format!("call {calls} of growth, {what} {key:?}: {got:?}, the book {want:?}"));
        }
        let changed = before != (pair.old.0.clone(), pair.new.0.clone());
        if changed && pair.points_left() > left.saturating_sub(8) {
            return Err(format!("call {calls} of growth, {what} {key:?}: {left} points, then {}", pair.points_left()));
        }
        if !pair.old.sound() || !pair.new.sound() {
            return Err(format!("call {calls} of growth, {what} {key:?}: an image is not sound"));
        }
        calls += 1;
    }
    same_points(if got == 0 { &pair.new } else { &pair.old }, book).map(|()| calls)
}

/// What ran, and of the images read: with a full table, of version 1.0.0 or 1.0.1, of 2.0.0, points, messages.
#[derive(Default)]
struct Ran {
    passed: usize,
    failed: usize,
    calls: usize,
    full: usize,
    old: usize,
    long: usize,
    points: usize,
    active: usize,
    empty: usize,
    inactive: usize,
}

impl Ran {
    fn start(&mut self, image: &[u8], book: &Book) {
        let points = || book.points.values();
        self.full += (book.points.len() == book.slots) as usize;
        self.old += (image[5] == 1 && image[7] < 2) as usize;
        self.long += (image[5] == 2) as usize;
        self.points += book.points.len();
        self.active += points().filter(|p| p.text.is_some()).count();
        self.empty += points().filter(|p| p.text == Some(Vec::new())).count();
        self.inactive += points().filter(|p| p.placed && p.text.is_none()).count();
    }

    fn list(&mut self, what: &str, i: u64, answer: Result<usize, String>) {
        match answer {
            Ok(calls) => (self.passed, self.calls) = (self.passed + 1, self.calls + calls),
            Err(difference) => self.fail(what, i, difference),
        }
    }

    fn fail(&mut self, what: &str, i: u64, difference: String) {
        self.failed += 1;
        if self.failed <= 5 {
            println!("FAILED: list {i} {what}: {difference}");
        }
    }

    /// Whether all agreed.
    fn report(&self, what: &str) -> bool {
        let Ran { passed, failed, calls, .. } = self;
        println!("{what}: {calls} calls in {passed} lists that agree, {failed} that do not");
        *failed == 0 && *passed > 0
    }

    fn report_starts(&self) {
        let Ran { full, old, long, points, active, empty, inactive, .. } = self;
        println!("  the images: {full} full, {old} of version 1.0.0 or 1.0.1, {long} of 2.0.0; {points} points,");
        println!("  {active} active messages, {empty} of them empty, {inactive} inactive");
    }
}

/// A state of its own for each list, so that one can be run again.
fn chance_of(seed: u64, i: u64) -> Chance {
    Chance((seed ^ (i + 1).wrapping_mul(0x9E37_79B9_7F4A_7C15)) | 1)
}

fn main() {
    let mut seed = std::time::UNIX_EPOCH.elapsed().map_or(1, |t| t.as_nanos() as u64 >> 8);
    let mut lists = 20_000;
    let mut words = std::env::args().skip(1);
    while let Some(word) = words.next() {
        match (word.as_str(), words.next().and_then(|v| v.parse().ok())) {
            ("--seed", Some(v)) => seed = v,
            ("--lists", Some(v)) => lists = v,
            _ => {
                eprintln!("usage: station [--seed S] [--lists N]");
                std::process::exit(2);
            }
        }
    }
    println!("seed {seed}, {lists} lists from create, {lists} from images");
    if lists > 1000 {
        GROWTHS.store(50, Ordering::Relaxed);
    }
    let (mut created, mut read) = (Ran::default(), Ran::default());
    for i in 0..lists {
        created.list("from create", i, from_create(&mut chance_of(seed, i)));
        let answer = from_image(&mut chance_of(!seed, i), &mut read);
        read.list("from an image", i, answer);
    }
    let agreed = [created.report("from create"), read.report("from images")];
    read.report_starts();
    std::process::exit((agreed != [true, true]) as i32);
}
