//! The names of the C interface over the reference replica, packed as the header says.
#![allow(unsafe_code)]

use reference::Rules;
use std::cell::Cell;
use std::slice::{from_raw_parts, from_raw_parts_mut};
use types::packing::{pack_delivered, pack_done, pack_move, pack_size};
use types::{Calls, Counts, Refusal};

const RULES: Rules = Rules::SHA256;

thread_local! {
    /// The interface that this library claims to be of; each test's thread has its own.
    pub static CLAIMED: Cell<u64> = const { Cell::new(crate::foreign::INTERFACE) };
}

#[unsafe(no_mangle)]
extern "C" fn mavunilai_interface() -> u64 {
    CLAIMED.get()
}

// SAFETY, for all below: only the wrapper calls these, with the parts of slices that it was lent.

#[unsafe(no_mangle)]
unsafe extern "C" fn mavunilai_open(
    book: *mut u8,
    length: usize,
    n: u64,
    own: u64,
    heights: u64,
    weights: *const u8,
    weights_length: usize,
    leaders: *const u8,
    leaders_length: usize,
) -> u64 {
    let book = unsafe { from_raw_parts_mut(book, length) };
    let weights = unsafe { from_raw_parts(weights, weights_length) };
    let leaders = unsafe { from_raw_parts(leaders, leaders_length) };
    pack_done(Calls::open(&RULES, book, n, own, heights, weights, leaders))
}

#[unsafe(no_mangle)]
unsafe extern "C" fn mavunilai_deliver(b: *mut u8, bl: usize, f: *const u8, fl: usize) -> u64 {
    let (book, frame) = unsafe { (from_raw_parts_mut(b, bl), from_raw_parts(f, fl)) };
    pack_delivered(Calls::deliver(&RULES, book, frame))
}

#[unsafe(no_mangle)]
unsafe extern "C" fn mavunilai_packet(
    book: *mut u8,
    length: usize,
    packet: *const u8,
    packet_length: usize,
    counts: *mut Counts,
) -> u64 {
    let book = unsafe { from_raw_parts_mut(book, length) };
    let packet = unsafe { from_raw_parts(packet, packet_length) };
    pack_done(Calls::packet(&RULES, book, packet).map(|counted| unsafe { *counts = counted }))
}

#[unsafe(no_mangle)]
unsafe extern "C" fn mavunilai_move(b: *mut u8, bl: usize, r: *mut u8, rl: usize) -> u64 {
    let (book, reply) = unsafe { (from_raw_parts_mut(b, bl), from_raw_parts_mut(r, rl)) };
    pack_move(Calls::make_move(&RULES, book, reply))
}

#[unsafe(no_mangle)]
unsafe extern "C" fn mavunilai_signal(book: *mut u8, length: usize, height: u64) -> u64 {
    pack_done(Calls::signal(&RULES, unsafe { from_raw_parts_mut(book, length) }, height))
}

#[unsafe(no_mangle)]
unsafe extern "C" fn mavunilai_submit(b: *mut u8, bl: usize, e: *const u8, el: usize) -> u64 {
    let (book, entry) = unsafe { (from_raw_parts_mut(b, bl), from_raw_parts(e, el)) };
    pack_done(Calls::submit(&RULES, book, entry))
}

#[unsafe(no_mangle)]
unsafe extern "C" fn mavunilai_size(book: *const u8, length: usize) -> u64 {
    pack_size(Calls::size(&RULES, unsafe { from_raw_parts(book, length) }))
}

#[unsafe(no_mangle)]
unsafe extern "C" fn mavunilai_read(b: *const u8, bl: usize, to: *mut u8, tl: usize) -> u64 {
    let (book, buffer) = unsafe { (from_raw_parts(b, bl), from_raw_parts_mut(to, tl)) };
    Calls::read(&RULES, book, buffer)
}

#[unsafe(no_mangle)]
unsafe extern "C" fn mavunilai_fetch(
    book: *const u8,
    length: usize,
    kind: u64,
    height: u64,
    reply: *mut u8,
    reply_length: usize,
) -> u64 {
    let book = unsafe { from_raw_parts(book, length) };
    let reply = unsafe { from_raw_parts_mut(reply, reply_length) };
    pack_done(Calls::fetch(&RULES, book, kind, height, reply))
}

#[unsafe(no_mangle)]
unsafe extern "C" fn mavunilai_digest(b: *const u8, bl: usize, d: *mut u8, dl: usize) -> u64 {
    let (bytes, digest) = unsafe { (from_raw_parts(b, bl), from_raw_parts_mut(d, dl)) };
    let Some(digest) = digest.first_chunk_mut() else {
        return Refusal::ShortReply.number().into();
    };
    *digest = sha256::digest(bytes);
    0
}

#[unsafe(no_mangle)]
unsafe extern "C" fn mavunilai_observer_open(
    book: *mut u8,
    length: usize,
    n: u64,
    heights: u64,
    weights: *const u8,
    weights_length: usize,
) -> u64 {
    let book = unsafe { from_raw_parts_mut(book, length) };
    let weights = unsafe { from_raw_parts(weights, weights_length) };
    pack_done(Calls::observer_open(&RULES, book, n, heights, weights))
}

#[unsafe(no_mangle)]
unsafe extern "C" fn mavunilai_observer_deliver(
    book: *mut u8,
    length: usize,
    frame: *const u8,
    frame_length: usize,
) -> u64 {
    let book = unsafe { from_raw_parts_mut(book, length) };
    let frame = unsafe { from_raw_parts(frame, frame_length) };
    pack_delivered(Calls::observer_deliver(&RULES, book, frame))
}

#[unsafe(no_mangle)]
unsafe extern "C" fn mavunilai_observer_move(book: *mut u8, length: usize) -> u64 {
    pack_move(Calls::observer_move(&RULES, unsafe { from_raw_parts_mut(book, length) }))
}

#[unsafe(no_mangle)]
unsafe extern "C" fn mavunilai_observer_size(book: *const u8, length: usize) -> u64 {
    pack_size(Calls::observer_size(&RULES, unsafe { from_raw_parts(book, length) }))
}

#[unsafe(no_mangle)]
unsafe extern "C" fn mavunilai_observer_read(
    book: *const u8,
    length: usize,
    buffer: *mut u8,
    buffer_length: usize,
) -> u64 {
    let book = unsafe { from_raw_parts(book, length) };
    Calls::observer_read(&RULES, book, unsafe { from_raw_parts_mut(buffer, buffer_length) })
}
