//! The calls of the C interface, made safe: slices become pointers and lengths, numbers become answers.
#![allow(unsafe_code)] // the one place that calls into the static library

pub use types::packing::INTERFACE;
use types::packing::{unpack_delivered, unpack_done, unpack_move, unpack_size, UNKNOWN};
use types::{Calls, Counts, Delivered, Move, Refusal};

// As host/include/mavunilai.h declares them.
unsafe extern "C" {
    safe fn mavunilai_interface() -> u64;
    fn mavunilai_open(
        book: *mut u8,
        book_len: usize,
        n: u64,
        own: u64,
        heights: u64,
        weights: *const u8,
        weights_len: usize,
        leaders: *const u8,
        leaders_len: usize,
    ) -> u64;
    fn mavunilai_deliver(book: *mut u8, book_len: usize, frame: *const u8, frame_len: usize)
        -> u64;
    fn mavunilai_packet(
        book: *mut u8,
        book_len: usize,
        packet: *const u8,
        packet_len: usize,
        counts: *mut Counts,
    ) -> u64;
    fn mavunilai_move(book: *mut u8, book_len: usize, reply: *mut u8, reply_len: usize) -> u64;
    fn mavunilai_signal(book: *mut u8, book_len: usize, height: u64) -> u64;
    fn mavunilai_submit(book: *mut u8, book_len: usize, entry: *const u8, entry_len: usize) -> u64;
    fn mavunilai_size(book: *const u8, book_len: usize) -> u64;
    fn mavunilai_read(book: *const u8, book_len: usize, buffer: *mut u8, buffer_len: usize) -> u64;
    fn mavunilai_fetch(
        book: *const u8,
        book_len: usize,
        kind: u64,
        height: u64,
        reply: *mut u8,
        reply_len: usize,
    ) -> u64;
    fn mavunilai_digest(
        bytes: *const u8,
        bytes_len: usize,
        digest: *mut u8,
        digest_len: usize,
    ) -> u64;
    fn mavunilai_observer_open(
        book: *mut u8,
        book_len: usize,
        n: u64,
        heights: u64,
        weights: *const u8,
        weights_len: usize,
    ) -> u64;
    fn mavunilai_observer_deliver(
        book: *mut u8,
        book_len: usize,
        frame: *const u8,
        frame_len: usize,
    ) -> u64;
    fn mavunilai_observer_move(book: *mut u8, book_len: usize) -> u64;
    fn mavunilai_observer_size(book: *const u8, book_len: usize) -> u64;
    fn mavunilai_observer_read(
        book: *const u8,
        book_len: usize,
        buffer: *mut u8,
        buffer_len: usize,
    ) -> u64;
}

/// Whether the library is of that interface. Each call of [`Proved`] asks this first.
pub fn fits() -> bool {
    mavunilai_interface() == INTERFACE
}

/// What a call returns, or [`UNKNOWN`] where the library is of another interface and must not be called.
fn fitting(call: impl FnOnce() -> u64) -> u64 {
    if fits() {
        return call();
    }
    UNKNOWN.into()
}

/// The SHA-256 of a block's bytes, or of any others, as the proved replica works it out.
pub fn digest(bytes: &[u8]) -> Result<[u8; 32], Refusal> {
    let mut digest = [0; 32];
    let (at, length) = (digest.as_mut_ptr(), digest.len());
    // SAFETY: see Proved.
    let answer = fitting(|| unsafe { mavunilai_digest(bytes.as_ptr(), bytes.len(), at, length) });
    unpack_done(answer).map(|()| digest).map_err(Refusal::of)
}

/// The proved replica behind the C interface.
///
/// Every call lends slices for its duration: the pointers are valid for their lengths, those written through come
/// from exclusive borrows, and the library keeps none of them. The counts of a packet are a value of the wrapper, laid
/// out as in C. A library of another interface is not called; its
/// calls, and an answer that the packing does not know, become the error [`types::packing::UNKNOWN`], and what is read
/// from it is empty.
#[derive(Clone, Copy, Debug, Default)]
pub struct Proved;

impl Calls for Proved {
    fn open(
        &self,
        book: &mut [u8],
        n: u64,
        own: u64,
        heights: u64,
        weights: &[u8],
        leaders: &[u8],
    ) -> Result<(), u8> {
        // SAFETY: see Proved.
        unpack_done(fitting(|| unsafe {
            mavunilai_open(
                book.as_mut_ptr(),
                book.len(),
                n,
                own,
                heights,
                weights.as_ptr(),
                weights.len(),
                leaders.as_ptr(),
                leaders.len(),
            )
        }))
    }

    fn deliver(&self, book: &mut [u8], frame: &[u8]) -> Result<Delivered, u8> {
        // SAFETY: see Proved.
        unpack_delivered(fitting(|| unsafe {
            mavunilai_deliver(book.as_mut_ptr(), book.len(), frame.as_ptr(), frame.len())
        }))
    }

    fn packet(&self, book: &mut [u8], packet: &[u8]) -> Result<Counts, u8> {
        let mut counts = Counts::default();
        let (at, length) = (packet.as_ptr(), packet.len());
        // SAFETY: see Proved.
        unpack_done(fitting(|| unsafe {
            mavunilai_packet(book.as_mut_ptr(), book.len(), at, length, &mut counts)
        }))?;
        Ok(counts)
    }

    fn make_move(&self, book: &mut [u8], reply: &mut [u8]) -> Result<Move, u8> {
        // SAFETY: see Proved.
        unpack_move(fitting(|| unsafe {
            mavunilai_move(book.as_mut_ptr(), book.len(), reply.as_mut_ptr(), reply.len())
        }))
    }

    fn signal(&self, book: &mut [u8], height: u64) -> Result<(), u8> {
        // SAFETY: see Proved.
        unpack_done(fitting(|| unsafe { mavunilai_signal(book.as_mut_ptr(), book.len(), height) }))
    }

    fn submit(&self, book: &mut [u8], entry: &[u8]) -> Result<(), u8> {
        // SAFETY: see Proved.
        unpack_done(fitting(|| unsafe {
            mavunilai_submit(book.as_mut_ptr(), book.len(), entry.as_ptr(), entry.len())
        }))
    }

    fn size(&self, book: &[u8]) -> Result<u64, u8> {
        // SAFETY: see Proved.
        unpack_size(fitting(|| unsafe { mavunilai_size(book.as_ptr(), book.len()) }))
    }

    fn read(&self, book: &[u8], buffer: &mut [u8]) -> u64 {
        if !fits() {
            return 0;
        }
        // SAFETY: see Proved.
        unsafe { mavunilai_read(book.as_ptr(), book.len(), buffer.as_mut_ptr(), buffer.len()) }
    }

    fn fetch(&self, book: &[u8], kind: u64, height: u64, reply: &mut [u8]) -> Result<(), u8> {
        let (at, length) = (reply.as_mut_ptr(), reply.len());
        // SAFETY: see Proved.
        unpack_done(fitting(|| unsafe {
            mavunilai_fetch(book.as_ptr(), book.len(), kind, height, at, length)
        }))
    }

    fn observer_open(
        &self,
        book: &mut [u8],
        n: u64,
        heights: u64,
        weights: &[u8],
    ) -> Result<(), u8> {
        let (at, length) = (weights.as_ptr(), weights.len());
        // SAFETY: see Proved.
        unpack_done(fitting(|| unsafe {
            mavunilai_observer_open(book.as_mut_ptr(), book.len(), n, heights, at, length)
        }))
    }

    fn observer_deliver(&self, book: &mut [u8], frame: &[u8]) -> Result<Delivered, u8> {
        let (at, length) = (frame.as_ptr(), frame.len());
        // SAFETY: see Proved.
        unpack_delivered(fitting(|| unsafe {
            mavunilai_observer_deliver(book.as_mut_ptr(), book.len(), at, length)
        }))
    }

    fn observer_move(&self, book: &mut [u8]) -> Result<Move, u8> {
        // SAFETY: see Proved.
        unpack_move(fitting(|| unsafe { mavunilai_observer_move(book.as_mut_ptr(), book.len()) }))
    }

    fn observer_size(&self, book: &[u8]) -> Result<u64, u8> {
        // SAFETY: see Proved.
        unpack_size(fitting(|| unsafe { mavunilai_observer_size(book.as_ptr(), book.len()) }))
    }

    fn observer_read(&self, book: &[u8], buffer: &mut [u8]) -> u64 {
        if !fits() {
            return 0;
        }
        let (at, length) = (buffer.as_mut_ptr(), buffer.len());
        // SAFETY: see Proved.
        unsafe { mavunilai_observer_read(book.as_ptr(), book.len(), at, length) }
    }
}
