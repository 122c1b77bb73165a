//! The reference as one of the implementations that share a trait.

use crate::{Counts, Delivered, Move, Rules};
use types::Calls;

impl Calls for Rules {
    fn open(
        &self,
        book: &mut [u8],
        n: u64,
        own: u64,
        heights: u64,
        weights: &[u8],
        leaders: &[u8],
    ) -> Result<(), u8> {
        Rules::open(self, book, n, own, heights, weights, leaders)
    }

    fn deliver(&self, book: &mut [u8], frame: &[u8]) -> Result<Delivered, u8> {
        Rules::deliver(self, book, frame)
    }

    fn packet(&self, book: &mut [u8], packet: &[u8]) -> Result<Counts, u8> {
        Rules::packet(self, book, packet)
    }

    fn make_move(&self, book: &mut [u8], reply: &mut [u8]) -> Result<Move, u8> {
        Rules::make_move(self, book, reply)
    }

    fn signal(&self, book: &mut [u8], height: u64) -> Result<(), u8> {
        Rules::signal(self, book, height)
    }

    fn submit(&self, book: &mut [u8], entry: &[u8]) -> Result<(), u8> {
        Rules::submit(self, book, entry)
    }

    fn size(&self, book: &[u8]) -> Result<u64, u8> {
        Rules::size(self, book).map(|size| size as u64)
    }

    fn read(&self, book: &[u8], buffer: &mut [u8]) -> u64 {
        Rules::read(self, book, buffer).len() as u64
    }

    fn fetch(&self, book: &[u8], kind: u64, height: u64, reply: &mut [u8]) -> Result<(), u8> {
        Rules::fetch(self, book, kind, height, reply)
    }

    fn observer_open(
        &self,
        book: &mut [u8],
        n: u64,
        heights: u64,
        weights: &[u8],
    ) -> Result<(), u8> {
        Rules::observer_open(self, book, n, heights, weights)
    }

    fn observer_deliver(&self, book: &mut [u8], frame: &[u8]) -> Result<Delivered, u8> {
        Rules::observer_deliver(self, book, frame)
    }

    fn observer_move(&self, book: &mut [u8]) -> Result<Move, u8> {
        Rules::observer_move(self, book)
    }

    fn observer_size(&self, book: &[u8]) -> Result<u64, u8> {
        Rules::observer_size(self, book).map(|size| size as u64)
    }

    fn observer_read(&self, book: &[u8], buffer: &mut [u8]) -> u64 {
        Rules::observer_read(self, book, buffer).len() as u64
    }
}
