//! What a faulty replica leaves to the reference: it writes out those calls alone that it spoils.

/// Methods of the trait [`types::Calls`], by their names, that answer as the reference does.
macro_rules! as_reference {
    ($($call:ident)+) => {
        $(as_reference! { @$call })+
    };
    (@open) => {
        as_reference! {
            open(book: &mut [u8], n: u64, own: u64, h: u64, weights: &[u8], leaders: &[u8]) -> Result<(), u8>
        }
    };
    (@deliver) => {
        as_reference! { deliver(book: &mut [u8], frame: &[u8]) -> Result<types::Delivered, u8> }
    };
    (@packet) => {
        as_reference! { packet(book: &mut [u8], packet: &[u8]) -> Result<types::Counts, u8> }
    };
    (@make_move) => {
        as_reference! { make_move(book: &mut [u8], reply: &mut [u8]) -> Result<types::Move, u8> }
    };
    (@signal) => {
        as_reference! { signal(book: &mut [u8], height: u64) -> Result<(), u8> }
    };
    (@submit) => {
        as_reference! { submit(book: &mut [u8], entry: &[u8]) -> Result<(), u8> }
    };
    (@size) => {
        as_reference! { size(book: &[u8]) -> Result<u64, u8> }
    };
    (@read) => {
        as_reference! { read(book: &[u8], buffer: &mut [u8]) -> u64 }
    };
    (@fetch) => {
        as_reference! { fetch(book: &[u8], kind: u64, height: u64, reply: &mut [u8]) -> Result<(), u8> }
    };
    (@observer_open) => {
        as_reference! { observer_open(book: &mut [u8], n: u64, heights: u64, weights: &[u8]) -> Result<(), u8> }
    };
    (@observer_deliver) => {
        as_reference! { observer_deliver(book: &mut [u8], frame: &[u8]) -> Result<types::Delivered, u8> }
    };
    (@observer_move) => {
        as_reference! { observer_move(book: &mut [u8]) -> Result<types::Move, u8> }
    };
    (@observer_size) => {
        as_reference! { observer_size(book: &[u8]) -> Result<u64, u8> }
    };
    (@observer_read) => {
        as_reference! { observer_read(book: &[u8], buffer: &mut [u8]) -> u64 }
    };
    ($call:ident($($name:ident: $kind:ty),+) -> $answer:ty) => {
        fn $call(&self, $($name: $kind),+) -> $answer {
            types::Calls::$call(&reference::Rules::SHA256, $($name),+)
        }
    };
}
