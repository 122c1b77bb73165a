//! The wrapper: on the static library, or without it on functions of the same names made here over the reference.

#[cfg(not(feature = "proved"))]
#[path = "foreign/exports.rs"]
mod exports;
#[cfg(not(feature = "proved"))]
#[path = "../src/foreign.rs"]
mod foreign;

#[cfg(not(feature = "proved"))]
use foreign::{digest, fits, Proved, INTERFACE};
#[cfg(feature = "proved")]
use mavunilai::{digest, fits, Proved};
use types::{
    nearest_height, Block, Book, Calls, Certificate, Counts, Delivered, Frame, Height, Move,
    ObserverBook, Refusal, MOST_HEIGHTS,
};

/// Replica 2 of 4 with three heights.
fn book() -> Book<Proved> {
    Book::open(Proved, 4, 2, &[1; 4], &[0, 1, 2]).unwrap()
}

#[test]
fn a_pass_on_dummy_votes() {
    let mut book = book();
    for signer in 0..3 {
        let vote = Frame::DummyVote { signer, height: 1 }.bytes();
        assert_eq!(book.deliver(&vote), Ok(Delivered::Fresh));
        assert_eq!(book.deliver(&vote), Ok(Delivered::Known));
    }
    let pass = Move::Pass { height: 1, certificate: Certificate::Dummy, finalized: true };
    let frames = vec![
        Frame::DummyCertificate { mask: 7, height: 1 }.bytes(),
        Frame::Finalize { signer: 2, height: 1 }.bytes(),
    ];
    assert_eq!(book.make_move(), Ok((pass, frames.clone())));
    assert_eq!(book.make_move(), Ok((Move::Idle, vec![])));
    assert_eq!(book.fetch(6, 1), Ok(frames[0]));
    assert_eq!(book.certificates(), vec![frames[0]]);
    assert_eq!((book.current(), book.finalized()), (2, 0));
}

#[test]
fn a_packet_is_counted() {
    let mut book = book();
    let votes = [0, 9, 1, 0, 2].map(|signer| Frame::DummyVote { signer, height: 1 }.bytes());
    let counted = Counts { fresh: 3, known: 1, refused: 1 };
    assert_eq!(book.deliver_packet(votes.as_flattened()), Ok(counted));
    let before = book.bytes().to_vec();
    assert_eq!(book.deliver_packet(&[]), Ok(Counts::default()));
    assert_eq!(book.deliver_packet(&votes[4]), Ok(Counts { known: 1, ..Counts::default() }));
    let uneven = &votes.as_flattened()[..225];
    assert_eq!(book.deliver_packet(uneven), Err(Refusal::UnevenPacket));
    assert_eq!(book.bytes(), before);
    assert_eq!(Proved.packet(&mut [], uneven), Err(1));
}

/// The book of a replica alone, after all its moves on one entry.
fn logged() -> Book<Proved> {
    let mut book = Book::open(Proved, 1, 0, &[1], &[0, 0]).unwrap();
    assert_eq!(book.submit(&[3; 16]), Ok(()));
    assert_eq!(book.submit(&[3; 16]), Err(Refusal::EntryKnown));
    assert_eq!(book.pending(), [[3; 16]]);
    while let Ok((made, frames)) = book.make_move() {
        if made == Move::Idle {
            break;
        }
        frames.iter().for_each(|frame| assert!(book.deliver(frame).is_ok()));
    }
    book
}

#[test]
fn a_log_of_one_replica() {
    let book = logged();
    assert_eq!(book.log(), Ok(vec![[3; 16]]));
    assert_eq!(Proved.size(book.bytes()), Ok(16));
    assert_eq!(book.finalized(), 2);
}

#[test]
fn refusals_come_through() {
    assert_eq!(Book::open(Proved, 4, 4, &[1; 4], &[0]).err(), Some(Refusal::OutOfRange));
    assert_eq!(Book::open(Proved, 4, 0, &[1; 4], &[0; 1001]).err(), Some(Refusal::OutOfRange));
    assert_eq!(Book::from_bytes(Proved, vec![]).err(), Some(Refusal::Unsound));
    assert_eq!(Proved.make_move(&mut [], &mut []), Err(1));
    let mut book = book();
    assert_eq!(book.deliver(&[]), Err(Refusal::Malformed));
    assert_eq!(book.signal(2), Err(Refusal::NotDue));
    for number in [4, 255, 256, 257, 65_535, 65_536, 65_537, u64::MAX] {
        assert_eq!(book.signal(nearest_height(number)), Err(Refusal::NoSuchHeight));
        assert_eq!(Proved.signal(&mut book.bytes().to_vec(), number), Err(6));
    }
    assert_eq!(book.signal(1), Ok(()));
    assert_eq!(book.fetch(5, 1), Err(Refusal::NoCertificate));
    assert!(Book::from_bytes(Proved, book.bytes().to_vec()).is_ok());
    let mut bytes = book.bytes().to_vec();
    assert_eq!(Proved.make_move(&mut bytes, &mut [0; 447]), Err(3));
    assert_eq!(Proved.read(&bytes, &mut []), 0);
}

/// A frame of a dummy certificate of this height.
fn dummy(height: Height) -> [u8; types::FRAME] {
    Frame::DummyCertificate { mask: 7, height }.bytes()
}

/// Heights of two bytes come through every call and answer, in books of many heights.
#[test]
fn great_heights_come_through() {
    for heights in [64, 256, MOST_HEIGHTS] {
        let roll = vec![0; heights.into()];
        let mut book = Book::open(Proved, 4, 2, &[1; 4], &roll).unwrap();
        assert_eq!((book.bytes().len(), book.heights()), (types::book_length(heights), heights));
        let packet: Vec<_> = (1..=heights).map(dummy).collect();
        let fresh = Counts { fresh: heights.into(), ..Counts::default() };
        assert_eq!(book.deliver_packet(packet.as_flattened()), Ok(fresh));
        assert_eq!(book.deliver(&dummy(heights + 1)), Err(Refusal::NoSuchHeight));
        assert_eq!(book.fetch(6, heights), Ok(dummy(heights)));
        for height in 1..=heights {
            let pass = Move::Pass { height, certificate: Certificate::Dummy, finalized: true };
            let frames = vec![dummy(height), Frame::Finalize { signer: 2, height }.bytes()];
            assert_eq!(book.make_move(), Ok((pass, frames)));
        }
        assert_eq!((book.current(), book.make_move()), (heights + 1, Ok((Move::Idle, vec![]))));
        assert_eq!(book.signal(heights), Err(Refusal::NotDue));
        let mut watch = ObserverBook::open(Proved, 4, heights, &[1; 4]).unwrap();
        let block = Block { height: heights, entries: [[3; 16]].into(), ..Block::default() };
        assert_eq!(
            watch.deliver(&Frame::BlockCertificate { mask: 7, block }.bytes()),
            Ok(Delivered::Fresh)
        );
        let finalizes = Frame::FinalizeCertificate { mask: 7, height: heights }.bytes();
        assert_eq!(watch.deliver(&finalizes), Ok(Delivered::Fresh));
        for height in 1..heights {
            assert_eq!(watch.make_move(), Ok(Move::Idle));
            assert_eq!(watch.deliver(&dummy(height)), Ok(Delivered::Fresh));
        }
        assert_eq!(watch.make_move(), Ok(Move::Final { height: heights }));
        assert_eq!((watch.log(), watch.finalized()), (Ok(vec![[3; 16]]), heights));
    }
}

/// Books of older editions work on through the wrapper and stay of their edition.
#[test]
fn older_editions_come_through() {
    for edition in [1, 2] {
        let mut bytes = book().bytes().to_vec();
        types::put_edition(&mut bytes, edition);
        let mut book = Book::from_bytes(Proved, bytes).unwrap();
        assert_eq!((book.heights(), book.current(), book.finalized()), (3, 1, 0));
        assert_eq!(book.deliver(&dummy(256 + 1)), Err(Refusal::NoSuchHeight));
        assert_eq!(book.deliver(&dummy(1)), Ok(Delivered::Fresh));
        assert_eq!(book.make_move().map(|(made, _)| made.height()), Ok(1));
        assert_eq!((book.current(), book.bytes()[7], book.bytes()[4]), (2, edition, 2));
        let mut long = vec![0; types::book_length(64)];
        assert_eq!(Proved.open(&mut long, 4, 2, 64, &[1, 0].repeat(4), &[0; 64]), Ok(()));
        types::put_edition(&mut long, edition);
        assert_eq!(Proved.size(&long), Err(1));
    }
}

#[test]
fn digests_are_those_of_the_host() {
    let bytes = [7; 200];
    for length in 0..=bytes.len() {
        assert_eq!(digest(&bytes[..length]), Ok(sha256::digest(&bytes[..length])));
    }
}

/// An observer of four replicas and two heights, and a block of the first with its certificate.
fn observer() -> (ObserverBook<Proved>, [u8; types::FRAME]) {
    let block = Block { height: 1, entries: [[3; 16]].into(), ..Block::default() };
    let certificate = Frame::BlockCertificate { mask: 7, block }.bytes();
    (ObserverBook::open(Proved, 4, 2, &[1; 4]).unwrap(), certificate)
}

#[test]
fn an_observer_settles_and_reads() {
    let (mut book, certificate) = observer();
    assert_eq!((book.n(), book.heights(), book.finalized()), (4, 2, 0));
    assert_eq!(book.deliver(&certificate), Ok(Delivered::Fresh));
    assert_eq!(book.deliver(&certificate), Ok(Delivered::Known));
    assert_eq!(book.make_move(), Ok(Move::Idle));
    let finalizes = Frame::FinalizeCertificate { mask: 13, height: 1 }.bytes();
    assert_eq!(book.deliver(&finalizes), Ok(Delivered::Fresh));
    assert_eq!(book.log(), Ok(vec![]));
    assert_eq!(book.make_move(), Ok(Move::Final { height: 1 }));
    assert_eq!((book.make_move(), book.finalized()), (Ok(Move::Idle), 1));
    assert_eq!(book.log(), Ok(vec![[3; 16]]));
    assert_eq!(Proved.observer_size(book.bytes()), Ok(16));
    assert_eq!(Proved.observer_read(book.bytes(), &mut [0; 15]), 0);
    let mut buffer = [9; 17];
    assert_eq!((Proved.observer_read(book.bytes(), &mut buffer), buffer[16]), (16, 9));
    assert!(ObserverBook::from_bytes(Proved, book.bytes().to_vec()).is_ok());
}

#[test]
fn refusals_of_an_observer_come_through() {
    let (mut observer, certificate) = observer();
    let vote = Frame::DummyVote { signer: 99, height: 99 }.bytes();
    assert_eq!(observer.deliver(&vote), Err(Refusal::NotACertificate));
    assert_eq!(observer.deliver(&[]), Err(Refusal::Malformed));
    let high = Frame::DummyCertificate { mask: 7, height: 3 }.bytes();
    assert_eq!(observer.deliver(&high), Err(Refusal::NoSuchHeight));
    for (n, heights) in [(0, 1), (17, 1), (4, 0), (4, 1001), (4, Height::MAX)] {
        assert_eq!(
            ObserverBook::open(Proved, n, heights, &[1; 4]).err(),
            Some(Refusal::OutOfRange)
        );
    }
    let mut station = book().bytes().to_vec();
    assert_eq!(ObserverBook::from_bytes(Proved, station.clone()).err(), Some(Refusal::Unsound));
    assert_eq!(Book::from_bytes(Proved, observer.bytes().to_vec()).err(), Some(Refusal::Unsound));
    assert_eq!(Proved.observer_deliver(&mut station, &certificate), Err(1));
    assert_eq!(Proved.observer_move(&mut station), Err(1));
    assert_eq!(Proved.observer_open(&mut station, 4, 2, &[1, 0, 1, 0, 1, 0, 1, 0]), Err(1));
    assert_eq!(Proved.observer_read(&station, &mut [0; 16]), 0);
    assert_eq!(station, book().bytes());
}

/// Weights come through both opening calls, in their order and width; those out of range, or not n of them, are refused.
#[test]
fn weights_come_through() {
    let weights = [1000, 1, 256, 513];
    let bytes = [0xe8, 3, 1, 0, 0, 1, 1, 2, 0, 0];
    let station = Book::open(Proved, 4, 0, &weights, &[0]).unwrap();
    let observer = ObserverBook::open(Proved, 4, 1, &weights).unwrap();
    assert_eq!((station.bytes()[7], &station.bytes()[8..18]), (3, &bytes[..]));
    assert_eq!((observer.bytes()[7], &observer.bytes()[8..18]), (3, &bytes[..]));
    let refused: [&[u16]; 6] =
        [&[], &[1; 3], &[1; 5], &[1, 0, 1, 1], &[1, 1, 1, 1001], &[65535, 1, 1, 1]];
    for weights in refused {
        assert_eq!(Book::open(Proved, 4, 0, weights, &[0]).err(), Some(Refusal::OutOfRange));
        assert_eq!(ObserverBook::open(Proved, 4, 1, weights).err(), Some(Refusal::OutOfRange));
    }
    let (mut station, mut observer) = (station.bytes().to_vec(), observer.bytes().to_vec());
    for length in [0, 7, 9, 10] {
        assert_eq!(Proved.open(&mut station, 4, 0, 1, &bytes[..length], &[0]), Err(2));
        assert_eq!(Proved.observer_open(&mut observer, 4, 1, &bytes[..length]), Err(2));
    }
    assert_eq!(Proved.open(&mut station, 4, 0, 1, &bytes[..8], &[0]), Ok(()));
    assert_eq!(Proved.observer_open(&mut observer, 4, 1, &bytes[..8]), Ok(()));
}

/// One of many entries, which begin with 0 to 3 in turn.
fn entry(number: u8) -> [u8; 16] {
    let mut entry = [number; 16];
    entry[0] %= 4;
    entry
}

#[test]
fn the_head_is_read() {
    let mut book = Book::open(Proved, 7, 3, &[1; 7], &[6, 5, 4]).unwrap();
    assert_eq!((book.n(), book.own(), book.heights()), (7, 3, 3));
    assert_eq!((book.current(), book.finalized()), (1, 0));
    let leaders: Vec<_> = (0..=4).map(|height| book.leader(height)).collect();
    assert_eq!(leaders, [None, Some(6), Some(5), Some(4), None]);
    assert!(book.pending().is_empty());
    (0..32).for_each(|number| book.submit(&entry(number)).unwrap());
    assert_eq!(book.submit(&entry(32)), Err(Refusal::PendingFull));
    assert_eq!(book.pending(), Vec::from_iter((0..32).map(entry)));
}

#[test]
fn the_library_fits() {
    assert!(fits());
}

/// Only here can the library be made to claim something else.
#[test]
#[cfg(not(feature = "proved"))]
fn a_library_of_another_interface_is_not_called() {
    let (mut book, logged) = (book(), logged());
    let (mut observer, certificate) = observer();
    let before = book.bytes().to_vec();
    let observed = observer.bytes().to_vec();
    assert_eq!(Proved.read(logged.bytes(), &mut [0; 16]), 16);
    exports::CLAIMED.set(INTERFACE + 1);
    assert!(!fits());
    assert_eq!(Book::open(Proved, 4, 2, &[1; 4], &[0]).err(), Some(Refusal::OtherInterface));
    let vote = Frame::DummyVote { signer: 0, height: 1 }.bytes();
    assert_eq!(book.deliver(&vote), Err(Refusal::OtherInterface));
    assert_eq!(book.deliver_packet(&vote), Err(Refusal::OtherInterface));
    assert_eq!(book.make_move(), Err(Refusal::OtherInterface));
    assert_eq!(book.signal(1), Err(Refusal::OtherInterface));
    assert_eq!(book.submit(&[3; 16]), Err(Refusal::OtherInterface));
    assert_eq!(book.log(), Err(Refusal::OtherInterface));
    assert_eq!(digest(&vote), Err(Refusal::OtherInterface));
    assert_eq!(book.fetch(6, 1), Err(Refusal::OtherInterface));
    assert_eq!(Proved.read(logged.bytes(), &mut [0; 16]), 0);
    assert_eq!(book.bytes(), before);
    assert_eq!(ObserverBook::open(Proved, 4, 2, &[1; 4]).err(), Some(Refusal::OtherInterface));
    assert_eq!(observer.deliver(&certificate), Err(Refusal::OtherInterface));
    assert_eq!(observer.make_move(), Err(Refusal::OtherInterface));
    assert_eq!(observer.log(), Err(Refusal::OtherInterface));
    assert_eq!(Proved.observer_read(observer.bytes(), &mut [0; 16]), 0);
    assert_eq!(observer.bytes(), observed);
    exports::CLAIMED.set(INTERFACE);
    assert_eq!(book.deliver(&vote), Ok(Delivered::Fresh));
}
