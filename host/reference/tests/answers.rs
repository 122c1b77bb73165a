//! What becomes of each frame of a packet, told beforehand: it sums to the packet's counts, and every contradiction
//! comes with what the book has against it.

use reference::Rules;
use types::{
    Answered, Block, Book, Counts, Delivered, Evidence, Frame, ObserverBook, Refusal, FRAME,
};

/// A stream of small numbers out of a seed.
struct Dice(u64);

impl Dice {
    /// A number below another one.
    fn below(&mut self, most: u64) -> u64 {
        self.0 =
            self.0.wrapping_mul(6_364_136_223_846_793_005).wrapping_add(1_442_695_040_888_963_407);
        (self.0 >> 33) % most
    }

    /// A frame of any kind, of heights 0 to 4 and signers 0 to 4, for one of two pages.
    fn frame(&mut self) -> [u8; FRAME] {
        let (signer, height) = (self.below(5) as u8, self.below(5) as types::Height);
        let mask = [7, 11, 13, 14, 15, 3][self.below(6) as usize];
        let entries = [[self.below(2) as u8; 16]].into();
        let block = Block { height, entries, ..Block::default() };
        let digest = reference::sha256::digest(&block.bytes());
        match self.below(8) {
            0 => Frame::Proposal { signer: 0, block },
            1 => Frame::BlockVote { signer, height, digest },
            2 => Frame::DummyVote { signer, height },
            3 => Frame::Finalize { signer, height },
            4 => Frame::DummyCertificate { mask, height },
            5 => Frame::FinalizeCertificate { mask, height },
            6 => Frame::Proposal { signer, block },
            _ => Frame::BlockCertificate { mask, block },
        }
        .bytes()
    }

    fn packet(&mut self) -> Vec<[u8; FRAME]> {
        (0..self.below(30)).map(|_| self.frame()).collect()
    }
}

/// How many of the answers are of each sort.
fn counted(answers: &[Answered]) -> Counts {
    let number = |answer| answers.iter().filter(|told| told.answer == answer).count() as u64;
    let refused = answers.iter().filter(|told| told.answer.is_err()).count() as u64;
    Counts { fresh: number(Ok(Delivered::Fresh)), known: number(Ok(Delivered::Known)), refused }
}

#[test]
fn answers_sum_to_the_counts_of_the_packet() {
    let mut dice = Dice(1);
    let mut seen = [0; 3];
    for _ in 0..300 {
        let mut book = Book::open(Rules::SHA256, 4, 2, &[1; 4], &[0; 3]).unwrap();
        for _ in 0..4 {
            let (frames, before) = (dice.packet(), book.bytes().to_vec());
            let told = book.packet_answers(frames.as_flattened()).unwrap();
            assert_eq!(book.bytes(), before);
            assert_eq!(Ok(counted(&told)), book.deliver_packet(frames.as_flattened()));
            for (told, frame) in told.iter().zip(&frames) {
                let one_of =
                    [Err(Refusal::OtherKept), Err(Refusal::OtherNotarized)].contains(&told.answer);
                let second = told.answer.is_ok() && book.is_second_block(frame);
                assert_eq!(told.evidence.is_some(), one_of || second, "{told:?}");
                seen[usize::from(second) + 2 * usize::from(one_of && frame[0] == 5)] +=
                    usize::from(one_of || second);
                if let Some(evidence) = &told.evidence {
                    holds(&book, evidence, frame);
                }
            }
        }
    }
    assert!(seen.iter().all(|number| *number > 50), "{seen:?}");
}

/// The kept frame is what the book has: delivered again it changes nothing, and a certificate is what fetch gives.
fn holds(book: &Book<Rules>, evidence: &Evidence, frame: &[u8; FRAME]) {
    assert_eq!(evidence.frame, *frame);
    assert_ne!(evidence.kept, *frame);
    assert_eq!(evidence.kept[..3], [frame[0], if frame[0] == 5 { 0 } else { frame[1] }, frame[2]]);
    assert_eq!(book.clone().deliver(&evidence.kept), Ok(Delivered::Known));
    if frame[0] == 5 {
        assert_eq!(book.fetch(5, types::height_at(frame, types::FRAME_HEIGHT)), Ok(evidence.kept));
    }
}

#[test]
fn a_packet_that_is_refused_has_no_answers() {
    let book = Book::open(Rules::SHA256, 4, 2, &[1; 4], &[0; 3]).unwrap();
    assert_eq!(book.packet_answers(&[0; 225]), Err(Refusal::UnevenPacket));
    assert_eq!(book.packet_answers(&[]), Ok(Vec::new()));
}

#[test]
fn an_observer_has_two_certificates_as_evidence() {
    let mut dice = Dice(2);
    let mut tens = 0;
    for _ in 0..1000 {
        let mut book = ObserverBook::open(Rules::SHA256, 4, 3, &[1; 4]).unwrap();
        let (frames, before) = (dice.packet(), book.bytes().to_vec());
        let told = book.answers(frames.iter().map(<[u8; FRAME]>::as_slice));
        assert_eq!(book.bytes(), before);
        for (told, frame) in told.iter().zip(&frames) {
            assert_eq!(book.deliver(frame), told.answer);
            let ten = told.answer == Err(Refusal::OtherNotarized);
            assert_eq!(told.evidence.is_some(), ten, "{told:?}");
            if let Some(evidence) = &told.evidence {
                tens += 1;
                assert_eq!((evidence.frame, evidence.kept[0]), (*frame, 5));
                assert_eq!(book.clone().deliver(&evidence.kept), Ok(Delivered::Known));
            }
        }
    }
    assert!(tens > 50, "{tens}");
}

#[test]
fn bytes_that_are_no_frame_or_no_book_are_no_evidence() {
    let frame = Frame::BlockVote { signer: 200, height: 9, digest: [1; 32] }.bytes();
    for refusal in [Refusal::OtherKept, Refusal::OtherNotarized] {
        for (book, frame) in [(&[][..], &frame[..]), (&[2; 64], &frame), (&[1; 64], &[2; 9])] {
            assert_eq!(Evidence::of(book, frame, Err(refusal)), None);
        }
    }
}
