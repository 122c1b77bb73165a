//! Linking, finality and parents against a second definition that goes back through the parents.

use crate::common::random::Random;
use crate::common::random_book::{full_mask, random_book};
use crate::common::*;
use reference::{is_quorum, Move, Rules};

fn mask(book: &[u8], at: usize) -> u16 {
    u16::from_le_bytes([book[at], book[at + 1]])
}

fn notarized(book: &[u8], height: usize) -> Option<&[u8]> {
    let start = body(book, height) + 176;
    (book[row(height) + 1] & 2 != 0).then(|| &book[start..start + 176])
}

fn is_dummy(book: &[u8], height: usize) -> bool {
    is_quorum(mask(book, row(height) + 4), &weights_of(book))
}

/// Whether a height is linked, by going back through the parents.
fn is_linked(book: &[u8], height: usize) -> bool {
    let Some(block) = notarized(book, height) else {
        return false;
    };
    let parent = usize::from(height_in(&block[2..4]));
    let bridged = (parent + 1..height).all(|between| is_dummy(book, between));
    match parent {
        0 => bridged && block[16..48] == ZERO,
        _ => {
            let below = notarized(book, parent).map(reference::sha256::digest);
            bridged
                && below.is_some_and(|digest| digest == block[16..48])
                && is_linked(book, parent)
        }
    }
}

/// Which heights are linked, from 0 up.
fn links(book: &[u8]) -> Vec<bool> {
    (0..=heights_of(book)).map(|height| height == 0 || is_linked(book, height)).collect()
}

/// The largest linked parent for a height, by trying all.
fn largest_parent(book: &[u8], linked: &[bool], height: usize) -> Option<usize> {
    let reached = |parent: &usize| (parent + 1..height).all(|between| is_dummy(book, between));
    (0..height).filter(|&parent| linked[parent]).filter(reached).max()
}

#[test]
fn the_largest_finalized_height() {
    let mut random = Random::new(1);
    let mut seen = [0; 8];
    for _ in 0..3000 {
        let mut book = random_book(&mut random, reference::sha256::digest);
        book[3] = 0;
        assert!(is_sound(&book));
        let linked = links(&book);
        let finalized = |&height: &usize| {
            linked[height] && is_quorum(mask(&book, row(height) + 6), &weights_of(&book))
        };
        let largest = (1..linked.len()).filter(finalized).max().unwrap_or(0);
        let (made, _) = one_move(&mut book);
        let final_made = matches!(made, Move::Final { height } if usize::from(height) == largest);
        assert_eq!(final_made, largest > 0);
        assert_eq!(usize::from(book[place_of(&book, FINALIZED)]), largest);
        assert!(is_sound(&book));
        seen[largest] += 1;
    }
    assert!(seen.iter().all(|&count| count > 0), "{seen:?}");
}

#[test]
fn the_parent_of_an_offer_and_the_pass() {
    let mut random = Random::new(2);
    let (mut offers, mut passes, mut neither) = (0, 0, 0);
    for _ in 0..3000 {
        let mut book = random_book(&mut random, reference::sha256::digest);
        let (height, current) = (1 + random.below(heights_of(&book)), place_of(&book, CURRENT));
        (book[3], book[current]) = (4, height as u8);
        book[row(height)] = book[1];
        (1..=heights_of(&book)).for_each(|height| book[row(height) + 6..row(height) + 8].fill(0));
        let linked = links(&book);
        let parent = largest_parent(&book, &linked, height);
        let may_pass = linked[height] || is_dummy(&book, height) && parent.is_some();
        let (made, reply) = one_move(&mut book);
        match made {
            Move::Pass { finalized, .. } => passes += usize::from(may_pass && finalized),
            Move::Offer { .. } => {
                assert!(!may_pass);
                assert_eq!(Some(usize::from(reply[48 + 2])), parent);
                offers += 1;
            }
            Move::Idle => {
                assert!(!may_pass && parent.is_none());
                neither += 1;
            }
            other => panic!("{other:?}"),
        }
        assert_eq!(matches!(made, Move::Pass { .. }), may_pass);
    }
    assert!(offers > 100 && passes > 100 && neither > 100, "{offers} {passes} {neither}");
}

/// Under a digest that is always the same, blocks link by their heights alone.
#[test]
fn the_digest_is_a_parameter() {
    let rules = Rules::new(|_| [7; 32]);
    let mut book = new_book(4, 2, &[0, 1]);
    let second = block(2, 1, [7; 32], &[entry(1)]);
    for frame in [block_certificate(7, &second), block_certificate(7, &block(1, 0, ZERO, &[]))] {
        rules.deliver(&mut book, &frame).unwrap();
    }
    rules.deliver(&mut book, &finalize_certificate(full_mask(4), 2)).unwrap();
    let mut reply = [0; 448];
    assert_eq!(rules.make_move(&mut book, &mut reply), Ok(Move::Final { height: 2 }));
    assert_eq!(rules.size(&book), Ok(16));
    assert!(!is_sound(&book));
}
