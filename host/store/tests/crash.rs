//! The process or the machine ends at any step of any call: what was said is kept, and nothing else is said.

mod common;

use common::fake::{Fake, Fault, Forgotten};
use common::life::{Station, Way, BOOK};
use common::random::Random;
use common::script::{script, Input, LEADERS};
use reference::Rules;
use store::{Error, FileBook};
use types::{Block, Book, Counts, Delivered, Frame, Move, Refusal, FRAME};

/// The ways in which a station can move and send.
const WAYS: [Way; 3] = [Way::Takes, Way::Bare, Way::Hands];

/// A script and what a station must come to: its book and all that it says, as in a life without a fault.
struct Expected {
    script: Vec<Input>,
    way: Way,
    book: Vec<u8>,
    said: Vec<[u8; FRAME]>,
}

/// The script of a seed, and a life without a fault.
fn undisturbed(seed: u64, way: Way) -> Expected {
    let script = script(seed);
    let mut station = Station::new(Fake::default(), script.clone(), way);
    let book = station.live_on(&mut Random::new(0), |_| None).unwrap();
    assert_eq!(station.broken, None);
    Expected { script, way, book, said: station.said }
}

/// The rule that is broken if faults come as `next` says; that frames are lost or invented is one.
fn broken_by(
    files: Fake,
    expected: &Expected,
    random: &mut Random,
    next: impl FnMut(&mut Random) -> Option<(usize, Fault)>,
) -> Option<String> {
    let mut station = Station::new(files, expected.script.clone(), expected.way);
    let ended = station.live_on(random, next);
    let same = ended.as_ref() == Some(&expected.book);
    let other = || (!same).then(|| "the book is another".to_string());
    let lost = || (station.said != expected.said).then(|| "other frames were sent".to_string());
    station.broken.clone().or_else(other).or_else(lost)
}

#[test]
fn the_scripts_have_packets_and_single_frames() {
    let inputs: Vec<Input> = (0..8).flat_map(script).collect();
    let packets = inputs.iter().filter(|input| matches!(input, Input::Packet(_))).count();
    let singles = inputs.iter().filter(|input| matches!(input, Input::Deliver(_))).count();
    assert!(packets > 5 && singles > 50, "{packets} packets, {singles} single frames");
}

/// How many second pages of a leader fire the timer, if a script is gone through without a file.
fn fired_by_second_pages(seed: u64) -> usize {
    let mut book = Book::open(Rules::SHA256, 4, 2, &[1; 4], &LEADERS).unwrap();
    let mut fired = 0;
    for input in script(seed) {
        let frames = match input {
            Input::Deliver(frame) => vec![frame],
            Input::Packet(frames) => frames,
            Input::Signal(height) => {
                _ = book.signal(height);
                Vec::new()
            }
            Input::Submit(_) => Vec::new(),
        };
        for frame in frames.iter().map(Frame::bytes) {
            let second = book.is_second_block(&frame);
            fired += usize::from(book.deliver(&frame) == Ok(Delivered::Fresh) && second);
        }
        while book.make_move().unwrap().0 != Move::Idle {}
    }
    fired
}

/// Those that come to grief at every step are among them.
#[test]
fn the_scripts_have_leaders_who_say_two_things() {
    let at_every_step = WAYS.len() as u64;
    assert!((1..=at_every_step).map(fired_by_second_pages).sum::<usize>() > 0);
    assert!((0..40).map(fired_by_second_pages).filter(|fired| *fired > 0).count() > 5);
}

/// A station whose height 1 is blank hears a second page of its leader and votes blank; the machine ends after so many
/// steps, or once the vote has left. Whether it has, and whether the next life would finalise.
fn second_page_and_end(files: Fake, steps: usize, seed: u64) -> (bool, bool) {
    let page = |byte| Block { height: 1, entries: [[byte; 16]].into(), ..Block::default() };
    let [first, second] =
        [1, 2].map(|byte| Frame::Proposal { signer: 0, block: page(byte) }.bytes());
    let mut new = Book::open(Rules::SHA256, 4, 2, &[1; 4], &[0]).unwrap();
    new.deliver(&first).unwrap();
    new.deliver(&Frame::DummyCertificate { mask: 11, height: 1 }.bytes()).unwrap();
    let mut book = FileBook::create_in(files.clone(), new, BOOK.as_ref()).unwrap();
    files.fault(steps, Fault::Machine);
    let left = book.deliver(&second).is_ok() && book.make_move().is_ok();
    if left {
        files.fault(0, Fault::Machine);
        assert!(book.sent().is_err());
    }
    drop(book);
    files.revive(&mut Random::new(seed));
    let Ok(mut again) = FileBook::open_in(files, Rules::SHA256, BOOK.as_ref()) else {
        return (left, true);
    };
    let mut next = again.book().clone();
    let passed = std::iter::repeat_with(|| next.make_move().unwrap().0);
    let mut passed = passed.skip_while(|made| !matches!(made, Move::Pass { .. }));
    let finalises = matches!(passed.next(), Some(Move::Pass { finalized: true, .. }));
    again.sent().unwrap();
    assert_eq!(again.signal(1).is_ok(), finalises, "a timer that comes late is refused");
    (left, finalises)
}

/// The blank vote after a leader's second page leaves only once the book with flag 1 is synced: no life after it
/// finalises. A file system that does not sync is found out.
#[test]
fn a_second_page_is_kept_before_the_blank_vote_leaves() {
    let ends = |forgotten: Option<Forgotten>| -> Vec<(bool, bool)> {
        let all = (0..44).flat_map(|steps| (0..20).map(move |seed| (steps, seed)));
        all.map(|(steps, seed)| second_page_and_end(Fake::forgetting(forgotten), steps, seed))
            .collect()
    };
    let synced = ends(None);
    for wanted in [(false, false), (false, true), (true, false)] {
        assert!(synced.contains(&wanted), "{wanted:?}");
    }
    assert!(!synced.contains(&(true, true)));
    assert!(ends(Some(Forgotten::Folders)).contains(&(true, true)));
}

#[test]
fn the_scripts_make_every_move() {
    let said: Vec<_> = (0..8).flat_map(|seed| undisturbed(seed, Way::Takes).said).collect();
    for kind in 1..=6 {
        assert!(said.iter().any(|frame| frame[0] == kind), "{kind}");
    }
}

/// Every step of a script comes to grief once, in each way.
#[test]
fn an_end_at_every_step() {
    for fault in [Fault::Process, Fault::Machine, Fault::Refusal] {
        for (seed, way) in (1..).zip(WAYS) {
            let expected = undisturbed(seed, way);
            for at in 0.. {
                let mut random = Random::new(at as u64);
                let mut lives = 0;
                let broken = broken_by(Fake::default(), &expected, &mut random, |_| {
                    lives += 1;
                    (lives == 1).then_some((at, fault))
                });
                assert_eq!(broken, None, "{fault:?} at step {at}, script {seed}, {way:?}");
                if lives == 1 {
                    break;
                }
            }
        }
    }
}

/// Many ends in one script, some of them while the life before is being made good.
fn often(random: &mut Random) -> Option<(usize, Fault)> {
    let faults = [Fault::Process, Fault::Machine, Fault::Machine, Fault::Refusal];
    let steps = [12, 40, 200][random.below(3)];
    Some((random.below(steps), faults[random.below(4)]))
}

#[test]
fn ends_at_random() {
    for seed in 0..360 {
        let mut random = Random::new(seed);
        let expected = undisturbed(seed % 40, WAYS[random.below(3)]);
        let broken = broken_by(Fake::default(), &expected, &mut random, often);
        assert_eq!(broken, None, "seed {seed}");
    }
}

/// So too on a file system that does not tell whether a file has a name.
#[test]
fn ends_at_random_where_names_do_not_show() {
    for seed in 0..120 {
        let (mut random, files) = (Random::new(seed), Fake::default());
        files.be_silent();
        let expected = undisturbed(seed % 40, WAYS[random.below(3)]);
        assert_eq!(broken_by(files, &expected, &mut random, often), None, "seed {seed}");
    }
}

/// A station that comes back finds that its timer fired: what the life before was about to say must not have been
/// said.
#[test]
fn a_timer_that_fires_between_two_lives() {
    for seed in 0..360 {
        let mut random = Random::new(seed);
        let mut station = Station::new(Fake::default(), script(seed % 40), WAYS[random.below(3)]);
        station.timer = true;
        station.live_on(&mut random, often);
        assert_eq!(station.broken, None, "seed {seed}");
    }
}

/// A call that could not be committed may be, or not: the book must be opened again.
#[test]
fn a_failed_commit_is_not_gone_over() {
    let new = Book::open(Rules::SHA256, 4, 2, &[1; 4], &[0]).unwrap();
    let files = Fake::default();
    let mut book = FileBook::create_in(files.clone(), new, BOOK.as_ref()).unwrap();
    files.fault(10, Fault::Refusal);
    assert!(matches!(book.signal(1), Err(Error::Files { .. })));
    assert!(matches!(book.make_move(), Err(Error::Stale)));
    drop(book);
    let mut again = FileBook::open_in(files, Rules::SHA256, BOOK.as_ref()).unwrap();
    assert!(matches!(again.signal(1), Err(Error::Refused(Refusal::NotDue))));
}

/// Blank votes of these signers at height 1, one behind the other.
fn packet(signers: &[u8]) -> Vec<u8> {
    signers.iter().flat_map(|&signer| Frame::DummyVote { signer, height: 1 }.bytes()).collect()
}

/// Whenever the process or the machine ends, the book is that before the packet or that after it, never one between two
/// of its frames.
#[test]
fn a_packet_is_taken_whole_or_not_at_all() {
    let (new, packet) =
        (Book::open(Rules::SHA256, 4, 2, &[1; 4], &[0]).unwrap(), packet(&[0, 9, 1, 0, 3]));
    let mut whole = new.clone();
    let counted = Counts { fresh: 3, known: 1, refused: 1 };
    assert_eq!(whole.deliver_packet(&packet), Ok(counted));
    let mut seen = [0, 0];
    for fault in [Fault::Process, Fault::Machine, Fault::Refusal] {
        for (steps, seed) in (0..13).flat_map(|steps| (0..30).map(move |seed| (steps, seed))) {
            let files = Fake::default();
            let mut book = FileBook::create_in(files.clone(), new.clone(), BOOK.as_ref()).unwrap();
            files.fault(steps, fault);
            let taken = book.deliver_packet(&packet);
            drop(book);
            files.revive(&mut Random::new(seed));
            let found = store::read_in(files, BOOK.as_ref()).unwrap();
            let at = usize::from(found != new.bytes());
            assert!(at == 0 || found == whole.bytes(), "{fault:?} at step {steps}, seed {seed}");
            assert!(taken.is_err() || at == 1, "{fault:?} at step {steps}, seed {seed}");
            seen[at] += 1;
        }
    }
    assert!(seen.iter().all(|count| *count > 100), "{seen:?}");
}

/// The steps that a call takes on a new book: as many as must go well for it to succeed.
fn steps(call: impl Fn(&mut FileBook<Rules, Fake>) -> Result<(), Error>) -> usize {
    let succeeds = |steps: &usize| {
        let new = Book::open(Rules::SHA256, 4, 2, &[1; 4], &[0]).unwrap();
        let files = Fake::default();
        let mut book = FileBook::create_in(files.clone(), new, BOOK.as_ref()).unwrap();
        files.fault(*steps, Fault::Process);
        !matches!(call(&mut book), Err(Error::Files { .. }))
    };
    (0..).find(succeeds).unwrap()
}

#[test]
fn a_packet_is_one_commit() {
    let one = steps(|book| book.deliver(&packet(&[0])).map(|_| ()));
    assert!(one > 0);
    assert_eq!(steps(|book| book.deliver_packet(&packet(&[0, 9, 1, 0, 3])).map(|_| ())), one);
    assert_eq!(steps(|book| book.deliver_packet(&packet(&[9, 9])).map(|_| ())), 0);
    assert_eq!(steps(|book| book.deliver_packet(&packet(&[0, 1])[..225]).map(|_| ())), 0);
}

/// Who only looks may come between renaming and syncing, and what is answered then must not be lost either.
#[test]
fn what_is_read_is_synced() {
    let mut ends = 0;
    for steps in 0..14 {
        let new = Book::open(Rules::SHA256, 4, 2, &[1; 4], &[0]).unwrap();
        let files = Fake::default();
        let mut book = FileBook::create_in(files.clone(), new, BOOK.as_ref()).unwrap();
        files.fault(steps, Fault::Process);
        ends += usize::from(book.signal(1).is_err());
        files.revive(&mut Random::new(0));
        let seen = store::read_in(files.clone(), BOOK.as_ref()).unwrap();
        assert!(files.synced(BOOK.as_ref(), &seen), "after {steps} steps");
    }
    assert!((1..14).contains(&ends));
}

/// The tests above can fail: a file system that does not sync what it is told to is found out.
#[test]
fn a_step_left_out_is_noticed() {
    for forgotten in [Forgotten::Files, Forgotten::Folders] {
        let noticed = (0..100).filter(|seed| {
            let files = Fake::forgetting(Some(forgotten));
            let expected = undisturbed(seed % 40, Way::Takes);
            broken_by(files, &expected, &mut Random::new(*seed), often).is_some()
        });
        assert!(noticed.count() > 50, "{forgotten:?}");
    }
}
