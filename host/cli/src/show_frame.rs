//! A frame in words, or a sentence about why its bytes are none.

use crate::problem::Problem;
use crate::words::{entry, hex, members};
use reference::sha256;
use types::{Block, Book, Frame, Height, Refusal, FRAME};

/// The lines about one frame or several, with an empty line between two.
pub fn all(bytes: &[u8]) -> Result<String, Problem> {
    let frames = bytes.chunks_exact(FRAME);
    if !frames.remainder().is_empty() || frames.len() < 2 {
        return text(bytes);
    }
    let number = |(at, frame): (usize, _)| {
        let wrong = |problem: Problem| Problem {
            sentence: format!("frame {at}: {}", problem.sentence),
            ..problem
        };
        text(frame).map_err(wrong)
    };
    Ok((1..).zip(frames).map(number).collect::<Result<Vec<_>, _>>()?.join("\n"))
}

/// The lines about a frame.
pub fn text(bytes: &[u8]) -> Result<String, Problem> {
    let Ok(bytes) = <&[u8; FRAME]>::try_from(bytes) else {
        let sentence = format!("a frame has {FRAME} bytes, these are {}", bytes.len());
        return Err(Problem::input(sentence));
    };
    let frame = Frame::parts(bytes).ok_or_else(|| Problem::input(strange(bytes)))?;
    if is_refused_for_form(bytes) {
        return Err(Problem::input(
            "the page in this frame is not well formed for its height (refusal 4)",
        ));
    }
    Ok(lines(&frame).join("\n") + "\n")
}

/// What is wrong with bytes that no frame has.
fn strange(bytes: &[u8; FRAME]) -> String {
    let [kind, ..] = *bytes;
    match kind {
        1..=7 => "a field that this kind of frame does not use is not zero, or a page's count and entries \
                  do not fit (refusal 4)"
            .to_string(),
        _ => format!("{kind} is no kind of frame; kinds are 1 to 7 (refusal 4)"),
    }
}

/// Whether a book refuses the frame for its form. That is looked at before height and signer, so any book will do.
fn is_refused_for_form(bytes: &[u8]) -> bool {
    let book = Book::open(reference::Rules::SHA256, 1, 0, &[1], &[0]);
    book.and_then(|mut book| book.deliver(bytes)) == Err(Refusal::Malformed)
}

/// The lines for each kind.
fn lines(frame: &Frame) -> Vec<String> {
    let signer = |name: &str, signer: &u8, height: &Height| {
        vec![name.to_string(), format!("signer {signer}"), format!("height {height}")]
    };
    let signers = |name: &str, mask: &u16, height: &Height| {
        let signers = format!("signers {} (mask {mask})", members(*mask));
        vec![name.to_string(), signers, format!("height {height}")]
    };
    match frame {
        Frame::Proposal { signer: by, block } => {
            [signer("proposal (kind 1)", by, &block.height), page(block)].concat()
        }
        Frame::BlockVote { signer: by, height, digest } => {
            let digest = vec![format!("digest {}", hex(digest))];
            [signer("page vote (kind 2)", by, height), digest].concat()
        }
        Frame::DummyVote { signer: by, height } => signer("blank vote (kind 3)", by, height),
        Frame::Finalize { signer: by, height } => signer("finalise (kind 4)", by, height),
        Frame::BlockCertificate { mask, block } => {
            [signers("page certificate (kind 5)", mask, &block.height), page(block)].concat()
        }
        Frame::DummyCertificate { mask, height } => {
            signers("blank certificate (kind 6)", mask, height)
        }
        Frame::FinalizeCertificate { mask, height } => {
            signers("finalise certificate (kind 7)", mask, height)
        }
    }
}

/// The lines about a page.
fn page(block: &Block) -> Vec<String> {
    let mut lines = vec![format!("page digest {}", hex(&sha256::digest(&block.bytes())))];
    lines.push(match block.parent {
        0 => "back height 0: the first page of its chain".to_string(),
        parent => format!("back height {parent}, back digest {}", hex(&block.digest)),
    });
    lines.push(format!("entries {}", block.entries.len()));
    lines.extend(block.entries.iter().map(|bytes| format!("  {}", entry(bytes))));
    lines
}
