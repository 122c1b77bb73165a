//! `frame`: makes a frame out of words.

use crate::arguments::Arguments;
use crate::page_options::{self, page_bytes};
use crate::problem::Problem;
use crate::words;
use reference::sha256;
use types::{Block, Frame};

/// Writes the frame, as bytes or as text.
pub fn run(words: &[String], output: &mut Vec<u8>) -> Result<(), Problem> {
    let mut options = vec!["signer", "height", "mask", "signers", "digest"];
    options.extend(page_options::NAMES);
    let arguments = Arguments::sort(words, &options, &["hex"])?;
    let [kind] = arguments.plain("one kind of frame, as blank-vote")?;
    let frame = frame(kind, &arguments)?;
    let mut frame_bytes = frame.bytes();
    if matches!(frame, Frame::Proposal { .. } | Frame::BlockCertificate { .. }) {
        frame_bytes[48..].copy_from_slice(&page_bytes(&arguments)?);
    }
    match arguments.has("hex") {
        true => output.extend(format!("{}\n", words::hex(&frame_bytes)).into_bytes()),
        false => output.extend(frame_bytes),
    }
    Ok(())
}

/// The frame that the words describe.
fn frame(kind: &str, arguments: &Arguments) -> Result<Frame, Problem> {
    let signer = || arguments.byte("signer");
    let height = || arguments.height("height");
    let block = || page_bytes(arguments).map(|bytes| Block::parts(&bytes));
    let (allowed, frame): (&[&str], _) = match kind {
        "proposal" => (&["signer", "page"], Frame::Proposal { signer: signer()?, block: block()? }),
        "page-vote" => (&["signer", "digest", "page"], page_vote(arguments)?),
        "blank-vote" => (&["signer"], Frame::DummyVote { signer: signer()?, height: height()? }),
        "finalise" => (&["signer"], Frame::Finalize { signer: signer()?, height: height()? }),
        "page-certificate" => {
            (&["mask", "page"], Frame::BlockCertificate { mask: mask(arguments)?, block: block()? })
        }
        "blank-certificate" => {
            (&["mask"], Frame::DummyCertificate { mask: mask(arguments)?, height: height()? })
        }
        "finalise-certificate" => {
            (&["mask"], Frame::FinalizeCertificate { mask: mask(arguments)?, height: height()? })
        }
        _ => {
            return Err(Problem::input(format!(
                "'{kind}' is no kind of frame; try `mavunilai help frame`"
            )))
        }
    };
    only(arguments, allowed)?;
    Ok(frame)
}

/// A page vote for a digest that is given, or for that of a page.
fn page_vote(arguments: &Arguments) -> Result<Frame, Problem> {
    let signer = arguments.byte("signer")?;
    match arguments.value("digest")? {
        Some(text) => {
            arguments.none_beside("digest", &page_options::NAMES)?;
            let (height, digest) = (arguments.height("height")?, words::bytes("digest", text)?);
            Ok(Frame::BlockVote { signer, height, digest })
        }
        None => {
            let page = page_bytes(arguments)?;
            let height = Block::parts(&page).height;
            Ok(Frame::BlockVote { signer, height, digest: sha256::digest(&page) })
        }
    }
}

/// The mask: a number, or the signers one by one.
fn mask(arguments: &Arguments) -> Result<u16, Problem> {
    if let Some(text) = arguments.value("mask")? {
        arguments.none_beside("mask", &["signers"])?;
        let wrong = |_| Problem::input(format!("--mask {text}: no number from 0 to 65535"));
        return text.parse().map_err(wrong);
    }
    let signers = arguments.value("signers")?;
    let signers = signers.ok_or_else(|| Problem::input("--signers or --mask is missing"))?;
    words::numbers("signers", signers)?.into_iter().try_fold(0, |mask, signer| {
        let bit = 1_u16.checked_shl(signer.into());
        let bit = bit.ok_or_else(|| Problem::input(format!("--signers: {signer} is above 15")))?;
        Ok(mask | bit)
    })
}

/// Refuses options that the kind does not use; `page` stands for all that describe one.
fn only(arguments: &Arguments, allowed: &[&str]) -> Result<(), Problem> {
    let groups: [(&str, &[&str]); 4] = [
        ("signer", &["signer"]),
        ("digest", &["digest"]),
        ("mask", &["mask", "signers"]),
        ("page", &page_options::NAMES),
    ];
    for (group, names) in groups {
        let used = names.iter().find(|name| arguments.values(name).next().is_some());
        if let (Some(name), false) = (used, allowed.contains(&group)) {
            return Err(Problem::input(format!("this kind of frame has no --{name}")));
        }
    }
    Ok(())
}
