//! Frames that contradict what a book has: said on the standard error, and kept in a folder where one is named.

use crate::evidence_file::Folder;
use crate::problem::Problem;
use crate::words::members;
use std::io::{stderr, Write};
use types::{height_at, mask_at, Answered, Evidence, FRAME_HEIGHT};

/// Where evidence goes besides the standard error: the folder that `--evidence` names, if it does.
#[derive(Clone, Debug)]
pub struct Keeper {
    folder: Option<Folder>,
}

impl Keeper {
    /// Makes the folder ready, so that one which takes no files is found out before any book changes.
    pub fn ready(folder: Option<&str>) -> Result<Keeper, Problem> {
        Ok(Keeper { folder: folder.map(Folder::ready).transpose()? })
    }

    /// Says which of the frames, the first of which has this number, contradict what the book has, and keeps these with
    /// what they contradict. This comes before the call that answers so, which may end for other reasons.
    pub fn keep(&self, first: usize, answers: &[Answered]) -> Result<(), Problem> {
        let all = (first..).zip(answers);
        let found: Vec<(usize, &Evidence)> =
            all.filter_map(|(number, told)| Some((number, told.evidence.as_ref()?))).collect();
        let kept = found.iter().try_for_each(|(number, evidence)| {
            let kept = match &self.folder {
                None => Ok("keep both frames".to_string()),
                Some(folder) => folder.keep(evidence).map(|file| format!("{file} has both frames")),
            };
            let end = kept.as_deref().unwrap_or("keep both frames");
            _ = writeln!(stderr(), "mavunilai: frame {number}: {}; {end}", sentence(evidence));
            kept.map(|_| ())
        });
        match (&self.folder, found.is_empty()) {
            (Some(folder), false) => kept.and_then(|()| folder.sync()),
            _ => kept,
        }
    }
}

/// Who said two things, and which.
pub fn sentence(evidence: &Evidence) -> String {
    let Evidence { frame, kept } = evidence;
    let [kind, signer, ..] = *frame;
    let height = height_at(frame, FRAME_HEIGHT);
    match kind {
        1 => format!("station {signer} leads height {height} and proposed two pages of it"),
        2 => format!("station {signer} voted for two pages of height {height}"),
        _ => format!("two pages of height {height} are certified{}", in_both(frame, kept)),
    }
}

/// Who signed both of two certificates.
fn in_both(frame: &[u8], kept: &[u8]) -> String {
    match mask_at(frame, 4) & mask_at(kept, 4) {
        0 => ", and no station signed both".to_string(),
        both => format!(", and stations {} signed both", members(both)),
    }
}
