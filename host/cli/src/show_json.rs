//! Frames and books as objects, with the fields of docs/JSON.md.

use crate::chosen::REPLICA;
use crate::json::Json;
use crate::pages::{self, Page};
use crate::problem::Problem;
use crate::register::entry_fields;
use crate::words::hex;
use crate::{show_book, show_frame, show_observer};
use reference::inspect::AtHeight;
use reference::sha256;
use types::{field, head_height, is_observers, Area, Block, Calls, Frame, Height, Weights, FRAME};

/// The fields of an object.
type Fields = Vec<(&'static str, Json)>;

/// A frame; a sentence about what is wrong with it, if it is none.
pub fn frame(bytes: &[u8]) -> Result<Json, Problem> {
    show_frame::text(bytes)?;
    let frame = bytes.first_chunk::<FRAME>().and_then(Frame::parts);
    let frame = frame.ok_or_else(|| Problem::input("these bytes are no frame"))?;
    let signed = |kind: u64, name, signer: u8, height: Height| {
        let mut fields = head(kind, name, height);
        fields.push(("signer", Json::number(signer)));
        fields
    };
    let certified = |kind: u64, name, mask: u16, height: Height| {
        let mut fields = head(kind, name, height);
        fields.push(("signers", Json::members(mask)));
        fields
    };
    Ok(Json::Object(match frame {
        Frame::Proposal { signer, block } => {
            [signed(1, "proposal", signer, block.height), page_field(&block)].concat()
        }
        Frame::BlockVote { signer, height, digest } => {
            let digest = vec![("digest", Json::Text(hex(&digest)))];
            [signed(2, "page vote", signer, height), digest].concat()
        }
        Frame::DummyVote { signer, height } => signed(3, "blank vote", signer, height),
        Frame::Finalize { signer, height } => signed(4, "finalise", signer, height),
        Frame::BlockCertificate { mask, block } => {
            [certified(5, "page certificate", mask, block.height), page_field(&block)].concat()
        }
        Frame::DummyCertificate { mask, height } => certified(6, "blank certificate", mask, height),
        Frame::FinalizeCertificate { mask, height } => {
            certified(7, "finalise certificate", mask, height)
        }
    }))
}

/// The fields that every frame has.
fn head(kind: u64, name: &str, height: Height) -> Fields {
    vec![("kind", Json::Number(kind)), ("name", Json::text(name)), ("height", Json::number(height))]
}

/// The page of a frame as its field.
fn page_field(block: &Block) -> Fields {
    vec![("page", page(&Page { digest: sha256::digest(&block.bytes()), block: block.clone() }))]
}

/// A page.
fn page(page: &Page) -> Json {
    let entry = |entry: &[u8; types::ENTRY]| Json::Object(entry_fields(entry).to_vec());
    Json::Object(vec![
        ("digest", Json::Text(hex(&page.digest))),
        ("height", Json::number(page.block.height)),
        ("back", Json::number(page.block.parent)),
        ("back_digest", Json::Text(hex(&page.block.digest))),
        ("entries", Json::list(page.block.entries.iter().map(entry))),
    ])
}

/// A book, a station's or an observer's, out of a file; a sentence about the first rule that it breaks, if it is not
/// sound.
pub fn book(file: &str, bytes: &[u8]) -> Result<Json, Problem> {
    let mut fields = vec![("book", Json::text(file))];
    fields.extend(if is_observers(bytes) { observer(bytes)? } else { station(bytes)? });
    Ok(Json::Object(fields))
}

/// The fields of a station's book.
fn station(bytes: &[u8]) -> Result<Fields, Problem> {
    let told = show_book::told(bytes)?;
    let flags = exchange::words::flags(told.flags).into_iter().map(Json::text);
    let pending = pages::pending(bytes, told.pending);
    let pending = pending.iter().map(|entry| Json::Object(entry_fields(entry).to_vec()));
    let rows = (1..).zip(&told.heights).map(|(height, slot)| station_row(bytes, height, slot));
    let made = Calls::make_move(&REPLICA, &mut bytes.to_vec(), &mut [0; 2 * FRAME]);
    Ok([
        common("station", bytes, told.heights.len()),
        vec![
            ("own", Json::number(told.own)),
            ("current", Json::number(told.current)),
            ("flags", Json::list(flags)),
            ("pending", Json::list(pending)),
        ],
        last(bytes, rows.collect(), made),
    ]
    .concat())
}

/// The fields of an observer's book.
fn observer(bytes: &[u8]) -> Result<Fields, Problem> {
    let told = show_observer::told(bytes)?;
    let rows = (1..).zip(&told.heights).map(|(height, slot)| {
        let standing = [slot.dummy, slot.linked, slot.finalized];
        Json::Object(row(bytes, height, slot.masks, standing))
    });
    let made = Calls::observer_move(&REPLICA, &mut bytes.to_vec());
    Ok([common("observer", bytes, told.heights.len()), last(bytes, rows.collect(), made)].concat())
}

/// The fields that both kinds of book begin with.
fn common(kind: &str, bytes: &[u8], heights: usize) -> Fields {
    let n = bytes.get(field::N).copied().unwrap_or(0);
    let weights = Weights::of(bytes);
    vec![
        ("kind", Json::text(kind)),
        ("edition", Json::number(show_book::edition(bytes))),
        ("n", Json::number(n)),
        ("weights", Json::weights(&weights)),
        ("total_weight", Json::number(weights.total())),
        ("quorum", Json::number(weights.needed())),
        ("heights", Json::number(heights)),
        ("settled", Json::number(head_height(bytes, field::FINALIZED))),
    ]
}

/// The fields that both kinds of book end with.
fn last(bytes: &[u8], rows: Vec<Json>, made: Result<types::Move, u8>) -> Fields {
    let register = pages::register(bytes);
    let next = made.map_or_else(|number| format!("deny {number}"), |made| made.to_string());
    vec![
        ("register", Json::list(register.into_iter().map(Json::number))),
        ("next", Json::Text(next)),
        ("rows", Json::List(rows)),
    ]
}

/// The row of a height of a station's book.
fn station_row(bytes: &[u8], height: Height, slot: &AtHeight) -> Json {
    let mut fields = row(bytes, height, slot.masks, [slot.dummy, slot.linked, slot.finalized]);
    fields.push(("leader", Json::number(slot.leader)));
    fields.extend(pages::page(bytes, height, Area::Held).map(|held| ("proposal", page(&held))));
    let vote = |(station, digest): (u32, [u8; 32])| {
        let digest = Json::Text(hex(&digest));
        Json::Object(vec![("station", Json::number(station)), ("digest", digest)])
    };
    let votes = pages::kept_votes(bytes, height, slot.voters);
    fields.push(("page_votes", Json::list(votes.into_iter().map(vote))));
    Json::Object(fields)
}

/// The fields of a height that both kinds of book have: its masks and what they weigh, and whether it is blank, linked and settled.
fn row(bytes: &[u8], height: Height, masks: [u16; 3], standing: [bool; 3]) -> Fields {
    let notarized = pages::page(bytes, height, Area::Notarized);
    let ([certificate, blank, finalise], [is_blank, linked, settled]) = (masks, standing);
    let certificate = if notarized.is_some() { certificate } else { 0 };
    let weights = Weights::of(bytes);
    let weight = |mask| Json::number(weights.weight_of(mask));
    let mut fields = vec![("height", Json::number(height))];
    fields.extend(notarized.map(|one| ("page", page(&one))));
    fields.extend([
        ("page_certificate", Json::members(certificate)),
        ("blank", Json::members(blank)),
        ("finalise", Json::members(finalise)),
        ("page_certificate_weight", weight(certificate)),
        ("blank_weight", weight(blank)),
        ("finalise_weight", weight(finalise)),
        ("is_blank", Json::Yes(is_blank)),
        ("linked", Json::Yes(linked)),
        ("settled", Json::Yes(settled)),
    ]);
    fields
}
