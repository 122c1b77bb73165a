//! Answers as objects, with the fields of docs/JSON.md.

use crate::json::Json;
use crate::output::print;
use crate::problem::Problem;
use crate::register::entry_fields;
use crate::words::hex;
use exchange::Answer;
use store::Error;
use types::refusal::meaning;
use types::{Move, ENTRY, FRAME};

/// The fields of an object.
type Fields = Vec<(&'static str, Json)>;

/// The object of an answer alone.
pub fn object(answer: &Answer) -> Json {
    Json::Object(fields(answer))
}

/// The line of a heading, an answer or `unsent`, and the frames that stand behind it.
pub fn line(heading: &str, frames: &[[u8; FRAME]]) -> String {
    let words: Vec<&str> = heading.split(' ').collect();
    let answer = Answer::parse(&words);
    let mut fields =
        answer.map_or_else(|| vec![("answer", Json::text(heading))], |answer| fields(&answer));
    if !frames.is_empty() {
        fields.push(("frames", Json::list(frames.iter().map(|frame| Json::Text(hex(frame))))));
    }
    format!("{}\n", Json::Object(fields))
}

/// The line of a read, with the entries.
pub fn read(answer: &Answer, register: &[u8]) -> String {
    let entries = register.as_chunks::<ENTRY>().0.iter();
    let entries = entries.map(|entry| Json::Object(entry_fields(entry).to_vec()));
    let entries = vec![("entries", Json::list(entries))];
    format!("{}\n", Json::Object([fields(answer), entries].concat()))
}

/// The line of a packet, with the answer to each frame if that is asked for.
pub fn packet(counts: &Answer, each: Option<&[Answer]>) -> String {
    let each = each.map(|answers| ("each", Json::list(answers.iter().map(object))));
    format!("{}\n", Json::Object(fields(counts).into_iter().chain(each).collect()))
}

/// What becomes of an error: a refusal is an answer too, and printed as an object where these are asked for.
pub fn denied(json: bool, error: Error) -> Problem {
    if let (true, Error::Refused(refusal)) = (json, &error) {
        if let Err(problem) = print(&line(&Answer::Deny(refusal.number()).to_string(), &[])) {
            return problem;
        }
    }
    error.into()
}

/// The fields of an answer.
fn fields(answer: &Answer) -> Fields {
    let text = answer.to_string();
    let word = text.split(' ').next().unwrap_or_default();
    let mut fields = vec![("answer", Json::text(word))];
    match answer {
        Answer::Done | Answer::Delivered(_) | Answer::Moved(Move::Idle) => {}
        Answer::Deny(number) => {
            fields.extend([
                ("refusal", Json::number(*number)),
                ("meaning", Json::text(meaning(*number))),
            ]);
        }
        Answer::Counted(counts) => fields.extend([
            ("fresh", Json::Number(counts.fresh)),
            ("known", Json::Number(counts.known)),
            ("refused", Json::Number(counts.refused)),
        ]),
        Answer::Moved(made) => {
            fields.push(("height", Json::number(made.height())));
            if let Move::Pass { certificate, finalized, .. } = made {
                fields.push(("certificate", Json::number(certificate.kind())));
                fields.push(("finalise", Json::Yes(*finalized)));
            }
        }
        Answer::Size(bytes) | Answer::Part(bytes) => fields.push(("bytes", Json::Number(*bytes))),
    }
    fields
}
