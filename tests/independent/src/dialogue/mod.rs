//! The bench program with the independent reader and receiver, and the conditions that the stored dialogue has to meet.

mod coverage;
pub mod host;
mod script;
pub mod templates;

use crate::cases::chance::Chance;
use crate::cases::readers::fresh_reader;
use crate::compare::frame::{Kind, Request};
use crate::compare::report::hex;
use crate::dialogue::coverage::Coverage;
use crate::dialogue::host::Exchange;
use crate::dialogue::script::dialogue;
use crate::examples::{bytes, count, FINE};
use crate::reader::receiver::{given_whole, Receiver, Rest, HOLDS};
use crate::reader::*;
use crate::tally::kinds::{CODES, ON_A_LINE};
use crate::tally::Tally;

/// The pages of the bench program's templates.
pub const PAGES: usize = 64;
/// The longest unfinished packet.
const MOST_LEFT: usize = 266;
/// The stored input stays below so many bytes.
const MOST_SENT: usize = 24_000;
/// The lengths of the pieces that the input is cut into, beside the whole of it and pieces by chance.
const PIECES: [usize; 11] = [1, 2, 3, 7, 16, 60, HOLDS - 1, HOLDS, HOLDS + 1, 700, 4096];
/// So many ways of pieces by chance.
const SEEDS: u64 = 3;

/// A reader and its receiver on a line.
struct Bench {
    reader: Reader,
    receiver: Option<Receiver>,
    tally: Tally,
    coverage: Coverage,
}

impl Bench {
    fn fresh() -> Bench {
        Bench {
            reader: fresh_reader(PAGES),
            receiver: Some(Receiver::empty()),
            tally: Tally::default(),
            coverage: Coverage::default(),
        }
    }

    /// The replies to a piece that comes in: it is offered, then its rest, then an empty piece, until a call takes
    /// nothing, answers nothing and leaves the held bytes as they are.
    fn take(&mut self, piece: &[u8]) -> Result<Vec<u8>, Vec<String>> {
        let mut rest = piece;
        let mut replies = Vec::new();
        loop {
            let (kind, reader) = (Kind::call(self.receiver.clone()), self.reader.clone());
            let request = Request { kind, reader, run: rest.to_vec(), room: vec![0; ROOM] };
            let outcome = request.carried_out();
            self.tally.add(&request, &outcome);
            self.coverage.add(&request, &outcome);
            let at_rest = outcome.at_rest(&request);
            let Answer { refusal, used, length } = outcome.answer;
            demand(refusal == 0, "a call is refused")?;
            replies.extend(&outcome.room[..length]);
            rest = &rest[used..];
            self.reader = outcome.reader;
            self.receiver = outcome.receiver;
            if at_rest {
                let waits = rest.is_empty() && self.left().len() <= MOST_LEFT;
                demand(waits, "a call that takes and drops nothing does not wait for more")?;
                return Ok(replies);
            }
        }
    }

    /// The bytes that wait for more.
    fn left(&self) -> &[u8] {
        self.receiver.as_ref().map_or(&[], Receiver::held)
    }
}

/// The dialogue that is stored.
pub struct Stored {
    pub sent: Vec<u8>,
    pub replies: Vec<u8>,
    /// What it shows, in lines.
    pub lines: Vec<String>,
}

/// The stored dialogue; if it fails a condition, lines that tell which.
pub fn stored() -> Result<Stored, Vec<String>> {
    let exchanges = dialogue();
    let bench = held(&exchanges)?;
    let sent = exchanges.iter().flat_map(|exchange| exchange.sent.clone()).collect::<Vec<u8>>();
    let replies = exchanges.iter().flat_map(|exchange| exchange.expected.clone()).collect::<Vec<u8>>();
    let rest = Rest { reader: bench.reader.clone(), replies: replies.clone(), left: bench.left().to_vec() };
    let ways = cut(&sent, &rest)?;
    let packets = read_back(&replies)?;

    let example = bytes(&format!("{FINE} {}", count(0)));
    demand(replies.starts_with(&example), "it does not begin with the replies to P1 and P8")?;
    demand(rest.left.len() == MOST_LEFT, "it does not end with the longest unfinished packet")?;
    demand(sent.len() < MOST_SENT, "it is too long")?;
    let missing = [bench.tally.missing(ON_A_LINE), bench.coverage.missing()].concat();
    demand(missing.is_empty(), &format!("it does not show:\n  {}", missing.join("\n  ")))?;

    let heading = format!(
        "the stored dialogue: {} exchanges, {} bytes sent, {} bytes replied in {packets} packets",
        exchanges.len(),
        sent.len(),
        replies.len()
    );
    let same = format!("the same in {ways} ways of cutting the input");
    Ok(Stored { sent, replies, lines: [vec![heading, same], bench.tally.lines(ON_A_LINE)].concat() })
}

/// The bench program after the dialogue, each exchange with the reply that is written beside it.
fn held(exchanges: &[Exchange]) -> Result<Bench, Vec<String>> {
    let mut bench = Bench::fresh();
    for Exchange { what, sent, expected } in exchanges {
        let replies = bench.take(sent)?;
        if replies != *expected {
            let heading = format!("the stored dialogue: another reply than is written, at '{what}':");
            let lines = [("sent", sent), ("written", expected), ("replied", &replies)];
            let lines = lines.map(|(name, bytes)| format!("{name}: {}", hex(bytes)));
            return Err([&[heading], &lines[..]].concat());
        }
    }
    Ok(bench)
}

/// Demands the same rest however the input is cut, and of document 01's calls on all of it; tells the number of ways.
fn cut(sent: &[u8], rest: &Rest) -> Result<usize, Vec<String>> {
    demand(given_whole(fresh_reader(PAGES), sent) == *rest, "another rest without a receiver")?;
    let mut ways: Vec<Vec<&[u8]>> = vec![vec![sent]];
    ways.extend(PIECES.map(|length| sent.chunks(length).collect()));
    ways.extend((0..SEEDS).map(|seed| pieces_by_chance(Chance::new(seed, 0), sent)));
    for pieces in &ways {
        let mut bench = Bench::fresh();
        let mut replies = Vec::new();
        for piece in pieces {
            replies.extend(bench.take(piece)?);
        }
        let same = Rest { left: bench.left().to_vec(), reader: bench.reader, replies } == *rest;
        demand(same, &format!("another rest in pieces, the first of {} bytes", pieces[0].len()))?;
    }
    Ok(ways.len())
}

fn pieces_by_chance(mut chance: Chance, mut sent: &[u8]) -> Vec<&[u8]> {
    let mut pieces = Vec::new();
    while !sent.is_empty() {
        let (piece, rest) = sent.split_at(chance.within(1, 299).min(sent.len()));
        pieces.push(piece);
        sent = rest;
    }
    pieces
}

/// Demands that the replies are whole packets that a reader writes, one behind the other; tells their number.
fn read_back(mut replies: &[u8]) -> Result<usize, Vec<String>> {
    let mut packets = 0;
    while !replies.is_empty() {
        let (used, found) = find(replies);
        let written = found.map_or(false, |packet| {
            let known = packet.identifier != ACKNOWLEDGE || CODES.contains(&packet.content[0]);
            used == packet.content.len() + 11 && packet.sum_right && packet.identifier != COMMAND && known
        });
        demand(written, &format!("reply packet {packets} is none"))?;
        replies = &replies[used..];
        packets += 1;
    }
    Ok(packets)
}

/// A condition: the line that tells of it if it fails.
fn demand(holds: bool, failure: &str) -> Result<(), Vec<String>> {
    if holds {
        Ok(())
    } else {
        Err(vec![format!("the stored dialogue: {failure}")])
    }
}
