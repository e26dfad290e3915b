//! Cases of the receiver: single calls, a call for each length of a piece and each held count, and the caller of
//! document 02's request [1].

use crate::cases::author::{Author, Event};
use crate::cases::chance::Chance;
use crate::cases::chips;
use crate::cases::readers::{any_legal_reader, legal_reader, sized_reader, spoiled_reader};
use crate::compare::frame::{Kind, Outcome, Request};
use crate::dialogue::templates;
use crate::reader::receiver::{given_whole, Receiver, Rest, HOLDS};
use crate::reader::*;
use std::collections::VecDeque;

/// The pieces of the single calls have every length up to this one.
pub const MOST_PIECE: usize = 300;
/// So many single calls are made with each length of a piece, and at least so many with each held count.
const ROUNDS: usize = 3;

/// One call or line switch of a receiver with any held count, and of a reader that is legal or spoiled.
pub fn single(mut chance: Chance) -> Request {
    let (reader, room) = spoiled_reader(&mut chance);
    let count = any_count(&mut chance);
    let length = chance.within(0, MOST_PIECE);
    let (receiver, run) = offered(&mut chance, &reader, count, length);
    let kind = if chance.percent(25) { Kind::ReceiverLineSwitch } else { Kind::ReceiverCall };
    chips::suited(&mut chance, Request { kind: kind(receiver), reader, run, room })
}

/// A call with this run, half of the time of a receiver that holds a part of it.
pub fn whole_or_in_part(mut chance: Chance, reader: Reader, run: Vec<u8>) -> Request {
    let (held, piece) = run.split_at(chance.below(run.len()));
    let room = chance.bytes(ROOM);
    let request = if chance.percent(50) {
        Request { kind: Kind::ReceiverCall(Receiver::holding(held)), reader, run: piece.to_vec(), room }
    } else {
        Request { kind: Kind::Call, reader, run, room }
    };
    chips::suited(&mut chance, request)
}

/// Calls of legal readers, with pieces of every length and with every legal held count.
pub fn every_length(seed: u64) -> impl Iterator<Item = Request> {
    (0..ROUNDS * (MOST_PIECE + 1)).map(move |place| {
        let mut chance = Chance::new(seed, place as u64);
        let capacity = chance.within(1, 4);
        let reader = legal_reader(&mut chance, capacity);
        // 5 has no factor in common with the number of counts, so that each has its turn.
        let (receiver, run) = offered(&mut chance, &reader, 5 * place % (HOLDS + 1), place % (MOST_PIECE + 1));
        let room = chance.bytes(ROOM);
        chips::suited(&mut chance, Request { kind: Kind::ReceiverCall(receiver), reader, run, room })
    })
}

fn any_count(chance: &mut Chance) -> usize {
    let (few, legal, beyond) = (chance.below(24), chance.within(0, HOLDS), chance.within(HOLDS + 1, 0xFFFF));
    match chance.below(10) {
        0..=2 => few,
        3 | 4 => legal,
        5 => chance.pick(&[0, 1, HOLDS - 1, HOLDS]),
        6 => HOLDS,
        7 | 8 => chance.pick(&[HOLDS + 1, HOLDS + 1, HOLDS + 2, MOST_PIECE, 512, 0x8000, 0xFFFF]),
        _ => beyond,
    }
}

/// A receiver that holds so many bytes, and a piece of this length that goes on behind them.
fn offered(chance: &mut Chance, reader: &Reader, count: usize, length: usize) -> (Receiver, Vec<u8>) {
    let held = count.min(HOLDS);
    let sent = sent(&mut Author { chance, reader }, held + length.max(HOLDS));
    let past = match chance.below(4) {
        0 => vec![0; HOLDS - held],
        1 => vec![chance.byte() | 1; HOLDS - held],
        2 => chance.bytes(HOLDS - held),
        _ => sent[held..HOLDS].to_vec(),
    };
    let mut receiver = Receiver::holding(&[&sent[..held], &past].concat());
    receiver.count = count as u16;
    (receiver, sent[held..held + length].to_vec())
}

/// So many bytes as a host sends them, at times from a lone EF or from a header at the limits on.
fn sent(author: &mut Author, length: usize) -> Vec<u8> {
    let mut sent = match author.chance.below(8) {
        0 => vec![0xEF],
        1 => author.header(),
        2 => author.long_packet(),
        _ => Vec::new(),
    };
    while sent.len() < length {
        sent.extend(author.run());
    }
    sent.truncate(length);
    sent
}

/// The caller of the request: it offers a piece and then the rest of it, then an empty piece, until a call takes
/// nothing, answers nothing and leaves the held bytes as they are.
pub struct Caller {
    chance: Chance,
    reader: Reader,
    receiver: Receiver,
    /// What comes in, piece by piece.
    events: VecDeque<Event>,
    /// What was not taken yet of the piece.
    rest: Vec<u8>,
    at_rest: bool,
    /// Whether the next piece may come in before the caller is at rest.
    hasty: bool,
    /// The longest piece.
    most: usize,
    scenes: usize,
    stretch: Stretch,
}

/// What happened since the start, the last line switch or the last new scores and thresholds.
struct Stretch {
    /// The reader at the start of it.
    start: Reader,
    /// The bytes that were held then, and all that came in.
    run: Vec<u8>,
    /// All replies in order.
    replies: Vec<u8>,
}

impl Caller {
    /// A caller with a legal reader of a few pages and scenes by chance.
    pub fn new(mut chance: Chance) -> Caller {
        let capacity = chance.within(1, 12);
        let reader = any_legal_reader(&mut chance, capacity);
        let hasty = chance.percent(50);
        let most = chance.pick(&[12, 60, 60, 60, 60, MOST_PIECE, MOST_PIECE, 1000]);
        let scenes = chance.within(1, 3);
        Caller { hasty, most, scenes, ..Caller::with(chance, reader, &[]) }
    }

    /// A caller with these pieces.
    fn with(chance: Chance, reader: Reader, pieces: &[&[u8]]) -> Caller {
        Caller {
            chance,
            receiver: Receiver::empty(),
            events: pieces.iter().map(|piece| Event::Bytes(piece.to_vec())).collect(),
            rest: Vec::new(),
            at_rest: true,
            hasty: false,
            most: 0,
            scenes: 0,
            stretch: Stretch::from(&reader, &[]),
            reader,
        }
    }

    /// The next call or line switch; none when all has come in.
    pub fn next(&mut self) -> Option<Request> {
        let mut line_switch = false;
        if self.at_rest || self.hurries() {
            while self.events.is_empty() {
                self.next_scene()?;
            }
            if self.at_rest && self.chance.percent(25) {
                self.reader.chip = chips::any(&mut self.chance, self.reader.capacity());
                self.stretch = Stretch::from(&self.reader, self.receiver.held());
            }
            match self.events.pop_front()? {
                Event::Bytes(piece) => {
                    self.stretch.run.extend(&piece);
                    self.rest = piece;
                }
                Event::LineSwitch => line_switch = true,
            }
        }
        let kind = if line_switch { Kind::ReceiverLineSwitch } else { Kind::ReceiverCall };
        let (kind, reader, run) = (kind(self.receiver.clone()), self.reader.clone(), self.rest.clone());
        Some(Request { kind, reader, run, room: self.chance.bytes(ROOM) })
    }

    /// Whether the next piece is offered though the caller is not at rest.
    fn hurries(&mut self) -> bool {
        let next = matches!(self.events.front(), Some(Event::Bytes(_)));
        self.hasty && next && self.rest.is_empty() && self.chance.percent(50)
    }

    /// Goes on from where the answer left reader and receiver.
    pub fn go_on(&mut self, request: &Request, outcome: Outcome) {
        self.at_rest = request.kind.is_line_switch() || outcome.at_rest(request);
        self.rest.drain(..outcome.answer.used);
        self.stretch.replies.extend(&outcome.room[..outcome.answer.length]);
        self.reader = outcome.reader;
        self.receiver = outcome.receiver.unwrap_or_else(Receiver::empty);
        if request.kind.is_line_switch() {
            self.stretch = Stretch::from(&self.reader, &[]);
        }
    }

    /// Whether the caller, if it is at rest, has come to what the same run comes to when it is given whole.
    pub fn as_given_whole(&self) -> bool {
        let Stretch { start, run, replies } = &self.stretch;
        let left = self.receiver.held().to_vec();
        let here = Rest { reader: self.reader.clone(), replies: replies.clone(), left };
        !self.at_rest || here == given_whole(start.clone(), run)
    }

    fn next_scene(&mut self) -> Option<()> {
        self.scenes = self.scenes.checked_sub(1)?;
        for event in (Author { chance: &mut self.chance, reader: &self.reader }).scene() {
            match event {
                Event::Bytes(bytes) => self.cut(&bytes),
                Event::LineSwitch => self.events.push_back(Event::LineSwitch),
            }
        }
        Some(())
    }

    /// Lets bytes come in by pieces of any length, the empty one too, at times with a line switch behind a piece.
    fn cut(&mut self, mut bytes: &[u8]) {
        while !bytes.is_empty() {
            let (piece, more) = bytes.split_at(self.chance.within(0, self.most).min(bytes.len()));
            self.events.push_back(Event::Bytes(piece.to_vec()));
            if self.chance.percent(2) {
                self.events.push_back(Event::LineSwitch);
            }
            bytes = more;
        }
    }
}

impl Stretch {
    fn from(start: &Reader, held: &[u8]) -> Stretch {
        Stretch { start: start.clone(), run: held.to_vec(), replies: Vec::new() }
    }
}

/// Callers with a download and an upload at each size, in two pieces, cut at every place.
pub fn cut_transfers(seed: u64) -> impl Iterator<Item = Caller> {
    let chance = move |size_code: u8| Chance::new(seed, size_code.into());
    SIZE_CODES.flat_map(move |size_code| {
        let reader = sized_reader(&mut chance(size_code), size_code);
        let run = transfer(&Author { chance: &mut chance(size_code), reader: &reader });
        (0..=run.len()).map(move |place| {
            let (one, other) = run.split_at(place);
            Caller::with(chance(size_code), reader.clone(), &[one, other])
        })
    })
}

/// Callers with a Search and what leads to it and follows, in two pieces, cut at every place; at times the second piece
/// comes with new scores and thresholds.
pub fn cut_searches(seed: u64) -> impl Iterator<Item = Caller> {
    let mut chance = Chance::new(seed, 0);
    let mut reader = legal_reader(&mut chance, 9);
    reader.settings = Settings { filled: [SET; 2], ..Settings::fresh() };
    let contents: [&[u8]; 4] =
        [&[DELET_CHAR, 0, 0, 0, 1], &[STORE, 1, 0, 0], &[SEARCH, 1, 0, 0, 0, 9], &[READ_SYS_PARA]];
    let run = contents.map(|content| packet(reader.settings.address, COMMAND, content)).concat();
    (0..=run.len()).map(move |place| {
        let (one, other) = run.split_at(place);
        Caller::with(Chance::new(seed, place as u64), reader.clone(), &[one, other])
    })
}

/// Callers with a fitter who asks for the parameters before SetPwd and after it, after a wrong password and after the
/// right one, in two pieces, cut at every place; then after a line switch and after the right password again.
pub fn cut_visits(seed: u64) -> impl Iterator<Item = Caller> {
    let mut start = legal_reader(&mut Chance::new(seed, 0), 9);
    start.settings = Settings::fresh();
    let command = |content: &[u8]| packet(Settings::fresh().address, COMMAND, content);
    let asks = command(&[READ_SYS_PARA]);
    let [sets, wrong, right] =
        [(SET_PWD, 5), (VFY_PWD, 6), (VFY_PWD, 5)].map(|(code, last)| command(&[code, 0, 0, 0, last]));
    let run = [&asks, &sets, &asks, &wrong, &asks, &right, &asks].map(|packet| &packet[..]).concat();
    let visits = (0..=run.len()).flat_map(|place| [(CLEAR, place), (SET, place)]);
    visits.map(move |(found, place)| {
        let mut reader = start.clone();
        reader.settings.found = found;
        let (one, other) = run.split_at(place);
        let mut caller = Caller::with(Chance::new(seed, place as u64), reader, &[one, other]);
        caller.events.push_back(Event::LineSwitch);
        caller.events.extend([&asks, &right, &asks].map(|packet| Event::Bytes(packet.clone())));
        caller
    })
}

/// DownChar, the data packets, and UpChar of the same buffer.
fn transfer(author: &Author) -> Vec<u8> {
    let size = author.reader.settings.size();
    let mut run = author.packet(COMMAND, &[DOWN_CHAR, 1]);
    for (place, part) in templates::first().chunks(size).enumerate() {
        let last = (place + 1) * size == PAGE;
        run.extend(author.packet(if last { LAST_DATA } else { DATA }, part));
    }
    run.extend(author.packet(COMMAND, &[UP_CHAR, 1]));
    run
}
