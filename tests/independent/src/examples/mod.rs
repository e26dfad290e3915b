//! Examples that bind both readers: the table of examples P1 to P12, and examples of document 02's requests [1] to [3],
//! [5] to [10] and [13], in what a host sees and in frames.

mod basics;
mod gaps;
mod origins;
mod parameters;
mod salvage;
mod search;
mod thousand;

use crate::cases::readers::fresh_reader;
use crate::dialogue::host::{packet, FRESH};
use crate::reader::receiver::{Receiver, HOLDS};
use crate::reader::{Reader, ACKNOWLEDGE, COMMAND, PAGE};

/// A reader and what it is sent, step by step.
pub struct Example {
    pub name: &'static str,
    pub receiver: Option<Receiver>,
    pub reader: Reader,
    pub steps: Vec<Step>,
}

#[derive(Clone)]
pub struct Step {
    /// The run, or the piece that the receiver is offered.
    pub run: Vec<u8>,
    /// The bytes used of the run, or those taken of the piece.
    pub used: usize,
    pub reply: Vec<u8>,
    /// The receiver after the step.
    pub receiver: Option<Receiver>,
}

/// A name, a frame in and the frame out, byte by byte.
pub type Frames = (&'static str, Vec<u8>, Vec<u8>);

/// All examples.
pub struct Examples {
    pub of_frames: Vec<Frames>,
    pub of_steps: Vec<Example>,
}

impl Examples {
    pub fn all() -> Examples {
        Examples {
            of_frames: [
                basics::frames(),
                thousand::frames(),
                origins::frames(),
                search::frames(),
                gaps::frames(),
                salvage::frames(),
            ]
            .concat(),
            of_steps: [basics::all(), thousand::all(), origins::all(), search::all(), parameters::all()]
                .into_iter()
                .flatten()
                .collect(),
        }
    }
}

pub const HAND_SHAKE: &str = "EF 01 A 01 00 03 40 00 44";
pub const COUNT: &str = "EF 01 A 01 00 03 1D 00 21";
const DELETE_9_1: &str = "EF 01 A 01 00 07 0C 00 09 00 01 00 1E";
const DELETE_9_2: &str = "EF 01 A 01 00 07 0C 00 09 00 02 00 1F";
const DELETE_0_0: &str = "EF 01 A 01 00 07 0C 00 00 00 00 00 14";
pub const FINE: &str = "EF 01 A 07 00 03 00 00 0A";
const UNKNOWN: &str = "EF 01 A 07 00 03 19 00 23";
const FAILED: &str = "EF 01 A 07 00 03 0E 00 18";
const NOT_FILLED: &str = "EF 01 A 07 00 03 0C 00 16";
pub const LOCKED: &str = "EF 01 A 07 00 03 21 00 2B";
const STORED: &str = "EF 01 A 07 00 03 22 00 2C";
const SIZE_CODE_1: &str = "EF 01 A 01 00 05 0E 06 01 00 1B";
const SIZE_CODE_3: &str = "EF 01 A 01 00 05 0E 06 03 00 1D";
const SIZE_CODE_4: &str = "EF 01 A 01 00 05 0E 06 04 00 1E";
pub const PARAMETERS: &str = "EF 01 A 01 00 03 0F 00 13";
const UP_CHAR_1: &str = "EF 01 A 01 00 04 08 01 00 0E";
const UP_CHAR_2: &str = "EF 01 A 01 00 04 08 02 00 0F";
const DOWN_CHAR_1: &str = "EF 01 A 01 00 04 09 01 00 0F";
const DOWN_CHAR_2: &str = "EF 01 A 01 00 04 09 02 00 10";
const STORE_1_9: &str = "EF 01 A 01 00 06 06 01 00 09 00 17";
const STORE_2_9: &str = "EF 01 A 01 00 06 06 02 00 09 00 18";
const LOAD_CHAR_2_9: &str = "EF 01 A 01 00 06 07 02 00 09 00 19";
/// LoadChar of a vacant page gets the code that Store from a buffer that is not filled gets.
const VACANT: &str = NOT_FILLED;
const BEYOND: &str = "EF 01 A 07 00 03 0B 00 15";
const NOT_DELETED: &str = "EF 01 A 07 00 03 10 00 1A";

/// A reader without a receiver: a run, the bytes used of it, and the reply.
fn example(name: &'static str, reader: &Reader, steps: &[(&str, usize, &str)]) -> Example {
    let step = |&(run, used, reply): &(&str, usize, &str)| step(run, used, reply, None);
    Example { name, receiver: None, reader: reader.clone(), steps: steps.iter().map(step).collect() }
}

/// A reader with an empty receiver: a piece, the bytes taken of it, the reply, and the bytes held afterwards.
fn pieces(name: &'static str, reader: &Reader, steps: &[(&str, usize, &str, &str)]) -> Example {
    let step = |&(piece, taken, reply, held): &(&str, usize, &str, &str)| {
        step(piece, taken, reply, Some(Receiver::holding(&bytes(held))))
    };
    let steps = steps.iter().map(step).collect();
    Example { name, receiver: Some(Receiver::empty()), reader: reader.clone(), steps }
}

fn step(run: &str, used: usize, reply: &str, receiver: Option<Receiver>) -> Step {
    Step { run: bytes(run), used, reply: bytes(reply), receiver }
}

/// A reader without a receiver, or with an empty one: contents of commands, each before a colon, and those of their
/// acknowledges, each before a comma.
fn exchanges(name: &'static str, receiver: Option<Receiver>, reader: &Reader, contents: &str) -> Example {
    let exchange = |both: &str| {
        let (content, told) = both.split_once(':').expect("a colon");
        let run = command(content);
        Step { used: run.len(), run, reply: acknowledge(told), receiver: receiver.clone() }
    };
    let steps = contents.split(',').map(exchange).collect();
    Example { name, reader: reader.clone(), steps, receiver }
}

/// A command at the fresh address, by its content.
fn command(content: &str) -> Vec<u8> {
    packet(FRESH, COMMAND, &bytes(content), 0)
}

/// An acknowledge at the fresh address, by its content.
fn acknowledge(content: &str) -> Vec<u8> {
    packet(FRESH, ACKNOWLEDGE, &bytes(content), 0)
}

/// The reader with P9's password; the mark is clear.
fn locked(reader: &Reader) -> Reader {
    let mut reader = reader.clone();
    reader.settings.password = [0, 0, 0, 5];
    reader
}

/// The reader of P11: pages 0 and 9 are stored.
fn two_stored() -> Reader {
    let mut reader = fresh_reader(10);
    reader.index[..2].copy_from_slice(&[0x01, 0x02]);
    reader
}

/// How a reader stands in a frame, at the fresh address and with the fresh size code and baud factor.
#[derive(Clone, Copy)]
struct Stand {
    password: u8,
    level: u8,
    found: u8,
    /// The settings from the transfer on; F stands for the found mark.
    rest: &'static str,
    /// The bytes that fill the pages.
    pages: &'static [u8],
    /// The first byte of the index.
    index: u8,
    /// The bytes that fill the buffers.
    buffers: [u8; 2],
}

impl Stand {
    fn settings(self) -> Vec<u8> {
        let rest = self.rest.replace(" F ", &format!(" {:02X} ", self.found));
        bytes(&format!("000000{:02X} A {:02X} 02 06 {rest}", self.password, self.level))
    }

    /// Templates, index, notepad and buffers.
    fn memory(self) -> Vec<u8> {
        let filled = |byte: &u8| vec![*byte; PAGE];
        let [templates, buffers] = [self.pages, &self.buffers].map(|all| all.iter().flat_map(filled).collect());
        [templates, vec![self.index], vec![0; 127 + PAGE], buffers].concat()
    }
}

/// What is asked of a reader that stands so, and what is to come of it.
#[derive(Clone, Copy)]
struct Asked<'a> {
    kind: u8,
    /// The bytes that a receiver holds before and after.
    held: Option<[&'a [u8]; 2]>,
    before: Stand,
    scores: &'a str,
    thresholds: &'a str,
    run: &'a [u8],
    room: usize,
    /// The refusal, the bytes used or taken, and the reply.
    told: (u8, usize, &'a [u8]),
    after: Stand,
}

impl Asked<'_> {
    /// The frame in and the frame out.
    fn frames(&self, name: &'static str) -> Frames {
        let (refusal, used, reply) = self.told;
        let four = |number: usize| (number as u32).to_be_bytes().to_vec();
        let [scores, thresholds] = [self.scores, self.thresholds].map(bytes);
        let pages = PAGE * self.before.pages.len();
        let chip = [scores.len() / 2, thresholds.len() / 2];
        let lengths = [pages, 128, PAGE, PAGE, PAGE, chip[0], chip[1], self.run.len(), self.room].map(four).concat();
        let cells = |held: &[u8]| {
            let count = (held.len() as u16).to_be_bytes();
            [&count[..], held, &vec![0; HOLDS - held.len()]].concat()
        };
        let [held_before, held_after] = self.held.map_or([Vec::new(), Vec::new()], |held| held.map(cells));
        let room = vec![0x5A; self.room];
        let frame_in = [vec![self.kind], self.before.settings(), lengths, held_before, self.before.memory()].concat();
        let frame_in = [frame_in, scores, thresholds, self.run.to_vec(), room.clone()].concat();
        let frame_out = [vec![refusal], four(used), four(reply.len()), self.after.settings(), held_after].concat();
        let frame_out = [frame_out, self.after.memory(), reply.to_vec(), room[reply.len()..].to_vec()].concat();
        (name, frame_in, frame_out)
    }
}

/// Fresh settings in a frame.
const FRESH_SETTINGS: &str = "00000000 A 03 02 06 00 0000 0000 00 00 00 00 FFFF FFFF";

/// A score and five thresholds in a frame in.
const CHIP: &str = "1234 0001 0203 FFFF 8000 7FFF";

/// A reply room of 700 bytes.
fn room() -> String {
    " 5A".repeat(700)
}

/// The reply to `COUNT` at the fresh address.
pub fn count(stored: u8) -> String {
    format!("EF 01 A 07 00 05 00 00 {stored:02X} 00 {:02X}", 0x0C + stored)
}

/// A data packet: identifier and length field, a byte that is all its content, so many times, and the sum.
fn data(head: &str, byte: &str, count: usize, sum: &str) -> String {
    format!("EF 01 A {head} {} {sum}", byte.repeat(count))
}

/// The reply to UpChar by 128: a byte that is all the buffer, the sum of a data packet with 2, and that with 8.
fn upload_128(byte: &str, sum: &str, last_sum: &str) -> String {
    let part = data("02 00 82", byte, 128, sum);
    format!("{FINE} {part} {part} {part} {}", data("08 00 82", byte, 128, last_sum))
}

/// So many zero bytes, with a space before each.
fn zeroes(count: usize) -> String {
    " 00".repeat(count)
}

/// Bytes in hexadecimal, with spaces anywhere between them; A by itself stands for FF FF FF FF.
pub fn bytes(text: &str) -> Vec<u8> {
    let digits: String = text.split_whitespace().map(|word| if word == "A" { "FFFFFFFF" } else { word }).collect();
    let byte = |place: usize| u8::from_str_radix(&digits[place..place + 2], 16).expect("bytes in hexadecimal");
    (0..digits.len()).step_by(2).map(byte).collect()
}
