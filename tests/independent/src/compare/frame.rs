//! The frames that a probe takes and gives. All numbers are high byte first.

use crate::reader::receiver::{self, Receiver};
use crate::reader::{self, gaps, salvage, Answer, Chip, Mark, Origin, Reader, Settings, COMMAND, SEARCH};
use std::io::{Error, ErrorKind, Read, Result};

/// What a frame in asks for, and of what.
#[derive(Clone, PartialEq, Eq)]
pub struct Request {
    pub kind: Kind,
    pub reader: Reader,
    /// The run, the piece that a receiver is offered, or the stored index that is brought over.
    pub run: Vec<u8>,
    /// The reply room, the bytes of the table that a closing of the gaps fills, or the report of a salvage.
    pub room: Vec<u8>,
}

/// The eight kinds of a request, with the receiver before the reader where there is one.
#[derive(Clone, PartialEq, Eq)]
pub enum Kind {
    Call,
    LineSwitch,
    ReceiverCall(Receiver),
    ReceiverLineSwitch(Receiver),
    /// Fresh settings in place of the reader's, legal or not; no memory is touched.
    FreshSettings,
    /// A stored index, which is the run, brought over into the reader's; nothing else is looked at or touched.
    BringOver,
    /// The gaps closed. Notepad, buffers, scores, thresholds and run are not looked at or touched.
    CloseGaps,
    /// A library salvaged. Templates and index alone are looked at and touched.
    Salvage,
}

/// What a frame out tells.
#[derive(PartialEq, Eq)]
pub struct Outcome {
    pub answer: Answer,
    pub receiver: Option<Receiver>,
    pub reader: Reader,
    pub room: Vec<u8>,
}

/// The most of each memory, in the order of a frame in, and the bytes that one of it takes.
const MOST: [(&str, usize, usize); 9] = [
    ("templates", 512_512, 1),
    ("index", 256, 1),
    ("notepad", 1024, 1),
    ("buffer 1", 1024, 1),
    ("buffer 2", 1024, 1),
    ("scores", 1001, 2),
    ("thresholds", 10, 2),
    ("run", MOST_RUN, 1),
    ("reply room", 4096, 1),
];
pub const MOST_RUN: usize = 4096;

impl Kind {
    /// A call, of the receiver if there is one.
    pub fn call(receiver: Option<Receiver>) -> Kind {
        receiver.map_or(Kind::Call, Kind::ReceiverCall)
    }

    pub fn is_call(&self) -> bool {
        matches!(self, Kind::Call | Kind::ReceiverCall(_))
    }

    pub fn is_line_switch(&self) -> bool {
        matches!(self, Kind::LineSwitch | Kind::ReceiverLineSwitch(_))
    }

    pub fn receiver(&self) -> Option<&Receiver> {
        match self {
            Kind::ReceiverCall(receiver) | Kind::ReceiverLineSwitch(receiver) => Some(receiver),
            _ => None,
        }
    }

    pub fn receiver_mut(&mut self) -> Option<&mut Receiver> {
        match self {
            Kind::ReceiverCall(receiver) | Kind::ReceiverLineSwitch(receiver) => Some(receiver),
            _ => None,
        }
    }

    /// The byte that a frame in begins with.
    fn number(&self) -> u8 {
        match self {
            Kind::Call => 0,
            Kind::LineSwitch => 1,
            Kind::ReceiverCall(_) => 2,
            Kind::ReceiverLineSwitch(_) => 3,
            Kind::FreshSettings => 4,
            Kind::BringOver => 5,
            Kind::CloseGaps => 6,
            Kind::Salvage => 7,
        }
    }

    /// The kind of a frame in that begins with this byte, with an empty receiver where there is one.
    fn numbered(number: u8) -> Result<Kind> {
        match number {
            0 => Ok(Kind::Call),
            1 => Ok(Kind::LineSwitch),
            2 => Ok(Kind::ReceiverCall(Receiver::empty())),
            3 => Ok(Kind::ReceiverLineSwitch(Receiver::empty())),
            4 => Ok(Kind::FreshSettings),
            5 => Ok(Kind::BringOver),
            6 => Ok(Kind::CloseGaps),
            7 => Ok(Kind::Salvage),
            other => Err(broken(format!("a frame begins with {other}"))),
        }
    }
}

impl Request {
    /// What the independent reader makes of it.
    pub fn carried_out(&self) -> Outcome {
        let Request { mut kind, mut reader, run, mut room } = self.clone();
        let answer = match &mut kind {
            Kind::Call => reader::call(&mut reader, &run, &mut room),
            Kind::LineSwitch => reader::line_switch(&mut reader),
            Kind::ReceiverCall(receiver) => receiver::call(receiver, &mut reader, &run, &mut room),
            Kind::ReceiverLineSwitch(receiver) => receiver::line_switch(receiver, &mut reader),
            Kind::FreshSettings => {
                reader.settings = Settings::fresh();
                Answer::without_reply(0)
            }
            Kind::BringOver => reader::bring_over(&run, &mut reader.index),
            Kind::CloseGaps => {
                let mut table = numbers(&room);
                let answer = gaps::close_gaps(&mut reader, &mut table);
                lay_numbers(&mut room, &table);
                answer
            }
            Kind::Salvage => salvage::salvage(&mut reader, &mut room),
        };
        Outcome { answer, receiver: kind.receiver().cloned(), reader, room }
    }

    /// The run that document 01's call is on: with a receiver the held bytes and what fits of the piece.
    pub fn whole_run(&self) -> Vec<u8> {
        match self.kind.receiver() {
            Some(receiver) => receiver.joined(&self.run),
            None => self.run.clone(),
        }
    }

    /// The place of the buffer and the page that a command with this code, Store or LoadChar, names, if both are there.
    pub fn buffer_and_page(&self, command: u8) -> Option<(usize, usize)> {
        let run = self.whole_run();
        let packet = reader::find(&run).1.filter(|packet| packet.identifier == COMMAND)?;
        match packet.content {
            [code, parameters @ ..] if *code == command && parameters.len() == 3 => {
                self.reader.buffer_and_page(parameters).ok()
            }
            _ => None,
        }
    }

    /// The start and the count of a Search, if the request has one of the right length.
    pub fn searched(&self) -> Option<(usize, usize)> {
        match reader::find(&self.whole_run()).1?.content {
            [SEARCH, _, numbers @ ..] if numbers.len() == 4 => {
                Some((reader::number(&numbers[..2]), reader::number(&numbers[2..])))
            }
            _ => None,
        }
    }

    /// The frame in.
    pub fn frame(&self) -> Vec<u8> {
        let Reader { settings, templates, index, notepad, buffers: [one, two], chip } = &self.reader;
        let [scores, thresholds] = [&chip.scores, &chip.thresholds].map(|numbers| numbers_to_bytes(numbers));
        let memories = [templates, index, notepad, one, two, &scores, &thresholds, &self.run, &self.room];
        let mut frame = vec![self.kind.number()];
        frame.extend(settings_to_bytes(settings));
        for (memory, (_, _, width)) in memories.iter().zip(MOST) {
            frame.extend(four_bytes(memory.len() / width));
        }
        frame.extend(receiver_to_bytes(self.kind.receiver()));
        for memory in memories {
            frame.extend(memory);
        }
        frame
    }

    /// Reads a frame in; none if the input ends before it.
    pub fn read(input: &mut impl Read) -> Result<Option<Request>> {
        let mut kind = match input.by_ref().bytes().next().transpose()? {
            None => return Ok(None),
            Some(number) => Kind::numbered(number)?,
        };
        let settings = read_settings(input)?;
        let mut memories = Vec::new();
        for (name, most, width) in MOST {
            let length = read_number(input)?;
            if length > most {
                return Err(broken(format!("{name} of length {length}, more than {most}")));
            }
            memories.push(vec![0; length * width]);
        }
        if let Some(receiver) = kind.receiver_mut() {
            *receiver = read_receiver(input)?;
        }
        for memory in &mut memories {
            input.read_exact(memory)?;
        }
        let mut memories = memories.into_iter();
        let mut next = || memories.next().unwrap_or_default();
        let (templates, index, notepad, buffers) = (next(), next(), next(), [next(), next()]);
        let chip = Chip { scores: numbers(&next()), thresholds: numbers(&next()) };
        let reader = Reader { settings, templates, index, notepad, buffers, chip };
        Ok(Some(Request { kind, reader, run: next(), room: next() }))
    }
}

impl Outcome {
    /// The acknowledge code, if there is a reply.
    pub fn code(&self) -> Option<u8> {
        (self.answer.length > 0).then(|| self.room[9])
    }

    /// The frame out, without the scores and thresholds.
    pub fn frame(&self) -> Vec<u8> {
        let Reader { settings, templates, index, notepad, buffers, .. } = &self.reader;
        let mut frame = vec![self.answer.refusal];
        frame.extend(four_bytes(self.answer.used));
        frame.extend(four_bytes(self.answer.length));
        frame.extend(settings_to_bytes(settings));
        frame.extend(receiver_to_bytes(self.receiver.as_ref()));
        for memory in [templates, index, notepad, &buffers[0], &buffers[1], &self.room] {
            frame.extend(memory);
        }
        frame
    }

    /// Reads the frame out that answers a request.
    pub fn read(input: &mut impl Read, request: &Request) -> Result<Outcome> {
        let refusal = read_bytes::<1>(input)?[0];
        if refusal > 3 {
            return Err(broken(format!("refusal {refusal}")));
        }
        let answer = Answer { refusal, used: read_number(input)?, length: read_number(input)? };
        let mut reader = request.reader.clone();
        let mut room = request.room.clone();
        reader.settings = read_settings(input)?;
        let receiver = request.kind.receiver().map(|_| read_receiver(input)).transpose()?;
        let Reader { templates, index, notepad, buffers: [one, two], .. } = &mut reader;
        for memory in [templates, index, notepad, one, two, &mut room] {
            input.read_exact(memory)?;
        }
        Ok(Outcome { answer, receiver, reader, room })
    }

    /// Whether a receiver's call took nothing, answered nothing and left the held bytes as they are.
    pub fn at_rest(&self, request: &Request) -> bool {
        let held = |receiver: Option<&Receiver>| receiver.map(|receiver| receiver.held().to_vec());
        let as_they_are = held(self.receiver.as_ref()) == held(request.kind.receiver());
        self.answer.used == 0 && self.answer.length == 0 && as_they_are
    }
}

/// The held count and the cells, or nothing where there is no receiver.
fn receiver_to_bytes(receiver: Option<&Receiver>) -> Vec<u8> {
    let bytes = |receiver: &Receiver| [&receiver.count.to_be_bytes()[..], &receiver.cells].concat();
    receiver.map_or_else(Vec::new, bytes)
}

fn read_receiver(input: &mut impl Read) -> Result<Receiver> {
    let count = u16::from_be_bytes(read_bytes(input)?);
    Ok(Receiver { count, cells: read_bytes(input)? })
}

fn settings_to_bytes(settings: &Settings) -> Vec<u8> {
    let mut bytes = Vec::new();
    bytes.extend(settings.password);
    bytes.extend(settings.address);
    bytes.extend([settings.level, settings.size_code, settings.baud_factor, settings.transfer]);
    bytes.extend(settings.sensor_type.to_be_bytes());
    bytes.extend(settings.got.to_be_bytes());
    bytes.extend([settings.verified, settings.filled[0], settings.filled[1], settings.found].map(|mark| mark.0));
    bytes.extend(settings.origins.iter().flat_map(|origin| origin.0.to_be_bytes()));
    bytes
}

fn read_settings(input: &mut impl Read) -> Result<Settings> {
    let password = read_bytes(input)?;
    let address = read_bytes(input)?;
    let [level, size_code, baud_factor, transfer] = read_bytes(input)?;
    let sensor_type = u16::from_be_bytes(read_bytes(input)?);
    let got = u16::from_be_bytes(read_bytes(input)?);
    let [verified, filled_1, filled_2, found] = read_bytes(input)?.map(Mark);
    let filled = [filled_1, filled_2];
    let mut origin = || read_bytes(input).map(|bytes| Origin(u16::from_be_bytes(bytes)));
    let origins = [origin()?, origin()?];
    Ok(Settings {
        password,
        address,
        level,
        size_code,
        baud_factor,
        transfer,
        sensor_type,
        got,
        verified,
        filled,
        found,
        origins,
    })
}

fn numbers_to_bytes(numbers: &[u16]) -> Vec<u8> {
    numbers.iter().flat_map(|number| number.to_be_bytes()).collect()
}

/// Numbers of two bytes each; a last byte by itself is none.
pub fn numbers(bytes: &[u8]) -> Vec<u16> {
    bytes.chunks_exact(2).map(|pair| u16::from_be_bytes([pair[0], pair[1]])).collect()
}

/// Lays numbers over the first bytes of these.
pub fn lay_numbers(bytes: &mut [u8], numbers: &[u16]) {
    bytes[..2 * numbers.len()].copy_from_slice(&numbers_to_bytes(numbers));
}

fn read_bytes<const N: usize>(input: &mut impl Read) -> Result<[u8; N]> {
    let mut bytes = [0; N];
    input.read_exact(&mut bytes)?;
    Ok(bytes)
}

fn read_number(input: &mut impl Read) -> Result<usize> {
    Ok(u32::from_be_bytes(read_bytes(input)?) as usize)
}

fn four_bytes(number: usize) -> [u8; 4] {
    (number as u32).to_be_bytes()
}

fn broken(what: String) -> Error {
    Error::new(ErrorKind::InvalidData, what)
}
