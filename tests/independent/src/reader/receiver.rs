//! The receiver of document 02's request [1], with the held bytes of its request [3], written from that paper alone.

use crate::reader::{self, Answer, Reader};

/// The most bytes that a receiver holds.
pub const HOLDS: usize = 267;

#[derive(Clone, Debug, PartialEq, Eq)]
pub struct Receiver {
    /// How many bytes are held; more than the most is not legal.
    pub count: u16,
    pub cells: [u8; HOLDS],
}

impl Receiver {
    pub fn empty() -> Receiver {
        Receiver::holding(&[])
    }

    /// A receiver that holds these bytes, with zeroes in the cells past them.
    pub fn holding(bytes: &[u8]) -> Receiver {
        let mut cells = [0; HOLDS];
        cells[..bytes.len()].copy_from_slice(bytes);
        Receiver { count: bytes.len() as u16, cells }
    }

    pub fn legal(&self) -> bool {
        usize::from(self.count) <= HOLDS
    }

    /// The held bytes; all cells if the count is not legal.
    pub fn held(&self) -> &[u8] {
        &self.cells[..usize::from(self.count).min(HOLDS)]
    }

    /// The cells past the held count.
    pub fn past(&self) -> &[u8] {
        &self.cells[self.held().len()..]
    }

    /// The held bytes, and behind them what fits of a piece.
    pub fn joined(&self, piece: &[u8]) -> Vec<u8> {
        let fits = piece.len().min(self.past().len());
        [self.held(), &piece[..fits]].concat()
    }
}

/// A receiver's call: takes what fits of the piece, does document 01's call on all held bytes, and drops those used.
pub fn call(receiver: &mut Receiver, reader: &mut Reader, piece: &[u8], reply_room: &mut [u8]) -> Answer {
    let refusal = match reader.refusal(reply_room.len()) {
        0 if !receiver.legal() => 3,
        refusal => refusal,
    };
    if refusal != 0 {
        return Answer::without_reply(refusal);
    }
    let joined = receiver.joined(piece);
    let taken = joined.len() - receiver.held().len();
    let Answer { used, length, .. } = reader::call(reader, &joined, reply_room);
    *receiver = Receiver::holding(&joined[used..]);
    Answer { refusal: 0, used: taken, length }
}

/// The line switch, which also empties the held bytes.
pub fn line_switch(receiver: &mut Receiver, reader: &mut Reader) -> Answer {
    let answer = reader::line_switch(reader);
    if answer.refusal == 0 {
        *receiver = Receiver::empty();
    }
    answer
}

/// What a reader comes to when it is given a run.
#[derive(PartialEq, Eq)]
pub struct Rest {
    pub reader: Reader,
    /// The replies in order.
    pub replies: Vec<u8>,
    /// The bytes that wait for more.
    pub left: Vec<u8>,
}

/// The run given whole: document 01's call again and again, until one uses nothing. No call may be refused.
pub fn given_whole(mut reader: Reader, mut run: &[u8]) -> Rest {
    let mut replies = Vec::new();
    loop {
        let mut room = [0; reader::ROOM];
        let Answer { used, length, .. } = reader::call(&mut reader, run, &mut room);
        replies.extend(&room[..length]);
        run = &run[used..];
        if used == 0 {
            return Rest { reader, replies, left: run.to_vec() };
        }
    }
}
