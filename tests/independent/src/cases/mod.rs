//! Cases by chance: dialogues with a legal reader, and single calls of readers legal and not.

mod author;
pub mod bringing_over;
pub mod chance;
mod chips;
pub mod counts;
pub mod gaps;
mod leavers;
pub mod limits;
pub mod origins;
pub mod parameters;
pub mod readers;
pub mod receivers;
pub mod salvage;
pub mod search;
pub mod thousand;
mod unfit;

use crate::cases::author::{Author, Event};
use crate::cases::chance::Chance;
use crate::cases::readers::{any_legal_reader, capacity, spoiled_reader};
use crate::compare::frame::{Kind, Outcome, Request};
use crate::reader::*;
use std::collections::VecDeque;

/// A reader that is called again and again, each time with what is left of the bytes that came in, and with new scores
/// and thresholds. At times its gaps are closed between, or the old program had it and it is salvaged.
pub struct Dialogue {
    chance: Chance,
    reader: Reader,
    /// The bytes that came in and are not used.
    left: Vec<u8>,
    /// The bytes that are left can only be used when more come in.
    waiting: bool,
    events: VecDeque<Event>,
    scenes: usize,
}

impl Dialogue {
    pub fn new(mut chance: Chance) -> Dialogue {
        let capacity = capacity(&mut chance);
        let reader = any_legal_reader(&mut chance, capacity);
        let scenes = chance.within(4, 14);
        Dialogue { chance, reader, left: Vec::new(), waiting: true, events: VecDeque::new(), scenes }
    }

    /// The next call, line switch, closing of the gaps or salvage; none when the dialogue is over.
    pub fn next(&mut self) -> Option<Request> {
        let mut kind = Kind::Call;
        if self.waiting && self.events.is_empty() && self.chance.percent(20) {
            return Some(self.upkeep());
        }
        if self.waiting {
            while self.events.is_empty() {
                self.next_scene()?;
            }
            match self.events.pop_front()? {
                Event::Bytes(bytes) => self.left.extend(bytes),
                Event::LineSwitch => kind = Kind::LineSwitch,
            }
        }
        let room = ROOM + self.chance.pick(&[0, 0, 1, 20]);
        let room = self.chance.bytes(room);
        let request = Request { kind, reader: self.reader.clone(), run: self.left.clone(), room };
        Some(chips::renewed(&mut self.chance, request))
    }

    fn upkeep(&mut self) -> Request {
        let reader = self.reader.clone();
        if self.chance.percent(50) {
            gaps::closing(reader)
        } else {
            salvage::salvaging(salvage::left_by_old_program(&mut self.chance, reader))
        }
    }

    /// Goes on from where the answer left the reader.
    pub fn go_on(&mut self, outcome: Outcome) {
        self.reader = outcome.reader;
        self.left.drain(..outcome.answer.used);
        self.waiting = outcome.answer.used == 0 || self.left.is_empty();
    }

    fn next_scene(&mut self) -> Option<()> {
        self.scenes = self.scenes.checked_sub(1)?;
        if self.chance.percent(60) {
            self.left.clear();
        }
        self.events = Author { chance: &mut self.chance, reader: &self.reader }.scene().into();
        Some(())
    }
}

/// One call or line switch of a reader that is legal or spoiled, or fresh settings, an index brought over, the gaps
/// closed or a salvage for it.
pub fn single(mut chance: Chance) -> Request {
    let (reader, room) = spoiled_reader(&mut chance);
    let run = Author { chance: &mut chance, reader: &reader }.run();
    let kind = match chance.below(100) {
        0..=11 => Kind::LineSwitch,
        12..=21 => Kind::FreshSettings,
        22..=33 => return bringing_over::by_chance(&mut chance, Request { kind: Kind::BringOver, reader, run, room }),
        34..=45 => return gaps::by_chance(&mut chance, Request { kind: Kind::CloseGaps, reader, run, room }),
        46..=57 => return salvage::by_chance(&mut chance, Request { kind: Kind::Salvage, reader, run, room }),
        _ => Kind::Call,
    };
    chips::suited(&mut chance, Request { kind, reader, run, room })
}
