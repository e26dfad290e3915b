//! Makes a case on which two readers differ small, as long as they still differ.

use crate::compare::fit::right_room;
use crate::compare::frame::{Kind, Outcome, Request};
use crate::reader::receiver::{Receiver, HOLDS};
use crate::reader::*;

/// The most cases that are tried.
const TRIES: usize = 4000;

/// Sets one field of the settings to its fresh value.
type Freshen = fn(&mut Settings, Settings);

const FIELDS: [Freshen; 13] = [
    |settings, fresh| settings.password = fresh.password,
    |settings, fresh| settings.address = fresh.address,
    |settings, fresh| settings.level = fresh.level,
    |settings, fresh| settings.size_code = fresh.size_code,
    |settings, fresh| settings.baud_factor = fresh.baud_factor,
    |settings, fresh| settings.sensor_type = fresh.sensor_type,
    |settings, fresh| settings.verified = fresh.verified,
    |settings, fresh| settings.found = fresh.found,
    |settings, fresh| settings.origins[0] = fresh.origins[0],
    |settings, fresh| settings.origins[1] = fresh.origins[1],
    |settings, fresh| settings.filled[0] = fresh.filled[0],
    |settings, fresh| settings.filled[1] = fresh.filled[1],
    |settings, fresh| {
        settings.transfer = fresh.transfer;
        settings.got = fresh.got;
    },
];

/// The memories by number: templates, index, notepad, buffers 1 and 2, reply room, table or report.
const MEMORIES: usize = 6;

struct Shrinker<F> {
    case: Request,
    /// What the other reader makes of the case.
    outcome: Outcome,
    /// Asks the other reader.
    ask: F,
    tries: usize,
}

/// A smaller case on which the readers differ, and what the other reader makes of it.
pub fn shrink(
    case: Request,
    outcome: Outcome,
    ask: impl FnMut(&Request) -> Result<Outcome, String>,
) -> (Request, Outcome) {
    let mut shrinker = Shrinker { case, outcome, ask, tries: TRIES };
    loop {
        let before = shrinker.case.clone();
        shrinker.reduce_capacity();
        shrinker.shorten_run();
        shrinker.empty_receiver();
        shrinker.freshen_settings();
        for which in 0..MEMORIES {
            shrinker.right_length(which);
            shrinker.zero(|case| memory(case, which));
        }
        shrinker.right_chip();
        shrinker.zero(|case| &mut case.reader.chip.scores);
        shrinker.zero(|case| &mut case.reader.chip.thresholds);
        if shrinker.case == before {
            return (shrinker.case, shrinker.outcome);
        }
    }
}

impl<F: FnMut(&Request) -> Result<Outcome, String>> Shrinker<F> {
    /// Keeps the change if the readers still differ; once the other reader fails no more is tried.
    fn attempt(&mut self, change: impl FnOnce(&mut Request)) -> bool {
        let mut smaller = self.case.clone();
        change(&mut smaller);
        if smaller == self.case || self.tries == 0 {
            return false;
        }
        self.tries -= 1;
        let outcome = match (self.ask)(&smaller) {
            Ok(outcome) => outcome,
            Err(_) => {
                self.tries = 0;
                return false;
            }
        };
        let kept = outcome != smaller.carried_out();
        if kept {
            self.case = smaller;
            self.outcome = outcome;
        }
        kept
    }

    fn shorten_run(&mut self) {
        let mut piece = self.case.run.len();
        while piece > 0 {
            let mut start = 0;
            while start < self.case.run.len() {
                let end = self.case.run.len().min(start + piece);
                if !self.attempt(|case| drop(case.run.drain(start..end))) {
                    start = end;
                }
            }
            piece /= 2;
        }
    }

    /// Lets the receiver hold less, and zeroes the cells that do not matter.
    fn empty_receiver(&mut self) {
        let mut piece = self.held().len();
        while piece > 0 {
            let mut start = 0;
            while start < self.held().len() {
                let end = self.held().len().min(start + piece);
                if !self.attempt(|case| change_held(case, |held| drop(held.drain(start..end)))) {
                    start = end;
                }
            }
            piece /= 2;
        }
        for cell in 0..HOLDS {
            if self.case.kind.receiver().map_or(false, |receiver| receiver.cells[cell] != 0) {
                self.attempt(|case| case.kind.receiver_mut().into_iter().for_each(|receiver| receiver.cells[cell] = 0));
            }
        }
    }

    fn held(&self) -> &[u8] {
        self.case.kind.receiver().map_or(&[], Receiver::held)
    }

    /// Takes away pages at the end, first many at once and then fewer.
    fn reduce_capacity(&mut self) {
        let mut piece = self.case.reader.capacity();
        while piece > 0 {
            while self.case.reader.capacity() > piece {
                let pages = self.case.reader.capacity() - piece;
                if !self.attempt(|case| keep_pages(case, pages)) {
                    break;
                }
            }
            piece /= 2;
        }
    }

    fn freshen_settings(&mut self) {
        self.attempt(readdress);
        for freshen in FIELDS {
            self.attempt(|case| freshen(&mut case.reader.settings, Settings::fresh()));
        }
    }

    fn right_length(&mut self, which: usize) {
        let pages = self.case.reader.capacity().max(1);
        let lengths = [PAGE * pages, INDEX, PAGE, PAGE, PAGE, right_room(&self.case)];
        self.attempt(|case| memory(case, which).resize(lengths[which], 0));
    }

    /// Gives the scores and the thresholds their right lengths.
    fn right_chip(&mut self) {
        let pages = self.case.reader.capacity();
        self.attempt(|case| case.reader.chip.scores.resize(pages, 0));
        self.attempt(|case| case.reader.chip.thresholds.resize(THRESHOLDS, 0));
    }

    /// Zeroes a memory, or those parts of it that do not matter.
    fn zero<T: Copy + From<u8> + PartialEq>(&mut self, memory: impl Fn(&mut Request) -> &mut Vec<T>) {
        let zero = T::from(0);
        let length = memory(&mut self.case).len();
        let least = (length / 64).max(1);
        let mut piece = length;
        while piece >= least {
            for start in (0..length).step_by(piece) {
                let end = length.min(start + piece);
                if memory(&mut self.case)[start..end].iter().any(|&part| part != zero) {
                    self.attempt(|case| memory(case)[start..end].fill(zero));
                }
            }
            piece /= 2;
        }
    }
}

/// Takes away the pages from this one on, their bits, their scores and their numbers in a table.
fn keep_pages(case: &mut Request, pages: usize) {
    if case.kind == Kind::CloseGaps {
        let rest = case.room.len().saturating_sub(2 * (case.reader.capacity() - pages));
        case.room.truncate(rest);
    }
    for page in pages..case.reader.capacity() {
        if let Some(byte) = case.reader.index.get_mut(page / 8) {
            *byte &= !bit(page);
        }
    }
    case.reader.templates.truncate(PAGE * pages);
    case.reader.chip.scores.truncate(pages);
}

/// Changes the held bytes of a receiver with a legal count; the cells past them keep their bytes as far as they can.
fn change_held(case: &mut Request, change: impl FnOnce(&mut Vec<u8>)) {
    if let Some(receiver) = case.kind.receiver_mut().filter(|receiver| receiver.legal()) {
        let mut held = receiver.held().to_vec();
        change(&mut held);
        receiver.count = held.len() as u16;
        receiver.cells[..held.len()].copy_from_slice(&held);
    }
}

/// Gives the reader the fresh address, and the packets in the run and among the held bytes with it.
fn readdress(case: &mut Request) {
    let old = case.reader.settings.address;
    let new = Settings::fresh().address;
    let renew = |run: &mut Vec<u8>| {
        for place in 2..run.len().saturating_sub(3) {
            if run[place..].starts_with(&old) && run[..place].ends_with(&[0xEF, 0x01]) {
                run[place..place + 4].copy_from_slice(&new);
            }
        }
    };
    case.reader.settings.address = new;
    renew(&mut case.run);
    change_held(case, renew);
}

fn memory(case: &mut Request, which: usize) -> &mut Vec<u8> {
    let Reader { templates, index, notepad, buffers: [one, two], .. } = &mut case.reader;
    match which {
        0 => templates,
        1 => index,
        2 => notepad,
        3 => one,
        4 => two,
        _ => &mut case.room,
    }
}
