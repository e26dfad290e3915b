//! Counts what the calls met and brought about of document 02's request [13]: the lock, and what ReadSysPara tells.

use crate::compare::frame::{Outcome, Request};
use crate::reader::*;
use crate::tally::kinds::*;
use crate::tally::{Met, Tally};

/// What was done to a reader before a ReadSysPara.
#[derive(Clone, Copy)]
pub enum Done {
    PasswordSet = 0,
    WrongPassword = 1,
    RightPassword = 2,
    LineSwitched = 3,
    ParametersRead = 4,
}

impl Tally {
    pub fn add_parameters(&mut self, request: &Request, outcome: &Outcome, met: Option<&Met>) {
        let done = match met.filter(|met| met.packet.identifier == COMMAND) {
            Some(met) => self.add_command(met),
            None => (request.kind.is_line_switch() && outcome.answer.refusal == 0).then_some(Done::LineSwitched),
        };
        if let Some(done) = done {
            self.last = Some((done, outcome.reader.settings.clone()));
        }
    }

    /// A command, by the lock; what it did that matters to a ReadSysPara.
    fn add_command(&mut self, met: &Met) -> Option<Done> {
        let command = met.packet.content[0];
        match met.code.filter(|_| met.request.reader.settings.locked()) {
            Some(0x00) => self.count(COMMANDS_AT_LOCK, command),
            Some(0x21) => self.count(COMMANDS_BARRED, command),
            _ => {}
        }
        if command == READ_SYS_PARA {
            self.add_read(met);
        }
        match (command, met.code?) {
            (SET_PWD, 0x00) => Some(Done::PasswordSet),
            (VFY_PWD, 0x13) => Some(Done::WrongPassword),
            (VFY_PWD, 0x00) => Some(Done::RightPassword),
            (READ_SYS_PARA, 0x00) => Some(Done::ParametersRead),
            _ => None,
        }
    }

    /// A ReadSysPara, by how it came and by the lock.
    fn add_read(&mut self, Met { request, outcome, packet, .. }: &Met) {
        let settings = &request.reader.settings;
        let which: usize = match packet.content.len() {
            _ if packet.address != settings.address => 3,
            _ if !packet.sum_right => 2,
            1 => 0,
            _ => 1,
        };
        if settings.locked() {
            self.count(if settings.found.is_set() { READS_LOCKED_FOUND } else { READS_LOCKED_NOT_FOUND }, which);
        }
        if which == 0 && settings.locked() {
            self.add_told_locked(request);
        } else if which == 0 {
            self.add_told(settings, number(&outcome.room[10..12]));
        }
    }

    /// A reader that is not locked told its parameters, with this status word.
    fn add_told(&mut self, settings: &Settings, status: usize) {
        self.count(READS_OPEN, status + if settings.password == [0; 4] { 0 } else { 10 });
        self.count_after(READS_OPEN_AFTER, settings);
        if settings.transfer != 0 {
            self.count(READS_IN_TRANSFER, status);
        }
    }

    /// A locked reader told its parameters.
    fn add_told_locked(&mut self, request: &Request) {
        let settings = &request.reader.settings;
        self.count_after(READS_LOCKED_AFTER, settings);
        self.count(LEVELS_TOLD, settings.level);
        self.count(SIZE_CODES_TOLD, settings.size_code);
        self.count(BAUD_FACTORS_TOLD, settings.baud_factor);
        self.count(TYPES_TOLD, settings.sensor_type);
        self.count(CAPACITIES_TOLD, request.reader.capacity());
        let address: usize = match settings.address {
            [0, 0, 0, 0] => 0,
            address if address == Settings::fresh().address => 1,
            _ => 2,
        };
        self.count(ADDRESSES_TOLD, address);
        let not_zero: Vec<usize> = (0..4).filter(|&place| settings.password[place] != 0).collect();
        if let [place] = not_zero[..] {
            self.count(PASSWORD_BYTES, place);
        }
        if request.kind.receiver().map_or(false, |receiver| !receiver.held().is_empty()) {
            self.count(READS_IN_PIECES, settings.found.is_set());
        }
    }

    /// Counts what was done last to a reader with these settings.
    fn count_after(&mut self, kind: Kind, settings: &Settings) {
        if let Some((done, _)) = self.last.as_ref().filter(|(_, left)| left == settings) {
            self.count(kind, *done as usize);
        }
    }
}
