//! What the stored dialogue has to show of the command table.

use crate::compare::frame::{Outcome, Request};
use crate::reader::*;
use std::collections::BTreeSet;

/// Document 01's table with document 02's requests [5] and [8]: a command, its length field, and the codes that its row
/// has beside 00h.
pub const ROWS: [(u8, usize, &[u8]); COMMANDS.len()] = [
    (SEARCH, 8, &[0x01, 0x09, 0x0B, 0x0C]),
    (STORE, 6, &[0x01, 0x0B, 0x0C, 0x22]),
    (LOAD_CHAR, 6, &[0x01, 0x0B, 0x0C]),
    (UP_CHAR, 4, &[0x01, 0x0D]),
    (DOWN_CHAR, 4, &[0x01]),
    (DELET_CHAR, 7, &[0x10]),
    (EMPTY, 3, &[]),
    (SET_SYS_PARA, 5, &[0x1A, 0x1B]),
    (READ_SYS_PARA, 3, &[]),
    (SET_PWD, 7, &[]),
    (VFY_PWD, 7, &[0x13]),
    (SET_ADDER, 7, &[]),
    (WRITE_NOTEPAD, 36, &[0x1C]),
    (READ_NOTEPAD, 4, &[0x1C]),
    (TEMPLETE_NUM, 3, &[]),
    (READ_INDEX_TABLE, 4, &[0x0B]),
    (HAND_SHAKE, 3, &[]),
];

/// A command, whether its length was right, and the code that it got.
type Shown = (u8, bool, u8);

#[derive(Default)]
pub struct Coverage(BTreeSet<Shown>);

impl Coverage {
    pub fn add(&mut self, request: &Request, outcome: &Outcome) {
        let command = |packet: &Packet| packet.identifier == COMMAND && packet.sum_right && outcome.answer.length > 0;
        let run = request.whole_run();
        if let Some(packet) = find(&run).1.filter(command) {
            if let Some((command, length, _)) = ROWS.iter().find(|row| row.0 == packet.content[0]) {
                self.0.insert((*command, packet.content.len() + 2 == *length, outcome.room[9]));
            }
        }
    }

    /// What was not shown.
    pub fn missing(&self) -> Vec<String> {
        let told = |(command, length_right, code): Shown| {
            let length = if length_right { "its" } else { "a wrong" };
            format!("{command:02X}h of {length} length answered {code:02X}h")
        };
        awaited().into_iter().filter(|shown| !self.0.contains(shown)).map(told).collect()
    }
}

/// Of each command: 00h, 01h for a wrong length, 21h while locked unless it is free, and each other code of its row.
fn awaited() -> Vec<Shown> {
    let mut awaited = Vec::new();
    for (command, _, codes) in ROWS {
        awaited.extend([(command, true, 0x00), (command, false, 0x01)]);
        if !FREE.contains(&command) {
            awaited.push((command, true, 0x21));
        }
        awaited.extend(codes.iter().map(|&code| (command, true, code)));
    }
    awaited
}
