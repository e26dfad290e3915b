//! Errors in document 02's request [13]: what passes the lock, what a locked reader tells, and what ReadSysPara leaves.

use super::found::{CLEAR_FOUND, SET_FOUND};
use super::words::*;

/// Where the parameters lie in the content of the acknowledge, behind the code.
const STATUS: Range<usize> = 1..3;
const TYPE: Range<usize> = 3..5;
const CAPACITY: Range<usize> = 5..7;
const LEVEL: Range<usize> = 7..9;
const ADDRESS: Range<usize> = 9..13;
const SIZE_CODE: Range<usize> = 13..15;
const BAUD_FACTOR: Range<usize> = 15..17;

/// The reader is open.
pub const UNLOCK: fn(&mut Request) = |asked| asked.reader.settings.verified = SET;

/// A reader told its parameters while locked, and while not.
const LOCKED: Pick = |case| case.locked() && case.gets(READ_SYS_PARA, 0x00);
const OPEN: Pick = |case| !case.locked() && case.gets(READ_SYS_PARA, 0x00);

/// What bits of the status word go by.
type Shown = fn(&Settings) -> bool;
const VERIFIED: Shown = |old| old.verified.is_set();
const NOT_LOCKED: Shown = |old| !old.locked();
const PASSWORD: Shown = |old| old.password != [0; 4];

pub fn add(rows: &mut Rows) {
    // What is barred, and what passes.
    for (name, command) in named_commands() {
        if FREE.contains(&command) {
            rows.both(format!("{name}-barred")).barred(command);
        } else if [SEARCH, TEMPLETE_NUM].contains(&command) {
            rows.both(format!("{name}-when-locked")).when_locked(command);
        } else {
            rows.reader(format!("{name}-when-locked")).when_locked(command);
        }
    }
    let found = |request: &Request| request.reader.settings.found.is_set();
    rows.reader("read-sys-para-barred-when-found").only(found).barred(READ_SYS_PARA);
    let in_pieces = |request: &Request| !held_by(request).held().is_empty();
    rows.inside("receiver-read-sys-para-barred-in-pieces").only(in_pieces).barred(READ_SYS_PARA);
    // A locked reader takes a ReadSysPara that is not right in one thing alone: by the packet, and by whether it is ours.
    rows.both("locked-read-sys-para-of-any-length")
        .reads(|found, ours| ours && found.sum_right && found.content.len() > 1);
    rows.both("locked-read-sys-para-of-any-sum")
        .reads(|found, ours| ours && !found.sum_right && found.content.len() == 1);
    rows.both("locked-read-sys-para-at-any-address")
        .reads(|found, ours| !ours && found.sum_right && found.content.len() == 1);
    // A locked reader gives 21h to one that should get 01h.
    rows.reader("read-sys-para-lock-before-length")
        .answers(0x21, |case| case.locked() && case.gets(READ_SYS_PARA, 0x01) && !case.sum_wrong());
    rows.reader("read-sys-para-lock-before-sum")
        .answers(0x21, |case| case.locked() && case.gets(READ_SYS_PARA, 0x01) && case.sum_wrong());
    // The status word: when bit 1 shows the found mark, and when bit 2 is set.
    rows.both("locked-status-shows-found").shows(|_| true, VERIFIED);
    rows.both("status-hides-found-unless-verified").shows(VERIFIED, VERIFIED);
    rows.reader("status-hides-found-with-a-password").shows(|old| !PASSWORD(old), VERIFIED);
    rows.reader("status-hides-found-without-a-password").shows(|old| NOT_LOCKED(old) && PASSWORD(old), VERIFIED);
    rows.reader("status-shows-found-when-locked-only").shows(Settings::locked, VERIFIED);
    rows.reader("status-hides-found-by-first-byte-of-password")
        .shows(|old| NOT_LOCKED(old) || old.password[0] == 0, VERIFIED);
    rows.reader("status-hides-found-by-last-byte-of-password")
        .shows(|old| NOT_LOCKED(old) || old.password[3] == 0, VERIFIED);
    rows.reader("status-verified-unless-locked").shows(NOT_LOCKED, NOT_LOCKED);
    rows.reader("status-verified-with-a-password-only").shows(NOT_LOCKED, |old| VERIFIED(old) && PASSWORD(old));
    // What a locked reader tells in a place.
    rows.reader("locked-status-2").tells_at(STATUS, |_| vec![0, 2]);
    rows.reader("locked-status-4").tells_at(STATUS, |_| vec![0, 4]);
    rows.reader("locked-status-as-if-verified").tells_at(STATUS, |old| vec![0, 4 + 2 * old.settings.found.0]);
    rows.reader("locked-status-shows-found-for-verified").tells_at(STATUS, |old| vec![0, 4 * old.settings.found.0]);
    rows.reader("locked-tells-type-0").tells_at(TYPE, |_| vec![0; 2]);
    rows.reader("locked-tells-C-0").tells_at(CAPACITY, |_| vec![0; 2]);
    rows.reader("locked-tells-stored-pages-for-C").tells_at(CAPACITY, |old| ones(&old.index).to_be_bytes().to_vec());
    rows.reader("locked-tells-level-0").tells_at(LEVEL, |_| vec![0; 2]);
    rows.reader("locked-tells-fresh-level").tells_at(LEVEL, |_| vec![0, Settings::fresh().level]);
    rows.reader("locked-tells-address-0").tells_at(ADDRESS, |_| vec![0; 4]);
    rows.reader("locked-tells-fresh-address").tells_at(ADDRESS, |_| Settings::fresh().address.to_vec());
    rows.reader("locked-tells-size-code-0").tells_at(SIZE_CODE, |_| vec![0; 2]);
    rows.reader("locked-tells-fresh-size-code").tells_at(SIZE_CODE, |_| vec![0, Settings::fresh().size_code]);
    rows.reader("locked-tells-baud-factor-0").tells_at(BAUD_FACTOR, |_| vec![0; 2]);
    rows.reader("locked-tells-fresh-baud-factor").tells_at(BAUD_FACTOR, |_| vec![0, Settings::fresh().baud_factor]);
    rows.reader("locked-tells-zeroes").tells_at(STATUS.start..BAUD_FACTOR.end, |_| vec![0; 16]);
    rows.reader("locked-tells-no-status").tells_at(STATUS, |_| vec![]);
    rows.reader("locked-tells-no-address").tells_at(ADDRESS, |_| vec![]);
    rows.reader("locked-tells-no-baud-factor").tells_at(BAUD_FACTOR, |_| vec![]);
    rows.both("locked-tells-nothing").tells_at(STATUS.start..BAUD_FACTOR.end, |_| vec![]);
    rows.reader("locked-tells-with-code-21").tells_at(0..1, |_| vec![0x21]);
    rows.reader("locked-tells-C-and-baud-factor-only").retells(LOCKED, |content, _| {
        [TYPE, LEVEL, ADDRESS, SIZE_CODE].into_iter().for_each(|place| content[place].fill(0));
    });
    rows.reader("locked-tells-from-fresh-address")
        .also(LOCKED, |case| case.outcome.room[2..6].copy_from_slice(&Settings::fresh().address));
    rows.reader("locked-read-sys-para-is-silent").also(LOCKED, |case| case.silence());
    // What a ReadSysPara leaves.
    rows.both("locked-read-sys-para-clears-found").sets(LOCKED, CLEAR_FOUND);
    rows.reader("locked-read-sys-para-sets-found").sets(LOCKED, SET_FOUND);
    rows.both("locked-read-sys-para-unlocks").sets(LOCKED, |now, _| now.verified = SET);
    rows.reader("locked-read-sys-para-zeroes-password").sets(LOCKED, |now, _| now.password = [0; 4]);
    rows.reader("locked-read-sys-para-wipes-buffers").leaves(LOCKED, |now, _| (0..2).for_each(|b| now.wipe(b)));
    rows.reader("read-sys-para-sets-verified").sets(OPEN, |now, _| now.verified = SET);
    rows.reader("read-sys-para-clears-verified").sets(OPEN, |now, _| now.verified = CLEAR);
    rows.both("read-sys-para-keeps-transfer").leaves(fine(READ_SYS_PARA), |now, old| *now = old.clone());
}

impl Row<'_> {
    /// A locked reader gives 21h to this command.
    fn barred(self, command: u8) {
        self.bars(0x21, move |case| case.locked() && (case.gets(command, 0x00) || case.gets(command, 0x13)));
    }

    /// A locked reader carries this command out.
    fn when_locked(self, command: u8) {
        self.as_if(gets(command, 0x21), UNLOCK, |now, _| now.settings.verified = CLEAR);
    }

    /// A locked reader takes such a ReadSysPara for a right one.
    fn reads(self, such: fn(&Packet, bool) -> bool) {
        let ours = |case: &Case, found: &Packet| found.address == case.old.settings.address;
        let such = move |case: &Case| case.packet().map_or(false, |found| such(&found, ours(case, &found)));
        self.takes_packet(
            move |case| case.locked() && case.asks(READ_SYS_PARA) && such(case),
            |old, _| packet(old.settings.address, COMMAND, &[READ_SYS_PARA]),
        );
    }

    fn shows(self, found: Shown, bit_2: Shown) {
        let bit_1 = move |old: &Settings| old.found.is_set() && found(old);
        self.tells_status(move |old| [0, 2 * u8::from(bit_1(old)) + 4 * u8::from(bit_2(old))]);
    }

    /// A locked reader tells these bytes in this place, made of the reader before.
    fn tells_at(self, place: Range<usize>, bytes: fn(&Reader) -> Vec<u8>) {
        self.retells(LOCKED, move |content, old| drop(content.splice(place.clone(), bytes(old))));
    }
}
