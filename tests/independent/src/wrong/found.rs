//! Errors in the found mark of document 02's request [8]: what sets and clears it, its bit in the status word, and its
//! refusal.

use super::words::*;
use crate::tally::kinds::CODES;

/// A mark that is not legal.
const UNFIT: Pick = |case| !case.old.settings.found.legal();
const UNFIT_CALL: Pick = |case| CALL(case) && UNFIT(case);
/// A data packet that completes a transfer.
const COMPLETED: Pick =
    |case| CALLED(case) && case.in_transfer() && case.outcome.reader.settings.transfer == 0 && !REPLIED(case);

/// What becomes of the mark.
const KEEP: Setting = |now, old| now.found = old.found;
pub const CLEAR_FOUND: Setting = |now, _| now.found = CLEAR;
pub const SET_FOUND: Setting = |now, _| now.found = SET;

pub fn add(rows: &mut Rows) {
    // Searches.
    rows.both("search-00-keeps-found").sets(gets(SEARCH, 0x00), KEEP);
    rows.reader("search-00-clears-found").sets(gets(SEARCH, 0x00), CLEAR_FOUND);
    rows.reader("search-00-turns-found").sets(gets(SEARCH, 0x00), |now, old| now.found = Mark::of(!old.found.is_set()));
    rows.reader("search-00-sets-found-of-buffer-1-only")
        .sets(|case| case.gets(SEARCH, 0x00) && case.content[1] == 2, KEEP);
    rows.reader("search-00-sets-found-for-a-score-only")
        .sets(|case| case.gets(SEARCH, 0x00) && case.told()[3..] == [0, 0], KEEP);
    rows.reader("search-00-sets-found-2").sets(gets(SEARCH, 0x00), |now, _| now.found = Mark(2));
    rows.both("search-09-keeps-found").sets(gets(SEARCH, 0x09), KEEP);
    rows.reader("search-09-sets-found").sets(gets(SEARCH, 0x09), SET_FOUND);
    for (does, mark) in [("clears", CLEAR), ("sets", SET)] {
        let becomes = move |now: &mut Settings, _: &Settings| now.found = mark;
        for code in [0x01, 0x0B, 0x0C, 0x21] {
            rows.reader(format!("search-{code:02X}-{does}-found")).sets(gets(SEARCH, code), becomes);
        }
        rows.reader(format!("search-of-wrong-length-{does}-found"))
            .sets(|case| case.gets(SEARCH, 0x01) && !case.sum_wrong() && case.content.len() != 6, becomes);
        rows.reader(format!("search-of-wrong-sum-{does}-found"))
            .sets(|case| case.gets(SEARCH, 0x01) && case.sum_wrong(), becomes);
    }
    // Every other command with 00h, every other code, and what gets no reply.
    for (name, command) in named_commands().filter(|(_, command)| *command != SEARCH) {
        rows.reader(format!("{name}-clears-found")).sets(fine(command), CLEAR_FOUND);
        rows.reader(format!("{name}-sets-found")).sets(fine(command), SET_FOUND);
    }
    for code in CODES.into_iter().filter(|code| ![0x00, 0x09].contains(code)) {
        rows.reader(format!("{code:02X}-clears-found"))
            .sets(move |case| case.code == Some(code) && !case.asks(SEARCH), CLEAR_FOUND);
    }
    rows.reader("silence-clears-found")
        .sets(|case| CALLED(case) && case.packet().is_some() && !REPLIED(case), CLEAR_FOUND);
    rows.reader("last-data-sets-found").sets(COMPLETED, SET_FOUND);
    rows.reader("ended-transfer-clears-found")
        .sets(|case| case.in_transfer() && case.gets(HAND_SHAKE, 0x00), CLEAR_FOUND);
    rows.reader("refused-call-clears-found").sets(CALL_REFUSED, CLEAR_FOUND);
    // The line switch.
    rows.both("switch-keeps-found").sets(SWITCHED, KEEP);
    rows.reader("switch-sets-found").sets(SWITCHED, SET_FOUND);
    rows.both("switch-keeps-unfit-found").sets(|case| SWITCHED(case) && UNFIT(case), KEEP);
    rows.both("switch-refuses-unfit-found").refuses(3, |case| SWITCHED(case) && UNFIT(case));
    rows.both("refused-switch-clears-found").sets(SWITCH_REFUSED, CLEAR_FOUND);
    // Fresh settings, and an index brought over.
    rows.fresh("fresh-keeps-found").sets(DONE, KEEP);
    rows.fresh("fresh-sets-found").sets(DONE, SET_FOUND);
    rows.fresh("fresh-keeps-unfit-found").sets(UNFIT, KEEP);
    rows.over("bringing-over-clears-found").sets(DONE, CLEAR_FOUND);
    rows.over("bringing-over-clears-unfit-found").sets(|case| DONE(case) && UNFIT(case), CLEAR_FOUND);
    rows.over("bringing-over-refuses-unfit-found").refuses(3, |case| DONE(case) && UNFIT(case));
    // Marks that are taken though they are not legal.
    rows.reader("takes-unfit-found-for-set").takes_found(SET, UNFIT);
    rows.inside("receiver-takes-unfit-found").takes_found(SET, UNFIT);
    rows.reader("takes-unfit-found-for-clear").takes_found(CLEAR, UNFIT);
    rows.reader("takes-found-2").takes_found(SET, |case| case.old.settings.found == Mark(2));
    rows.reader("takes-found-FF").takes_found(SET, |case| case.old.settings.found == Mark(0xFF));
    rows.reader("takes-found-by-lowest-bit").takes_found(SET, |case| case.old.settings.found.0 & 1 == 1);
    rows.reader("takes-unfit-found-when-locked").takes_found(CLEAR, |case| case.locked() && UNFIT(case));
    rows.reader("tests-found-for-search-only").takes_found(SET, |case| UNFIT(case) && !case.asks(SEARCH));
    rows.reader("tests-found-for-status-only").takes_found(SET, |case| UNFIT(case) && !case.asks(READ_SYS_PARA));
    rows.both("makes-unfit-found-clear").also(UNFIT_CALL, |case| {
        case.ask(|asked| asked.reader.settings.found = CLEAR);
        if case.refusal != 0 {
            case.ignore();
        }
    });
    // Legal marks that are refused, and the order of refusals.
    rows.reader("refuses-found").refuses_found(|_| true);
    rows.reader("refuses-found-when-locked").refuses_found(|old| old.locked());
    rows.reader("refuses-found-in-a-transfer").refuses_found(|old| old.transfer != 0);
    rows.reader("refuses-found-without-filled").refuses_found(|old| old.filled == [CLEAR; 2]);
    rows.reader("unfit-found-before-lengths").refuses(3, |case| CALL(case) && case.refusal == 1 && UNFIT(case));
    rows.reader("unfit-found-before-room").refuses(3, |case| CALL(case) && case.refusal == 2 && UNFIT(case));
    rows.reader("refuses-unfit-found-with-1").refuses(1, |case| CALL(case) && case.refusal == 3 && UNFIT(case));
    // The status word, made of the found mark, which counts as 0 while locked, and the verified mark.
    rows.both("status-without-found").status(|_, verified| [0, 4 * verified]);
    rows.reader("status-found-in-bit-0").status(|found, verified| [0, 4 * verified + found]);
    rows.reader("status-found-in-bit-3").status(|found, verified| [0, 4 * verified + 8 * found]);
    rows.reader("status-found-in-high-byte").status(|found, verified| [2 * found, 4 * verified]);
    rows.reader("status-found-for-verified").status(|found, _| [0, 4 * found]);
    rows.reader("status-found-hides-verified").status(|found, verified| [0, 4 * verified * (1 - found) + 2 * found]);
    rows.reader("status-verified-hides-found").status(|found, verified| [0, 4 * verified + 2 * found * (1 - verified)]);
    rows.reader("status-bits-exchanged").status(|found, verified| [0, 2 * verified + 4 * found]);
    rows.reader("status-not-found").status(|found, verified| [0, 4 * verified + 2 * (1 - found)]);
}

impl Row<'_> {
    /// A call takes such a mark for another; it stays as it is unless a Search changes it.
    fn takes_found(self, taken: Mark, such: Pick) {
        let such = move |case: &Case| CALL(case) && such(case);
        self.also(such, move |case| {
            case.ask(|asked| asked.reader.settings.found = taken);
            if !case.gets(SEARCH, 0x00) && !case.gets(SEARCH, 0x09) {
                case.outcome.reader.settings.found = case.old.settings.found;
            }
        });
    }

    /// A set mark gets refusal 3 with such settings.
    fn refuses_found(self, such: fn(&Settings) -> bool) {
        self.refuses_legal(move |old| old.settings.found.is_set() && such(&old.settings));
    }

    fn status(self, word: fn(u8, u8) -> [u8; 2]) {
        let found = |old: &Settings| if old.locked() { CLEAR } else { old.found };
        self.tells_status(move |old| word(found(old).0, old.verified.0));
    }

    /// ReadSysPara tells this status word, made of the settings of old.
    pub fn tells_status(self, word: impl Fn(&Settings) -> [u8; 2] + 'static) {
        self.retells(fine(READ_SYS_PARA), move |content, old| content[1..3].copy_from_slice(&word(&old.settings)));
    }
}
