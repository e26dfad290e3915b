//! What is counted of the calls, and which of it must occur.

use crate::cases::origins::CAPACITIES as CAPACITIES_IN_TURN;
use crate::cases::readers::FAR_CAPACITIES;
use crate::cases::receivers::MOST_PIECE;
use crate::reader::receiver::HOLDS;
use crate::reader::*;
pub use Awaited::{Codes, Numbers, UpTo};

/// Something to count, and which of it must occur.
#[derive(Clone, Copy)]
pub struct Kind {
    pub name: &'static str,
    pub awaited: Awaited,
}

#[derive(Clone, Copy)]
pub enum Awaited {
    /// Command and acknowledge codes.
    Codes(&'static [u8]),
    Numbers(&'static [usize]),
    /// Every number up to this one.
    UpTo(usize),
}

impl Kind {
    pub fn awaited(&self) -> Box<dyn Iterator<Item = usize>> {
        match self.awaited {
            Codes(codes) => Box::new(codes.iter().map(|&code| code.into())),
            Numbers(numbers) => Box::new(numbers.iter().copied()),
            UpTo(most) => Box::new(0..=most),
        }
    }

    pub fn label(&self, which: usize) -> String {
        match self.awaited {
            Codes(_) => format!("{which:02X}h"),
            _ => which.to_string(),
        }
    }
}

/// The acknowledge codes of document 01, 22h of document 02's request [5] and 09h of its request [8].
pub const CODES: [u8; 15] = [0x00, 0x01, 0x09, 0x0B, 0x0C, 0x0D, 0x0E, 0x10, 0x13, 0x19, 0x1A, 0x1B, 0x1C, 0x21, 0x22];

/// The commands that a locked reader answers 21h.
const BARRED: [u8; COMMANDS.len() - FREE.len()] = [
    SEARCH,
    STORE,
    LOAD_CHAR,
    UP_CHAR,
    DOWN_CHAR,
    DELET_CHAR,
    EMPTY,
    SET_SYS_PARA,
    SET_PWD,
    SET_ADDER,
    WRITE_NOTEPAD,
    READ_NOTEPAD,
    TEMPLETE_NUM,
    READ_INDEX_TABLE,
];

/// The acknowledge codes of a Search of the right length.
const CODES_OF_SEARCH: [u8; 6] = [0x00, 0x01, 0x09, 0x0B, 0x0C, 0x21];

/// A level's number, ten times, and another's.
const PAIRS_OF_LEVELS: [usize; 20] = [12, 13, 14, 15, 21, 23, 24, 25, 31, 32, 34, 35, 41, 42, 43, 45, 51, 52, 53, 54];

/// The identifiers of document 01.
const IDENTIFIERS: [usize; 4] = [COMMAND as usize, DATA as usize, ACKNOWLEDGE as usize, LAST_DATA as usize];

/// The greatest size code that is legal, and the least and the greatest that is not.
const MOST_SIZE_CODE: usize = SIZES.len() - 1;
const UNFIT_SIZE_CODES: [usize; 2] = [MOST_SIZE_CODE + 1, 255];

/// Pages about 256 and at the end.
const FAR_PAGES: [usize; 5] = [255, 256, 257, 998, 999];

/// A group of kinds, a row to each: the kind, its name, and what is awaited of it.
macro_rules! kinds {
    ($(#[$about:meta])* $group:ident: $($kind:ident = $name:literal, $awaited:expr;)*) => {
        $(pub const $kind: Kind = Kind { name: $name, awaited: $awaited };)*
        $(#[$about])*
        pub const $group: &[Kind] = &[$($kind),*];
    };
}
pub(crate) use kinds;

kinds! {
    /// What a legal reader on a line brings about, in the stored dialogue too.
    ON_A_LINE:
    ACKNOWLEDGES = "acknowledge codes", Codes(&CODES);
    FINE = "commands answered 00h", Codes(&COMMANDS);
    UPLOADS = "uploads by size", Numbers(&SIZES);
    DOWNLOADS = "downloads completed by size", Numbers(&SIZES);
    SIZES_SET = "size codes set", UpTo(MOST_SIZE_CODE);
    SIZES_NOT_SET = "size codes answered 1Bh", Numbers(&UNFIT_SIZE_CODES);
    HEADERS_257 = "headers of length 257 and all bytes behind them, by identifier", Numbers(&IDENTIFIERS);
    HEADERS_258 = "headers of length 258 and all bytes behind them, by identifier", Numbers(&IDENTIFIERS);
    DATA_257 = "data packets of length 257 in a transfer by size", Numbers(&SIZES);
    DATA_258 = "data packets of length 258 in a transfer by size", Numbers(&SIZES);
    STORES_VACANT = "Stores to a vacant page by code", Codes(&[0x00, 0x0C]);
    STORES_OTHER = "Stores to a stored page of other bytes by code", Codes(&[0x0C, 0x21, 0x22]);
    STORES_SAME = "Stores to a stored page of the buffer's bytes by code", Codes(&[0x22]);
    STORES_IN_TRANSFER = "Stores to a stored page that ended a transfer by code", Codes(&[0x0C, 0x22]);
    INDEX_PAGES_READ = "index pages read", UpTo(INDEX_PAGES - 1);
    INDEX_PAGES_REFUSED = "index pages answered 0Bh", Numbers(&[INDEX_PAGES, 255]);
    ORIGINS_SET = "origins set, by command", Codes(&[STORE, LOAD_CHAR]);
    ORIGINS_REPLACED = "origins set in place of another page, by command", Codes(&[STORE, LOAD_CHAR]);
    ORIGINS_MADE_NONE = "origins made none, by command", Codes(&[DOWN_CHAR, DELET_CHAR, EMPTY]);
    BUFFERS_KEPT =
        "filled buffers without an origin that stayed when pages were deleted, by command", Codes(&[DELET_CHAR, EMPTY]);
    SEARCHES = "Searches by code", Codes(&CODES_OF_SEARCH);
    STATUSES = "status words told", Numbers(&[0, 2, 4, 6]);
    COMMANDS_AT_LOCK = "commands answered 00h by a locked reader", Codes(&FREE);
    COMMANDS_BARRED = "commands answered 21h", Codes(&BARRED);
    READS_LOCKED_FOUND =
        "ReadSysParas while locked, found: 0 answered 00h, 1 of a wrong length, 2 of a wrong sum, 3 not ours",
        Numbers(&[0, 1, 2, 3]);
    READS_OPEN =
        "status words told by a reader that is not locked, 10 more if it has a password",
        Numbers(&[0, 2, 4, 6, 14, 16]);
}

kinds! {
    /// What else calls and line switches bring about, with a receiver or without.
    CALLED:
    REFUSALS = "calls by refusal", Numbers(&[0, 1, 2, 3]);
    SWITCHES = "line switches by refusal", Numbers(&[0, 1]);
    MARKS = "calls by refusal, with a mark of neither 0 nor 1", Numbers(&[1, 2, 3]);
    MARKS_SWITCHED = "line switches by refusal, with such a mark", Numbers(&[0]);
    SIZES_REFUSED = "calls refused for the size code alone, by this code", Numbers(&UNFIT_SIZE_CODES);
    STRAY_257 = "data packets of length 257 without a transfer by size", Numbers(&SIZES);
    STRAY_258 = "data packets of length 258 without a transfer by size", Numbers(&SIZES);
    UNFINISHED = "unfinished packets by the bytes that are there", Numbers(&[264, 265, 266]);
    STORES_VACANT_BYTES = "Stores to a vacant page that is not all zero by code", Codes(&[0x00]);
    INDEX_PAGES_NOT_ZERO = "index pages read that are not all zero", UpTo(INDEX_PAGES - 1);
    CAPACITIES = "calls carried out by C", Numbers(&FAR_CAPACITIES);
    CAPACITIES_REFUSED = "calls refused for C alone, by C", Numbers(&[MOST_PAGES + 1]);
    INDEX_LENGTHS_REFUSED = "calls refused for the index's length alone, by this length", Numbers(&[0, 32, 127, 129]);
    BITS_REFUSED = "calls refused for a bit at or above C alone, by the index page of the first", UpTo(INDEX_PAGES - 1);
    PAGES_STORED = "pages stored", Numbers(&FAR_PAGES);
    PAGES_LOADED = "pages loaded", Numbers(&FAR_PAGES);
    PAGES_DELETED = "pages deleted, by the first", Numbers(&FAR_PAGES);
    PAGES_BEYOND = "pages answered 0Bh where C is above 256", Numbers(&[257, 999, 1000, 1001, 1023, 1024]);
    DELETES_ACROSS = "pages deleted on both sides of 256, by N", Numbers(&[2, 100, 257, 1000]);
    NUMBERS_TOLD = "valid counts told", Numbers(&FAR_CAPACITIES);
    DELETES_BY_PLACE =
        "DeletChars by an origin's place: 0 at N = 0, 1 before, 2 alone, 3 first, 4 inside, 5 last, 6 past",
        Numbers(&[0, 1, 2, 3, 4, 5, 6]);
    CODES_WITH_ORIGIN = "acknowledge codes while a buffer has an origin", Codes(&CODES);
    STORES_WITH_ORIGIN = "Stores from a buffer with an origin by code", Codes(&[0x00, 0x0B, 0x21, 0x22]);
    STORES_BESIDE_ORIGIN = "Stores beside a buffer with an origin by code", Codes(&[0x00, 0x0B, 0x0C, 0x21, 0x22]);
    LOADS_WITH_ORIGIN = "LoadChars to a buffer with an origin by code", Codes(&[0x00, 0x0B, 0x0C, 0x21]);
    LOADS_BESIDE_ORIGIN = "LoadChars beside a buffer with an origin by code", Codes(&[0x00, 0x0B, 0x0C, 0x21]);
    DOWN_CHARS_WITH_ORIGIN = "DownChars to a buffer with an origin by code", Codes(&[0x00, 0x21]);
    DOWN_CHARS_BESIDE_ORIGIN = "DownChars beside a buffer with an origin by code", Codes(&[0x00, 0x21]);
    DELETES_FROM_ORIGIN = "DeletChars from an origin on by code", Codes(&[0x00, 0x10, 0x21]);
    EMPTIES_WITH_ORIGIN = "Empties while a buffer has an origin by code", Codes(&[0x00, 0x21]);
    BUFFERS_WIPED = "buffers wiped by DeletChar: 1, 2, or 3 for both", Numbers(&[1, 2, 3]);
    BUFFERS_EMPTIED = "buffers wiped by Empty: 1, 2, or 3 for both", Numbers(&[1, 2, 3]);
    BYTES_WIPED = "buffers wiped: 0 of other bytes than their origin's, 1 of the same", Numbers(&[0, 1]);
    ORIGINS_DELETED = "origins deleted, by page", Numbers(&FAR_PAGES);
    TRANSFERS_BESIDE_ORIGIN =
        "transfers beside an origin: 0 going on, 1 completed, 2 answered 0Eh, 3 ended by a command",
        Numbers(&[0, 1, 2, 3]);
    PAGES_OF_TWO_ORIGINS = "calls carried out with two origins, by their pages", Numbers(&[1, 2]);
    LAST_ORIGINS = "calls carried out with the origin C - 1, by C", Numbers(&CAPACITIES_IN_TURN);
    ORIGINS_AT_C = "calls refused for the origin C alone, by C", Numbers(&CAPACITIES_IN_TURN);
    ORIGINS_BEYOND =
        "calls refused for an origin above C alone, by the origin",
        Numbers(&[2, 256, 999, 1000, 1001, 1023, 1024, 0x8000, 0xFFFE]);
    ORIGINS_VACANT = "calls refused for an origin on a vacant page alone, by buffer", Numbers(&[1, 2]);
    ORIGINS_NOT_FILLED = "calls refused for an origin of a buffer not filled alone, by buffer", Numbers(&[1, 2]);
    ORIGINS_REFUSED =
        "calls refused for an origin alone: 0 of a reader that is not locked, 1 of a locked one", Numbers(&[0, 1]);
    UNFIT_ORIGINS = "calls by refusal, with an origin that is not legal", Numbers(&[1, 2, 3]);
    ORIGINS_SWITCHED = "line switches by refusal, with an origin", Numbers(&[0, 1]);
    UNFIT_ORIGINS_SWITCHED = "line switches by refusal, with an origin that a call refuses", Numbers(&[0, 1]);
    SEARCHES_NOT_FOUND = "Searches while the found mark is clear by code", Codes(&CODES_OF_SEARCH);
    SEARCHES_FOUND = "Searches while the found mark is set by code", Codes(&CODES_OF_SEARCH);
    CODES_NOT_FOUND = "acknowledge codes while the found mark is clear", Codes(&CODES);
    CODES_FOUND = "acknowledge codes while the found mark is set", Codes(&CODES);
    COMMANDS_NOT_FOUND = "commands answered 00h while the found mark is clear", Codes(&COMMANDS);
    COMMANDS_FOUND = "commands answered 00h while the found mark is set", Codes(&COMMANDS);
    SEARCHES_IN_TRANSFER = "Searches that ended a transfer by code", Codes(&[0x00, 0x01, 0x09, 0x0B, 0x0C]);
    RANGES_SEARCHED =
        "ranges searched: 0 of none, 1 below C, 2 to C, 3 cut at C, 4 to 65536, 5 past it",
        Numbers(&[0, 1, 2, 3, 4, 5]);
    LEVELS_THAT_MATTER =
        "Searches by level and by another level, after it, that would find otherwise", Numbers(&PAIRS_OF_LEVELS);
    SCORES_TOO_LOW = "Searches for which the highest score is one too low, by level", Numbers(&[1, 2, 3, 4, 5]);
    SCORES_JUST_ENOUGH = "Searches for which the highest score is just enough, by level", Numbers(&[1, 2, 3, 4, 5]);
    SCORES_FOUND = "scores found", Numbers(&[0, 0x00FF, 0x0100, 0x7FFF, 0x8000, 0xFFFF]);
    PAGES_FOUND = "pages found", Numbers(&[0, 255, 256, 257, 998, 999]);
    PAGES_TIED = "pages that share the highest score: 1, 2, or 3 for more", Numbers(&[1, 2, 3]);
    CAPACITIES_SEARCHED = "pages found by C", Numbers(&CAPACITIES_IN_TURN);
    LAST_PAGES_FOUND = "last pages found by C", Numbers(&CAPACITIES_IN_TURN);
    PLACES_FOUND = "pages found by place: 0 inside the range, 1 first of it, 2 last, 3 alone", Numbers(&[0, 1, 2, 3]);
    HIGHER_PASSED_OVER =
        "pages of a higher score passed over: 0 just before the range, 1 just past it, 2 vacant in it",
        Numbers(&[0, 1, 2]);
    CHIPS_BEFORE =
        "calls refused for scores or thresholds, by the refusal that would come next", Numbers(&[0, 1, 2, 3]);
    CHIPS_BY_RUN =
        "calls refused for scores or thresholds alone: 0 with another packet than a Search, 1 with one, 2 with none",
        Numbers(&[0, 1, 2]);
    CHIPS_BY_LOCK =
        "calls refused for scores or thresholds alone: 0 of a reader that is not locked, 1 of a locked one",
        Numbers(&[0, 1]);
    SCORES_REFUSED = "calls refused for scores alone: 0 for too few of them, 2 for too many", Numbers(&[0, 2]);
    THRESHOLDS_REFUSED = "calls refused for thresholds alone, by their number", Numbers(&[0, 1, 4, 6, 10]);
    FOUND_MARKS_REFUSED =
        "calls refused for the found mark alone: 0 of a reader that is not locked, 1 of a locked one", Numbers(&[0, 1]);
    FOUND_MARKS_SWITCHED =
        "line switches with a found mark: 0 not legal, 1 set; 2 and 3 the same, refused", Numbers(&[0, 1, 2, 3]);
    READS_LOCKED_NOT_FOUND =
        "ReadSysParas while locked, not found: 0 answered 00h, 1 of a wrong length, 2 of a wrong sum, 3 not ours",
        Numbers(&[0, 1, 2, 3]);
    READS_LOCKED_AFTER =
        "ReadSysParas while locked, after: 0 SetPwd, 1 a wrong password, 3 a line switch, 4 ReadSysPara",
        Numbers(&[0, 1, 3, 4]);
    READS_OPEN_AFTER =
        "ReadSysParas while not locked, after: 0 SetPwd, 1 a wrong password, 2 the right one, 3 a line switch, 4 ReadSysPara",
        Numbers(&[0, 1, 2, 3, 4]);
    READS_IN_TRANSFER = "status words told by a ReadSysPara that ended a transfer", Numbers(&[0, 2, 4, 6]);
    LEVELS_TOLD = "levels told while locked", Numbers(&[1, 2, 3, 4, 5]);
    SIZE_CODES_TOLD = "size codes told while locked", Numbers(&[0, 1, 2, 3]);
    BAUD_FACTORS_TOLD = "baud factors told while locked", Numbers(&[1, 2, 3, 4, 5, 6, 7, 8, 9, 10, 11, 12]);
    TYPES_TOLD = "types told while locked", Numbers(&[0, 1, 0x00FF, 0x1234, 0xFFFF]);
    CAPACITIES_TOLD = "C told while locked", Numbers(&CAPACITIES_IN_TURN);
    ADDRESSES_TOLD = "addresses told while locked: 0 zero, 1 the fresh one, 2 another", Numbers(&[0, 1, 2]);
    PASSWORD_BYTES =
        "parameters told while one byte of the password alone is not zero and locks, by its place",
        Numbers(&[0, 1, 2, 3]);
}

kinds! {
    /// What needs a receiver.
    RECEIVED:
    COUNTS = "calls by refusal, with a held count that is not legal", Numbers(&[1, 2, 3]);
    COUNTS_SWITCHED = "line switches by refusal, with such a count", Numbers(&[0, 1]);
    PAST = "calls by refusal, with cells past the count that are not zero", Numbers(&[0, 1, 2, 3]);
    LOCKED = "calls by refusal, of a locked reader", Numbers(&[0, 1, 2, 3]);
    PIECES = "calls carried out by the piece's length", UpTo(MOST_PIECE);
    HELD = "calls carried out by the held count", UpTo(HOLDS);
    SEARCHES_IN_PIECES = "Searches of which a part was held by code", Codes(&CODES_OF_SEARCH);
    READS_IN_PIECES =
        "parameters told while locked, of a packet of which a part was held: 0 not found, 1 found", Numbers(&[0, 1]);
}

kinds! {
    /// What stands there when fresh settings are asked for.
    FRESHENED:
    FRESH = "fresh settings by the refusal that a call would get", Numbers(&[0, 1, 2, 3]);
    FRESH_SIZES = "fresh settings by the size code before", UpTo(255);
    FRESH_MARKS = "fresh settings by refusal, with a mark of neither 0 nor 1 before", Numbers(&[0]);
    FRESH_ORIGINS = "fresh settings by the buffer that had an origin before", Numbers(&[1, 2]);
    FRESH_FOUND_MARKS = "fresh settings with a found mark before: 0 not legal, 1 set", Numbers(&[0, 1]);
}

kinds! {
    /// What an index that is brought over meets.
    BROUGHT:
    BROUGHT_OVER = "indexes brought over by the refusal that a call would get", Numbers(&[0, 1, 2, 3]);
    STORED_INDEXES_REFUSED =
        "bringing over refused for the stored index alone, by its length", Numbers(&[0, 31, 33, 128]);
    LENT_INDEXES_REFUSED = "bringing over refused for the lent index alone, by its length", Numbers(&[0, 32, 127, 129]);
    BOTH_INDEXES_REFUSED =
        "bringing over refused for both indexes, by the stored one's length", Numbers(&[31, 33, 128]);
    MARKS_BROUGHT_OVER = "bringing over by refusal, with a mark of neither 0 nor 1", Numbers(&[0, 1]);
    ORIGINS_BROUGHT_OVER = "bringing over by refusal, with an origin", Numbers(&[0, 1]);
    FOUND_MARKS_BROUGHT_OVER =
        "bringing over with a found mark: 0 not legal, 1 set; 2 and 3 the same, refused", Numbers(&[0, 1, 2, 3]);
}
