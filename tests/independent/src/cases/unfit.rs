//! Settings, transfers and origins that are not legal, one at a time.

use crate::reader::*;

/// What makes settings that are legal unfit.
const SPOIL: [fn(&mut Settings); 18] = [
    |settings| settings.level = 0,
    |settings| settings.level = 6,
    |settings| settings.size_code = 4,
    |settings| settings.size_code = 255,
    |settings| settings.baud_factor = 0,
    |settings| settings.baud_factor = 13,
    |settings| settings.verified = Mark(2),
    |settings| settings.filled[0] = Mark(0xFF),
    |settings| settings.filled[1] = Mark(2),
    |settings| settings.found = Mark(2),
    |settings| settings.found = Mark(0x80),
    |settings| settings.got = 128,
    |settings| settings.transfer = 3,
    |settings| open(settings, 1, 64),
    |settings| open(settings, 1, 512),
    |settings| open(settings, 2, 640),
    |settings| {
        open(settings, 2, 128);
        settings.filled[1] = SET;
    },
    |settings| {
        open(settings, 1, 0);
        settings.password = [5, 0, 0, 0];
    },
];

/// Opens a transfer that got so many bytes.
fn open(settings: &mut Settings, buffer: u8, got: u16) {
    (settings.transfer, settings.got) = (buffer, got);
    settings.filled[usize::from(buffer) - 1] = CLEAR;
}

/// Settings that are not legal, and origins of readers locked and not: at or above C, on a vacant page and of a buffer
/// that is not filled, where C is nine, page 4 is stored and pages 0 and 3 are vacant.
pub fn settings(legal: &Settings) -> Vec<Settings> {
    let without_origins = Settings { origins: [NONE; 2], ..legal.clone() };
    let mut unfit = vec![without_origins; SPOIL.len()];
    SPOIL.iter().zip(&mut unfit).for_each(|(spoil, settings)| spoil(settings));
    let beyond_or_vacant = [9, 10, 1000, 0x8000, 0xFFFE, 0, 3].map(|origin| (origin, SET));
    let not_filled = [4, 0].map(|origin| (origin, CLEAR));
    for (origin, filled) in beyond_or_vacant.into_iter().chain(not_filled) {
        for (buffer, password) in [(0, 0), (1, 0), (0, 5), (1, 5)] {
            let mut settings = legal.clone();
            settings.origins[buffer] = Origin(origin);
            settings.filled[buffer] = filled;
            settings.password[3] = password;
            unfit.push(settings);
        }
    }
    unfit
}
