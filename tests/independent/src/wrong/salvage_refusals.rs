//! Errors in what a salvage by document 02's request [10] refuses, and in what else it does.

use super::basics::set_marks;
use super::words::*;
use crate::reader::gaps::close_gaps;
use crate::reader::salvage::REPORT;

/// The settings that a call tests, in the order of what makes them fit.
const SETTINGS: [&str; FIT_SETTINGS.len()] =
    ["level", "size-code", "baud-factor", "verified-mark", "filled-mark", "found-mark", "transfer", "origin"];

pub fn add(rows: &mut Rows) {
    // Lengths that are taken.
    for length in [0, REPORT - 1, REPORT + 1, 2 * REPORT] {
        rows.salvaging(format!("takes-report-of-{length}"))
            .takes_for(move |case| case.request.room.len() == length, FIT_ROOM);
    }
    rows.salvaging("takes-report-of-C")
        .takes_for(|case| REFUSED(case) && case.request.room.len() == case.old.capacity(), FIT_ROOM);
    rows.salvaging("takes-longer-report").takes_for(|case| case.request.room.len() > REPORT, FIT_ROOM);
    rows.salvaging("takes-report-of-C-or-more")
        .takes_for(|case| case.request.room.len() >= case.old.capacity(), FIT_ROOM);
    for length in [0, SHORT_INDEX, 127, 129, 256] {
        rows.salvaging(format!("salvage-takes-index-of-{length}"))
            .takes_for(move |case| case.old.index.len() == length, FIT_INDEX);
    }
    rows.salvaging("salvage-takes-1001-pages").takes_for(|case| case.old.capacity() > MOST_PAGES, FIT_TEMPLATES);
    rows.salvaging("salvage-takes-no-pages").takes_for(|case| case.old.templates.is_empty(), FIT_TEMPLATES);
    rows.salvaging("salvage-takes-uneven-templates")
        .takes_for(|case| case.old.templates.len() % PAGE != 0, FIT_TEMPLATES);
    // What is refused.
    for (name, fit) in SETTINGS.into_iter().zip(FIT_SETTINGS) {
        rows.salvaging(format!("salvage-refuses-unfit-{name}"))
            .refuses(3, move |case| DONE(case) && unfit_for(case, fit));
    }
    rows.salvaging("salvage-refuses-bits").refuses(3, |case| DONE(case) && case.old.bits_beyond().next().is_some());
    rows.salvaging("salvage-asks-lock").refuses(3, |case| DONE(case) && case.locked());
    rows.salvaging("salvage-refused-in-a-transfer").refuses(3, |case| DONE(case) && case.in_transfer());
    for refusal in 1..=3 {
        rows.salvaging(format!("salvage-tests-like-call-{refusal}"))
            .refuses(refusal, move |case| case.old.refusal(case.request.room.len()) == refusal);
    }
    rows.salvaging("salvage-refuses-1000-pages").refuses(1, |case| case.old.capacity() == MOST_PAGES);
    rows.salvaging("salvage-refuses-257-pages").refuses(1, |case| case.old.capacity() > 256);
    rows.salvaging("refuses-what-is-clean").refuses(1, |case| DONE(case) && case.outcome.room == [0; REPORT]);
    for refusal in [0, 2, 3] {
        rows.salvaging(format!("salvage-refuses-with-{refusal}")).refuses(refusal, REFUSED);
    }
    // What a refused one leaves.
    rows.salvaging("refused-zeroes-report").also(REFUSED, |case| case.outcome.room.fill(0));
    rows.salvaging("refused-reports").also(REFUSED, |case| case.outcome.room = fitted(case, FIT_ROOM).room);
    rows.salvaging("refused-salvages").also(REFUSED, |case| case.outcome.reader = fitted(case, FIT_ROOM).reader);
    rows.salvaging("refused-clears-bits").leaves(REFUSED, |now, _| clear_beyond(now));
    rows.salvaging("refused-zeroes-vacant-pages").leaves(REFUSED, |now, _| zero_vacant(now));
    // What else is done to settings.
    rows.salvaging("salvage-lays-fresh-settings").sets(DONE, |now, _| *now = Settings::fresh());
    rows.salvaging("salvage-makes-marks-legal").sets(DONE, |now, _| set_marks(now));
    rows.salvaging("salvage-makes-level-legal").sets(DONE, |now, _| now.level = now.level.clamp(1, 5));
    rows.salvaging("salvage-clears-verified").sets(DONE, |now, _| now.verified = CLEAR);
    rows.salvaging("salvage-clears-filled").sets(DONE, |now, _| now.filled = [CLEAR; 2]);
    rows.salvaging("salvage-clears-found").sets(DONE, |now, _| now.found = CLEAR);
    rows.salvaging("salvage-ends-transfer").sets(DONE, |now, _| (now.transfer, now.got) = (0, 0));
    rows.salvaging("salvage-makes-origins-none").sets(DONE, |now, _| now.origins = [NONE; 2]);
    rows.salvaging("makes-origins-beyond-none").leaves(DONE, |now, old| {
        let beyond = NONE.0 - 1;
        let reaches = |origin: &Origin| origin.among(&(old.capacity()..usize::from(beyond) + 1));
        now.settings.origins.iter_mut().filter(|origin| reaches(origin)).for_each(|origin| *origin = NONE);
    });
    rows.salvaging("makes-vacant-origins-none").leaves(DONE, |now, old| {
        for origin in &mut now.settings.origins {
            if origin.page().map_or(false, |page| page < old.capacity() && !old.stored(page)) {
                *origin = NONE;
            }
        }
    });
    // What else is done to memory.
    rows.salvaging("salvage-zeroes-buffer-1").leaves(DONE, |now, _| now.buffers[0].fill(0));
    rows.salvaging("salvage-zeroes-buffer-2").leaves(DONE, |now, _| now.buffers[1].fill(0));
    rows.salvaging("salvage-zeroes-notepad").leaves(DONE, |now, _| now.notepad.fill(0));
    rows.salvaging("salvage-switches-line").leaves(DONE, |now, _| drop(line_switch(now)));
    rows.salvaging("salvage-closes-gaps").leaves(DONE, |now, _| drop(close_gaps(now, &mut vec![0; now.capacity()])));
    rows.salvaging("salvage-empties").leaves(DONE, |now, _| {
        now.index.fill(0);
        now.templates.fill(0);
    });
    // What else is told.
    rows.salvaging("tells-report-as-reply").also(DONE, |case| case.outcome.answer.length = REPORT);
    rows.salvaging("tells-run-used").also(DONE, |case| case.outcome.answer.used = case.request.run.len());
    rows.salvaging("tells-changes-used").also(DONE, |case| {
        case.outcome.answer.used = case.outcome.room.iter().filter(|&&said| said != 0).count();
    });
}

/// Whether settings get refusal 3, by a closing of what the salvage leaves, and do not with this change.
fn unfit_for(case: &Case, fit: Fit) -> bool {
    let mut asked = Request { kind: Kind::CloseGaps, reader: case.outcome.reader.clone(), ..case.request.clone() };
    FIT_ROOM(&mut asked);
    let refusal = asked.carried_out().answer.refusal;
    fit(&mut asked);
    refusal == 3 && asked.carried_out().answer.refusal == 0
}

/// What comes of a case with this change.
fn fitted(case: &Case, fit: Fit) -> Outcome {
    let mut asked = case.request.clone();
    fit(&mut asked);
    let mut outcome = asked.carried_out();
    outcome.room.resize(case.request.room.len(), 0);
    outcome
}
