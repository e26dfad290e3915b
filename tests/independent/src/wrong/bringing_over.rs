//! Errors in how an index is brought over by document 02's request [6].

use super::basics::set_marks;
use super::words::*;

/// The bytes of the lent index behind the stored ones.
const REST: usize = INDEX - SHORT_INDEX;

pub fn add(rows: &mut Rows) {
    // What becomes of the lent index.
    rows.over("brings-nothing-over").lays(|_, lent| lent.to_vec());
    rows.over("brings-over-one-byte-late").lays(|stored, _| [&[0], stored, &[0; REST - 1]].concat());
    rows.over("brings-over-to-the-end").lays(|stored, _| [&[0; REST], stored].concat());
    rows.over("brings-31-bytes-over").lays(|stored, _| [&stored[..31], &[0; REST + 1]].concat());
    rows.over("brings-over-four-times").lays(|stored, _| stored.repeat(4));
    rows.over("brings-over-by-four").lays(|stored, _| stored.iter().flat_map(|&b| [b, 0, 0, 0]).collect());
    rows.over("brings-bytes-over-turned").lays(|stored, _| stored.iter().rev().copied().chain([0; REST]).collect());
    rows.over("brings-bits-over-turned")
        .lays(|stored, _| stored.iter().map(|byte| byte.reverse_bits()).chain([0; REST]).collect());
    rows.over("keeps-lent-bits")
        .lays(|stored, lent| stored.iter().zip(lent).map(|(one, other)| one | other).chain([0; REST]).collect());
    rows.over("keeps-rest").lays(|stored, lent| [stored, &lent[SHORT_INDEX..]].concat());
    rows.over("keeps-first-byte-of-rest").leaves(DONE, |now, old| now.index[SHORT_INDEX] = old.index[SHORT_INDEX]);
    rows.over("keeps-last-byte-of-rest").leaves(DONE, |now, old| now.index[INDEX - 1] = old.index[INDEX - 1]);
    rows.over("sets-rest").lays(|stored, _| [stored, &[0xFF; REST]].concat());
    // The lengths of the stored and of the lent index that are taken.
    rows.over("takes-stored-0").takes_lengths(|stored, lent| stored == 0 && lent == INDEX);
    rows.over("takes-stored-31").takes_lengths(|stored, lent| stored == 31 && lent == INDEX);
    rows.over("takes-stored-33").takes_lengths(|stored, lent| stored == 33 && lent == INDEX);
    rows.over("takes-stored-128").takes_lengths(|stored, lent| stored == 128 && lent == INDEX);
    rows.over("takes-any-stored").takes_lengths(|_, lent| lent == INDEX);
    rows.over("takes-lent-32").takes_lengths(|stored, lent| stored == SHORT_INDEX && lent == 32);
    rows.over("takes-lent-127").takes_lengths(|stored, lent| stored == SHORT_INDEX && lent == 127);
    rows.over("takes-lent-129").takes_lengths(|stored, lent| stored == SHORT_INDEX && lent == 129);
    rows.over("takes-any-lent").takes_lengths(|stored, _| stored == SHORT_INDEX);
    rows.over("takes-96-bytes-more").takes_lengths(|stored, lent| stored + REST == lent);
    rows.over("takes-lengths-in-turn").takes_lengths(|stored, lent| stored == 128 && lent == 32);
    // What is refused, and what that leaves.
    rows.over("refuses-all").refuses(1, |_| true);
    for (refusal, what) in [(1, "unfit-memory"), (2, "small-room"), (3, "unfit-settings")] {
        let like_call = move |case: &Case| case.old.refusal(case.request.room.len()) == refusal;
        rows.over(format!("refuses-{what}")).refuses(refusal, like_call);
    }
    rows.over("refuses-bits-beyond")
        .refuses(3, |case| DONE(case) && case.outcome.reader.bits_beyond().next().is_some());
    for refusal in [0, 2, 3] {
        rows.over(format!("refuses-with-{refusal}")).refuses(refusal, REFUSED);
    }
    rows.over("refused-zeroes-lent").leaves(REFUSED, |now, _| now.index.fill(0));
    rows.over("refused-copies-stored").also(REFUSED, |case| {
        case.outcome.reader.index.iter_mut().zip(&case.request.run).for_each(|(lent, stored)| *lent = *stored);
    });
    // What else is done.
    rows.over("clears-bits-beyond").leaves(DONE, |now, _| clear_beyond(now));
    rows.over("zeroes-vacant-pages").leaves(DONE, |now, _| zero_vacant(now));
    rows.over("lays-fresh-settings").sets(DONE, |now, _| *now = Settings::fresh());
    rows.over("makes-marks-legal").sets(DONE, |now, _| set_marks(now));
    rows.over("switches-line-too").leaves(DONE, |now, _| drop(line_switch(now)));
    rows.over("tells-stored-bytes-used").also(DONE, |case| case.outcome.answer.used = SHORT_INDEX);
    rows.over("tells-index-as-reply").also(DONE, |case| case.outcome.answer.length = INDEX);
    rows.over("runs-stored-index").also(DONE, |case| {
        let reader = case.outcome.reader.clone();
        let called = Request { kind: Kind::Call, reader, ..case.request.clone() }.carried_out();
        if called.answer.refusal == 0 {
            case.outcome = called;
        }
    });
}

impl Row<'_> {
    /// Where both lengths fit, the lent index becomes this, made of the stored one and of what it was.
    fn lays(self, index: fn(&[u8], &[u8]) -> Vec<u8>) {
        self.also(DONE, move |case| case.outcome.reader.index = index(&case.request.run, &case.old.index));
    }

    /// Such lengths are taken too: the stored index is brought over as far as it goes and fits.
    fn takes_lengths(self, such: fn(usize, usize) -> bool) {
        self.as_if(
            move |case| such(case.request.run.len(), case.old.index.len()),
            |asked| {
                asked.run.resize(SHORT_INDEX, 0);
                asked.reader.index.resize(INDEX, 0);
            },
            |now, old| now.index.resize(old.index.len(), 0),
        );
    }
}
