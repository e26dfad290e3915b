//! Errors in the refusal 1 of document 02's request [8], which is for the lengths of scores and thresholds.

use super::receivers::{take_piece, FIT_COUNT};
use super::words::*;

/// What lacks is 0, and what is too much does not matter.
type Fit = fn(&mut Request);
const FIT_SCORES: Fit = |asked| asked.reader.chip.scores.resize(asked.reader.templates.len() / PAGE, 0);
const FIT_THRESHOLDS: Fit = |asked| asked.reader.chip.thresholds.resize(THRESHOLDS, 0);
const FIT: Fit = |asked| {
    FIT_SCORES(asked);
    FIT_THRESHOLDS(asked);
};

/// Whether a run has a Search.
const IS_SEARCH: fn(&[u8]) -> bool =
    |run| find(run).1.map_or(false, |packet| packet.identifier == COMMAND && packet.content[0] == SEARCH);

/// A call that is refused for its scores and thresholds alone.
const UNFIT_ALONE: Pick = |case| would_be(0, case);

pub fn add(rows: &mut Rows) {
    // Scores that are taken, by C and their number.
    rows.both("takes-any-scores").takes_scores(|_, _| true);
    rows.reader("takes-no-scores").takes_scores(|_, scores| scores == 0);
    rows.reader("takes-one-score-less").takes_scores(|pages, scores| scores + 1 == pages);
    rows.reader("takes-one-score-more").takes_scores(|pages, scores| scores == pages + 1);
    rows.reader("takes-fewer-scores").takes_scores(|pages, scores| scores < pages);
    rows.reader("takes-more-scores").takes_scores(|pages, scores| scores > pages);
    rows.reader("takes-scores-twice").takes_scores(|pages, scores| scores == 2 * pages);
    rows.reader("takes-1001-scores").takes_scores(|_, scores| scores == MOST_PAGES + 1);
    // Thresholds that are taken, by the level and their number.
    rows.both("takes-any-thresholds").takes_thresholds(|_, _| true);
    rows.reader("takes-no-thresholds").takes_thresholds(|_, thresholds| thresholds == 0);
    rows.reader("takes-1-threshold").takes_thresholds(|_, thresholds| thresholds == 1);
    rows.reader("takes-4-thresholds").takes_thresholds(|_, thresholds| thresholds == 4);
    rows.reader("takes-6-thresholds").takes_thresholds(|_, thresholds| thresholds == 6);
    rows.reader("takes-10-thresholds").takes_thresholds(|_, thresholds| thresholds == 10);
    rows.reader("takes-fewer-thresholds").takes_thresholds(|_, thresholds| thresholds < THRESHOLDS);
    rows.reader("takes-more-thresholds").takes_thresholds(|_, thresholds| thresholds > THRESHOLDS);
    rows.reader("takes-thresholds-to-the-level").takes_thresholds(|level, thresholds| thresholds >= level);
    // Calls that take any, by the reader and the run.
    rows.both("takes-any-chip").takes_any_if(|_, _| true);
    rows.both("tests-chip-for-search-only").takes_any_if(|_, run| !IS_SEARCH(run));
    let no_search = |request: &Request| !IS_SEARCH(&request.run);
    rows.reader("tests-scores-for-search-only").only(no_search).takes_scores(|_, _| true);
    rows.reader("tests-thresholds-for-search-only").only(no_search).takes_thresholds(|_, _| true);
    rows.both("tests-chip-for-packets-only").takes_any_if(|_, run| find(run).1.is_none());
    rows.reader("tests-chip-for-other-packets-only").takes_any_if(|_, run| IS_SEARCH(run));
    rows.reader("tests-chip-unless-locked").takes_any_if(|old, _| old.settings.locked());
    rows.reader("tests-chip-when-locked-only").takes_any_if(|old, _| !old.settings.locked());
    rows.reader("tests-chip-unless-in-a-transfer").takes_any_if(|old, _| old.settings.transfer != 0);
    // The order of refusals.
    for (due, after) in [(2, "room"), (3, "settings")] {
        rows.both(format!("chip-after-{after}")).tests_after(due, |_| true);
        rows.reader(format!("scores-after-{after}")).tests_after(due, |chip| chip.thresholds.len() == THRESHOLDS);
        rows.reader(format!("thresholds-after-{after}")).tests_after(due, |chip| chip.thresholds.len() != THRESHOLDS);
    }
    rows.receiver("receiver-chip-after-count").refuses(3, |case| !FIT_COUNT(case) && would_be(3, case));
    rows.reader("refuses-chip-with-2").refuses(2, UNFIT_ALONE);
    rows.reader("refuses-chip-with-3").refuses(3, UNFIT_ALONE);
    // What a refused call leaves.
    rows.reader("unfit-chip-is-silent").also(UNFIT_ALONE, |case| {
        case.outcome.answer = Answer { refusal: 0, used: case.request.run.len(), length: 0 };
    });
    rows.receiver("receiver-unfit-chip-takes-piece").also(UNFIT_ALONE, take_piece);
    rows.receiver("receiver-unfit-chip-empties").keeps(UNFIT_ALONE, |now, _, _| *now = Receiver::empty());
    // Scores and thresholds that are refused though they fit.
    rows.reader("refuses-scores-of-0").refuses_fit(|chip| chip.scores.iter().all(|&score| score == 0));
    rows.reader("refuses-scores-of-FFFF").refuses_fit(|chip| chip.scores.contains(&0xFFFF));
    rows.reader("refuses-thresholds-that-fall")
        .refuses_fit(|chip| chip.thresholds.windows(2).any(|pair| pair[1] < pair[0]));
    rows.reader("refuses-thresholds-of-0").refuses_fit(|chip| chip.thresholds.contains(&0));
    rows.reader("refuses-more-than-256-scores").refuses_fit(|chip| chip.scores.len() > 256);
    // What does not look at them.
    rows.both("switch-tests-scores").switch_tests(|old| old.chip.scores.len() != old.capacity());
    rows.both("switch-tests-thresholds").switch_tests(|old| old.chip.thresholds.len() != THRESHOLDS);
    rows.fresh("fresh-tests-chip").refuses(1, |case| !case.old.chip_fits());
    rows.over("bringing-over-tests-chip").refuses(1, |case| !case.old.chip_fits());
}

impl Row<'_> {
    /// So many scores are taken.
    fn takes_scores(self, such: fn(usize, usize) -> bool) {
        let such = move |case: &Case| such(case.old.capacity(), case.old.chip.scores.len());
        self.takes(move |case| CALL(case) && such(case), FIT_SCORES);
    }

    /// So many thresholds are taken.
    fn takes_thresholds(self, such: fn(usize, usize) -> bool) {
        let such = move |case: &Case| such(case.old.settings.level.into(), case.old.chip.thresholds.len());
        self.takes(move |case| CALL(case) && such(case), FIT_THRESHOLDS);
    }

    fn takes_any_if(self, such: fn(&Reader, &[u8]) -> bool) {
        let such = move |case: &Case| CALL(case) && such(case.old, &case.request.run);
        self.takes(such, FIT);
    }

    /// Such a chip that does not fit is refused after this refusal.
    fn tests_after(self, refusal: u8, such: fn(&Chip) -> bool) {
        self.refuses(refusal, move |case| such(&case.old.chip) && would_be(refusal, case));
    }

    /// Such a chip gets refusal 1 though it fits.
    fn refuses_fit(self, such: fn(&Chip) -> bool) {
        self.refuses(1, move |case| CALLED(case) && such(&case.old.chip));
    }
}

/// A call with scores or thresholds that do not fit, which would get this refusal or 0 if they did.
fn would_be(refusal: u8, case: &Case) -> bool {
    let mut fitting = Case::of(case.request);
    fitting.ask(FIT);
    CALL(case) && !case.old.chip_fits() && fitting.refusal == refusal
}
