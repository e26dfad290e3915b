//! Errors in what a Search of document 02's request [8] finds, tells and tests.

use super::parameters::UNLOCK;
use super::words::*;

/// A Search that gets 00h or 09h, and one of them whose range passes C.
const SEARCHED: Pick = |case| case.gets(SEARCH, 0x00) || case.gets(SEARCH, 0x09);
const PASSES_C: Pick = |case| SEARCHED(case) && start(case) + number(&case.content[4..]) > case.old.capacity();
/// A Search that starts beyond C, with a buffer that is not filled.
const BEYOND_NOT_FILLED: Pick =
    |case| case.gets(SEARCH, 0x0B) && !case.old.settings.filled[usize::from(case.content[1]) - 1].is_set();

pub fn add(rows: &mut Rows) {
    // Which score is the better one, by the later and the best so far.
    rows.reader("search-tie-to-highest-page").better(|later, best| later >= best);
    rows.inside("receiver-search-tie").better(|later, best| later >= best);
    rows.reader("search-lowest-score").better(|later, best| later < best);
    rows.reader("search-first-enough").better(|_, _| false);
    rows.reader("search-last-enough").better(|_, _| true);
    rows.reader("search-better-as-signed").better(|later, best| later as i16 > best as i16);
    rows.reader("search-better-by-low-byte").better(|later, best| later % 256 > best % 256);
    rows.reader("search-better-by-high-byte").better(|later, best| later / 256 > best / 256);
    rows.reader("search-better-by-turned-bytes").better(|later, best| later.swap_bytes() > best.swap_bytes());
    rows.reader("search-better-by-two").better(|later, best| later > best.saturating_add(1));
    // Which score is enough, by the threshold.
    rows.reader("search-above-threshold-only").enough(|score, threshold| score > threshold);
    rows.inside("receiver-search-above").enough(|score, threshold| score > threshold);
    rows.reader("search-one-below-threshold-too").enough(|score, threshold| score.saturating_add(1) >= threshold);
    rows.reader("search-any-score").enough(|_, _| true);
    rows.reader("search-any-score-but-0").enough(|score, _| score > 0);
    rows.reader("search-0-is-not-enough").enough(|score, threshold| score > 0 && score >= threshold);
    rows.reader("search-threshold-itself-only").enough(|score, threshold| score == threshold);
    rows.reader("search-below-threshold-only").enough(|score, threshold| score < threshold);
    rows.reader("search-enough-as-signed").enough(|score, threshold| score as i16 >= threshold as i16);
    rows.reader("search-enough-by-low-byte").enough(|score, threshold| score % 256 >= threshold % 256);
    rows.reader("search-enough-by-high-byte").enough(|score, threshold| score / 256 >= threshold / 256);
    // Which threshold is taken, by the five and by the place of the one in force.
    rows.reader("search-threshold-of-level-1").threshold(|thresholds, _| thresholds[0]);
    rows.reader("search-threshold-of-level-2").threshold(|thresholds, _| thresholds[1]);
    rows.reader("search-threshold-of-fresh-level").threshold(|thresholds, _| thresholds[2]);
    rows.reader("search-threshold-of-level-4").threshold(|thresholds, _| thresholds[3]);
    rows.reader("search-threshold-of-level-5").threshold(|thresholds, _| thresholds[4]);
    rows.reader("search-threshold-of-next-level").threshold(|thresholds, place| thresholds[(place + 1).min(4)]);
    rows.reader("search-threshold-of-next-level-turning").threshold(|thresholds, place| thresholds[(place + 1) % 5]);
    rows.reader("search-threshold-of-level-before").threshold(|thresholds, place| thresholds[place.max(1) - 1]);
    rows.reader("search-threshold-of-turned-level").threshold(|thresholds, place| thresholds[4 - place]);
    rows.reader("search-least-threshold").threshold(|thresholds, _| thresholds.iter().copied().fold(0xFFFF, u16::min));
    rows.reader("search-greatest-threshold").threshold(|thresholds, _| thresholds.iter().copied().fold(0, u16::max));
    // Which pages can be found.
    rows.both("search-vacant-too").stored(|_, _| true);
    rows.reader("search-vacant-only").stored(|old, page| !old.stored(page));
    rows.reader("search-stored-beside").stored(|old, page| old.stored(page ^ 1));
    rows.reader("search-stored-by-turned-byte").stored(|old, page| old.stored(page ^ 7));
    rows.reader("search-stored-in-8-bits").stored(|old, page| old.stored(page % 256));
    rows.reader("search-stored-by-bytes").stored(|old, page| old.has_bytes(page));
    rows.reader("search-leaves-out-page-0").stored(|old, page| old.stored(page) && page != 0);
    rows.reader("search-leaves-out-last-page").stored(|old, page| old.stored(page) && page + 1 != old.capacity());
    rows.reader("search-leaves-out-origins")
        .stored(|old, page| old.stored(page) && !old.settings.origins.contains(&Origin::of(page)));
    rows.reader("search-below-256-only").stored(|old, page| old.stored(page) && page < 256);
    // Which range is searched, by start and count; it is cut at C.
    rows.both("search-sum-in-16-bits").within(|_, start, count| start..(start + count) % 0x10000);
    rows.reader("search-sum-in-10-bits").within(|_, start, count| start..(start + count) % 1024);
    rows.reader("search-start-in-8-bits").within(|_, start, count| start % 256..start + count);
    rows.reader("search-count-in-8-bits").within(|_, start, count| start..start + count % 256);
    rows.reader("search-one-page-more").within(|_, start, count| start..start + count + 1);
    rows.reader("search-one-page-less").within(|_, start, count| start..start + count.max(1) - 1);
    rows.reader("search-one-page-before").within(|_, start, count| start.max(1) - 1..start + count);
    rows.reader("search-one-page-later").within(|_, start, count| start + 1..start + count);
    rows.reader("search-range-shifted").within(|_, start, count| start + 1..start + count + 1);
    rows.reader("search-count-is-end").within(|_, start, count| start..count);
    rows.reader("search-count-is-last").within(|_, start, count| start..count + 1);
    rows.reader("search-from-0").within(|_, start, count| 0..start + count);
    rows.reader("search-to-C").within(|old, start, _| start..old.capacity());
    rows.reader("search-all").within(|old, _, _| 0..old.capacity());
    rows.reader("search-first-of-range-only").within(|_, start, count| start..start + count.min(1));
    rows.reader("search-count-0-is-1").within(|_, start, count| start..start + count.max(1));
    rows.reader("search-count-0-is-all").within(|old, start, count| match count {
        0 => start..old.capacity(),
        _ => start..start + count,
    });
    rows.reader("search-cut-before-C").within(|old, start, count| match start + count {
        end if end > old.capacity() => start..old.capacity() - 1,
        end => start..end,
    });
    rows.reader("search-none-past-C").within(|old, start, count| match start + count {
        end if end > old.capacity() => start..start,
        end => start..end,
    });
    rows.reader("search-stops-at-vacant").stops_at(|old, page| !old.stored(page));
    rows.reader("search-stops-at-too-low").stops_at(|old, page| old.chip.scores[page] < in_force(old));
    rows.reader("search-past-C-is-0B").answers_search(0x0B, PASSES_C);
    rows.reader("search-past-C-is-10").answers_search(0x10, PASSES_C);
    // Other ways to search.
    rows.reader("search-always-finds-none").finds(|_, _, _| None);
    rows.reader("search-best-of-all-or-none").finds(|old, start, count| {
        RIGHT.best(old, 0, old.capacity()).filter(|(page, _)| (start..start + count).contains(page))
    });
    rows.reader("search-highest-vacant-is-none").finds(|old, start, count| {
        Way { stored: |_, _| true, ..RIGHT }.best(old, start, count).filter(|(page, _)| old.stored(*page))
    });
    rows.reader("search-origin-first").finds(|old, start, count| {
        let origins = old.settings.origins.iter().filter_map(|origin| origin.page());
        let mut in_range = origins.filter(|page| (start..start + count).contains(page));
        in_range.find_map(|page| RIGHT.best(old, page, 1)).or_else(|| RIGHT.best(old, start, count))
    });
    rows.reader("search-scores-of-call-before").of_call_before(|chip| &mut chip.scores);
    rows.reader("search-thresholds-of-call-before").of_call_before(|chip| &mut chip.thresholds);
    rows.receiver("receiver-scores-of-call-before").of_call_before(|chip| &mut chip.scores);
    rows.receiver("receiver-thresholds-of-call-before").of_call_before(|chip| &mut chip.thresholds);
    let first: RefCell<Option<Vec<u16>>> = RefCell::new(None);
    rows.reader("search-thresholds-at-first-call").takes(ANY, move |asked| {
        if asked.reader.chip_fits() {
            let thresholds = &mut asked.reader.chip.thresholds;
            *thresholds = first.borrow_mut().get_or_insert_with(|| thresholds.clone()).clone();
        }
    });
    // What a Search that finds a page tells behind 00h, by the bytes of the page and of the score.
    rows.reader("found-page-turned").tells_found(|[p, q], [s, t], _| vec![q, p, s, t]);
    rows.reader("found-score-turned").tells_found(|[p, q], [s, t], _| vec![p, q, t, s]);
    rows.reader("found-score-before-page").tells_found(|[p, q], [s, t], _| vec![s, t, p, q]);
    rows.reader("found-page-only").tells_found(|[p, q], _, _| vec![p, q]);
    rows.reader("found-score-only").tells_found(|_, [s, t], _| vec![s, t]);
    rows.reader("found-without-bytes").tells_found(|_, _, _| vec![]);
    rows.reader("found-page-in-8-bits").tells_found(|[_, q], [s, t], _| vec![0, q, s, t]);
    rows.reader("found-score-in-8-bits").tells_found(|[p, q], [_, t], _| vec![p, q, 0, t]);
    rows.reader("found-bytes-short").tells_found(|[_, q], [_, t], _| vec![q, t]);
    rows.reader("found-page-in-range").tells_found(|page, score, case| [less(page, start(case)), score].concat());
    rows.reader("found-score-over-threshold")
        .tells_found(|page, score, case| [page, less(score, in_force(case.old).into())].concat());
    // What one that finds none tells.
    rows.reader("not-found-without-bytes").tells(gets(SEARCH, 0x09), |_| vec![0x09]);
    rows.reader("not-found-page-FFFF").tells(gets(SEARCH, 0x09), |_| vec![0x09, 0xFF, 0xFF, 0, 0]);
    rows.reader("not-found-score-FFFF").tells(gets(SEARCH, 0x09), |_| vec![0x09, 0, 0, 0xFF, 0xFF]);
    rows.reader("not-found-two-bytes").tells(gets(SEARCH, 0x09), |_| vec![0x09, 0, 0]);
    rows.reader("not-found-is-00").tells(gets(SEARCH, 0x09), |_| vec![0x00, 0, 0, 0, 0]);
    rows.reader("not-found-is-0C").tells(gets(SEARCH, 0x09), |_| vec![0x0C]);
    rows.reader("not-found-tells-start").tells(gets(SEARCH, 0x09), |case| listed(0x09, Some((start(case), 0))));
    rows.reader("not-found-tells-best").tells(gets(SEARCH, 0x09), |case| {
        let any = Way { enough: |_, _| true, ..RIGHT };
        listed(0x09, any.best(case.old, start(case), number(&case.content[4..])))
    });
    // The tests and their order.
    rows.reader("search-unknown").answers_search(0x19, |_| true);
    rows.reader("search-start-before-buffer").answers_search(0x0B, |case| {
        case.code == Some(0x01) && !case.sum_wrong() && start(case) >= case.old.capacity()
    });
    rows.reader("search-filled-before-start").answers_search(0x0C, BEYOND_NOT_FILLED);
    rows.inside("receiver-filled-before-start").answers_search(0x0C, BEYOND_NOT_FILLED);
    rows.reader("search-start-is-10").answers_search(0x10, coded(0x0B));
    rows.reader("search-not-filled-is-0D").answers_search(0x0D, coded(0x0C));
    rows.reader("search-start-C-finds-none").starts_at(|start, capacity| start == capacity);
    rows.reader("search-far-start-finds-none").starts_at(|start, capacity| start > capacity);
    rows.reader("search-takes-not-filled").takes_filled(|_| [SET; 2]);
    rows.reader("search-looks-at-other-filled").takes_filled(|[one, two]| [two, one]);
    rows.reader("search-takes-buffer-0").takes_content(SEARCH, &[0x01], |content| take_buffer(content, 0, 1));
    rows.reader("search-takes-buffer-3").takes_content(SEARCH, &[0x01], |content| take_buffer(content, 3, 2));
    rows.reader("search-takes-length-7").takes_content(SEARCH, &[0x01], |content| take_length(content, 7));
    rows.reader("search-takes-length-9").takes_content(SEARCH, &[0x01], |content| take_length(content, 9));
    rows.reader("search-row-before-lock").also(gets(SEARCH, 0x21), |case| {
        let mut open = Case::of(case.request);
        open.ask(UNLOCK);
        open.code.into_iter().filter(|&code| code != 0x00 && code != 0x09).for_each(|code| case.tell(&[code]));
    });
    rows.reader("search-lock-before-length")
        .answers(0x21, |case| case.locked() && case.gets(SEARCH, 0x01) && !case.sum_wrong());
    // What else a Search does.
    rows.both("search-keeps-transfer").leaves(SEARCHED, |now, old| {
        now.settings.transfer = old.settings.transfer;
        now.settings.got = old.settings.got;
        now.buffers = old.buffers.clone();
    });
    rows.reader("search-loads-page").finding(|now, buffer, page| now.buffers[buffer] = now.template(page).to_vec());
    rows.reader("search-sets-origin").finding(|now, buffer, page| now.settings.origins[buffer] = Origin::of(page));
    rows.reader("search-wipes-buffer").finding(|now, buffer, _| now.wipe(buffer));
}

/// How a Search goes about it.
struct Way {
    /// The pages by start and count; they are cut at C.
    pages: fn(&Reader, usize, usize) -> Range<usize>,
    stored: fn(&Reader, usize) -> bool,
    /// The threshold, by all of them and by the place of the one in force.
    threshold: fn(&[u16], usize) -> u16,
    /// Whether a score is enough for the threshold.
    enough: fn(u16, u16) -> bool,
    /// Whether the score of a later page is taken in place of the best so far.
    better: fn(u16, u16) -> bool,
}

const RIGHT: Way = Way {
    pages: |_, start, count| start..start + count,
    stored: Reader::stored,
    threshold: |thresholds, place| thresholds[place],
    enough: |score, threshold| score >= threshold,
    better: |later, best| later > best,
};

/// A page and its score.
type Found = Option<(usize, u16)>;

impl Way {
    fn best(&self, old: &Reader, start: usize, count: usize) -> Found {
        let pages = (self.pages)(old, start, count);
        let threshold = (self.threshold)(&old.chip.thresholds, usize::from(old.settings.level) - 1);
        let mut best: Found = None;
        for page in pages.start..pages.end.min(old.capacity()) {
            let score = old.chip.scores[page];
            let better = best.map_or(true, |(_, highest)| (self.better)(score, highest));
            if (self.stored)(old, page) && (self.enough)(score, threshold) && better {
                best = Some((page, score));
            }
        }
        best
    }
}

impl Row<'_> {
    fn within(self, pages: fn(&Reader, usize, usize) -> Range<usize>) {
        self.goes(Way { pages, ..RIGHT });
    }

    fn stored(self, stored: fn(&Reader, usize) -> bool) {
        self.goes(Way { stored, ..RIGHT });
    }

    fn threshold(self, threshold: fn(&[u16], usize) -> u16) {
        self.goes(Way { threshold, ..RIGHT });
    }

    fn enough(self, enough: fn(u16, u16) -> bool) {
        self.goes(Way { enough, ..RIGHT });
    }

    fn better(self, better: fn(u16, u16) -> bool) {
        self.goes(Way { better, ..RIGHT });
    }

    /// A Search goes this way.
    fn goes(self, way: Way) {
        self.finds(move |old, start, count| way.best(old, start, count));
    }

    /// A Search finds this, by the reader before, the start and the count.
    fn finds(self, other: impl Fn(&Reader, usize, usize) -> Found + 'static) {
        self.also(SEARCHED, move |case| {
            let found = other(case.old, start(case), number(&case.content[4..]));
            case.outcome.reader.settings.found = Mark::of(found.is_some());
            case.tell(&listed(if found.is_some() { 0x00 } else { 0x09 }, found));
        });
    }

    /// No page is looked at from the first such on.
    fn stops_at(self, such: fn(&Reader, usize) -> bool) {
        self.finds(move |old, start, count| {
            let end = (start..old.capacity().min(start + count)).find(|&page| such(old, page));
            RIGHT.best(old, start, end.map_or(count, |end| end - start))
        });
    }

    /// A Search sees these numbers as they were at the call before, if there were as many.
    fn of_call_before(self, numbers: fn(&mut Chip) -> &mut Vec<u16>) {
        let before = RefCell::new(Vec::new());
        self.takes(ANY, move |asked| {
            let now = numbers(&mut asked.reader.chip);
            let kept = before.replace(now.clone());
            if kept.len() == now.len() {
                *now = kept;
            }
        });
    }

    fn tells_found(self, listed: fn([u8; 2], [u8; 2], &Case) -> Vec<u8>) {
        self.tells(fine(SEARCH), move |case| {
            let told = case.told();
            [vec![0x00], listed([told[1], told[2]], [told[3], told[4]], case)].concat()
        });
    }

    /// A Search of the right length that is such gets this code alone and leaves the found mark.
    fn answers_search(self, told: u8, such: impl Such) {
        let such = move |case: &Case| case.asks(SEARCH) && case.content.len() == 6 && REPLIED(case) && such(case);
        self.also(such, move |case| {
            case.outcome.reader.settings.found = case.old.settings.found;
            case.tell(&[told]);
        });
    }

    /// Such a start, by C, finds none where it should get 0Bh.
    fn starts_at(self, such: fn(usize, usize) -> bool) {
        let such = move |case: &Case| case.gets(SEARCH, 0x0B) && such(start(case), case.old.capacity());
        self.also(such, |case| {
            case.outcome.reader.settings.found = CLEAR;
            case.tell(&listed(0x09, None));
        });
    }

    /// A Search that gets 00h, 09h or 0Ch takes the filled marks for others, and leaves them.
    fn takes_filled(self, other: fn([Mark; 2]) -> [Mark; 2]) {
        let such = |case: &Case| SEARCHED(case) || case.gets(SEARCH, 0x0C);
        self.also(such, move |case| {
            let Settings { filled, found, .. } = case.old.settings;
            // What the Search leaves of an open transfer is as it should be.
            let now = case.outcome.reader.clone();
            case.ask(|asked| {
                asked.reader = now.clone();
                asked.reader.settings =
                    Settings { filled: other(filled), found, origins: [NONE; 2], ..now.settings.clone() };
            });
            case.outcome.reader.settings.filled = filled;
            case.outcome.reader.settings.origins = now.settings.origins;
        });
    }

    /// A Search that finds a page also has this effect, with its buffer and this page.
    fn finding(self, effect: fn(&mut Reader, usize, usize)) {
        self.also(fine(SEARCH), move |case| {
            let page = number(&case.told()[1..3]);
            effect(&mut case.outcome.reader, usize::from(case.content[1]) - 1, page);
        });
    }
}

/// The threshold of the level in force.
fn in_force(old: &Reader) -> u16 {
    old.chip.thresholds[usize::from(old.settings.level) - 1]
}

/// The start of a Search of the right length.
fn start(case: &Case) -> usize {
    number(&case.content[2..4])
}

/// What a Search lists with this code: page and score, or zeroes.
fn listed(code: u8, found: Found) -> Vec<u8> {
    let (page, score) = found.unwrap_or((0, 0));
    [&[code], &(page as u16).to_be_bytes()[..], &score.to_be_bytes()].concat()
}

/// Two bytes less a number, modulo 65536.
fn less(bytes: [u8; 2], number: usize) -> [u8; 2] {
    u16::from_be_bytes(bytes).wrapping_sub(number as u16).to_be_bytes()
}

/// A Search of the right length with this buffer is one with another.
fn take_buffer(content: &mut [u8], number: u8, other: u8) {
    if content.len() == 6 && content[1] == number {
        content[1] = other;
    }
}

/// A Search of this length is right: what lacks is zero, and what is too much is left out.
fn take_length(content: &mut Vec<u8>, length: usize) {
    if content.len() + 2 == length {
        content.resize(6, 0);
    }
}
