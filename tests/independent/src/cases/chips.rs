//! Scores and thresholds by chance, for document 02's request [8].

use crate::cases::chance::Chance;
use crate::compare::frame::Request;
use crate::reader::*;

/// A chip of so many pages, with a few scores again and again.
pub fn any(chance: &mut Chance, pages: usize) -> Chip {
    let thresholds: Vec<u16> = (0..THRESHOLDS).map(|_| any_number(chance)).collect();
    let few = [chance.pick(&thresholds), chance.pick(&thresholds).saturating_sub(1), any_number(chance)];
    Chip { scores: (0..pages).map(|_| chance.pick(&few)).collect(), thresholds }
}

/// A number of 16 bits: mostly anywhere, at times at an end, or where the high byte or the highest bit changes.
fn any_number(chance: &mut Chance) -> u16 {
    let any = chance.below(0x10000) as u16;
    chance.pick(&[any, any, any, 0, 1, 0x00FF, 0x0100, 0x7FFF, 0x8000, 0xFFFE, 0xFFFF])
}

/// The request with new scores and thresholds, as a legal reader's call may bring them.
pub fn renewed(chance: &mut Chance, mut request: Request) -> Request {
    request.reader.chip = any(chance, request.reader.capacity());
    suited(chance, request)
}

/// The request with scores about the threshold in force, a few numbers again and again. Where there is a Search, the
/// pages at the ends of its range, inside and outside, and a vacant one have at times the highest of them, one more, or
/// what is just too low.
pub fn suited(chance: &mut Chance, mut request: Request) -> Request {
    let level = usize::from(request.reader.settings.level);
    let Chip { scores, thresholds } = &mut request.reader.chip;
    let threshold = level.checked_sub(1).and_then(|place| thresholds.get(place)).copied().unwrap_or(0);
    let [below, above] = [threshold.saturating_sub(1), threshold.saturating_add(1)];
    let about = [threshold, threshold, below, above, any_number(chance), threshold ^ 0x8000, threshold.swap_bytes()];
    let few = [chance.pick(&about), chance.pick(&about), chance.pick(&about)];
    scores.iter_mut().for_each(|score| *score = chance.pick(&few));
    let highest = few.into_iter().fold(threshold, u16::max);
    let striking = [highest, highest.saturating_add(1), threshold, below];
    for page in request.searched().map_or_else(Vec::new, |search| edges(&request.reader, search)) {
        if let Some(score) = request.reader.chip.scores.get_mut(page).filter(|_| chance.percent(40)) {
            *score = chance.pick(&striking);
        }
    }
    request
}

/// The pages about the ends of a range by start and count, in 16 bits too, and the first vacant one in it.
fn edges(reader: &Reader, (start, count): (usize, usize)) -> Vec<usize> {
    let end = start + count;
    let mut edges = vec![start.wrapping_sub(1), start, end.wrapping_sub(1), end, end % 0x10000];
    edges.extend(vacant(reader, start));
    edges
}

/// The first vacant page from this one on.
fn vacant(reader: &Reader, start: usize) -> Option<usize> {
    (start..reader.capacity().min(8 * reader.index.len())).find(|&page| !reader.stored(page))
}
