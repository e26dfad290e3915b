//! Errors in the receiver of document 02's request [1], with the held bytes of its request [3].

use super::words::*;

/// The held count before is legal.
pub const FIT_COUNT: Pick = |case| held_by(case.request).legal();
const REFUSED_FIT: Pick = |case| CALL_REFUSED(case) && FIT_COUNT(case);
/// A call that drops bytes, one that drops some but not all, and one that drops none.
const DROPS: Pick = |case| CALLED(case) && left(&case.outcome).len() < case.request.whole_run().len();
const DROPS_SOME: Pick = |case| DROPS(case) && !left(&case.outcome).is_empty();
const KEEPS_ALL: Pick = |case| CALLED(case) && !DROPS(case);

pub fn add(rows: &mut Rows) {
    // What is taken, dropped and told.
    for most in [265, 266, 268] {
        rows.receiver(format!("holds-{most}")).makes(holds(most, Rc::new(Request::carried_out)));
    }
    rows.receiver("drops-one-more").keeps(DROPS_SOME, |now, _, _| *now = Receiver::holding(&now.held()[1..]));
    rows.receiver("keeps-used").keeps(CALLED, |now, _, run| *now = Receiver::holding(run));
    for bytes in [265, 266] {
        let unfinished = move |left: &[u8]| left.len() == bytes && find(left).0 == 0;
        rows.receiver(format!("drops-unfinished-{bytes}"))
            .keeps(move |case| CALLED(case) && unfinished(left(&case.outcome)), |now, _, _| *now = Receiver::empty());
    }
    rows.receiver("says-used-for-taken")
        .also(CALLED, |case| case.outcome.answer.used = case.request.whole_run().len() - left(&case.outcome).len());
    rows.receiver("answers-two").also(REPLIED, answer_next);
    // The cells past the held bytes.
    rows.receiver("used-byte-past-count").keeps(DROPS, |now, _, run| now.cells[run.len() - 1] = run[run.len() - 1]);
    rows.receiver("keeps-cells-past-count").keeps(KEEPS_ALL, |now, old, run| keep_cells(run.len(), now, old));
    rows.receiver("keeps-cells-past-bytes").keeps(DROPS, |now, old, run| keep_cells(run.len(), now, old));
    rows.receiver("call-keeps-last-two-cells").keeps(CALLED, |now, old, _| keep_cells(HOLDS - 2, now, old));
    rows.receiver("switch-keeps-last-two-cells").keeps(SWITCHED, |now, old, _| keep_cells(HOLDS - 2, now, old));
    // Refusals.
    rows.receiver("refuses-267").takes_count(|count| if count > 266 { u16::MAX } else { count });
    rows.receiver("refuses-above-265").takes_count(|count| if count > 265 { u16::MAX } else { count });
    rows.receiver("takes-any-count").takes_count(|count| count.min(HOLDS as u16));
    rows.receiver("takes-count-268").takes_count(|count| if count == 268 { 267 } else { count });
    rows.receiver("count-before-lengths").refuses(3, |case| CALL(case) && !FIT_COUNT(case) && case.refusal == 1);
    rows.receiver("count-before-room").refuses(3, |case| CALL(case) && !FIT_COUNT(case) && case.refusal == 2);
    rows.receiver("room-before-lengths").refuses(2, |case| CALL_REFUSED(case) && case.request.room.len() < ROOM);
    rows.receiver("refused-takes-piece").also(REFUSED_FIT, take_piece);
    rows.receiver("refused-empties").keeps(CALL_REFUSED, |now, _, _| *now = Receiver::empty());
    rows.receiver("refused-zeroes-past-count").keeps(REFUSED_FIT, |now, _, _| *now = Receiver::holding(now.held()));
    // The line switch.
    rows.receiver("refused-switch-empties").keeps(SWITCH_REFUSED, |now, _, _| *now = Receiver::empty());
    rows.receiver("switch-keeps-held").keeps(SWITCHED, |now, old, _| *now = old.clone());
    rows.receiver("switch-keeps-cells").keeps(SWITCHED, |now, old, _| now.cells = old.cells);
    rows.receiver("switch-refuses-count").refuses(3, |case| SWITCHED(case) && !FIT_COUNT(case));
}

impl Row<'_> {
    /// Such a case also has this effect on the receiver as it is now, by what it was of old and by all bytes of the call.
    pub fn keeps(self, such: impl Such, effect: fn(&mut Receiver, &Receiver, &[u8])) {
        self.also(such, move |case| {
            let (old, run) = (held_by(case.request), case.request.whole_run());
            case.outcome.receiver.iter_mut().for_each(|now| effect(now, old, &run));
        });
    }

    /// A call takes the held count for another.
    fn takes_count(self, other: fn(u16) -> u16) {
        self.also(CALL, move |case| {
            case.ask(|asked| asked.kind.receiver_mut().into_iter().for_each(|held| held.count = other(held.count)));
            if case.refusal != 0 {
                case.outcome.receiver = Some(held_by(case.request).clone());
            }
        });
    }
}

/// The bytes that are held afterwards.
fn left(outcome: &Outcome) -> &[u8] {
    outcome.receiver.as_ref().map_or(&[], Receiver::held)
}

/// The cells from this one on that are past the count stay as they were.
fn keep_cells(first: usize, now: &mut Receiver, old: &Receiver) {
    let first = first.max(now.held().len());
    now.cells[first..].copy_from_slice(&old.cells[first..]);
}

/// What fits of the piece is taken.
pub fn take_piece(case: &mut Case) {
    let run = case.request.whole_run();
    case.outcome.answer.used = run.len() - held_by(case.request).held().len();
    case.outcome.receiver = Some(Receiver::holding(&run));
}

/// The next packet that is held is answered too, if the room allows it.
fn answer_next(case: &mut Case) {
    let first = &case.outcome;
    let (kind, reader) = (Kind::call(first.receiver.clone()), first.reader.clone());
    let mut second = Request { kind, reader, run: Vec::new(), room: vec![0; ROOM] }.carried_out();
    let Answer { used, length, .. } = first.answer;
    let (mut room, both) = (first.room.clone(), length + second.answer.length);
    if length < both && both <= room.len() {
        room[length..both].copy_from_slice(&second.room[..both - length]);
        second.answer = Answer { refusal: 0, used, length: both };
        case.outcome = Outcome { room, ..second };
    }
}
