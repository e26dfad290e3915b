//! The words that rows are made of: how a case is picked, and what becomes of it.

pub use super::{Row, Rows};
pub use crate::compare::fit::*;
pub use crate::compare::frame::{Kind, Outcome, Request};
pub use crate::reader::receiver::{Receiver, HOLDS};
pub use crate::reader::*;
pub use std::cell::RefCell;
pub use std::ops::Range;
pub use std::rc::Rc;

/// What a wrong one makes of a request.
pub type Makes = Rc<dyn Fn(&Request) -> Outcome>;

/// Picks cases.
pub trait Such: Fn(&Case) -> bool + 'static {}
impl<F: Fn(&Case) -> bool + 'static> Such for F {}

/// A request, and what comes of it: first what the good one makes of it.
pub struct Case<'a> {
    pub request: &'a Request,
    pub outcome: Outcome,
    /// The reader before.
    pub old: &'a Reader,
    /// The content of the command that a call without a receiver finds, or nothing.
    pub content: &'a [u8],
    /// The refusal or 0.
    pub refusal: u8,
    /// The acknowledge code, if there is a reply.
    pub code: Option<u8>,
}

impl<'a> Case<'a> {
    pub fn of(request: &'a Request) -> Case<'a> {
        let outcome = request.carried_out();
        let command = find(&request.run).1.filter(|packet| packet.identifier == COMMAND && request.kind.is_call());
        Case {
            request,
            old: &request.reader,
            content: command.map_or(&[], |packet| packet.content),
            refusal: outcome.answer.refusal,
            code: outcome.code(),
            outcome,
        }
    }

    /// The packet of a call without a receiver.
    pub fn packet(&self) -> Option<Packet<'a>> {
        find(&self.request.run).1.filter(|_| self.request.kind.is_call())
    }

    pub fn sum_wrong(&self) -> bool {
        self.packet().map_or(false, |packet| !packet.sum_right)
    }

    pub fn locked(&self) -> bool {
        self.old.settings.locked()
    }

    pub fn in_transfer(&self) -> bool {
        self.old.settings.transfer != 0
    }

    /// Whether it is a call with this command.
    pub fn asks(&self, command: u8) -> bool {
        self.content.first() == Some(&command)
    }

    /// Whether it is this command and gets this code.
    pub fn gets(&self, command: u8, code: u8) -> bool {
        self.asks(command) && self.code == Some(code)
    }

    /// The content of the acknowledge.
    pub fn told(&self) -> Vec<u8> {
        self.outcome.room[9..self.outcome.answer.length - 2].to_vec()
    }

    /// Puts an acknowledge with this content in place of the reply.
    pub fn tell(&mut self, content: &[u8]) {
        let reply = packet(self.outcome.reader.settings.address, ACKNOWLEDGE, content);
        self.silence();
        self.outcome.room[..reply.len()].copy_from_slice(&reply);
        self.outcome.answer.length = reply.len();
    }

    /// Takes the reply away.
    pub fn silence(&mut self) {
        self.outcome.answer.length = 0;
        self.outcome.room = self.request.room.clone();
    }

    /// Takes the reply and every effect on the reader away.
    pub fn ignore(&mut self) {
        self.silence();
        self.outcome.reader = self.old.clone();
    }

    /// Lets come of it what the good one makes of the request with this change.
    pub fn ask(&mut self, change: impl Fn(&mut Request)) {
        let mut asked = self.request.clone();
        change(&mut asked);
        let Case { outcome, refusal, code, .. } = Case::of(&asked);
        (self.outcome, self.refusal, self.code) = (outcome, refusal, code);
    }
}

/// What becomes of the settings as they are now, by those of old.
pub type Setting = fn(&mut Settings, &Settings);

/// A pick of cases by one word.
pub type Pick = fn(&Case) -> bool;
pub const ANY: Pick = |_| true;
pub const REPLIED: Pick = |case| case.code.is_some();
pub const SILENT: Pick = |case| case.code.is_none();
pub const DONE: Pick = |case| case.refusal == 0;
pub const REFUSED: Pick = |case| case.refusal != 0;
pub const CALL: Pick = |case| case.request.kind.is_call();
pub const CALLED: Pick = |case| case.request.kind.is_call() && case.refusal == 0;
pub const CALL_REFUSED: Pick = |case| case.request.kind.is_call() && case.refusal != 0;
pub const SWITCHED: Pick = |case| case.request.kind.is_line_switch() && case.refusal == 0;
pub const SWITCH_REFUSED: Pick = |case| case.request.kind.is_line_switch() && case.refusal != 0;

/// A call with this command.
pub fn asks(command: u8) -> impl Such {
    move |case: &Case| case.asks(command)
}

/// This command, where it gets this code.
pub fn gets(command: u8, code: u8) -> impl Such {
    move |case: &Case| case.gets(command, code)
}

/// This command, where it gets 00h.
pub fn fine(command: u8) -> impl Such {
    gets(command, 0x00)
}

/// What gets this code, whichever command it is.
pub fn coded(code: u8) -> impl Such {
    move |case: &Case| case.code == Some(code)
}

impl Row<'_> {
    /// Such a case also has this effect.
    pub fn also(self, such: impl Such, effect: impl Fn(&mut Case) + 'static) {
        self.makes(such_also(Box::new(such), Box::new(effect)));
    }

    /// Such a case also has this effect on the reader as it is now, by what it was of old.
    pub fn leaves(self, such: impl Such, effect: impl Fn(&mut Reader, &Reader) + 'static) {
        self.also(such, move |case| effect(&mut case.outcome.reader, case.old));
    }

    /// Such a case also has this effect on the settings as they are now, by what they were of old.
    pub fn sets(self, such: impl Such, effect: impl Fn(&mut Settings, &Settings) + 'static) {
        self.leaves(such, move |now, old| effect(&mut now.settings, &old.settings));
    }

    /// A Store or a LoadChar that gets this code also has this effect on the reader as it is now, by what it was of old,
    /// by the place of its buffer and by its page.
    pub fn names(self, command: u8, code: u8, effect: impl Fn(&mut Reader, &Reader, usize, usize) + 'static) {
        self.also(gets(command, code), move |case| {
            if let [_, buffer @ (1 | 2), page @ ..] = case.content {
                effect(&mut case.outcome.reader, case.old, usize::from(*buffer) - 1, number(page));
            }
        });
    }

    /// The acknowledge of such a case has this content.
    pub fn tells(self, such: impl Such, content: impl Fn(&Case) -> Vec<u8> + 'static) {
        self.also(such, move |case| case.tell(&content(case)));
    }

    /// The acknowledge of such a case has its content changed so, by the reader of old.
    pub fn retells(self, such: impl Such, change: impl Fn(&mut Vec<u8>, &Reader) + 'static) {
        self.tells(such, move |case| {
            let mut content = case.told();
            change(&mut content, case.old);
            content
        });
    }

    /// Such a case gets this code alone, and has the same effect.
    pub fn answers(self, code: u8, such: impl Such) {
        self.also(such, move |case| case.tell(&[code]));
    }

    /// Such a case gets this code alone, and has no effect.
    pub fn bars(self, code: u8, such: impl Such) {
        self.also(such, move |case| {
            case.ignore();
            case.tell(&[code]);
        });
    }

    /// Such a case is refused with this number.
    pub fn refuses(self, refusal: u8, such: impl Such) {
        self.also(such, move |case| case.outcome = refused_with(refusal, case.request));
    }

    /// A call of such a legal reader gets refusal 3.
    pub fn refuses_legal(self, such: impl Fn(&Reader) -> bool + 'static) {
        self.refuses(3, move |case| CALLED(case) && such(case.old));
    }

    /// A line switch of such a reader gets refusal 1.
    pub fn switch_tests(self, such: fn(&Reader) -> bool) {
        self.refuses(1, move |case| case.request.kind.is_line_switch() && such(case.old));
    }

    /// Such a case is taken for what this makes of it.
    pub fn takes(self, such: impl Such, change: impl Fn(&mut Request) + 'static) {
        self.also(such, move |case| case.ask(&change));
    }

    /// Such a case is taken for what this makes of it, and the reader is mended as it is now, by what it was of old.
    pub fn as_if(
        self,
        such: impl Such,
        change: impl Fn(&mut Request) + 'static,
        mend: impl Fn(&mut Reader, &Reader) + 'static,
    ) {
        self.also(such, move |case| {
            case.ask(&change);
            mend(&mut case.outcome.reader, case.old);
        });
    }

    /// Such a case is taken for what this makes of it, as far as the lent lengths go; what lies past that stays.
    pub fn takes_for(self, such: impl Such, fit: impl Fn(&mut Request) + 'static) {
        self.also(such, move |case| {
            case.ask(&fit);
            let Outcome { reader: Reader { templates, index, .. }, room, .. } = &mut case.outcome;
            let old = [&case.old.templates, &case.old.index, &case.request.room];
            for (now, old) in [templates, index, room].into_iter().zip(old) {
                now.truncate(old.len());
                now.extend(&old[now.len()..]);
            }
        });
    }

    /// The packet of such a case is taken for another, made of the reader of old and of it.
    pub fn takes_packet(self, such: impl Such, other: impl Fn(&Reader, &Packet) -> Vec<u8> + 'static) {
        self.also(such, move |case| {
            if let (end, Some(found)) = find(&case.request.run) {
                let (start, used) = (end - (found.content.len() + 11), case.outcome.answer.used);
                case.ask(|asked| drop(asked.run.splice(start..end, other(&asked.reader, &found))));
                case.outcome.answer.used = used;
            }
        });
    }

    /// A command with a right sum that gets one of these codes is taken for one of another content.
    pub fn takes_content(self, command: u8, codes: &'static [u8], change: impl Fn(&mut Vec<u8>) + 'static) {
        let such = move |case: &Case| !case.sum_wrong() && codes.iter().any(|&code| case.gets(command, code));
        self.takes_packet(such, move |_, found| {
            let mut content = found.content.to_vec();
            change(&mut content);
            packet(found.address, COMMAND, &content)
        });
    }
}

/// Where a case is such, it also has this effect.
fn such_also(such: Box<dyn Fn(&Case) -> bool>, effect: Box<dyn Fn(&mut Case)>) -> Makes {
    Rc::new(move |request: &Request| {
        let mut case = Case::of(request);
        if such(&case) {
            effect(&mut case);
        }
        case.outcome
    })
}

/// A receiver that takes bytes until so many are held, with this reader inside.
pub fn holds(most: usize, reader: Makes) -> Makes {
    Rc::new(move |request: &Request| {
        let before = held_by(request);
        let fits = request.run.len().min(most.saturating_sub(before.held().len()));
        let run = [before.held(), &request.run[..fits]].concat();
        let switches = request.kind.is_line_switch();
        let kind = if switches { Kind::LineSwitch } else { Kind::Call };
        let mut outcome = reader(&Request { kind, run: run.clone(), ..request.clone() });
        outcome.receiver = Some(before.clone());
        if outcome.answer.refusal == 0 && switches {
            outcome.receiver = Some(Receiver::empty());
        } else if outcome.answer.refusal == 0 && before.legal() {
            outcome.receiver = Some(Receiver::holding(&run[outcome.answer.used..]));
            outcome.answer.used = fits;
        } else if outcome.answer.refusal == 0 {
            return refused_with(3, request);
        }
        outcome
    })
}

/// The receiver before, of a request that has one.
pub fn held_by(request: &Request) -> &Receiver {
    request.kind.receiver().expect("there is a receiver")
}

/// The request refused with this number.
pub fn refused_with(refusal: u8, request: &Request) -> Outcome {
    let Request { kind, reader, room, .. } = request.clone();
    Outcome { answer: Answer::without_reply(refusal), receiver: kind.receiver().cloned(), reader, room }
}

/// The pages that the content of a DeletChar names.
pub fn pages(content: &[u8]) -> Range<usize> {
    let (page, count) = (number(&content[1..3]), number(&content[3..]));
    page..page + count
}

/// Zeroes the vacant pages, as far as the index tells of them.
pub fn zero_vacant(reader: &mut Reader) {
    for page in 0..reader.capacity().min(8 * reader.index.len()) {
        if !reader.stored(page) {
            reader.template_mut(page).fill(0);
        }
    }
}

/// How many bits are set.
pub fn ones(bytes: &[u8]) -> u16 {
    bytes.iter().map(|byte| byte.count_ones() as u16).sum()
}

/// The commands with the names that the rows have for them.
pub fn named_commands() -> impl Iterator<Item = (&'static str, u8)> {
    let names = "search store load-char up-char down-char delet-char empty set-sys-para read-sys-para set-pwd vfy-pwd \
        set-adder write-notepad read-notepad templete-num read-index-table hand-shake";
    names.split_whitespace().zip(COMMANDS)
}
