//! The comparer: puts the examples and the cases to another implementation of the papers, and demands every byte that the
//! independent reader gives.

pub mod fit;
pub mod frame;
pub mod probe;
pub mod report;
mod shrink;

use crate::cases::chance::Chance;
use crate::cases::receivers::{self, Caller};
use crate::cases::{
    self, bringing_over, counts, gaps, limits, origins, parameters, salvage, search, thousand, Dialogue,
};
use crate::examples::Examples;
use crate::reader;
use crate::tally::gaps::CLOSED;
use crate::tally::kinds::{BROUGHT, CALLED, FRESHENED, ON_A_LINE, RECEIVED};
use crate::tally::salvage::SALVAGED;
use crate::tally::Tally;
use frame::{Kind, Outcome, Request};
use std::time::{Duration, Instant};

/// So many cases or more must reach all that is counted; the examples do not count.
pub const COVERING_CASES: u64 = 2000;
/// In so many cases there are one dialogue with a reader, one caller of a receiver, two single receivers, one Search
/// and one ReadSysPara; the others are single readers.
const TURN: u64 = 8;
/// How often a long run tells how far it is.
const PROGRESS: Duration = Duration::from_secs(10);

/// Another implementation of the papers.
pub trait Other {
    /// What it makes of a request; an error if it gives no whole answer.
    fn ask(&mut self, request: &Request) -> Result<Outcome, String>;

    /// Demands that it ends well.
    fn finish(self) -> Result<(), String>;
}

/// One inside this program, by what a frame out tells of it.
impl<F: Fn(&Request) -> Outcome> Other for F {
    fn ask(&mut self, request: &Request) -> Result<Outcome, String> {
        let frame = self(request).frame();
        let mut rest = &frame[..];
        let outcome = Outcome::read(&mut rest, request).map_err(|error| error.to_string())?;
        if rest.is_empty() {
            Ok(outcome)
        } else {
            Err(format!("{} bytes after the answer", rest.len()))
        }
    }

    fn finish(self) -> Result<(), String> {
        Ok(())
    }
}

/// Why a comparison ends without agreement.
pub enum End {
    /// The two differ: a case, made small.
    Difference(Vec<String>),
    /// The cases are too weak: what did not occur.
    Weakness(Vec<String>),
    /// There is nothing to compare.
    Trouble(String),
}

impl From<String> for End {
    fn from(trouble: String) -> End {
        End::Trouble(trouble)
    }
}

/// How many cases there are, of which seed, and whether little is told.
#[derive(Clone, Copy)]
pub struct Extent {
    pub cases: u64,
    pub seed: u64,
    pub quiet: bool,
}

/// Puts the examples and the cases to the other; lines that tell of the agreement.
pub fn compare<O: Other>(other: O, examples: &Examples, extent: Extent) -> Result<Vec<String>, End> {
    let Extent { cases, seed, quiet } = extent;
    let mut comparer = Comparer { other, readers: Tally::default(), receivers: Tally::default(), case: String::new() };
    comparer.examples(examples)?;
    comparer.by_chance(extent)?;
    comparer.in_turn("of the thousand pages", bringing_over::all(seed).chain(thousand::all(seed)))?;
    comparer.in_turn("at the limits", limits::all(seed).into_iter())?;
    comparer.counts()?;
    comparer.in_turn("of the origins", origins::all())?;
    comparer.in_turn("of the searches", search::all())?;
    comparer.in_turn("of the parameters", parameters::all())?;
    comparer.in_turn("of the gaps", gaps::all(seed))?;
    comparer.in_turn("of the salvages", salvage::all())?;
    comparer.in_turn("of every length", receivers::every_length(seed))?;
    comparer.cut_runs(seed)?;
    let Comparer { other, readers, receivers, .. } = comparer;
    other.finish()?;

    let of_readers = [ON_A_LINE, CALLED, FRESHENED, BROUGHT, CLOSED, SALVAGED].concat();
    let of_receivers = [ON_A_LINE, CALLED, RECEIVED].concat();
    let mut missing = readers.missing(&of_readers);
    missing.extend(receivers.missing(&of_receivers).iter().map(|what| format!("with a receiver, {what}")));
    if !missing.is_empty() && cases >= COVERING_CASES {
        return Err(End::Weakness(missing));
    }
    let mut lines = Vec::new();
    for (who, tally, kinds) in [("reader", &readers, &of_readers), ("receiver", &receivers, &of_receivers)] {
        lines.push(format!("independent: {} calls of the {who} agree ({cases} cases of seed {seed})", tally.calls));
        if !quiet {
            lines.extend(tally.lines(kinds).iter().map(|line| format!("  {line}")));
        }
    }
    Ok(lines)
}

struct Comparer<O> {
    other: O,
    /// What is asked without a receiver.
    readers: Tally,
    /// What is asked with one.
    receivers: Tally,
    /// What the case at hand is called.
    case: String,
}

impl<O: Other> Comparer<O> {
    /// The examples, which also bind the independent reader and receiver. They do not count.
    fn examples(&mut self, examples: &Examples) -> Result<(), End> {
        for (name, frame_in, frame_out) in &examples.of_frames {
            self.case = format!("the example {name}");
            let request = Request::read(&mut &frame_in[..]).ok().flatten();
            let request = request.ok_or_else(|| format!("there is no frame in {}", self.case))?;
            let outcome = self.compared(&request)?;
            self.demand(request.frame() == *frame_in && outcome.frame() == *frame_out, "gives another frame")?;
        }
        for example in &examples.of_steps {
            self.case = format!("the example {}", example.name);
            let (mut receiver, mut reader) = (example.receiver.clone(), example.reader.clone());
            for step in &example.steps {
                let room = vec![0x5A; reader::ROOM];
                let request = Request { kind: Kind::call(receiver), reader, run: step.run.clone(), room };
                let outcome = self.compared(&request)?;
                let answer = &outcome.answer;
                let answered = answer.used == step.used && outcome.room[..answer.length] == step.reply;
                self.demand(answered && outcome.receiver == step.receiver, "gives another answer")?;
                (receiver, reader) = (outcome.receiver, outcome.reader);
            }
        }
        Ok(())
    }

    /// A demand of the papers on the independent reader, in the case at hand.
    fn demand(&self, holds: bool, failure: &str) -> Result<(), String> {
        if holds {
            Ok(())
        } else {
            Err(format!("the independent reader {failure} in {}", self.case))
        }
    }

    /// So many cases of each kind by chance.
    fn by_chance(&mut self, Extent { cases, seed, quiet }: Extent) -> Result<(), End> {
        let mut told = Instant::now();
        for case in 0..cases {
            self.case = format!("case {case} of seed {seed}");
            let chance = Chance::new(seed, case);
            match case % TURN {
                0 => self.dialogue(Dialogue::new(chance))?,
                1 => self.caller(Caller::new(chance))?,
                2 | 3 => drop(self.agreed(&receivers::single(chance))?),
                4 => drop(self.agreed(&search::by_chance(chance))?),
                5 => drop(self.agreed(&parameters::by_chance(chance))?),
                _ => drop(self.agreed(&cases::single(chance))?),
            }
            if !quiet && told.elapsed() > PROGRESS {
                eprintln!("independent: {case} of {cases} cases");
                told = Instant::now();
            }
        }
        Ok(())
    }

    fn dialogue(&mut self, mut dialogue: Dialogue) -> Result<(), End> {
        while let Some(request) = dialogue.next() {
            dialogue.go_on(self.agreed(&request)?);
        }
        Ok(())
    }

    /// The request's caller; each time it is at rest it must be where the same run leads when it is given whole.
    fn caller(&mut self, mut caller: Caller) -> Result<(), End> {
        while let Some(request) = caller.next() {
            let outcome = self.agreed(&request)?;
            caller.go_on(&request, outcome);
            self.demand(caller.as_given_whole(), "depends on where a run is cut,")?;
        }
        Ok(())
    }

    /// Requests one behind the other, by what they are of.
    fn in_turn(&mut self, of: &str, requests: impl Iterator<Item = Request>) -> Result<(), End> {
        for (place, request) in requests.enumerate() {
            self.case = format!("case {place} {of}");
            self.agreed(&request)?;
        }
        Ok(())
    }

    /// TempleteNum's number, which also binds the independent reader.
    fn counts(&mut self) -> Result<(), End> {
        for (place, (request, stored)) in counts::all().enumerate() {
            self.case = format!("case {place} of the counts");
            let told = self.agreed(&request)?.room;
            self.demand(reader::number(&told[10..12]) == stored, "tells another number")?;
        }
        Ok(())
    }

    /// Transfers, Searches and visits cut at every place.
    fn cut_runs(&mut self, seed: u64) -> Result<(), End> {
        let cut =
            receivers::cut_transfers(seed).chain(receivers::cut_searches(seed)).chain(receivers::cut_visits(seed));
        for (place, caller) in cut.enumerate() {
            self.case = format!("cut run {place} of seed {seed}");
            self.caller(caller)?;
        }
        Ok(())
    }

    /// The outcome on which both agree, in every byte. It counts.
    fn agreed(&mut self, request: &Request) -> Result<Outcome, End> {
        let outcome = self.compared(request)?;
        let tally = if request.kind.receiver().is_some() { &mut self.receivers } else { &mut self.readers };
        tally.add(request, &outcome);
        Ok(outcome)
    }

    fn compared(&mut self, request: &Request) -> Result<Outcome, End> {
        let paper = request.carried_out();
        let other = self.other.ask(request).map_err(|trouble| {
            let heading = format!("{trouble}, in {}:", self.case);
            [vec![heading], report::case(request)].concat().join("\n  ")
        })?;
        if other == paper {
            Ok(paper)
        } else {
            Err(self.difference(request, other))
        }
    }

    /// Tells of a case on which the two differ, made small.
    fn difference(&mut self, request: &Request, outcome: Outcome) -> End {
        let (case, outcome) = shrink::shrink(request.clone(), outcome, |case| self.other.ask(case));
        let heading = format!("the two differ in {}, made small:", self.case);
        let difference = report::difference(&case.carried_out(), &outcome);
        End::Difference([vec![heading], report::case(&case), difference].concat())
    }
}
