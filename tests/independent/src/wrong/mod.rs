//! Readers and receivers with one deliberate error each. Each is a row: where its error shows, its name, and what it
//! makes of a request, in the words of `words`. So `rows.reader("keeps-mark").sets(coded(0x13), |now, old| now.verified =
//! old.verified)` is a reader that is right but for what gets 13h, where the verified mark is now what it was of old.

mod basics;
mod bringing_over;
mod chips;
mod found;
mod gaps;
mod limits;
mod origins;
mod parameters;
mod receivers;
mod salvage;
mod salvage_refusals;
mod search;
mod thousand;
mod wipes;
mod words;

use words::*;

/// One with a deliberate error.
pub struct Wrong {
    pub name: String,
    shows: Shows,
    /// The requests that go wrong.
    such: fn(&Request) -> bool,
    makes: Makes,
}

/// Where an error shows.
type Shows = fn(&Kind) -> bool;
const WITHOUT_RECEIVER: Shows = |kind| matches!(kind, Kind::Call | Kind::LineSwitch);
const WITH_RECEIVER: Shows = |kind| matches!(kind, Kind::ReceiverCall(_) | Kind::ReceiverLineSwitch(_));
const FRESH: Shows = |kind| *kind == Kind::FreshSettings;
const BRINGING_OVER: Shows = |kind| *kind == Kind::BringOver;
const CLOSING: Shows = |kind| *kind == Kind::CloseGaps;
const SALVAGING: Shows = |kind| *kind == Kind::Salvage;

/// All wrong ones.
pub fn all() -> Vec<Wrong> {
    let mut rows = Rows(Vec::new());
    basics::add(&mut rows);
    receivers::add(&mut rows);
    limits::add(&mut rows);
    thousand::add(&mut rows);
    bringing_over::add(&mut rows);
    origins::add(&mut rows);
    wipes::add(&mut rows);
    search::add(&mut rows);
    found::add(&mut rows);
    chips::add(&mut rows);
    parameters::add(&mut rows);
    gaps::add(&mut rows);
    salvage::add(&mut rows);
    salvage_refusals::add(&mut rows);
    rows.0
}

impl Wrong {
    /// What it makes of a request: the same as the good one where its error does not show.
    pub fn carried_out(&self, request: &Request) -> Outcome {
        if (self.shows)(&request.kind) && (self.such)(request) {
            (self.makes)(request)
        } else {
            request.carried_out()
        }
    }
}

/// The rows so far.
pub struct Rows(Vec<Wrong>);

/// A row that is begun: its names, and the requests that go wrong.
pub struct Row<'a> {
    rows: &'a mut Vec<Wrong>,
    names: Vec<Name>,
    such: fn(&Request) -> bool,
}

/// A name, where the error shows, and whether it is that of a reader inside of a receiver.
type Name = (String, Shows, bool);

impl Rows {
    /// A reader without a receiver.
    fn reader(&mut self, name: impl Into<String>) -> Row<'_> {
        self.begin(vec![(name.into(), WITHOUT_RECEIVER, false)])
    }

    fn receiver(&mut self, name: impl Into<String>) -> Row<'_> {
        self.begin(vec![(name.into(), WITH_RECEIVER, false)])
    }

    /// A receiver with a wrong reader inside.
    fn inside(&mut self, name: impl Into<String>) -> Row<'_> {
        self.begin(vec![(name.into(), WITH_RECEIVER, true)])
    }

    /// A reader, and a receiver with this reader inside.
    fn both(&mut self, name: impl Into<String>) -> Row<'_> {
        let name = name.into();
        self.begin(vec![(format!("receiver-{name}"), WITH_RECEIVER, true), (name, WITHOUT_RECEIVER, false)])
    }

    /// What gives fresh settings.
    fn fresh(&mut self, name: impl Into<String>) -> Row<'_> {
        self.begin(vec![(name.into(), FRESH, false)])
    }

    /// What brings an index over.
    fn over(&mut self, name: impl Into<String>) -> Row<'_> {
        self.begin(vec![(name.into(), BRINGING_OVER, false)])
    }

    /// What closes the gaps.
    fn closing(&mut self, name: impl Into<String>) -> Row<'_> {
        self.begin(vec![(name.into(), CLOSING, false)])
    }

    /// What salvages a library.
    fn salvaging(&mut self, name: impl Into<String>) -> Row<'_> {
        self.begin(vec![(name.into(), SALVAGING, false)])
    }

    fn begin(&mut self, names: Vec<Name>) -> Row<'_> {
        Row { rows: &mut self.0, names, such: |_| true }
    }
}

impl Row<'_> {
    /// Such requests alone go wrong.
    fn only(self, such: fn(&Request) -> bool) -> Self {
        Row { such, ..self }
    }

    /// The row as a whole: what the wrong one makes of a request.
    fn makes(self, makes: Makes) {
        for (name, shows, inside) in self.names {
            let makes = if inside { holds(HOLDS, Rc::clone(&makes)) } else { Rc::clone(&makes) };
            self.rows.push(Wrong { name, shows, such: self.such, makes });
        }
    }
}
