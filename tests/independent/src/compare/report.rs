//! Tells readably what a case is and where two readers differ.

use crate::compare::frame::{Kind, Outcome, Request};
use crate::reader::{Mark, Origin, Settings, CLEAR, SET};

/// The case in lines.
pub fn case(request: &Request) -> Vec<String> {
    let reader = &request.reader;
    let fields: Vec<String> =
        settings(&reader.settings).iter().map(|(name, value)| format!("{name} {value}")).collect();
    let what = match request.kind {
        Kind::Call => "a call of the reader",
        Kind::LineSwitch => "a line switch of the reader",
        Kind::ReceiverCall(_) => "a call of the receiver",
        Kind::ReceiverLineSwitch(_) => "a line switch of the receiver",
        Kind::FreshSettings => "fresh settings",
        Kind::BringOver => "an index brought over",
        Kind::CloseGaps => "the gaps closed",
        Kind::Salvage => "a library salvaged",
    };
    let mut lines = vec![
        what.to_string(),
        fields[..5].join(", "),
        fields[5..].join(", "),
        format!("C = {}, {}", reader.capacity(), memory("templates", &reader.templates)),
    ];
    lines.push(memory("index", &reader.index));
    lines.push(memory("notepad", &reader.notepad));
    lines.push(memory("buffer 1", &reader.buffers[0]));
    lines.push(memory("buffer 2", &reader.buffers[1]));
    lines.push(numbers("scores", &reader.chip.scores));
    lines.push(numbers("thresholds", &reader.chip.thresholds));
    let room = match request.kind {
        Kind::CloseGaps => "table",
        Kind::Salvage => "report",
        _ => "reply room",
    };
    lines.push(memory(room, &request.room));
    if let Some(receiver) = request.kind.receiver() {
        lines.push(format!("held count {}, {}", receiver.count, memory("cells", &receiver.cells)));
        if receiver.legal() {
            lines.push(format!("held bytes: {}", hex(receiver.held())));
        }
    }
    let run = match request.kind {
        Kind::ReceiverCall(_) | Kind::ReceiverLineSwitch(_) => "piece",
        Kind::BringOver => "stored index",
        _ => "run",
    };
    lines.push(format!("{run} of {} bytes: {}", request.run.len(), hex(&request.run)));
    lines
}

/// Each field that differs, and both answers, in lines.
pub fn difference(paper: &Outcome, probe: &Outcome) -> Vec<String> {
    let mut lines = Vec::new();
    for ((name, paper), (_, probe)) in fields(paper).iter().zip(fields(probe)) {
        if *paper != probe {
            lines.push(format!("differs: {name}: paper {paper}, probe {probe}"));
        }
    }
    for ((name, paper), (_, probe)) in memories(paper).iter().zip(memories(probe)) {
        let places: Vec<usize> = (0..paper.len()).filter(|&place| paper[place] != probe[place]).collect();
        if let Some(&first) = places.first() {
            let (count, paper, probe) = (places.len(), paper[first], probe[first]);
            lines.push(format!(
                "differs: {name}: {count} bytes, first at {first}: paper {paper:02X}, probe {probe:02X}"
            ));
        }
    }
    lines.push(format!("paper: {}", answer(paper)));
    lines.push(format!("probe: {}", answer(probe)));
    lines
}

fn fields(outcome: &Outcome) -> Vec<(&'static str, String)> {
    let answer = &outcome.answer;
    let mut fields = vec![
        ("refusal", answer.refusal.to_string()),
        ("bytes used or taken", answer.used.to_string()),
        ("reply length", answer.length.to_string()),
    ];
    fields.extend(settings(&outcome.reader.settings));
    fields.extend(outcome.receiver.iter().map(|receiver| ("held count", receiver.count.to_string())));
    fields
}

fn settings(settings: &Settings) -> [(&'static str, String); 13] {
    let mark = |mark| match mark {
        CLEAR => "clear".to_string(),
        SET => "set".to_string(),
        Mark(other) => format!("{other:02X}h, not legal"),
    };
    let origin = |origin: Origin| origin.page().map_or("none".to_string(), |page| page.to_string());
    let transfer = match (settings.transfer, settings.got) {
        (0, 0) => "none".to_string(),
        (buffer, got) => format!("of buffer {buffer} with {got} bytes got"),
    };
    [
        ("password", hex(&settings.password)),
        ("address", hex(&settings.address)),
        ("level", settings.level.to_string()),
        ("size code", settings.size_code.to_string()),
        ("baud factor", settings.baud_factor.to_string()),
        ("type", settings.sensor_type.to_string()),
        ("verified", mark(settings.verified)),
        ("filled 1", mark(settings.filled[0])),
        ("filled 2", mark(settings.filled[1])),
        ("found", mark(settings.found)),
        ("origin 1", origin(settings.origins[0])),
        ("origin 2", origin(settings.origins[1])),
        ("transfer", transfer),
    ]
}

fn memories(outcome: &Outcome) -> Vec<(&'static str, &[u8])> {
    let reader = &outcome.reader;
    let mut memories: Vec<(&str, &[u8])> = vec![
        ("templates", &reader.templates),
        ("index", &reader.index),
        ("notepad", &reader.notepad),
        ("buffer 1", &reader.buffers[0]),
        ("buffer 2", &reader.buffers[1]),
        ("reply room, table or report", &outcome.room),
    ];
    memories.extend(outcome.receiver.iter().map(|receiver| ("cells", &receiver.cells[..])));
    memories
}

fn answer(outcome: &Outcome) -> String {
    let answer = &outcome.answer;
    let reply = match outcome.room.get(..answer.length) {
        Some([]) => "silent".into(),
        Some(reply) => format!("reply {}", hex(reply)),
        None => format!("reply of {} bytes, more than the room", answer.length),
    };
    let used = if outcome.receiver.is_some() { "taken" } else { "used" };
    format!("refusal {}, {used} {}, {reply}", answer.refusal, answer.used)
}

/// The length of a memory, and the first of its bytes that are not zero.
fn memory(name: &str, bytes: &[u8]) -> String {
    const SHOWN: usize = 16;
    let length = bytes.len();
    match bytes.iter().position(|&byte| byte != 0) {
        None => format!("{name} of {length} bytes: zero"),
        Some(first) => {
            let shown = &bytes[first..length.min(first + SHOWN)];
            let more = bytes[first + shown.len()..].iter().filter(|&&byte| byte != 0).count();
            format!("{name} of {length} bytes: from {first} {}, and {more} more not zero", hex(shown))
        }
    }
}

/// So many numbers of 16 bits, and those that are not zero by their places.
fn numbers(name: &str, numbers: &[u16]) -> String {
    let places = numbers.iter().enumerate().filter(|(_, &number)| number != 0);
    let told: Vec<String> = places.map(|(place, number)| format!(", {number:04X} at {place}")).collect();
    format!("{} {name}: zero{}", numbers.len(), told.concat())
}

pub fn hex(bytes: &[u8]) -> String {
    let bytes: Vec<String> = bytes.iter().map(|byte| format!("{byte:02X}")).collect();
    bytes.join(" ")
}
