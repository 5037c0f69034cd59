//! 01's whole run over bytes, and what its program prints, both by the book.

use crate::book::{Best, Book, Call, Options, Outcome, State, TRIAL_BYTES, WINNER_BYTES};
use crate::book::{NONE, STOPS};
use crate::entries::{RECORD, ROOM, SHAPE};

/// The four inputs of a run, as a file or a C caller has them.
#[derive(Clone, Copy, Debug)]
pub struct Inputs<'a> {
    pub options: &'a [u8],
    pub marks: &'a [u8],
    pub stops: &'a [u8],
    pub trials: &'a [u8],
}

/// An accepted opening, with its lists.
pub struct Opened {
    pub state: State,
    pub marks: Vec<f64>,
    pub stops: Vec<u32>,
}

/// Opening from bytes: 1 to 4, 16, 5, 6, 7, 18, 8, with the byte lengths as 5 and
/// 8.
pub fn open(inputs: &Inputs) -> Result<Opened, u32> {
    Options::of_record(inputs.options)?.tested()?;
    if !inputs.marks.len().is_multiple_of(32) || inputs.marks.len() > 64_000 {
        return Err(SHAPE);
    }
    let doubles = inputs.marks.as_chunks().0.iter();
    let marks: Vec<f64> = doubles.map(|&eight| f64::from_le_bytes(eight)).collect();
    let (wholes, rest) = inputs.stops.as_chunks();
    let stops: Vec<u32> = wholes
        .iter()
        .map(|&four| u32::from_le_bytes(four))
        .collect();
    let state = State::open_record(inputs.options, &marks, &stops)?;
    if !rest.is_empty() {
        return Err(STOPS);
    }
    Ok(Opened {
        state,
        marks,
        stops,
    })
}

/// Reads trials to the bound, the end or the first refused. A cut-off last
/// trial is a record of a wrong length.
pub fn read(opened: &Opened, trials: &[u8]) -> (Book, Vec<Outcome>) {
    let (fed, mut book) = (opened.state.fed(), opened.state.book);
    let mut outcomes = Vec::new();
    for record in trials.chunks(TRIAL_BYTES) {
        if book.ended() {
            break;
        }
        let call = Call {
            record,
            marks: &opened.marks,
            stops: &opened.stops,
        };
        outcomes.push(book.call(&fed, &call).outcome);
        if outcomes.last().is_some_and(|last| last.number() != 0) {
            break;
        }
    }
    (book, outcomes)
}

/// The winner's 88 bytes.
pub fn winner_bytes(best: &Best) -> [u8; WINNER_BYTES] {
    let mut bytes = [0; WINNER_BYTES];
    bytes[..4].copy_from_slice(&best.count.to_le_bytes());
    bytes[4..8].copy_from_slice(&best.number.to_le_bytes());
    bytes[8..16].copy_from_slice(&best.rms.to_le_bytes());
    for (eight, h) in bytes[16..].chunks_exact_mut(8).zip(best.model) {
        eight.copy_from_slice(&h.to_le_bytes());
    }
    bytes
}

/// The winner and its indices as bytes, for outputs of these lengths.
fn answer(inputs: &Inputs, winner: usize, indices: usize) -> Result<(Best, Vec<u8>), u32> {
    let opened = open(inputs)?;
    if !inputs.trials.len().is_multiple_of(TRIAL_BYTES) {
        return Err(RECORD);
    }
    let n = opened.marks.len() / 4;
    if winner < WINNER_BYTES || indices < 4 * n {
        return Err(ROOM);
    }
    let (book, outcomes) = read(&opened, inputs.trials);
    if let Some(&Outcome::Refused(number)) = outcomes.last() {
        return Err(number);
    }
    let best = book.winner.ok_or(NONE)?;
    let state = State {
        book,
        ..opened.state
    };
    let list = state.winner_indices(&opened.marks, n)?;
    Ok((best, list.into_iter().flat_map(u32::to_le_bytes).collect()))
}

/// The whole run: 0, with the fronts of both outputs written, or the refusal,
/// with nothing written.
pub fn run(inputs: &Inputs, winner: &mut [u8], indices: &mut [u8]) -> u32 {
    match answer(inputs, winner.len(), indices.len()) {
        Ok((best, list)) => {
            winner[..WINNER_BYTES].copy_from_slice(&winner_bytes(&best));
            indices[..list.len()].copy_from_slice(&list);
            0
        }
        Err(number) => number,
    }
}

// What the program prints.

/// A trial's line, without the end of the line.
fn trial_line(number: usize, outcome: &Outcome) -> String {
    match outcome {
        Outcome::Refused(number) => format!("refused {number}"),
        Outcome::Empty => format!("{number} empty - -"),
        Outcome::Few(count) => format!("{number} few {count} -"),
        Outcome::Held(count, rms) => format!("{number} held {count} {:016x}", rms.to_bits()),
        Outcome::Won(count, rms) => format!("{number} won {count} {:016x}", rms.to_bits()),
    }
}

/// The lines after the last trial's.
fn last_lines(state: &State, marks: &[f64]) -> Vec<String> {
    let book = &state.book;
    let mut lines = Vec::new();
    match &book.winner {
        None => lines.push("winner none".to_string()),
        Some(Best {
            number, count, rms, ..
        }) => {
            lines.push(format!("winner {number} {count} {:016x}", rms.to_bits()));
            let list = state.winner_indices(marks, marks.len() / 4);
            let places = list.expect("a winner, and the opening's marks");
            let words = places.iter().map(|place| format!(" {place}"));
            lines.push(format!("indices{}", words.collect::<String>()));
        }
    }
    let Book {
        read,
        empty,
        few,
        scored,
        ..
    } = book;
    lines.push(format!("counts {read} {empty} {few} {scored}"));
    lines
}

/// All that the program prints for these files. One that can't be opened is
/// empty.
pub fn printed(files: &Inputs) -> String {
    let mut lines = Vec::new();
    match open(files) {
        Err(number) => lines.push(format!("refused {number}")),
        Ok(opened) => {
            lines.push("trial outcome count rms".to_string());
            let (book, outcomes) = read(&opened, files.trials);
            for (number, outcome) in (1..).zip(&outcomes) {
                lines.push(trial_line(number, outcome));
            }
            if outcomes.last().is_none_or(|last| last.number() == 0) {
                let state = State {
                    book,
                    ..opened.state
                };
                lines.extend(last_lines(&state, &opened.marks));
            }
        }
    }
    lines.iter().flat_map(|line| [line, "\n"]).collect()
}
