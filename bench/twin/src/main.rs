//! A plain Rust twin of `bipr replay`, for the benchmark: the same texts, the same verdicts, std
//! alone, and no proofs.

mod answer;
mod expressions;
mod model;
mod trace;

use std::env;
use std::fs;
use std::process::ExitCode;

use crate::model::Model;
use crate::trace::{End, Position, Room};

/// The longest text that is read.
const MOST_BYTES: u64 = 16_777_216;

fn read(path: &str) -> Result<Vec<u8>, String> {
    let cannot = |_| format!("cannot read {path}");
    if fs::metadata(path).map_err(cannot)?.len() > MOST_BYTES {
        return Err(format!("cannot read {path}"));
    }
    fs::read(path).map_err(cannot)
}

/// How many grants the trace has, if they are a run.
fn count(model: &Model, text: &[u8]) -> Result<u64, End> {
    let mut position = Position::start(model);
    let mut room = Room::default();
    let mut count = 0;
    for (number, bytes) in model::lines(text) {
        count += u64::from(trace::line(&mut position, number, bytes, &mut room)?);
    }
    Ok(count)
}

fn replay(model_path: &str, trace_path: &str) -> Result<Result<u64, End>, String> {
    let model_text = read(model_path)?;
    let model = model::parse(&model_text).map_err(|fault| format!("model {fault}"))?;
    let trace_text = read(trace_path)?;
    Ok(count(&model, &trace_text))
}

fn main() -> ExitCode {
    let words: Vec<String> = env::args().collect();
    let [_, model, trace] = words.as_slice() else {
        eprintln!("twin: usage: twin MODEL TRACE");
        return ExitCode::from(2);
    };
    answer::say(replay(model, trace))
}
