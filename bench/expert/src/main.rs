//! What an expert would write for the job of `bipr replay`, for the benchmark: each usual line is
//! taken in one pass over its bytes, with SSE2, a collision-free table of names and masks for the
//! components. The models, and any line that isn't usual or can't be next, are left to the twin's
//! modules, which find the fault. No proofs.

#[path = "../../twin/src/answer.rs"]
mod answer;
#[path = "../../twin/src/expressions.rs"]
mod expressions;
mod fast;
#[path = "../../twin/src/model.rs"]
mod model;
mod names;
mod sums;
#[path = "../../twin/src/trace.rs"]
mod trace;

use std::env;
use std::fs::File;
use std::io::{self, Read};
use std::process::ExitCode;

use crate::fast::{Fast, PAD};
use crate::trace::End;

/// The longest text that is read.
const MOST_BYTES: u64 = 16_777_216;
/// So many bytes of a trace are looked at together: they stay in the cache.
const WINDOW: usize = 256 * 1024;

fn open(path: &str) -> io::Result<File> {
    let file = File::open(path)?;
    if file.metadata()?.len() > MOST_BYTES {
        return Err(io::ErrorKind::FileTooLarge.into());
    }
    Ok(file)
}

fn read(path: &str) -> io::Result<Vec<u8>> {
    let mut text = Vec::new();
    open(path)?.read_to_end(&mut text)?;
    Ok(text)
}

/// Takes the lines of a file.
fn take(mut file: File, fast: &mut Fast) -> io::Result<Result<u64, End>> {
    let mut window = vec![0; WINDOW + PAD];
    let mut filled = 0;
    loop {
        let room = window.len() - PAD;
        let count = file.read(&mut window[filled..room])?;
        filled += count;
        if count == 0 && filled > 0 {
            window[filled] = b'\n';
            filled += 1;
        }
        let is_end = |byte: &u8| *byte == b'\n';
        let whole = window[..filled].iter().rposition(is_end).map_or(0, |at| at + 1);
        if let Err(end) = fast.lines(&window, whole) {
            return Ok(Err(end));
        }
        if count == 0 {
            return Ok(Ok(fast.count()));
        }
        window.copy_within(whole..filled, 0);
        filled -= whole;
        if filled == room {
            window.resize(2 * room + PAD, 0);
        }
    }
}

fn replay(model_path: &str, trace_path: &str) -> Result<Result<u64, End>, String> {
    let cannot = |path: &str| format!("cannot read {path}");
    let model_text = read(model_path).map_err(|_| cannot(model_path))?;
    let model = model::parse(&model_text).map_err(|fault| format!("model {fault}"))?;
    let file = open(trace_path).map_err(|_| cannot(trace_path))?;
    take(file, &mut Fast::new(&model)).map_err(|_| cannot(trace_path))
}

fn main() -> ExitCode {
    let words: Vec<String> = env::args().collect();
    let [_, model, trace] = words.as_slice() else {
        eprintln!("expert: usage: expert MODEL TRACE");
        return ExitCode::from(2);
    };
    answer::say(replay(model, trace))
}
