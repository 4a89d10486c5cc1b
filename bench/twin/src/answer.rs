//! What is written, and the status.

use std::process::ExitCode;

use crate::trace::End;

/// Says how many grants the trace has, or why it is no run, or why a text is refused.
pub fn say(answer: Result<Result<u64, End>, String>) -> ExitCode {
    let refusal = match answer {
        Ok(Ok(count)) => {
            println!("run {count}");
            return ExitCode::SUCCESS;
        }
        Ok(Err(End::Verdict(verdict))) => {
            println!("{verdict}");
            return ExitCode::from(4);
        }
        Ok(Err(End::Fault(fault))) => format!("trace {fault}"),
        Err(refusal) => refusal,
    };
    eprintln!("bipr: {refusal}");
    ExitCode::FAILURE
}
