//! Does the form that its words name. What that reads, as a scene, a line `%%` and a script, is on standard input, and what it
//! writes goes to standard output.
use lakmozet::run_streams;
use std::env::args_os;
use std::io::{stdin, stdout};
use std::process::ExitCode;

fn main() -> ExitCode {
    // A word that isn't UTF-8 is in no form, and no words are none either.
    let words: Option<Vec<String>> = args_os()
        .skip(1)
        .map(|word| word.into_string().ok())
        .collect();
    let status = run_streams(&words.unwrap_or_default(), stdin().lock(), stdout().lock());
    ExitCode::from(status.code())
}
