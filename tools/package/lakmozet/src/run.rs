//! Whole runs, from bytes to bytes, as the program makes them.
use crate::parts::kit::alloc::{AllocError, Global};
use crate::parts::kit::{String as Word, Vec as List};
use crate::parts::pbd_cli::run::run as run_words;
use crate::parts::pbd_io::{Failed, Sink, Source, SureSource};
use alloc::vec::Vec;
use core::fmt;

/// How a run ended.
#[doc(inline)]
pub use crate::parts::pbd_outcome::Status;

impl fmt::Display for Status {
    fn fmt(&self, f: &mut fmt::Formatter<'_>) -> fmt::Result {
        write!(f, "{self:?}")
    }
}

/// Runs the program on an input, and appends what it writes: `["simulate", "8"]` and all other words that it knows.
///
/// The forms are `simulate W`, `record W`, `replay W`, `large W NUMBER SIZE`, `scramble NUMBER`, `obj W`, `marks W` and `host W`,
/// where W is 1, 2, 4, 8 or 16 and changes no byte. `docs/FORMATS.md` of the repository has what goes in and comes out.
///
/// ```
/// use lakmozet::{run, Status};
///
/// let input = b"gravity = [0, -10, 0]\n[[particle]]\nat = [0, 1000, 0]\n%%\nstep 3\nframe\n";
/// let mut output = Vec::new();
/// assert_eq!(run(&["simulate", "8"], input, &mut output), Status::Done);
/// assert_eq!(output, b"ok\nframe 3 1 0 0\n0 940 0\n");
///
/// let mut log = Vec::new();
/// run(&["record", "8"], input, &mut log);
/// let mut replayed = Vec::new();
/// assert_eq!(run(&["replay", "1"], &log, &mut replayed), Status::Done);
/// assert_eq!(replayed, output);
///
/// assert_eq!(run(&["--help"], b"", &mut output), Status::Usage);
/// ```
pub fn run<W: AsRef<str>>(words: &[W], input: &[u8], output: &mut Vec<u8>) -> Status {
    run_on(words, &mut SureSource::new(input), &mut Output(output))
}

/// The same from a reader to a writer, which may fail: `ReadFault` and `WriteFault`.
///
/// ```
/// use lakmozet::{run_streams, Status};
///
/// let mut output = Vec::new();
/// let status = run_streams(&["host", "4"], std::io::empty(), &mut output);
/// assert_eq!(status, Status::NoScript);
/// assert_eq!(status.code(), 5);
/// ```
#[cfg(feature = "std")]
pub fn run_streams<W: AsRef<str>>(
    words: &[W],
    input: impl std::io::Read,
    output: impl std::io::Write,
) -> Status {
    use crate::parts::pbd_io::{StdSink, StdSource};
    run_on(words, &mut StdSource::new(input), &mut StdSink::new(output))
}

fn run_on<W: AsRef<str>>(words: &[W], source: &mut impl Source, sink: &mut impl Sink) -> Status {
    match copied(words) {
        Ok(words) => run_words(Global, &words, source, sink),
        Err(AllocError) => Status::OutOfMemory,
    }
}

fn copied<W: AsRef<str>>(words: &[W]) -> Result<List<Word>, AllocError> {
    let mut copies = List::new(Global);
    for word in words {
        copies.push(Word::from_str(Global, word.as_ref())?)?;
    }
    Ok(copies)
}

struct Output<'a>(&'a mut Vec<u8>);

impl Sink for Output<'_> {
    fn write(&mut self, piece: &[u8]) -> Result<(), Failed> {
        self.0.try_reserve(piece.len()).map_err(|_| Failed)?;
        self.0.extend_from_slice(piece);
        Ok(())
    }
}
