//! The printing program from standard input to standard output, by the tuned machine, which where asked
//! looks at the plan once, or by the plain one.

use peer::calls::{Mode, PLAIN, TUNED};
use peer::program;
use std::io::{self, ErrorKind};
use std::process::ExitCode;

fn main() -> ExitCode {
    let words: Vec<String> = std::env::args().skip(1).collect();
    let mode = match words.iter().map(String::as_str).collect::<Vec<_>>()[..] {
        [] => Mode::Each(TUNED),
        ["once"] => Mode::Once,
        ["plain"] => Mode::Each(PLAIN),
        _ => {
            eprintln!("peer-mspis [once | plain]");
            return ExitCode::FAILURE;
        }
    };
    match program::run(&mut io::stdin(), &mut io::stdout().lock(), &mode) {
        // Whoever reads the lines may stop at any of them.
        Err(error) if error.kind() != ErrorKind::BrokenPipe => {
            eprintln!("peer-mspis: {error}");
            ExitCode::FAILURE
        }
        _ => ExitCode::SUCCESS,
    }
}
