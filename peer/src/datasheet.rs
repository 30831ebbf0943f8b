//! The sheet of the plan on standard input, to standard output.

use peer::sheet;
use std::io::{self, ErrorKind};
use std::process::ExitCode;

fn main() -> ExitCode {
    if std::env::args().len() > 1 {
        eprintln!("peer-datasheet");
        return ExitCode::FAILURE;
    }
    match sheet::run(&mut io::stdin(), &mut io::stdout().lock()) {
        // Whoever reads the lines may stop at any of them.
        Err(error) if error.kind() != ErrorKind::BrokenPipe => {
            eprintln!("peer-datasheet: {error}");
            ExitCode::FAILURE
        }
        _ => ExitCode::SUCCESS,
    }
}
