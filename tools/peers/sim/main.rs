//! `sim script [FILE]`: runs a script of the sharing-list protocol. It reads and prints what `scisim script` does; and `sim outcomes
//! [FILE]` what `scisim outcomes` does.
//!
//! The simulator that one would write without contracts: docs/PROTOCOL.md, one struct a line, one match a turn.

mod line;
mod script;
mod search;

use script::{Fault, Refusal, Script};
use std::io::{self, BufWriter, Read, Write};
use std::process::ExitCode;

const LIMIT: usize = 1 << 20;

fn input(path: Option<&String>) -> io::Result<Vec<u8>> {
    match path {
        Some(path) => std::fs::read(path),
        None => {
            let mut text = Vec::new();
            io::stdin().lock().read_to_end(&mut text)?;
            Ok(text)
        }
    }
}

fn serve(searches: bool, text: &[u8]) -> Result<(), Fault> {
    let script = Script::read(text)?;
    let mut out = BufWriter::with_capacity(1 << 16, io::stdout().lock());
    let end = if searches {
        let (lines, calls) = script.run(&mut io::sink())?;
        search::outcomes(lines, &calls, &mut out)
    } else {
        script.run(&mut out).map(|_| ())
    };
    out.flush()?;
    end
}

fn main() -> ExitCode {
    let args: Vec<String> = std::env::args().skip(1).collect();
    let searches = match args.first().map(String::as_str) {
        Some("script") if args.len() <= 2 => false,
        Some("outcomes") if args.len() <= 2 => true,
        _ => {
            eprintln!("usage: sim script|outcomes [FILE]");
            return ExitCode::from(2);
        }
    };
    let text = match input(args.get(1)) {
        Ok(text) if text.len() <= LIMIT => text,
        Ok(_) => {
            eprintln!("scisim: refused 23");
            return ExitCode::FAILURE;
        }
        Err(_) => {
            eprintln!("scisim: cannot read");
            return ExitCode::FAILURE;
        }
    };
    match serve(searches, &text) {
        Ok(()) => ExitCode::SUCCESS,
        Err(Fault::Refused(Refusal(number, at))) => {
            eprintln!("scisim: refused {number} at line {at}");
            ExitCode::FAILURE
        }
        Err(Fault::Write) => {
            eprintln!("scisim: cannot write");
            ExitCode::FAILURE
        }
    }
}
