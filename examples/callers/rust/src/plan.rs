//! Plans a manoeuvre for own ship: plan SCENARIO LOG
//!
//! Writes the report to standard output and the line of a fault to standard error, and exits with the status, as the program does.

use std::error::Error;
use std::io::{self, Write};
use std::process::ExitCode;
use std::{env, fs};

fn plan() -> Result<u8, Box<dyn Error>> {
    let mut names = env::args_os().skip(1);
    let (Some(scenario), Some(log), None) = (names.next(), names.next(), names.next()) else {
        return Err("usage: plan SCENARIO LOG".into());
    };
    let report = colregs::report(colregs::Mode::Plan, &fs::read(scenario)?, &fs::read(log)?, b"", &colregs::Options::default())?;
    io::stderr().write_all(&report.fault)?;
    let mut out = io::stdout().lock();
    out.write_all(&report.text)?;
    out.flush()?;
    Ok(report.status)
}

fn main() -> ExitCode {
    match plan() {
        Ok(status) => ExitCode::from(status),
        Err(fault) => {
            eprintln!("plan: {fault}");
            ExitCode::from(20)
        }
    }
}
