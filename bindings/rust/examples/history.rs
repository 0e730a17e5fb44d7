//! Imports a stream of git-fast-import(1) from standard input, and prints the refs and the log of HEAD: history [TENANT].

use std::io::{self, Write};
use std::process::ExitCode;

use gitpool::{ImportError, Service};

fn print_history(tenant: &str) -> Result<(), ImportError> {
    let mut service = Service::new()?;
    let mut out = io::stdout().lock();
    out.write_all(&service.import(tenant, io::stdin().lock())?)?;
    for it in service.refs(tenant)? {
        print_line(&mut out, &it.target, &it.name)?;
    }
    for it in service.log(tenant, "HEAD")? {
        print_line(&mut out, &it.commit, &it.subject)?;
    }
    Ok(())
}

fn print_line(out: &mut impl Write, name: &gitpool::ObjectName, text: &[u8]) -> io::Result<()> {
    write!(out, "{name} ")?;
    out.write_all(text)?;
    out.write_all(b"\n")
}

fn main() -> ExitCode {
    let tenant = std::env::args().nth(1).unwrap_or_else(|| "site".to_string());
    match print_history(&tenant) {
        Ok(()) => ExitCode::SUCCESS,
        Err(error) => {
            eprintln!("history: {error}");
            ExitCode::FAILURE
        }
    }
}
