//! A converter: reads a list of changes from standard input, writes a stream of git-fast-import(1) in pieces, and tells where it is refused.
//!
//! ```text
//! printf '0\tA <a@b>\tREADME\thello\tfirst\n' | converter
//! ```
//!
//! A change is a line: the time in seconds since 1970, the author, a path, its new contents, and a message, with tabs between them. Each
//! change becomes a commit, and each commit is a piece of the stream.

use std::error::Error;
use std::io::{self, BufRead};
use std::process::ExitCode;

use gitpool::Service;

const TENANT: &str = "site";

/// A refusal: its number, and the last byte of the shortest prefix of the stream that is refused, with its line. Both count from 1.
struct Refusal {
    error: gitpool::Error,
    byte: usize,
    line: usize,
}

/// The commit of a change, or `None` if the line is no change.
fn commit_of(line: &str) -> Option<String> {
    let mut cells = line.splitn(5, '\t');
    let (when, author, path, contents, message) = (cells.next()?, cells.next()?, cells.next()?, cells.next()?, cells.next()?);
    let head = format!("commit refs/heads/main\ncommitter {author} {when} +0000\ndata {}\n{message}\n", message.len());
    let file = format!("M 644 inline {path}\ndata {}\n{contents}\n", contents.len());
    Some(head + &file)
}

/// Where a stream is refused whose first bytes, `accepted` of them, are taken.
///
/// It was begun over an empty repository, so a second service takes it once more: what was accepted in one piece, and then byte by byte. If
/// only its end is refused, that is the place after the last byte.
fn place_of(stream: &[u8], accepted: usize) -> Result<(usize, usize), gitpool::Error> {
    let mut service = Service::new()?;
    service.open(TENANT)?;
    service.feed(TENANT, &stream[..accepted])?;
    let taken = stream[accepted..].chunks(1).take_while(|it| service.feed(TENANT, it).is_ok()).count();
    let at = accepted + taken;
    Ok((at + 1, 1 + stream[..at].iter().filter(|it| **it == b'\n').count()))
}

/// Feeds a commit for each line, and ends the stream. `stream` gets its bytes. The outer result is that of reading.
fn convert(service: &mut Service, lines: impl BufRead, stream: &mut Vec<u8>) -> io::Result<Result<(), Refusal>> {
    let mut accepted = 0;
    for line in lines.lines() {
        let commit = match commit_of(&line?) {
            Some(commit) => commit,
            None => break,
        };
        stream.extend_from_slice(commit.as_bytes());
        if let Err(error) = service.feed(TENANT, commit.as_bytes()) {
            return Ok(Err(refusal(error, stream, accepted)));
        }
        accepted = stream.len();
    }
    let ended = service.end(TENANT);
    Ok(ended.map(drop).map_err(|error| refusal(error, stream, accepted)))
}

fn refusal(error: gitpool::Error, stream: &[u8], accepted: usize) -> Refusal {
    let (byte, line) = place_of(stream, accepted).unwrap_or((0, 0));
    Refusal { error, byte, line }
}

fn tell() -> Result<ExitCode, Box<dyn Error>> {
    let mut service = Service::new()?;
    let mut stream = Vec::new();
    service.open(TENANT)?;
    match convert(&mut service, io::stdin().lock(), &mut stream)? {
        Ok(()) => {
            println!("{} bytes of stream, {} contents", stream.len(), service.stored().contents);
            Ok(ExitCode::SUCCESS)
        }
        Err(Refusal { error, byte, line }) => {
            println!("fault {} at byte {byte}, line {line}", error.number());
            Ok(ExitCode::FAILURE)
        }
    }
}

fn main() -> ExitCode {
    tell().unwrap_or_else(|error| {
        eprintln!("converter: {error}");
        ExitCode::FAILURE
    })
}
