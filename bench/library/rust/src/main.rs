//! Asks a service in this process for objects: cat POOL NAMES ROUNDS. Prints the seconds of the best round, by the clock and of the
//! processor, and the bytes of all replies.

use std::error::Error;
use std::time::Instant;
use std::{env, fs};

use gitpool::Service;

/// Asks for each name, and gives the bytes of all replies.
fn ask_all(service: &mut Service, names: &[u8]) -> Result<usize, gitpool::Error> {
    let mut query = *b"cat 0000000000000000000000000000000000000000";
    let (mut reply, mut bytes) = (Vec::new(), 0);
    for name in names.chunks_exact(41) {
        query[4..].copy_from_slice(&name[..40]);
        reply.clear();
        service.ask_into("t", query, &mut reply)?;
        bytes += reply.len();
    }
    Ok(bytes)
}

/// The seconds that this process has used of the processor.
fn used() -> Result<f64, Box<dyn Error>> {
    let told = fs::read_to_string("/proc/self/schedstat")?;
    let nanoseconds: f64 = told.split(' ').next().unwrap_or("").parse()?;
    Ok(nanoseconds * 1e-9)
}

fn main() -> Result<(), Box<dyn Error>> {
    let words: Vec<String> = env::args().skip(1).collect();
    let mut service = Service::load(&fs::read(&words[0])?)?;
    let names = fs::read(&words[1])?;
    let (mut best, mut least, mut bytes) = (f64::INFINITY, f64::INFINITY, 0);
    for _ in 0..words[2].parse()? {
        let (begin, before) = (Instant::now(), used()?);
        bytes = ask_all(&mut service, &names)?;
        best = begin.elapsed().as_secs_f64().min(best);
        least = (used()? - before).min(least);
    }
    println!("{best:.6} {least:.6} {bytes}");
    Ok(())
}
