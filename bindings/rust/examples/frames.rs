//! Takes frames of docs/FORMATS.md from standard input, as `gitpool host` does, by the library in this process, and writes their answers.
//! A frame of kind 0 begins a new service, and has no answer. A Save checks that a service of what it saved saves the same.

use std::io::{self, BufReader, BufWriter, Read, Write};

use gitpool::{Error, Service};

/// The number with which a Save answers whose file is saved otherwise once it was loaded.
const OTHER_FILE: u32 = 999;

struct Frame {
    kind: u8,
    tenant: Vec<u8>,
    body: Vec<u8>,
}

/// The next frame, or `None` at the end.
fn read_frame(from: &mut impl Read) -> io::Result<Option<Frame>> {
    let mut kind = [0];
    if from.read(&mut kind)? == 0 {
        return Ok(None);
    }
    let mut length = [0; 2];
    from.read_exact(&mut length)?;
    let tenant = read_part(from, u16::from_be_bytes(length).into())?;
    let mut length = [0; 4];
    from.read_exact(&mut length)?;
    let body = read_part(from, u64::from(u32::from_be_bytes(length)))?;
    Ok(Some(Frame { kind: kind[0], tenant, body }))
}

fn read_part(from: &mut impl Read, length: u64) -> io::Result<Vec<u8>> {
    let mut part = Vec::new();
    from.take(length).read_to_end(&mut part)?;
    Ok(part)
}

fn write_answer(to: &mut impl Write, result: Result<Vec<u8>, Error>) -> io::Result<()> {
    let (status, value, reply) = match result {
        Ok(reply) => (0, 0, reply),
        Err(Error::Fault { number, reply }) => (1, number.into(), reply),
        Err(Error::Memory { items, reply }) => (2, items, reply),
    };
    to.write_all(&[status])?;
    to.write_all(&u64::to_be_bytes(value))?;
    to.write_all(&(reply.len() as u64).to_be_bytes())?;
    to.write_all(&reply)
}

fn saved(service: &mut Service) -> Result<(), Error> {
    let file = service.save()?;
    let again = Service::load(&file)?.save()?;
    if again == file {
        Ok(())
    } else {
        Err(Error::Fault { number: OTHER_FILE, reply: Vec::new() })
    }
}

fn sizes(service: &mut Service) -> Result<Vec<u8>, Error> {
    let mut lines = Vec::new();
    for it in service.sizes()? {
        lines.extend_from_slice(&it.tenant);
        let numbers = format!(" objects {} bytes {} own {} refs {}\n", it.objects, it.bytes, it.own_bytes, it.refs);
        lines.extend_from_slice(numbers.as_bytes());
    }
    Ok(lines)
}

fn restarted(service: &mut Service) -> Result<Vec<u8>, Error> {
    service.restart();
    Ok(Vec::new())
}

fn take(service: &mut Service, frame: &Frame) -> Result<Vec<u8>, Error> {
    let (tenant, body) = (&frame.tenant, &frame.body);
    let no_reply = |()| Vec::new();
    match frame.kind {
        1 => service.open(tenant).map(no_reply),
        2 => service.feed(tenant, body),
        3 => service.end(tenant),
        4 => service.ask(tenant, body),
        5 => restarted(service),
        16 => saved(service).map(no_reply),
        17 => service.abandon(tenant).map(no_reply),
        18 => service.remove(tenant).map(no_reply),
        19 => service.compact(tenant).map(no_reply),
        20 => service.copy(tenant, body).map(no_reply),
        21 => sizes(service),
        kind => panic!("{kind} is no kind of a frame"),
    }
}

fn main() -> Result<(), Box<dyn std::error::Error>> {
    let mut from = BufReader::new(io::stdin().lock());
    let mut to = BufWriter::new(io::stdout().lock());
    let mut service = Service::new()?;
    while let Some(frame) = read_frame(&mut from)? {
        match frame.kind {
            0 => service = Service::new()?,
            _ => write_answer(&mut to, take(&mut service, &frame))?,
        }
    }
    Ok(to.flush()?)
}
