//! What a service answers through the crate.

use std::io::{self, Read};

use gitpool::{Error, ImportError, Kind, Service};

const HELLO: &str = "ce013625030ba8dba906f756967f9e9ca394464a";
const BLOB: &[u8] = b"blob\nmark :1\ndata 6\nhello\n\nget-mark :1\n";
const COMMITS: &[u8] = b"blob\nmark :1\ndata 6\nhello\n\
commit refs/heads/main\ncommitter A <a@b> 0 +0000\ndata 3\none\nM 644 :1 d/\"q\nM 755 :1 \"t\\tb\"\n\
commit refs/heads/main\ncommitter A <a@b> 1 +0000\ndata 8\ntwo\nmore\nD \"t\\tb\"\n";

fn service_of(stream: &[u8]) -> Service {
    let mut service = Service::new().unwrap();
    service.import("t", stream).unwrap();
    service
}

fn number_of<T>(result: Result<T, Error>) -> u32 {
    result.err().unwrap().number()
}

#[test]
fn takes_pieces_of_any_size() {
    let mut service = Service::new().unwrap();
    for size in [1, 2, 7, BLOB.len()] {
        service.open("t").unwrap();
        let printed: Vec<u8> = BLOB.chunks(size).flat_map(|it| service.feed("t", it).unwrap()).collect();
        assert_eq!(printed, format!("{HELLO}\n").as_bytes());
        assert_eq!(service.end("t").unwrap(), b"");
    }
}

#[test]
fn gives_refs_logs_trees_and_objects() {
    let mut service = service_of(COMMITS);
    let refs: Vec<_> = service.refs("t").unwrap().collect();
    assert_eq!(refs.len(), 1);
    assert_eq!(refs[0].name, b"refs/heads/main");
    assert_eq!(refs[0].target, service.resolve("t", "main").unwrap());
    assert_eq!(service.head("t").unwrap(), b"refs/heads/main");
    let subjects: Vec<_> = service.log("t", "main").unwrap().map(|it| it.subject).collect();
    assert_eq!(subjects, [b"two".to_vec(), b"one".to_vec()]);
    assert_eq!(service.log("t", "main~1..main").unwrap().count(), 1);
    let entries: Vec<_> = service.tree("t", "main~1").unwrap().collect();
    assert_eq!(entries.iter().map(|it| (it.mode, it.kind)).collect::<Vec<_>>(), [(0o40000, Kind::Tree), (0o100755, Kind::Blob)]);
    assert_eq!(entries[1].name, b"t\tb");
    assert_eq!(service.tree("t", "main:d").unwrap().next().unwrap().name, b"\"q");
    let object = service.object("t", HELLO).unwrap();
    assert_eq!((object.name.to_string().as_str(), object.kind, object.contents.as_slice()), (HELLO, Kind::Blob, &b"hello\n"[..]));
    assert!(String::from_utf8(service.export("t").unwrap()).unwrap().contains("\nM 100644 :1 \"d/"));
}

#[test]
fn appends_answers_to_what_is_there() {
    let mut service = service_of(BLOB);
    let mut out = b"before ".to_vec();
    service.ask_into("t", "rev-parse ce01", &mut out).unwrap();
    assert_eq!(out, format!("before {HELLO}\n").as_bytes());
    assert_eq!(number_of(service.ask_into("t", "what", &mut out)), 40);
    assert_eq!(out.len(), 48);
}

#[test]
fn tells_the_number_of_each_refusal() {
    let mut service = service_of(BLOB);
    assert_eq!(number_of(service.feed("t", b"")), 30);
    assert_eq!(number_of(service.end("t")), 30);
    assert_eq!(number_of(service.abandon("t")), 30);
    assert_eq!(number_of(service.open("a//b")), 32);
    assert_eq!(number_of(service.ask("t", "what")), 40);
    assert_eq!(number_of(service.ask("t", "cat")), 41);
    assert_eq!(number_of(service.resolve("t", "main")), 16);
    service.open("t").unwrap();
    assert_eq!(number_of(service.open("t")), 31);
    assert_eq!(number_of(service.remove("t")), 31);
    service.restart();
    assert_eq!(number_of(service.end("t")), 30);
}

#[test]
fn keeps_what_a_refused_piece_printed() {
    let mut service = Service::new().unwrap();
    service.open("t").unwrap();
    let refused = service.feed("t", b"progress one\nwhat\n").unwrap_err();
    assert_eq!((refused.number(), refused.reply()), (2, &b"progress one\n"[..]));
    assert_eq!(refused.to_string(), "fault 2: unknown command");
    assert_eq!(number_of(service.feed("t", b"\n")), 2);
    assert_eq!(number_of(service.end("t")), 2);
    service.open("t").unwrap();
}

struct Broken;

impl Read for Broken {
    fn read(&mut self, _: &mut [u8]) -> io::Result<usize> {
        Err(io::ErrorKind::BrokenPipe.into())
    }
}

/// A reader that a signal interrupts once, and that has nothing else.
struct Interrupted(bool);

impl Read for Interrupted {
    fn read(&mut self, _: &mut [u8]) -> io::Result<usize> {
        if std::mem::replace(&mut self.0, true) {
            return Ok(0);
        }
        Err(io::ErrorKind::Interrupted.into())
    }
}

#[test]
fn goes_on_after_a_signal() {
    let mut service = Service::new().unwrap();
    let printed = service.import("t", Interrupted(false).chain(BLOB)).unwrap();
    assert_eq!(printed, format!("{HELLO}\n").as_bytes());
}

#[test]
fn leaves_no_stream_after_an_import_that_failed() {
    let mut service = Service::new().unwrap();
    assert!(matches!(service.import("t", &b"what\n"[..]), Err(ImportError::Refused(it)) if it.number() == 2));
    assert!(matches!(service.import("t", &b"blob\ndata 5\n"[..]), Err(ImportError::Refused(it)) if it.number() == 6));
    assert!(matches!(service.import("t", BLOB.chain(Broken)), Err(ImportError::Read(_))));
    assert_eq!(number_of(service.end("t")), 30);
}

#[test]
fn lent_bytes_give_what_copied_ones_do() {
    let file: &'static [u8] = service_of(COMMITS).save().unwrap().leak();
    for cut in 0..file.len() {
        assert_eq!(number_of(Service::load_lent(&file[..cut])), number_of(Service::load(&file[..cut])));
    }
    let mut lent = Service::load_lent(file).unwrap();
    assert_eq!(lent.export("t").unwrap(), Service::load(file).unwrap().export("t").unwrap());
    lent.import("u", BLOB).unwrap();
    assert_eq!(lent.object("u", HELLO).unwrap().contents, b"hello\n");
    lent.remove("u").unwrap();
    assert_eq!(lent.save().unwrap(), file);
}

#[test]
fn saves_and_loads() {
    let mut service = service_of(COMMITS);
    service.import("u/v", BLOB).unwrap();
    let file = service.save().unwrap();
    let mut again = Service::load(&file).unwrap();
    assert_eq!(again.export("t").unwrap(), service.export("t").unwrap());
    assert_eq!(again.save().unwrap(), file);
    assert_eq!(number_of(Service::load(b"")), 60 + 2);
    assert_eq!(number_of(Service::load(&file[..file.len() - 1])), 62);
}

#[test]
fn does_what_the_operator_asks() {
    let mut service = service_of(COMMITS);
    service.copy("t", "u").unwrap();
    assert_eq!(number_of(service.copy("t", "u")), 33);
    service.import("v", BLOB).unwrap();
    service.compact("v").unwrap();
    let sizes = service.sizes().unwrap();
    assert_eq!(sizes.iter().map(|it| it.tenant.as_slice()).collect::<Vec<_>>(), [&b"t"[..], b"u"]);
    assert_eq!((sizes[0].objects, sizes[0].refs, sizes[0].own_bytes), (6, 1, 0));
    service.remove("u").unwrap();
    assert_eq!(service.sizes().unwrap().len(), 1);
    assert_eq!(service.stored().tenants, 1);
    service.open("t").unwrap();
    service.abandon("t").unwrap();
}
