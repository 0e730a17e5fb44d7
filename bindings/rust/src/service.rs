//! A service: the repositories and streams of any number of tenants.

use std::io::{ErrorKind, Read};

use crate::error::{Error, ImportError, OUT_OF_MEMORY};
use crate::handles::{ReplyHandle, ServiceHandle};
use crate::replies::{object_of, Log, Object, ObjectName, Refs, Tree};

/// How many bytes `import` reads and feeds at once.
const PIECE: usize = 1 << 16;

/// What all tenants have together.
#[derive(Clone, Copy, Debug, PartialEq, Eq)]
pub struct Totals {
    /// Distinct contents, those of running streams included.
    pub contents: u64,
    /// The sum of their sizes, or 2^64 - 1 if it is greater.
    pub bytes: u64,
    /// Tenants that have an object at their last checkpoint.
    pub tenants: u64,
}

/// What one tenant has at its last checkpoint. A sum is 2^64 - 1 if it would be greater.
#[derive(Clone, Debug, PartialEq, Eq)]
pub struct TenantSizes {
    /// Its name.
    pub tenant: Vec<u8>,
    /// How many objects it has.
    pub objects: u64,
    /// The sum of their sizes.
    pub bytes: u64,
    /// That sum without the objects whose contents another tenant has too.
    pub own_bytes: u64,
    /// How many refs it has.
    pub refs: u64,
}

/// The repositories and streams of any number of tenants, in memory.
///
/// Names of tenants, streams and queries may have any bytes. A bad name of a tenant is refused with 32. No tenant has to be made: one that
/// was never seen has an empty repository.
pub struct Service {
    handle: ServiceHandle,
    reply: ReplyHandle,
}

impl Service {
    /// Makes a service without tenants. Refused with 90 if there is no memory.
    pub fn new() -> Result<Service, Error> {
        Service::with(ServiceHandle::new())
    }

    /// Makes a service of the bytes of a pool file. Each tenant has its repository, and no stream.
    ///
    /// Refused with 60 to 67, 68 or 69 where the file is, and with 90 if there is no memory.
    pub fn load(file: &[u8]) -> Result<Service, Error> {
        Service::with(ServiceHandle::load(file))
    }

    /// Makes a service of the bytes of a pool file, without copies of contents. The service reads them where they are. These may be the bytes
    /// of a file that is mapped and is never unmapped, written or shortened; other pages of it than those in use need no memory.
    ///
    /// Refused as `load` is for the same bytes.
    ///
    /// ```
    /// # fn main() -> Result<(), gitpool::Error> {
    /// let mut service = gitpool::Service::new()?;
    /// service.import("alice", &b"blob\ndata 6\nhello\n"[..]).unwrap();
    /// let file: &'static [u8] = service.save()?.leak();
    /// let mut again = gitpool::Service::load_lent(file)?;
    /// assert_eq!(again.object("alice", "ce01")?.contents, b"hello\n");
    /// # Ok(())
    /// # }
    /// ```
    pub fn load_lent(file: &'static [u8]) -> Result<Service, Error> {
        Service::with(ServiceHandle::load_lent(file))
    }

    fn with(handle: Result<ServiceHandle, u32>) -> Result<Service, Error> {
        let handle = handle.map_err(Error::of_number)?;
        let reply = ReplyHandle::new().map_err(Error::of_number)?;
        Ok(Service { handle, reply })
    }

    /// A pool file of all tenants at their last checkpoints. Streams go on, and what they have not saved is left out.
    ///
    /// Refused with 90 if there is no memory.
    ///
    /// ```
    /// # fn main() -> Result<(), gitpool::Error> {
    /// let mut service = gitpool::Service::new()?;
    /// service.import("alice", &b"blob\ndata 6\nhello\n"[..]).unwrap();
    /// let file = service.save()?;
    /// let mut again = gitpool::Service::load(&file)?;
    /// assert_eq!(again.object("alice", "ce01")?.contents, b"hello\n");
    /// assert_eq!(gitpool::Service::load(&file[1..]).err().unwrap().number(), 60);
    /// # Ok(())
    /// # }
    /// ```
    pub fn save(&mut self) -> Result<Vec<u8>, Error> {
        let number = self.handle.save(&mut self.reply);
        self.answered(number)
    }

    // The bytes of the reply to a call that answered this number.
    fn answered(&mut self, number: u32) -> Result<Vec<u8>, Error> {
        let mut reply = Vec::new();
        self.answered_into(number, &mut reply).map(|()| reply)
    }

    fn answered_into(&mut self, number: u32, out: &mut Vec<u8>) -> Result<(), Error> {
        if number == 0 {
            self.reply.append_to(out);
            return Ok(());
        }
        let mut reply = Vec::new();
        self.reply.append_to(&mut reply);
        match number {
            OUT_OF_MEMORY => Err(Error::Memory { items: self.reply.items(), reply }),
            _ => Err(Error::Fault { number, reply }),
        }
    }

    /// Opens a stream of the tenant.
    ///
    /// Refused with 31 if the tenant has one, with 32, and with 90 if there is no memory. Nothing has changed then.
    pub fn open(&mut self, tenant: impl AsRef<[u8]>) -> Result<(), Error> {
        let number = self.handle.open(tenant.as_ref(), &mut self.reply);
        self.answered(number).map(drop)
    }

    /// Feeds the next bytes of the stream, cut anywhere, and gives what they print.
    ///
    /// Refused with 30 if the tenant has no stream, and with 32; nothing has changed then. Refused with 1 to 25 for a fault of the bytes, and
    /// with 90 if there is no memory, now or in an earlier piece of the stream. The tenant is at its last checkpoint then, and each later
    /// call of `feed` is refused with the same number until the `end`.
    pub fn feed(&mut self, tenant: impl AsRef<[u8]>, bytes: &[u8]) -> Result<Vec<u8>, Error> {
        let number = self.handle.feed(tenant.as_ref(), bytes, &mut self.reply);
        self.answered(number)
    }

    /// Ends the stream, saves what it has made, and gives what that prints. Call it after a fault of the stream too.
    ///
    /// Refused with 30 if the tenant has no stream, and with 32; nothing has changed then. Refused with 1 to 25 or 90 for a fault of the end,
    /// or that of an earlier `feed`. The tenant is at its last checkpoint then, and has no stream.
    pub fn end(&mut self, tenant: impl AsRef<[u8]>) -> Result<Vec<u8>, Error> {
        let number = self.handle.end(tenant.as_ref(), &mut self.reply);
        self.answered(number)
    }

    /// The answer to a query, such as `refs` or `cat HEAD:README`. gitpool(1) lists them. It sees the tenant's last checkpoint.
    ///
    /// Refused with 40 or 41 if the query is unknown or malformed, with 15, 16, 17 or 25 for what it asks, with 32, and with 90 if there is no
    /// memory. Nothing changes.
    pub fn ask(&mut self, tenant: impl AsRef<[u8]>, query: impl AsRef<[u8]>) -> Result<Vec<u8>, Error> {
        let mut reply = Vec::new();
        self.ask_into(tenant, query, &mut reply).map(|()| reply)
    }

    /// The same; the answer is appended to `out`, which a caller with many queries can use again.
    pub fn ask_into(&mut self, tenant: impl AsRef<[u8]>, query: impl AsRef<[u8]>, out: &mut Vec<u8>) -> Result<(), Error> {
        let number = self.handle.ask(tenant.as_ref(), query.as_ref(), &mut self.reply);
        self.answered_into(number, out)
    }

    /// Closes the streams of all tenants, each at its last checkpoint.
    pub fn restart(&mut self) {
        self.handle.restart(&mut self.reply);
    }

    /// Imports a stream of git-fast-import(1) from a reader to its end, and gives what it prints.
    ///
    /// The tenant has no stream afterwards, except where it had one before (31). After a refusal, and where the reader failed, the tenant is at
    /// the stream's last checkpoint.
    ///
    /// ```
    /// # fn main() -> Result<(), gitpool::ImportError> {
    /// let mut service = gitpool::Service::new()?;
    /// let stream = &b"blob\nmark :1\ndata 6\nhello\nget-mark :1\n"[..];
    /// assert_eq!(service.import("alice", stream)?, b"ce013625030ba8dba906f756967f9e9ca394464a\n");
    /// # Ok(())
    /// # }
    /// ```
    pub fn import(&mut self, tenant: impl AsRef<[u8]>, mut reader: impl Read) -> Result<Vec<u8>, ImportError> {
        let tenant = tenant.as_ref();
        self.open(tenant)?;
        match self.feed_all(tenant, &mut reader) {
            Ok(mut printed) => {
                printed.append(&mut self.end(tenant)?);
                Ok(printed)
            }
            Err(refused) => {
                self.handle.abandon(tenant);
                Err(refused)
            }
        }
    }

    fn feed_all(&mut self, tenant: &[u8], reader: &mut impl Read) -> Result<Vec<u8>, ImportError> {
        let mut piece = vec![0; PIECE];
        let mut printed = Vec::new();
        loop {
            let length = match reader.read(&mut piece) {
                Err(error) if error.kind() == ErrorKind::Interrupted => continue,
                told => told?,
            };
            if length == 0 {
                return Ok(printed);
            }
            printed.append(&mut self.feed(tenant, &piece[..length])?);
        }
    }

    /// The refs of the tenant, in the order of their bytes. Refused as [`Service::ask`] is.
    pub fn refs(&mut self, tenant: impl AsRef<[u8]>) -> Result<Refs, Error> {
        self.ask(tenant, "refs").map(Refs::of)
    }

    /// The ref that the tenant's HEAD names. It need not be there.
    pub fn head(&mut self, tenant: impl AsRef<[u8]>) -> Result<Vec<u8>, Error> {
        let mut reply = self.ask(tenant, "head")?;
        reply.pop();
        Ok(reply)
    }

    /// The name of the object that an expression of gitrevisions(7) names. Refused with 15, 16, 17 or 41.
    pub fn resolve(&mut self, tenant: impl AsRef<[u8]>, expression: impl AsRef<[u8]>) -> Result<ObjectName, Error> {
        let reply = self.ask_of(tenant.as_ref(), b"rev-parse ", expression.as_ref())?;
        Ok(reply.strip_suffix(b"\n").and_then(ObjectName::read).expect("a reply to `rev-parse` is the name of an object"))
    }

    /// The commits of a range, from new to old. Refused as [`Service::resolve`] is.
    pub fn log(&mut self, tenant: impl AsRef<[u8]>, commits: impl AsRef<[u8]>) -> Result<Log, Error> {
        self.ask_of(tenant.as_ref(), b"log ", commits.as_ref()).map(Log::of)
    }

    /// The entries of the tree that an expression names or peels to. Refused as [`Service::resolve`] is.
    pub fn tree(&mut self, tenant: impl AsRef<[u8]>, expression: impl AsRef<[u8]>) -> Result<Tree, Error> {
        self.ask_of(tenant.as_ref(), b"ls ", expression.as_ref()).map(Tree::of)
    }

    /// The object that an expression names. Refused as [`Service::resolve`] is.
    pub fn object(&mut self, tenant: impl AsRef<[u8]>, expression: impl AsRef<[u8]>) -> Result<Object, Error> {
        let reply = self.ask_of(tenant.as_ref(), b"cat ", expression.as_ref())?;
        Ok(object_of(&reply).expect("a reply to `cat` is a line of name, kind and size, and the contents"))
    }

    /// The tenant's repository as a stream of git-fast-import(1). Refused with 25 if its refs are too many.
    pub fn export(&mut self, tenant: impl AsRef<[u8]>) -> Result<Vec<u8>, Error> {
        self.ask(tenant, "export")
    }

    fn ask_of(&mut self, tenant: &[u8], word: &[u8], expression: &[u8]) -> Result<Vec<u8>, Error> {
        self.ask(tenant, [word, expression].concat())
    }

    /// Copies what a tenant has at its last checkpoint to an empty one.
    ///
    /// Refused with 31 if `to` has a stream, with 32, and with 33 if it has something; nothing has changed then. After 25, 90 and the other
    /// numbers up to 25, `to` may have a part of the repository: remove it.
    pub fn copy(&mut self, from: impl AsRef<[u8]>, to: impl AsRef<[u8]>) -> Result<(), Error> {
        done(self.handle.copy(from.as_ref(), to.as_ref()))
    }

    /// Removes a tenant with all that it has. Refused with 31 if it has a stream, and with 32.
    pub fn remove(&mut self, tenant: impl AsRef<[u8]>) -> Result<(), Error> {
        done(self.handle.remove(tenant.as_ref()))
    }

    /// Drops the objects that no ref of the tenant reaches. Refused with 31 if it has a stream, with 32, and with 90 if there is no memory.
    pub fn compact(&mut self, tenant: impl AsRef<[u8]>) -> Result<(), Error> {
        done(self.handle.compact(tenant.as_ref()))
    }

    /// Gives up the tenant's stream, running or dead: its last checkpoint stays. Refused with 30 if it has none, and with 32.
    pub fn abandon(&mut self, tenant: impl AsRef<[u8]>) -> Result<(), Error> {
        done(self.handle.abandon(tenant.as_ref()))
    }

    /// How much is stored.
    pub fn stored(&mut self) -> Totals {
        let totals = self.handle.stored();
        Totals { contents: totals.contents, bytes: totals.bytes, tenants: totals.tenants }
    }

    /// What each tenant has, in the order of their names. Refused with 90 if there is no memory.
    pub fn sizes(&mut self) -> Result<Vec<TenantSizes>, Error> {
        let mut list = self.handle.list_sizes().map_err(Error::of_number)?;
        let places = 0..list.count();
        Ok(places
            .filter_map(|it| list.at(it))
            .map(|(tenant, it)| TenantSizes { tenant, objects: it.objects, bytes: it.bytes, own_bytes: it.own_bytes, refs: it.refs })
            .collect())
    }
}

fn done(number: u32) -> Result<(), Error> {
    match number {
        0 => Ok(()),
        _ => Err(Error::of_number(number)),
    }
}
