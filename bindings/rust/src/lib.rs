//! Git repositories of many tenants in one process.
//!
//! This crate calls the library gitpool, whose functions are proved: each tenant is told, and has, what it would in a repository of its own,
//! and a stream that is refused leaves the last checkpoint. The crate itself is not proved.
//!
//! ```
//! use gitpool::Service;
//!
//! # fn main() -> Result<(), gitpool::ImportError> {
//! let mut service = Service::new()?;
//! service.import("alice", &b"blob\nmark :1\ndata 6\nhello\ncommit refs/heads/main\ncommitter A <a@b> 0 +0000\ndata 6\nfirst\nM 644 :1 f\n"[..])?;
//! for it in service.refs("alice")? {
//!     println!("{} {}", it.target, String::from_utf8_lossy(&it.name));
//! }
//! let first = service.log("alice", "main")?.next().unwrap();
//! assert_eq!(first.subject, b"first");
//! assert_eq!(service.refs("bob")?.count(), 0);
//! assert_eq!(service.object("bob", "ce01").unwrap_err().number(), 16);
//! # Ok(())
//! # }
//! ```
//!
//! # Linking
//!
//! The build script looks for `libgitpool.a` in the folder that the environment variable `GITPOOL_LIB_DIR` names, else in the one that
//! pkg-config tells. If that folder has no archive, or `GITPOOL_SHARED=1` is set, it links `libgitpool.so`. No other crate is needed.
//!
//! # Threads
//!
//! A [`Service`] is neither `Send` nor `Sync`: it stays on the thread that made it, because no clause of the library says that a handle may be
//! moved to another thread. Threads that have services of their own need not wait for each other.
//!
//! Proved is that a call reads and writes the memory of its handles and of the slices that it is given, and beside it constants. A handle owns it
//! alone: nothing in it is lent to another handle, or counted (`holds` in crates/gitpool_c/specs/Held.antt). So calls of two services never meet.
//! That two threads may make such calls at once rests on this too:
//!
//! - The archive has no thread-local variable, and no static one that is written. The one byte outside of its constants is of the kit's
//!   allocator, and only its address is used, for an allocation of no bytes. `bindings/check` looks at the sections and at that byte.
//! - The library takes memory by `malloc`, `realloc` and `free` alone. Several threads may call these at once.
//!
//! ```
//! let count = || gitpool::Service::new().unwrap().refs("alice").unwrap().count();
//! assert_eq!(std::thread::spawn(count).join().unwrap() + count(), 0);
//! ```
//!
//! ```compile_fail
//! fn may_be_moved<T: Send>() {}
//! may_be_moved::<gitpool::Service>();
//! ```
//!
//! ```compile_fail
//! fn is_shared<T: Sync>() {}
//! is_shared::<gitpool::Service>();
//! ```
//!
//! # Memory
//!
//! Where the library finds no memory, a call is refused with 90. Replies are copied to a `Vec`; where there is no memory for that, Rust ends
//! the process, as it does for each `Vec`.

#![warn(missing_docs)]

mod error;
mod faults;
mod ffi;
mod handles;
mod replies;
mod service;

pub use error::{Error, ImportError, OUT_OF_MEMORY};
pub use handles::TENANT_NAME_LIMIT;
pub use replies::{Kind, Log, LogEntry, Object, ObjectName, Ref, Refs, Tree, TreeEntry};
pub use service::{Service, TenantSizes, Totals};
