//! An ordered map from keys to values in a file, in your own process, with atomic batches, guards (compare and swap) and snapshots.
//!
//! ```
//! use corwaphi::{Db, Error, Guards, Options, WriteBatch};
//!
//! # fn main() -> Result<(), Error> {
//! # let path = std::env::temp_dir().join(format!("corwaphi-doc-{}.img", std::process::id()));
//! # let _ = std::fs::remove_file(&path);
//! let db = Db::open_or_create(&path, &Options::default())?;
//! db.put(b"pear", b"green")?;
//!
//! // All or nothing.
//! let mut batch = WriteBatch::new();
//! batch.put(b"apple", b"red")?;
//! batch.delete(b"quince")?;
//! db.write(&batch)?;
//!
//! // Only if the pear is still green.
//! let mut guards = Guards::new();
//! guards.holds(b"pear", b"green")?;
//! let mut ripe = WriteBatch::new();
//! ripe.put(b"pear", b"ripe")?;
//! db.write_if(&guards, &ripe)?;
//!
//! db.sync()?; // it outlasts a power cut from here on
//! for row in db.iter(&b"a"[..]..&b"q"[..])? {
//!     let (key, value) = row?;
//!     println!("{key:?} = {value:?}");
//! }
//! # drop(db);
//! # let _ = std::fs::remove_file(&path);
//! # Ok(())
//! # }
//! ```
//!
//! Keys have 1 to 255 bytes, values 0 to 2,048. Threads may share a [`Db`]. Each write makes room by itself. Without a sync a kill of the
//! process loses nothing, and a power cut may lose batches, the last ones first. After [`Error::Io`] of a write or a sync each call returns
//! [`Error::Stopped`]: drop the store and open it again.
//!
//! A file has one store at a time. Nobody may shorten it: the system ends a process that reads where a file is gone.

#![warn(missing_docs)]

mod batch;
mod db;
mod error;
mod rows;
mod sys;

pub use batch::{Guards, WriteBatch};
pub use db::{Db, Options, Snapshot, Stat};
pub use error::Error;
pub use rows::Rows;

/// What calls return.
pub type Result<T> = std::result::Result<T, Error>;
