use crate::error::done;
use crate::rows::Rows;
use crate::{sys, Error, Guards, Result, WriteBatch};
use std::ffi::CString;
use std::ops::RangeBounds;
use std::os::unix::ffi::OsStrExt;
use std::path::Path;
use std::{fmt, io};

/// How a store is opened, and how large a new one is made.
#[derive(Clone, Copy, Debug)]
pub struct Options {
    /// Blocks of 4 KiB that are kept in memory, 1 to 4,096.
    pub cache: u32,
    /// Of a new store: its size in sectors of 512 bytes, 8,192 to 1,048,576. It can't grow.
    pub sectors: u32,
    /// Of a new store: the size of each of its three logs, 128 to 2,048 sectors.
    pub log_sectors: u16,
}

impl Default for Options {
    /// A cache of 256 blocks, and new stores of 32 MiB.
    fn default() -> Options {
        Options { cache: 256, sectors: 65_536, log_sectors: 2_042 }
    }
}

impl Options {
    fn in_c(&self) -> sys::Options {
        sys::Options { cache: self.cache, sectors: self.sectors, log_sectors: self.log_sectors }
    }
}

/// The numbers of a store.
#[derive(Clone, Copy, Debug)]
pub struct Stat {
    /// The generation of the manifest.
    pub generation: u64,
    /// How many batches there are.
    pub batches: u64,
    /// How many of them are durable.
    pub synced: u64,
    /// The runs of level 0.
    pub runs: u64,
    /// The tables of all levels.
    pub tables: u64,
    /// Free sectors of the open log.
    pub log_room: u32,
    /// Blocks of 4 KiB that no table has.
    pub free_blocks: u32,
    /// Whether a flush waits.
    pub waiting: bool,
}

/// A store that is open: an ordered map in a file. Threads may share it. It is closed when it is dropped, which doesn't sync.
pub struct Db {
    store: sys::Store,
}

fn path_of(path: &Path) -> Result<CString> {
    CString::new(path.as_os_str().as_bytes()).map_err(|error| Error::File(io::Error::new(io::ErrorKind::InvalidInput, error)))
}

impl Db {
    /// Makes an empty store in a new file. Refused with `File` (of kind `AlreadyExists` where a file is there), `BadGeometry`, `InUse` and
    /// `NoMemory`.
    pub fn create(path: impl AsRef<Path>, options: &Options) -> Result<()> {
        let path = path_of(path.as_ref())?;
        // SAFETY: the path ends with a zero byte, and both live through the call.
        done(unsafe { sys::corwaphi_create(path.as_ptr(), &options.in_c()) })
    }

    /// Opens the store in a file, also after a crash. Refused with `File` (of kind `NotFound` where no file is there), `InUse`, `BadLimit`,
    /// `BadGeometry`, `NotAStore`, `Damaged`, `NoMemory` and `Io`.
    pub fn open(path: impl AsRef<Path>, options: &Options) -> Result<Db> {
        let path = path_of(path.as_ref())?;
        let mut store = sys::Store { number: 0 };
        // SAFETY: as above; the store is written where the call is well.
        done(unsafe { sys::corwaphi_open(path.as_ptr(), &options.in_c(), &mut store) })?;
        Ok(Db { store })
    }

    /// Opens the store in a file, or makes one where no file is there. Refused as both are.
    pub fn open_or_create(path: impl AsRef<Path>, options: &Options) -> Result<Db> {
        let path = path_of(path.as_ref())?;
        let mut store = sys::Store { number: 0 };
        // SAFETY: as above.
        done(unsafe { sys::corwaphi_open_or_create(path.as_ptr(), &options.in_c(), &mut store) })?;
        Ok(Db { store })
    }

    /// Puts a value under a key, and returns the number of the batch. Refused with `BadKey`, `BadValue`, `NoSpace`, `NoMemory`, `Io` and
    /// `Stopped`.
    pub fn put(&self, key: impl AsRef<[u8]>, value: impl AsRef<[u8]>) -> Result<u64> {
        let (key, value, mut number) = (key.as_ref(), value.as_ref(), 0);
        // SAFETY: pointers and lengths are those of slices.
        done(unsafe { sys::corwaphi_put(self.store, key.as_ptr(), key.len(), value.as_ptr(), value.len(), &mut number) })?;
        Ok(number)
    }

    /// Deletes a key, whether it has a value or not, and returns the number of the batch. Refused as [`put`](Db::put) is.
    pub fn delete(&self, key: impl AsRef<[u8]>) -> Result<u64> {
        let (key, mut number) = (key.as_ref(), 0);
        // SAFETY: as above.
        done(unsafe { sys::corwaphi_delete(self.store, key.as_ptr(), key.len(), &mut number) })?;
        Ok(number)
    }

    /// Writes a batch, whole or not at all, and returns its number. Refused with `EmptyBatch`, and as [`put`](Db::put) is.
    pub fn write(&self, batch: &WriteBatch) -> Result<u64> {
        let (text, mut number) = (batch.text(), 0);
        // SAFETY: as above.
        done(unsafe { sys::corwaphi_write(self.store, text.as_ptr(), text.len(), &mut number) })?;
        Ok(number)
    }

    /// Writes a batch if all guards hold at the moment of the write, and returns its number. Refused with `GuardFailed` and the place of the
    /// first that doesn't, `TooManyGuards` for more than 16, and as [`write`](Db::write) is.
    pub fn write_if(&self, guards: &Guards, batch: &WriteBatch) -> Result<u64> {
        let (guards, text, mut number, mut place) = (guards.text(), batch.text(), 0, 0);
        // SAFETY: as above.
        let code = unsafe {
            sys::corwaphi_write_if(self.store, guards.as_ptr(), guards.len(), text.as_ptr(), text.len(), &mut number, &mut place)
        };
        match done(code) {
            Ok(()) => Ok(number),
            Err(Error::GuardFailed(_)) => Err(Error::GuardFailed(place)),
            Err(error) => Err(error),
        }
    }

    /// The value of a key, or none. Refused with `BadKey`, `Damaged`, `NoMemory` and `Stopped`.
    pub fn get(&self, key: impl AsRef<[u8]>) -> Result<Option<Vec<u8>>> {
        self.get_at(sys::NOW, key.as_ref())
    }

    fn get_at(&self, snapshot: u64, key: &[u8]) -> Result<Option<Vec<u8>>> {
        let mut value = vec![0; sys::MOST_VALUE];
        let mut length = 0;
        // SAFETY: as above; the value has the room that is told.
        let code =
            unsafe { sys::corwaphi_get(self.store, snapshot, key.as_ptr(), key.len(), value.as_mut_ptr(), value.len(), &mut length) };
        if code == 32 {
            return Ok(None);
        }
        done(code)?;
        value.truncate(length);
        value.shrink_to_fit();
        Ok(Some(value))
    }

    /// The rows of a range in the order of their keys, all of this moment: it holds a snapshot until it is dropped. Refused with
    /// `TooManySnapshots`, `NoMemory` and `Stopped`; a range that ends before it begins has no rows.
    pub fn iter<'k>(&self, range: impl RangeBounds<&'k [u8]>) -> Result<Rows<'_>> {
        let snapshot = self.taken()?;
        Ok(Rows::new(self, snapshot, true, &range))
    }

    /// Takes a snapshot of the map as it is now, which is released when it is dropped. Refused with `TooManySnapshots`, `NoMemory` and
    /// `Stopped`.
    pub fn snapshot(&self) -> Result<Snapshot<'_>> {
        Ok(Snapshot { number: self.taken()?, db: self })
    }

    fn taken(&self) -> Result<u64> {
        let mut number = 0;
        // SAFETY: the number is written where the call is well.
        done(unsafe { sys::corwaphi_snapshot(self.store, &mut number) })?;
        Ok(number)
    }

    pub(crate) fn release(&self, snapshot: u64) {
        // SAFETY: a number alone.
        unsafe { sys::corwaphi_release(self.store, snapshot) };
    }

    pub(crate) fn store(&self) -> sys::Store {
        self.store
    }

    /// Makes all batches durable. Refused with `Io` and `Stopped`.
    pub fn sync(&self) -> Result<()> {
        // SAFETY: a number alone.
        done(unsafe { sys::corwaphi_sync(self.store) })
    }

    /// Makes the batches up to a number durable; nothing is done where they are. Refused with `NoSuchBatch`, `Io` and `Stopped`.
    pub fn sync_to(&self, number: u64) -> Result<()> {
        // SAFETY: numbers alone.
        done(unsafe { sys::corwaphi_sync_to(self.store, number) })
    }

    /// Merges all tables into the last level, as far as they find room, so that what deletes have freed is free. Refused with `Io` and
    /// `Stopped`.
    pub fn compact(&self) -> Result<()> {
        // SAFETY: a number alone.
        done(unsafe { sys::corwaphi_compact(self.store) })
    }

    /// The numbers of the store. Refused with `Stopped`.
    pub fn stat(&self) -> Result<Stat> {
        let mut told = sys::Numbers::default();
        // SAFETY: the numbers are written where the call is well.
        done(unsafe { sys::corwaphi_stat(self.store, &mut told) })?;
        Ok(Stat {
            generation: told.generation,
            batches: told.batches,
            synced: told.synced,
            runs: told.runs,
            tables: told.tables,
            log_room: told.log_room,
            free_blocks: told.free_blocks,
            waiting: told.waiting,
        })
    }
}

impl Drop for Db {
    fn drop(&mut self) {
        // SAFETY: a number alone; one that is closed is refused.
        unsafe { sys::corwaphi_close(self.store) };
    }
}

impl fmt::Debug for Db {
    fn fmt(&self, f: &mut fmt::Formatter<'_>) -> fmt::Result {
        f.debug_struct("Db").finish_non_exhaustive()
    }
}

/// The map of a moment. It is released when it is dropped.
#[derive(Debug)]
pub struct Snapshot<'a> {
    db: &'a Db,
    number: u64,
}

impl<'a> Snapshot<'a> {
    /// The value that a key had. Refused as [`Db::get`] is.
    pub fn get(&self, key: impl AsRef<[u8]>) -> Result<Option<Vec<u8>>> {
        self.db.get_at(self.number, key.as_ref())
    }

    /// The rows of a range in the order of their keys, as they were.
    pub fn iter<'k>(&self, range: impl RangeBounds<&'k [u8]>) -> Rows<'_> {
        Rows::new(self.db, self.number, false, &range)
    }
}

impl Drop for Snapshot<'_> {
    fn drop(&mut self) {
        self.db.release(self.number);
    }
}
