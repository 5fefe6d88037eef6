use crate::sys;
use std::ffi::CStr;
use std::{fmt, io};

/// Why a call was refused.
#[derive(Debug)]
#[non_exhaustive]
pub enum Error {
    /// Memory was refused, and nothing has changed.
    NoMemory,
    /// A call of the file failed. After a read call again; after a write or a sync open the store again.
    Io,
    /// An earlier write or sync failed: open the store again.
    Stopped,
    /// The snapshot was released.
    NoSuchSnapshot,
    /// There are 32 snapshots already; each iterator has one too.
    TooManySnapshots,
    /// The number is above the last batch's.
    NoSuchBatch,
    /// Puts find no room, though all tables were brought down as far as they go; or deletes, while a snapshot is live.
    NoSpace,
    /// A key has no byte or more than 255.
    BadKey,
    /// A value has more than 2,048 bytes.
    BadValue,
    /// The text of a batch would be longer than 61,440 bytes.
    BatchTooBig,
    /// A batch has no operation.
    EmptyBatch,
    /// A range ends before it begins.
    BadRange,
    /// The guard at this place, counted from 0, is false, and those before it are true.
    GuardFailed(u8),
    /// There are more than 16 guards.
    TooManyGuards,
    /// The file holds no store.
    NotAStore,
    /// The file holds something else, or is damaged.
    Damaged(&'static str),
    /// A size of the store or of its logs is outside the limits, or isn't that of the file.
    BadGeometry,
    /// The cache is outside 1 to 4,096 blocks.
    BadLimit,
    /// The file can't be opened or made.
    File(io::Error),
    /// Another program, or another store of this one, has the file.
    InUse,
    /// The store belongs to the parent of this process.
    Forked,
    /// Any other code, by its number in corwaphi.h.
    Other(u32),
}

pub(crate) fn done(code: u32) -> Result<(), Error> {
    match code {
        0 => Ok(()),
        _ => Err(Error::of(code)),
    }
}

fn text_of(text: *const std::ffi::c_char) -> &'static str {
    // SAFETY: the library's names and remedies are static, and end with a zero byte.
    unsafe { CStr::from_ptr(text) }.to_str().unwrap_or("")
}

impl Error {
    pub(crate) fn of(code: u32) -> Error {
        match code {
            1 => Error::NoMemory,
            2 => Error::Io,
            3 => Error::Stopped,
            7 => Error::NoSuchSnapshot,
            8 => Error::TooManySnapshots,
            9 => Error::NoSuchBatch,
            13 => Error::NoSpace,
            16 => Error::BadKey,
            17 => Error::BadValue,
            18 => Error::BatchTooBig,
            19 => Error::BadRange,
            21 => Error::NotAStore,
            // SAFETY: each number has a name.
            22..=24 => Error::Damaged(text_of(unsafe { sys::corwaphi_name(code) })),
            25 => Error::BadGeometry,
            28 => Error::BadLimit,
            30 => Error::GuardFailed(0),
            31 => Error::TooManyGuards,
            34 => Error::EmptyBatch,
            36 => Error::Forked,
            37 => Error::File(io::Error::last_os_error()),
            38 => Error::InUse,
            _ => Error::Other(code),
        }
    }

    /// The number of the error in corwaphi.h.
    pub fn code(&self) -> u32 {
        match self {
            Error::NoMemory => 1,
            Error::Io => 2,
            Error::Stopped => 3,
            Error::NoSuchSnapshot => 7,
            Error::TooManySnapshots => 8,
            Error::NoSuchBatch => 9,
            Error::NoSpace => 13,
            Error::BadKey => 16,
            Error::BadValue => 17,
            Error::BatchTooBig => 18,
            Error::BadRange => 19,
            Error::NotAStore => 21,
            Error::Damaged("BadSuper") => 22,
            Error::Damaged("BadManifest") => 23,
            Error::Damaged(_) => 24,
            Error::BadGeometry => 25,
            Error::BadLimit => 28,
            Error::GuardFailed(_) => 30,
            Error::TooManyGuards => 31,
            Error::EmptyBatch => 34,
            Error::Forked => 36,
            Error::File(_) => 37,
            Error::InUse => 38,
            Error::Other(code) => *code,
        }
    }

    /// What to do about it.
    pub fn remedy(&self) -> &'static str {
        // SAFETY: each number has a remedy, an unknown one an empty text.
        text_of(unsafe { sys::corwaphi_remedy(self.code()) })
    }
}

impl fmt::Display for Error {
    fn fmt(&self, f: &mut fmt::Formatter<'_>) -> fmt::Result {
        match self {
            Error::File(error) => write!(f, "the file can't be opened or made: {error}"),
            Error::EmptyBatch => write!(f, "the batch has no operation"),
            Error::GuardFailed(place) => write!(f, "guard {place} is false"),
            // SAFETY: each number has a name.
            _ => write!(f, "{}: {}", text_of(unsafe { sys::corwaphi_name(self.code()) }), self.remedy()),
        }
    }
}

impl std::error::Error for Error {
    fn source(&self) -> Option<&(dyn std::error::Error + 'static)> {
        match self {
            Error::File(error) => Some(error),
            _ => None,
        }
    }
}
