use crate::{Error, Result};

const MOST_KEY: usize = 255;
const MOST_VALUE: usize = 2048;
const MOST_TEXT: usize = 61_440;

/// The text of a batch: the number of operations, and for each put 1, key and value behind their lengths, for each delete 2 and the key.
#[derive(Clone, Debug)]
struct Text {
    bytes: Vec<u8>,
    count: u16,
}

impl Text {
    fn new() -> Text {
        Text { bytes: vec![0, 0], count: 0 }
    }

    fn add(&mut self, key: &[u8], value: Option<&[u8]>) -> Result<()> {
        if key.is_empty() || key.len() > MOST_KEY {
            return Err(Error::BadKey);
        }
        let length = match value {
            Some(value) if value.len() > MOST_VALUE => return Err(Error::BadValue),
            Some(value) => 4 + key.len() + value.len(),
            None => 2 + key.len(),
        };
        if self.bytes.len() + length > MOST_TEXT {
            return Err(Error::BatchTooBig);
        }
        self.bytes.push(if value.is_some() { 1 } else { 2 });
        self.bytes.push(key.len() as u8);
        self.bytes.extend_from_slice(key);
        if let Some(value) = value {
            self.bytes.extend_from_slice(&(value.len() as u16).to_be_bytes());
            self.bytes.extend_from_slice(value);
        }
        self.count += 1; // a text has no more than 20,479 operations
        self.bytes[..2].copy_from_slice(&self.count.to_be_bytes());
        Ok(())
    }
}

/// Puts and deletes that are written together, whole or not at all.
#[derive(Clone, Debug)]
pub struct WriteBatch(Text);

impl WriteBatch {
    /// A batch of no operations, which can't be written yet.
    pub fn new() -> WriteBatch {
        WriteBatch(Text::new())
    }

    /// Adds a put. The last operation on a key counts. Refused with `BadKey`, `BadValue` and `BatchTooBig`; the batch is then as it was.
    pub fn put(&mut self, key: impl AsRef<[u8]>, value: impl AsRef<[u8]>) -> Result<()> {
        self.0.add(key.as_ref(), Some(value.as_ref()))
    }

    /// Adds a delete. Refused with `BadKey` and `BatchTooBig`; the batch is then as it was.
    pub fn delete(&mut self, key: impl AsRef<[u8]>) -> Result<()> {
        self.0.add(key.as_ref(), None)
    }

    /// Drops all operations.
    pub fn clear(&mut self) {
        self.0 = Text::new();
    }

    /// How many operations there are.
    pub fn len(&self) -> usize {
        usize::from(self.0.count)
    }

    /// Whether there is none.
    pub fn is_empty(&self) -> bool {
        self.0.count == 0
    }

    pub(crate) fn text(&self) -> &[u8] {
        &self.0.bytes
    }
}

impl Default for WriteBatch {
    fn default() -> WriteBatch {
        WriteBatch::new()
    }
}

/// What has to be so for a batch to be written: at most 16 keys with their values, or with none.
#[derive(Clone, Debug)]
pub struct Guards(Text);

impl Guards {
    /// No guards.
    pub fn new() -> Guards {
        Guards(Text::new())
    }

    /// The key has just this value. Refused with `BadKey`, `BadValue` and `BatchTooBig`.
    pub fn holds(&mut self, key: impl AsRef<[u8]>, value: impl AsRef<[u8]>) -> Result<()> {
        self.0.add(key.as_ref(), Some(value.as_ref()))
    }

    /// The key has no value. Refused with `BadKey` and `BatchTooBig`.
    pub fn absent(&mut self, key: impl AsRef<[u8]>) -> Result<()> {
        self.0.add(key.as_ref(), None)
    }

    pub(crate) fn text(&self) -> &[u8] {
        if self.0.count == 0 {
            &[]
        } else {
            &self.0.bytes
        }
    }
}

impl Default for Guards {
    fn default() -> Guards {
        Guards::new()
    }
}
