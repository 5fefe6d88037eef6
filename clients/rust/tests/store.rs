//! The store beside a `BTreeMap`, and what its errors, snapshots and threads do.

use corwaphi::{Db, Error, Guards, Options, WriteBatch};
use std::collections::BTreeMap;
use std::path::PathBuf;
use std::sync::Arc;

const SMALL: Options = Options { cache: 16, sectors: 16_384, log_sectors: 256 };

/// A file of a test's own, which goes with it.
struct Place(PathBuf);

impl Place {
    fn new(name: &str) -> Place {
        let place = Place(std::env::temp_dir().join(format!("corwaphi-{}-{name}.img", std::process::id())));
        let _ = std::fs::remove_file(&place.0);
        place
    }
}

impl Drop for Place {
    fn drop(&mut self) {
        let _ = std::fs::remove_file(&self.0);
    }
}

struct Random(u64);

impl Random {
    fn below(&mut self, bound: u64) -> u64 {
        self.0 ^= self.0 << 13;
        self.0 ^= self.0 >> 7;
        self.0 ^= self.0 << 17;
        (self.0 >> 11) % bound
    }
}

fn rows_of(rows: corwaphi::Rows<'_>) -> Vec<(Vec<u8>, Vec<u8>)> {
    rows.map(|row| row.expect("a row")).collect()
}

fn model_of(map: &BTreeMap<Vec<u8>, Vec<u8>>) -> Vec<(Vec<u8>, Vec<u8>)> {
    map.iter().map(|(key, value)| (key.clone(), value.clone())).collect()
}

#[test]
fn a_store_is_shared_between_threads_and_sent() {
    fn shared<T: Send + Sync + 'static>() {}
    shared::<Db>();
    shared::<Error>();
}

#[test]
fn random_calls_do_what_a_map_does() -> Result<(), Error> {
    let place = Place::new("random");
    let mut random = Random(88_172_645_463_325_252);
    let mut map = BTreeMap::new();
    let mut db = Db::open_or_create(&place.0, &SMALL)?;
    for call in 0..6_000 {
        let key = format!("key{:03}", random.below(200)).into_bytes();
        match random.below(20) {
            0..=7 => {
                let value = vec![random.below(256) as u8; random.below(400) as usize];
                db.put(&key, &value)?;
                map.insert(key, value);
            }
            8..=10 => {
                db.delete(&key)?;
                map.remove(&key);
            }
            11..=17 => assert_eq!(db.get(&key)?, map.get(&key).cloned()),
            18 => {
                let mut batch = WriteBatch::new();
                let mut guards = Guards::new();
                match map.get(&key) {
                    Some(value) => guards.holds(&key, value)?,
                    None => guards.absent(&key)?,
                }
                for _ in 0..random.below(30) {
                    let name = format!("key{:03}", random.below(200)).into_bytes();
                    batch.put(&name, b"of a batch")?;
                    map.insert(name, b"of a batch".to_vec());
                }
                batch.put(&key, b"guarded")?;
                map.insert(key, b"guarded".to_vec());
                db.write_if(&guards, &batch)?;
            }
            _ => match random.below(40) {
                0 => db.compact()?,
                1 => {
                    drop(db);
                    db = Db::open(&place.0, &SMALL)?;
                }
                2..=4 => assert_eq!(rows_of(db.iter(..)?), model_of(&map), "at call {call}"),
                _ => db.sync()?,
            },
        }
    }
    assert_eq!(rows_of(db.iter(..)?), model_of(&map));
    let stat = db.stat()?;
    assert!(stat.synced <= stat.batches);
    Ok(())
}

#[test]
fn a_snapshot_keeps_its_map_and_releases_itself() -> Result<(), Error> {
    let place = Place::new("snapshot");
    let db = Db::open_or_create(&place.0, &SMALL)?;
    db.put("a", "1")?;
    {
        let then = db.snapshot()?;
        db.put("a", "2")?;
        db.put("b", "3")?;
        assert_eq!(then.get("a")?, Some(b"1".to_vec()));
        assert_eq!(then.get("b")?, None);
        assert_eq!(rows_of(then.iter(..)), [(b"a".to_vec(), b"1".to_vec())]);
        let rows = db.iter(..)?;
        db.delete("a")?;
        assert_eq!(rows_of(rows).len(), 2);
    }
    for _ in 0..100 {
        db.snapshot()?;
        db.iter(..)?.next();
    }
    let all: Result<Vec<_>, _> = (0..32).map(|_| db.snapshot()).collect();
    let all = all?;
    assert!(matches!(db.snapshot(), Err(Error::TooManySnapshots)));
    drop(all);
    db.snapshot()?;
    Ok(())
}

#[test]
fn ranges_have_the_ends_that_they_say() -> Result<(), Error> {
    let place = Place::new("ranges");
    let db = Db::open_or_create(&place.0, &SMALL)?;
    let longest = [vec![b'k'; 254], vec![0xff]].concat();
    let keys: Vec<Vec<u8>> =
        vec![b"a".to_vec(), b"a\0".to_vec(), b"b".to_vec(), vec![b'k'; 254], longest.clone(), b"l".to_vec(), vec![0xff; 255]];
    for key in &keys {
        db.put(key, key)?;
    }
    let found = |rows: corwaphi::Rows<'_>| -> Vec<Vec<u8>> { rows_of(rows).into_iter().map(|(key, _)| key).collect() };
    assert_eq!(found(db.iter(..)?), keys);
    assert_eq!(found(db.iter(&b"a"[..]..&b"b"[..])?), keys[..2]);
    assert_eq!(found(db.iter(&b"a"[..]..=&b"b"[..])?), keys[..3]);
    assert_eq!(found(db.iter(..=&longest[..])?), keys[..5]);
    assert_eq!(found(db.iter(..=&keys[6][..])?), keys);
    assert_eq!(found(db.iter((std::ops::Bound::Excluded(&longest[..]), std::ops::Bound::Unbounded))?), keys[5..]);
    assert_eq!(found(db.iter((std::ops::Bound::Excluded(&b"a"[..]), std::ops::Bound::Unbounded))?), keys[1..]);
    assert_eq!(found(db.iter((std::ops::Bound::Excluded(&keys[6][..]), std::ops::Bound::Unbounded))?).len(), 0);
    assert_eq!(found(db.iter(&b"c"[..]..&b"b"[..])?).len(), 0);
    Ok(())
}

#[test]
fn errors_say_what_is_wrong() -> Result<(), Error> {
    let place = Place::new("errors");
    assert!(matches!(Db::open(&place.0, &SMALL), Err(Error::File(error)) if error.kind() == std::io::ErrorKind::NotFound));
    assert!(matches!(Db::create(&place.0, &Options { sectors: 9, ..SMALL }), Err(Error::BadGeometry)));
    Db::create(&place.0, &SMALL)?;
    assert!(matches!(Db::create(&place.0, &SMALL), Err(Error::File(error)) if error.kind() == std::io::ErrorKind::AlreadyExists));
    let db = Db::open(&place.0, &SMALL)?;
    assert!(matches!(Db::open(&place.0, &SMALL), Err(Error::InUse)));
    assert!(matches!(db.put("", "v"), Err(Error::BadKey)));
    assert!(matches!(db.put("k", vec![0; 2_049]), Err(Error::BadValue)));
    assert!(matches!(db.write(&WriteBatch::new()), Err(Error::EmptyBatch)));
    assert!(matches!(db.sync_to(5), Err(Error::NoSuchBatch)));
    let mut guards = Guards::new();
    guards.absent("k")?;
    guards.holds("k", "v")?;
    let mut batch = WriteBatch::new();
    batch.put("k", "v")?;
    let failed = db.write_if(&guards, &batch).expect_err("a guard is false");
    assert!(matches!(failed, Error::GuardFailed(1)) && failed.code() == 30 && failed.to_string().contains('1'));
    for _ in 0..16 {
        guards.absent("k")?;
    }
    let many = db.write_if(&guards, &batch).expect_err("too many");
    assert!(matches!(many, Error::TooManyGuards) && !many.remedy().is_empty());
    while batch.put("more", vec![7; 2_000]).is_ok() {}
    assert!(matches!(batch.put("more", vec![7; 2_000]), Err(Error::BatchTooBig)));
    db.write(&batch)?;
    Ok(())
}

#[test]
fn threads_write_and_read_at_once() -> Result<(), Error> {
    let place = Place::new("threads");
    let db = Arc::new(Db::open_or_create(&place.0, &SMALL)?);
    let threads: Vec<_> = (0..4)
        .map(|thread| {
            let db = Arc::clone(&db);
            std::thread::spawn(move || -> Result<(), Error> {
                for place in 0..200u32 {
                    let key = format!("{thread}/{place:04}");
                    db.put(&key, place.to_le_bytes())?;
                    assert_eq!(db.get(&key)?, Some(place.to_le_bytes().to_vec()));
                }
                db.compact()
            })
        })
        .collect();
    for thread in threads {
        thread.join().expect("a thread ends")?;
    }
    assert_eq!(db.iter(..)?.count(), 800);
    Ok(())
}
