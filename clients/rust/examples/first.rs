//! A first use: `cargo run --example first -- first.img`.

use corwaphi::{Db, Error, Guards, Options, WriteBatch};

fn main() -> Result<(), Error> {
    let path = std::env::args().nth(1).unwrap_or_else(|| "first.img".into());
    let db = Db::open_or_create(path, &Options::default())?;
    db.put("pear", "green")?;

    // All or nothing.
    let mut batch = WriteBatch::new();
    batch.put("apple", "red")?;
    batch.put("plum", "blue")?;
    batch.delete("quince")?;
    db.write(&batch)?;

    // Compare and swap: the pear gets ripe only if it is green.
    let mut guards = Guards::new();
    guards.holds("pear", "green")?;
    let mut ripe = WriteBatch::new();
    ripe.put("pear", "ripe")?;
    match db.write_if(&guards, &ripe) {
        Err(Error::GuardFailed(_)) => println!("the pear isn't green"),
        other => println!("batch {}", other?),
    }

    db.sync()?; // it outlasts a power cut from here on
    for row in db.iter(..)? {
        let (key, value) = row?;
        println!("{} = {}", String::from_utf8_lossy(&key), String::from_utf8_lossy(&value));
    }
    Ok(())
}
