use dilluvas::{Db, Error};

fn main() -> Result<(), Error> {
    let db = Db::open("fruit.db")?;
    let fruit = db.map("fruit");
    fruit.insert("lime", "green")?;
    fruit.insert("fig", "violet")?;
    db.flush()?;
    for pair in fruit.iter() {
        let (name, colour) = pair?;
        println!("{} = {}", name.escape_ascii(), colour.escape_ascii());
    }
    Ok(())
}
