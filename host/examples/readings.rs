//! readings FILE NAME NUMBER..: stores readings under a name, by column, and
//! prints what is stored then. A reading is a signed number of tenths of a
//! millimetre, 4 bytes, most significant first.
//! rustc readings.rs -L DIRECTORY-OF-LIBBHTF
mod bhtf;

fn run(words: &[String]) -> Result<(), String> {
    let [path, name, numbers @ ..] = words else {
        return Err("readings FILE NAME NUMBER..".into());
    };
    let mut file = bhtf::File::open(path, bhtf::WRITE)?;
    let mut records = file.records(name, 4)?;
    for word in numbers {
        let number: i32 = word.parse().map_err(|_| format!("{word} is no number"))?;
        records.extend(number.to_be_bytes());
    }
    file.store(name, &records, 4)?;
    for reading in records.chunks_exact(4) {
        println!("{}", i32::from_be_bytes([reading[0], reading[1], reading[2], reading[3]]));
    }
    Ok(())
}

fn main() {
    let words: Vec<String> = std::env::args().skip(1).collect();
    if let Err(why) = run(&words) {
        eprintln!("readings: {why}");
        std::process::exit(1);
    }
}
