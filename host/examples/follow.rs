//! follow COPY < RECORDS: brings a station's copy up to what the office sent.
//! rustc follow.rs -L DIRECTORY-OF-LIBBHTF
mod bhtf;

use std::io::Read;

fn run(words: &[String]) -> Result<(), String> {
    let [copy] = words else {
        return Err("follow COPY < RECORDS".into());
    };
    let mut records = Vec::new();
    std::io::stdin().read_to_end(&mut records).map_err(|why| why.to_string())?;
    let done = bhtf::File::open(copy, bhtf::WRITE)?.apply(&records)?;
    println!("{} applied, {} passed over", done.applied, done.passed);
    Ok(())
}

fn main() {
    let words: Vec<String> = std::env::args().skip(1).collect();
    if let Err(why) = run(&words) {
        eprintln!("follow: {why}");
        std::process::exit(1);
    }
}
