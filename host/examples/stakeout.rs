//! stakeout FILE NAME EASTING NORTHING: where the prism must go to stand on a
//! point, from where it is. rustc stakeout.rs -L DIRECTORY-OF-LIBBHTF
mod bhtf;

/// A point's text is easting,northing,height,note.
fn place(text: &[u8]) -> Option<(f64, f64)> {
    let text = std::str::from_utf8(text).ok()?;
    let mut fields = text.split(',');
    Some((fields.next()?.trim().parse().ok()?, fields.next()?.trim().parse().ok()?))
}

fn run(words: &[String]) -> Result<(), String> {
    let [path, name, easting, northing] = words else {
        return Err("stakeout FILE NAME EASTING NORTHING".into());
    };
    let text = bhtf::File::open(path, 0)?.text(name)?.unwrap_or_default();
    let there = place(&text).ok_or("the text is not coordinates")?;
    let number = |word: &String| word.parse::<f64>().map_err(|_| format!("{word} is no number"));
    let (east, north) = (there.0 - number(easting)?, there.1 - number(northing)?);
    println!("{name}: {:.3} m: east {east:+.3}, north {north:+.3}", east.hypot(north));
    Ok(())
}

fn main() {
    let words: Vec<String> = std::env::args().skip(1).collect();
    if let Err(why) = run(&words) {
        eprintln!("stakeout: {why}");
        std::process::exit(1);
    }
}
