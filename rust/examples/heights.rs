use inscjarol::{File, Mapped};
use std::{env, error::Error};

/// The lowest and the highest point of a file, what is withheld left out, and whether its points can be made old.
fn main() -> Result<(), Box<dyn Error>> {
    let path = env::args_os().nth(1).ok_or("which file?")?;
    // SAFETY: nothing writes to the file meanwhile. Where that is not sure, std::fs::read makes a copy.
    let bytes = unsafe { Mapped::open(path)? };

    // Refused with a sentence where the bytes are no whole LAS file.
    let file = File::check(&bytes)?;
    let header = file.header();
    println!("LAS {}, {} points", header.version, file.points().len());

    let heights = || {
        file.points()
            .filter(|p| !p.flags.is_withheld())
            .map(|p| p.z)
    };
    if let (Some(low), Some(high)) = (heights().min(), heights().max()) {
        println!("from {:.3} to {:.3}", header.z(low), header.z(high));
    }

    // For clients with older software: every field the same, or the first that cannot be.
    match file.run().ask_old() {
        Ok(bytes) => println!("{bytes} bytes in the old format"),
        Err(refusal) => println!("not in the old format: {refusal}"),
    }
    Ok(())
}
