use inscjarol::{File, Mapped};
use std::{env, error::Error};

/// What the extra bytes of a file's points hold: each attribute with its type, and of numbers the least, the mean and the largest.
fn main() -> Result<(), Box<dyn Error>> {
    let path = env::args_os().nth(1).ok_or("which file?")?;
    // SAFETY: nothing writes to the file meanwhile. Where that is not sure, std::fs::read makes a copy.
    let bytes = unsafe { Mapped::open(path)? };
    let file = File::check(&bytes)?;

    // Refused with a sentence where no VLR describes the extra bytes, or one of its descriptors is broken.
    for attribute in file.attributes()? {
        let (name, data_type) = (attribute.name(), attribute.data_type());

        // Scaled as the descriptor says, and without the points that have no value.
        let values: Vec<f64> = attribute.scaled_to_vec(..)?.into_iter().flatten().collect();
        if values.is_empty() {
            println!("{name}: {data_type}");
            continue;
        }
        let least = values.iter().copied().fold(f64::INFINITY, f64::min);
        let largest = values.iter().copied().fold(f64::NEG_INFINITY, f64::max);
        let mean = values.iter().sum::<f64>() / values.len() as f64;
        println!("{name}: {data_type}, from {least:.3} to {largest:.3}, {mean:.3} in the mean");
    }
    Ok(())
}
