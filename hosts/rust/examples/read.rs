//! `cargo run --example read FILE`: the verdict on a listing, then the translations of each sequence.

use dreichnook::Listing;
use std::error::Error;

fn main() -> Result<(), Box<dyn Error>> {
    let file = std::env::args().nth(1).ok_or("usage: read FILE")?;
    let bytes = std::fs::read(file)?;
    let listing = Listing::new(&bytes);
    let counts = listing.check()?;
    println!(
        "accepted: {} sequences, {} features",
        counts.total, counts.features
    );
    // One call for the places of all sequences; the translations of each take one of their own.
    for (k, sequence) in (1..).zip(listing.index()?.sequences()) {
        match sequence {
            Some(sequence) => {
                let size = sequence.residues.bytes.len();
                println!("sequence {k}: {}, {size} residues", sequence.kind);
                print!("{}", String::from_utf8(listing.translations(k)?)?);
            }
            None => println!("sequence {k}: skipped"),
        }
    }
    Ok(())
}
