//! The compiled encoder and decoder against the reference.
//!   codec FOLDER      the folder of the stored vectors

mod caught;
mod changed_traces;
mod codec_abi;
mod decoding;
mod encoding;
mod family;

fn main() {
    let folder = std::env::args().nth(1).expect("codec FOLDER");
    let encoded = encoding::all(&folder);
    let decoded = decoding::all(&folder);
    let caught = caught::all();
    println!("{:<28}{:>9} cases", "encoder and decoder, all", encoded + decoded + caught);
    assert!(encoded + decoded >= 100_000, "too few cases");
}
