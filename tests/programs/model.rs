//! The compiled model run against the reference: the answer and every byte of both buffers.

mod bad_shelves;
mod family;
mod good_shelves;
mod model_abi;

fn main() {
    let good = good_shelves::all();
    let bad = bad_shelves::all();
    println!("{:<28}{:>9} cases", "model run, all", good + bad);
    assert!(good + bad >= 2_000, "too few cases");
}
