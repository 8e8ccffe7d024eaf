//! The library's modules against the reference's: every byte at every place, random and hostile events, any numbers,
//! and passes over a bus of them.

mod exported_modules_abi;
mod family;
mod module_begins;
mod module_hostile;
mod module_pair;
mod module_passes;
mod module_places;
mod module_reached;

use exported_modules_abi::{HbModule, Heard, Resumed, Supplied};
use module_reached::Reached;
use std::mem::size_of;

fn main() {
    assert_eq!((size_of::<HbModule>(), size_of::<Heard>()), (32, 40));
    assert_eq!((size_of::<Supplied>(), size_of::<Resumed>()), (40, 40));
    let mut reached = Reached::default();
    let parts = module_begins::all(&mut reached) + module_places::all(&mut reached) + module_hostile::all(&mut reached);
    reached.check();
    let passes = module_passes::all();
    println!("{:<28}{:>9} cases", "modules, all", parts + passes);
}
