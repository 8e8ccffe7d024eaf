//! The reference's module and its bus: modules worked out by hand, passes held to the model's bus and the plain rule,
//! and directed commands.

mod module_directed;
mod module_runs;
mod worked_modules;

fn report(name: &str, cases: usize) {
    assert!(cases > 0, "{name}: no cases");
    println!("{name:<28}{cases:>9} cases");
}

fn main() {
    report("modules worked by hand", worked_modules::all());
    report("directed commands by hand", module_directed::all());
    report("two modules, every bit", module_runs::every_bit());
    report("modules against plain rule", module_runs::random_shelves());
    report("modules against the model", module_runs::any_modules());
}
