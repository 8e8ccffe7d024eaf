//! The reference controller, bus and model run: the rows of the table, picks, reports, choices, the marked cases, the plain
//! rule, bad lists, and what holds in every pass.

mod bad_lists;
mod chosen;
mod halves;
mod history;
mod invariants;
mod picks;
mod reached;
mod reported;
mod rotation;
mod rows;
mod rows_reached;
mod shelf_runs;
mod single_step;
mod turn;
mod worked_choices;
mod worked_passes;
mod worked_reports;
mod worked_rows;
mod worked_runs;

fn report(name: &str, cases: usize) {
    assert!(cases > 0, "{name}: no cases");
    println!("{name:<28}{cases:>9} cases");
}

fn main() {
    report("rows of the table", rows::table());
    report("picks worked by hand", picks::worked());
    report("two ways to pick", picks::two_ways());
    report("picks that go round", picks::rotation());
    report("picks that do not", picks::lowest_is_noticed());
    report("passes worked by hand", worked_passes::all());
    report("reports worked by hand", worked_reports::all());
    report("choices worked by hand", worked_choices::all());
    report("rows worked by hand", worked_rows::all());
    report("marked cases of ARP", worked_runs::marked_cases());
    report("last picks worked by hand", worked_runs::last_picks_by_hand());
    report("runs on rows, by hand", worked_runs::rows_by_hand());
    report("lists worked by hand", worked_runs::lists_by_hand());
    report("model against plain rule", shelf_runs::random_shelves());
    report("with every last pick", shelf_runs::every_last_pick());
    report("runs in turn", shelf_runs::runs_in_turn());
    report("bad target lists", bad_lists::single_faults());
    report("worse target lists", bad_lists::double_faults());
    let (by_halves, single) = halves::all();
    report("steps by halves", by_halves);
    report("steps as they were", single);
    report("passes, step by step", invariants::all());
}
