//! A family of cases: counted, and stopped at the first difference.

use std::fmt::Debug;

pub struct Family {
    name: &'static str,
    cases: usize,
}

impl Family {
    pub fn new(name: &'static str) -> Family {
        Family { name, cases: 0 }
    }

    /// One case: the answer due and the answer given, with the input to print if they differ.
    pub fn same<T: PartialEq + Debug>(&mut self, input: impl Fn() -> String, due: &T, given: &T) {
        self.cases += 1;
        if due != given {
            eprintln!("FAILED {}, case {}", self.name, self.cases);
            eprintln!("input  {}", input());
            eprintln!("due    {due:?}");
            eprintln!("given  {given:?}");
            std::process::exit(1);
        }
    }

    /// Prints the count, and hands it back; a family without cases fails.
    pub fn done(self) -> usize {
        if self.cases == 0 {
            eprintln!("FAILED {}: no cases", self.name);
            std::process::exit(1);
        }
        println!("{:<28}{:>9} cases", self.name, self.cases);
        self.cases
    }
}
