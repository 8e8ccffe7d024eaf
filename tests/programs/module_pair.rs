//! A module of the reference and one of the library, to which the same happens.

use crate::exported_modules_abi::{HbModule, Lasting};
use crate::family::Family;
use crate::module_reached::Reached;
use reference::module::Module;
use reference::module_bus::End;
use reference::module_events::{Event, Reaction};

#[derive(Clone)]
pub struct Pair {
    pub due: Module,
    pub given: HbModule,
    /// What has happened to both.
    events: Vec<Event>,
}

/// What is compared after an event: the answer, the lasting part, and the address byte.
type View = (Reaction, Lasting, u8);

fn lasting(module: &Module) -> Lasting {
    HbModule::like(module).lasting()
}

impl Pair {
    /// A module, and the same of the library, made of its numbers.
    pub fn of(due: Module) -> Pair {
        let given = HbModule::like(&due);
        Pair { due, given, events: vec![] }
    }

    /// The event happens to both: one answer, and one state after it. After NACK, STOP and lost the numbers of the
    /// library's are those of a silent module.
    pub fn happen(&mut self, family: &mut Family, reached: &mut Reached, event: Event) -> Reaction {
        let before = self.due.clone();
        self.events.push(event);
        let due: View = (event.happen(&mut self.due), lasting(&self.due), self.due.record().address_byte);
        let given: View = (event.happen(&mut self.given), self.given.lasting(), self.given.record().address_byte);
        let input = || format!("{:02x?}\nafter {:02x?}", before, self.events);
        family.same(input, &due, &given);
        if matches!(due.0, Reaction::Acknowledged(false)) || matches!(event, Event::Stop | Event::Lost) {
            family.same(input, &true, &self.given.is_silent());
        }
        reached.add(&before, event, due.0);
        due.0
    }

    /// All of these happen.
    pub fn all(&mut self, family: &mut Family, reached: &mut Reached, events: &[Event]) {
        for &event in events {
            self.happen(family, reached, event);
        }
    }
}
