//! Who gets which address, without a bus: one target after the other, in ascending order of the UDIDs.

use crate::addresses::*;
use crate::bus::Target;
use crate::commands::*;
use std::collections::BTreeMap;

#[derive(Clone, Debug, PartialEq, Eq)]
pub struct Plan {
    /// The address of each target that is served.
    pub bound: BTreeMap<Udid, u8>,
    /// The first target that cannot be served; nobody is after it.
    pub unserved: Option<Udid>,
    /// The address picked last, or the number given if none was.
    pub last_pick: u8,
}

/// Of two addresses the one with the lower number comes first after the last pick: 0 for the next, 127 for the last
/// pick itself. The last pick is at most 127.
pub fn steps_after(last: u8, address: u8) -> u32 {
    (u32::from(address) + 127 - u32::from(last)) % 128
}

/// The free address that comes first after the last pick.
pub fn nearest_after(used: &Addresses, last: u8) -> Option<u8> {
    let free = (0..ADDRESSES).filter(|address| !used.contains(address));
    free.min_by_key(|&address| steps_after(last, address))
}

/// Its own address if it has one and is fixed or the address is free.
fn own(target: &Target, used: &Addresses) -> Option<u8> {
    let own = target.address_byte / 2;
    let keeps = target.address_byte != NO_ADDRESS && (is_fixed(&target.udid) || !used.contains(&own));
    keeps.then_some(own)
}

/// Each target in its turn gets its own address, or else one that is picked after the last pick, which moves there.
pub fn plain_rule(targets: &[Target], occupied: &Addresses, last_pick: u8) -> Plan {
    let ascending: BTreeMap<Udid, &Target> = targets.iter().map(|target| (target.udid, target)).collect();
    let mut used = starting_pool(occupied);
    let mut plan = Plan { bound: BTreeMap::new(), unserved: None, last_pick };
    for (udid, target) in ascending {
        let kept = own(target, &used);
        let Some(address) = kept.or(nearest_after(&used, plan.last_pick)) else {
            plan.unserved = Some(udid);
            break;
        };
        if kept.is_none() {
            plan.last_pick = address;
        }
        used.insert(address);
        plan.bound.insert(udid, address);
    }
    plan
}
