//! A table that was checked, with its network and the chosen paths asked for so
//! far. Every call that takes a table makes one.

use std::cell::RefCell;
use std::collections::HashMap;
use std::rc::Rc;

use crate::check::read;
use crate::labels::chosen_paths;
use crate::links::Network;
use crate::rank::{Path, Ranking};
use crate::records::Plan;
use crate::refusal::Refusal;
use crate::rules::{Misreading, Rules};

/// The chosen paths from one bridge, by the bridge where they end.
pub type Paths = Rc<Vec<Option<Path>>>;

pub struct Checked {
    pub rules: Rules,
    pub plan: Plan,
    pub network: Network,
    /// By ECT index and first bridge.
    found: RefCell<HashMap<(u16, usize), Paths>>,
}

impl Checked {
    pub fn new(rules: Rules, table: &[u8]) -> Result<Checked, Refusal> {
        let plan = read(rules, table)?;
        let network = Network::of(rules, &plan);
        Ok(Checked { rules, plan, network, found: RefCell::default() })
    }

    pub fn ranking(&self, index: u16) -> Ranking<'_> {
        Ranking::new(self.rules, &self.plan, &self.network, index)
    }

    pub fn paths_from(&self, index: u16, from: usize) -> Paths {
        let found = self.found.borrow().get(&(index, from)).cloned();
        found.unwrap_or_else(|| {
            let paths = Rc::new(chosen_paths(&self.ranking(index), from));
            self.found.borrow_mut().insert((index, from), Rc::clone(&paths));
            paths
        })
    }

    /// The paths that group entries follow: the chosen ones.
    pub fn group_paths_from(&self, index: u16, from: usize) -> Paths {
        if !self.rules.has(Misreading::OverloadedPassesGroups) {
            return self.paths_from(index, from);
        }
        let rules = Rules::with(Misreading::OverloadIgnored);
        Rc::new(chosen_paths(&Ranking::new(rules, &self.plan, &self.network, index), from))
    }

    /// The ECT index of a VID that a call names, or 11.
    pub fn index_of(&self, vid: u32) -> Result<u16, Refusal> {
        let vid = self.name(vid)?;
        self.plan.index_of_vid(vid).ok_or(Refusal::UNKNOWN_NAME)
    }

    /// A bridge that a call names, or 11.
    pub fn bridge(&self, bridge: u32) -> Result<usize, Refusal> {
        let bridge = usize::from(self.name(bridge)?);
        if bridge < self.plan.bridges.len() {
            Ok(bridge)
        } else {
            Err(Refusal::UNKNOWN_NAME)
        }
    }

    /// A number wider than 16 bits names nothing.
    pub fn name(&self, number: u32) -> Result<u16, Refusal> {
        if self.rules.has(Misreading::WideNumbersCut) {
            return Ok(number as u16);
        }
        u16::try_from(number).map_err(|_| Refusal::UNKNOWN_NAME)
    }
}
