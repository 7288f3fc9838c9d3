//! Who is connected or watches, and the rules of each.

use crate::rules::{Facts, Rule};
use std::collections::{BTreeMap, BTreeSet};

#[derive(Default)]
pub struct Tables {
    last: u64,
    connections: BTreeSet<u64>,
    monitors: BTreeMap<u64, Vec<Rule>>,
    rules: Vec<(u64, Rule)>,
}

impl Tables {
    /// A connection comes, and has the next number.
    pub fn come(&mut self) -> u64 {
        self.last += 1;
        self.connections.insert(self.last);
        self.last
    }

    /// A connection gives up its rules, and is shown messages by these.
    pub fn become_monitor(&mut self, number: u64, rules: Vec<Rule>) -> bool {
        if !self.connections.remove(&number) {
            return false;
        }
        self.rules.retain(|(owner, _)| *owner != number);
        self.monitors.insert(number, rules);
        true
    }

    pub fn leave(&mut self, number: u64) -> bool {
        if self.monitors.remove(&number).is_some() {
            return true;
        }
        self.rules.retain(|(owner, _)| *owner != number);
        self.connections.remove(&number)
    }

    pub fn add(&mut self, number: u64, rule: Rule) {
        self.rules.push((number, rule));
    }

    pub fn remove(&mut self, number: u64, rule: &Rule) -> bool {
        match self.rules.iter().rposition(|(owner, known)| *owner == number && known == rule) {
            Some(at) => {
                self.rules.remove(at);
                true
            }
            None => false,
        }
    }

    fn head(&self, name: &str) -> Option<u64> {
        let number = name.strip_prefix(":1.")?.parse().ok()?;
        self.connections.contains(&number).then_some(number)
    }

    /// The connections that get a message.
    pub fn route(&self, facts: &Facts) -> Vec<u64> {
        if let Some(name) = facts.destination {
            return self.head(name).into_iter().collect();
        }
        let mut found = Vec::new();
        for (number, rule) in &self.rules {
            if !found.contains(number) && rule.fits(facts, |name| self.head(name)) {
                found.push(*number);
            }
        }
        found
    }
}
