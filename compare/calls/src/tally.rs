//! How often each outcome was met.

use std::collections::BTreeMap;

/// A number for each outcome, in the order of the list that it was made of.
pub struct Tally {
    names: Vec<String>,
    numbers: BTreeMap<String, u64>,
}

impl Tally {
    /// The outcomes that a run must meet.
    pub fn of(names: Vec<String>) -> Tally {
        let numbers = names.iter().map(|name| (name.clone(), 0)).collect();
        Tally { names, numbers }
    }

    pub fn meet(&mut self, name: &str, times: u64) {
        let number = self.numbers.get_mut(name);
        *number.unwrap_or_else(|| panic!("{name} is no outcome of this run")) += times;
    }

    pub fn print(&self) {
        for name in &self.names {
            println!("{:>9}  {name}", self.numbers[name]);
        }
    }

    /// The outcomes that were never met.
    pub fn missing(&self) -> Vec<&str> {
        let never = self.names.iter().filter(|name| self.numbers[*name] == 0);
        never.map(String::as_str).collect()
    }
}

/// A list of outcomes: some names, and the refusals of these numbers.
pub fn outcomes(names: &[&str], refusals: &[u64]) -> Vec<String> {
    let refused = refusals.iter().map(|number| format!("refusal {number}"));
    let named = names.iter().map(|name| name.to_string());
    named.chain(refused).collect()
}
