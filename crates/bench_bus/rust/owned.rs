//! Who owns which well-known name, who waits for it, and which calls wait for the start of its service.

use std::collections::HashMap;

#[derive(Default)]
pub struct Owned {
    queues: HashMap<String, Vec<u64>>,
    /// By the name, what waits for its start: the number of its connection and its ticket.
    starts: HashMap<String, Vec<(u64, u64)>>,
    last_ticket: u64,
}

impl Owned {
    /// A call of a connection waits for the start of a service, where nobody owns its name: its ticket.
    pub fn start(&mut self, number: u64, name: &str) -> Option<u64> {
        if self.queues.contains_key(name) {
            return None;
        }
        self.last_ticket += 1;
        let waits = (number, self.last_ticket);
        match self.starts.get_mut(name) {
            Some(waiting) => waiting.push(waits),
            None => {
                self.starts.insert(name.to_owned(), vec![waits]);
            }
        }
        Some(self.last_ticket)
    }

    /// Takes what waits for the start of a service.
    pub fn started(&mut self, name: &str) -> Vec<(u64, u64)> {
        self.starts.remove(name).unwrap_or_default()
    }

    pub fn request(&mut self, number: u64, name: &str) -> bool {
        match self.queues.get_mut(name) {
            None => {
                self.queues.insert(name.to_owned(), vec![number]);
                true
            }
            Some(queue) => {
                if !queue.contains(&number) {
                    queue.push(number);
                }
                queue[0] == number
            }
        }
    }

    pub fn release(&mut self, number: u64, name: &str) -> bool {
        let Some(queue) = self.queues.get_mut(name) else {
            return false;
        };
        let Some(at) = queue.iter().position(|&waiting| waiting == number) else {
            return false;
        };
        queue.remove(at);
        if queue.is_empty() {
            self.queues.remove(name);
        }
        true
    }
}
