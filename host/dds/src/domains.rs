//! The domains in use by all sessions together. Each costs DDS some threads and sockets of its own, and Cyclone ends the process where it
//! runs out of them: so there is a limit, and a client that asks for a domain beyond it is refused.

use std::collections::HashMap;
use std::sync::{Arc, Mutex, MutexGuard, PoisonError};

#[derive(Debug)]
pub struct Domains {
    most: usize,
    /// How many participants each one has.
    users: Mutex<HashMap<u32, usize>>,
}

/// A participant's place in its domain. It is kept until DDS has deleted the participant.
#[derive(Debug)]
pub struct Seat {
    domains: Arc<Domains>,
    domain: u32,
}

impl Domains {
    pub fn new(most: usize) -> Arc<Domains> {
        Arc::new(Domains { most, users: Mutex::default() })
    }

    // A thread that panicked leaves the counts as they are.
    fn users(&self) -> MutexGuard<'_, HashMap<u32, usize>> {
        self.users.lock().unwrap_or_else(PoisonError::into_inner)
    }

    /// A place in that domain; none if it isn't in use and no further one may be.
    pub fn enter(self: &Arc<Self>, domain: u32) -> Option<Seat> {
        let mut users = self.users();
        if !users.contains_key(&domain) && self.most <= users.len() {
            return None;
        }
        *users.entry(domain).or_default() += 1;
        Some(Seat { domains: self.clone(), domain })
    }
}

impl Drop for Seat {
    fn drop(&mut self) {
        let mut users = self.domains.users();
        let left = users.remove(&self.domain).unwrap_or(1) - 1;
        if left != 0 {
            users.insert(self.domain, left);
        }
    }
}

#[cfg(test)]
mod tests {
    use super::*;

    #[test]
    fn a_domain_counts_once_and_as_long_as_it_is_in_use() {
        let domains = Domains::new(2);
        let first = [domains.enter(7), domains.enter(7)];
        let second = domains.enter(8);
        assert!(first.iter().all(Option::is_some) && second.is_some() && domains.enter(9).is_none());
        assert!(domains.enter(8).is_some());
        let [one, other] = first;
        drop(one);
        assert!(domains.enter(9).is_none());
        drop(other);
        assert!(domains.enter(9).is_some());
    }
}
