//! How often each answer was seen.

use std::collections::BTreeMap;

/// How often each number was seen, 0 being accepted, for each service.
#[derive(Default)]
pub struct Counts {
    services: [BTreeMap<u32, u64>; 5],
    /// How often each of the four answers of the last service was seen.
    whys: [u64; 4],
}

#[derive(Clone, Copy)]
pub enum Service {
    Read,
    Write,
    List,
    Field,
    Why,
}

impl Service {
    pub fn name(self) -> &'static str {
        ["read", "write", "list", "field", "why"][self as usize]
    }
}

impl Counts {
    /// Counts one answer: 0 for accepted, or the refusal's number.
    pub fn add(&mut self, service: Service, number: u32) {
        *self.services[service as usize].entry(number).or_default() += 1;
    }

    /// Counts one of the four answers, 1 to 4.
    pub fn add_why(&mut self, answer: u32) {
        self.whys[answer as usize - 1] += 1;
    }

    pub fn print(&self) {
        for service in [Service::Read, Service::Write, Service::List, Service::Field, Service::Why] {
            let seen = &self.services[service as usize];
            print!("{:<6} accepted {}", service.name(), seen.get(&0).unwrap_or(&0));
            for (number, count) in seen.range(1..) {
                print!(", {number}: {count}");
            }
            println!();
        }
        let [met, no_object, elsewhere, nowhere] = self.whys;
        println!("       met {met}, no object {no_object}, elsewhere {elsewhere}, nowhere {nowhere}");
    }
}
