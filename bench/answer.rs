//! Reads a history, has its objects searched, and prints the answer; what was done goes to standard error.

use crate::reader::{History, Object};
use std::io::Read;
use std::time::{Duration, Instant};

/// What was done, over all objects and searches.
#[derive(Default)]
pub struct Done {
    lifts: u64,
    stored: usize,
    /// The most that one table held.
    held: usize,
}

impl Done {
    /// Adds a search that made so many lifts and stored so many configurations.
    pub fn add(&mut self, lifts: u64, stored: usize) {
        self.lifts += lifts;
        self.stored += stored;
        self.held = self.held.max(stored);
    }
}

fn tell(reading: Duration, searching: Duration, done: &Done) {
    eprintln!("reading {:.6}", reading.as_secs_f64());
    eprintln!("search {:.6}", searching.as_secs_f64());
    eprintln!("lifts {}", done.lifts);
    eprintln!("stored {}", done.stored);
    eprintln!("held {}", done.held);
}

/// Prints the answer to the history on standard input, and exits with its status. `check` is `None` where an object has a
/// linearization, else its longest run.
pub fn print(check: fn(&Object, &mut Done) -> Option<Vec<usize>>) {
    let started = Instant::now();
    let mut text = Vec::new();
    std::io::stdin()
        .read_to_end(&mut text)
        .expect("standard input");
    let history = match History::of_text(&text) {
        Ok(history) => history,
        Err(line) => {
            println!("line {line}: refused");
            std::process::exit(2);
        }
    };
    let reading = started.elapsed();
    let mut done = Done::default();
    let refuted = history
        .objects
        .iter()
        .find_map(|object| Some((object, check(object, &mut done)?)));
    tell(reading, started.elapsed() - reading, &done);
    match refuted {
        None => println!("linearizable"),
        Some((object, run)) => {
            println!("not linearizable: {}", object.name);
            println!("longest run: {} of {} calls", run.len(), object.calls.len());
            std::process::exit(1);
        }
    }
}
