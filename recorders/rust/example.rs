//! A queue that four threads put into and take from: `right` under one lock, or `wrong`, where the look at the first item and its
//! removal are two steps without the lock; `narrow` is as wrong, without a pause between the two. The second word is the number
//! of rounds.
#[path = "lincheck.rs"]
mod lincheck;

use lincheck::Recorder;
use std::sync::atomic::{AtomicI64, AtomicUsize, Ordering::SeqCst};
use std::sync::Mutex;

struct Queue {
    asked: String,
    lock: Mutex<()>,
    first: AtomicUsize,
    last: AtomicUsize,
    items: Vec<AtomicI64>,
}

impl Queue {
    fn new(asked: &str, room: i64) -> Queue {
        let items = (0..room).map(AtomicI64::new).collect();
        Queue { asked: asked.to_string(), lock: Mutex::default(), first: AtomicUsize::new(0), last: AtomicUsize::new(0), items }
    }

    fn put(&self, item: i64) {
        let _guard = self.lock.lock().unwrap();
        self.items[self.last.load(SeqCst)].store(item, SeqCst);
        self.last.fetch_add(1, SeqCst);
    }

    fn take(&self) -> Option<i64> {
        let _guard = (self.asked == "right").then(|| self.lock.lock().unwrap());
        let at = self.first.load(SeqCst);
        if at == self.last.load(SeqCst) {
            return None;
        }
        if self.asked == "wrong" {
            std::thread::yield_now();
        }
        self.first.store(at + 1, SeqCst);
        Some(self.items[at].load(SeqCst))
    }
}

fn main() -> std::io::Result<()> {
    const THREADS: i64 = 4;
    let words: Vec<String> = std::env::args().collect();
    let rounds: i64 = words.get(2).map_or(100, |word| word.parse().expect("a number of rounds"));
    let items = Queue::new(words.get(1).map_or("right", String::as_str), THREADS * rounds);
    let waiting = AtomicI64::new(THREADS);
    let mut recorder = Recorder::new();
    recorder.object("q", "queue", 0);
    std::thread::scope(|scope| {
        for thread in 0..THREADS {
            let mut me = recorder.process();
            let (items, waiting) = (&items, &waiting);
            scope.spawn(move || {
                waiting.fetch_sub(1, SeqCst);
                while waiting.load(SeqCst) > 0 {
                    std::thread::yield_now();
                }
                for item in thread * rounds..(thread + 1) * rounds {
                    me.record("q", "enq", &[item], || items.put(item));
                    me.record("q", "deq", &[], || items.take());
                }
            });
        }
    });
    recorder.write(&mut std::io::stdout())
}
