//! What bin/check-recorders asks of the recorder itself: `all` records each kind of event, `refused` prints what is said of each
//! mistake, `running` writes while threads run, `cost` prints the nanoseconds that a recorded call takes, and `stuck FILE` hangs in a
//! call.
#[path = "lincheck.rs"]
mod lincheck;

use lincheck::{Recorder, Reply};
use std::panic::{catch_unwind, set_hook, AssertUnwindSafe};
use std::sync::atomic::{AtomicI64, Ordering::SeqCst};
use std::time::{Duration, Instant};

#[derive(PartialEq)]
enum Error {
    Refused,
    Unknown,
}

fn all() -> std::io::Result<()> {
    let mut recorder = Recorder::new();
    recorder.object("q", "queue", 0);
    recorder.object("x", "register", 7);
    recorder.object("m", "map", 0);
    recorder.object("s", "set", 0);
    let (apple, red, pear) = (recorder.value("apple"), recorder.value("r\"e\\d\x01\u{e9}"), recorder.value("pear"));
    let (mut me, mut other) = (recorder.process_of(5), recorder.process());
    me.record("q", "enq", &[1], || ());
    me.record("q", "deq", &[], || 1);
    me.record("q", "deq", &[], || None::<i64>);
    other.record("x", "cas", &[7, 8], || true);
    other.call("x", "write", &[9]);
    other.fail();
    me.record("m", "put", &[apple, red], || ());
    other.record("m", "get", &[apple], || "r\"e\\d\x01\u{e9}".to_string());
    let is_refused = |error: &Error| *error == Error::Refused;
    let _ = me.try_record("x", "write", &[3], || Err::<(), _>(Error::Unknown), is_refused);
    let _ = me.try_record("m", "put", &[pear, 4], || Err::<(), _>(Error::Refused), is_refused);
    me.call("s", "add", &[1]);
    me.ret(true);
    other.call("x", "read", &[]);
    other.ret(8);
    other.call("q", "enq", &[2]);
    other.info();
    me.call("s", "contains", &[2]);
    recorder.write(&mut std::io::stdout())
}

fn tell(mistake: impl FnOnce()) {
    if catch_unwind(AssertUnwindSafe(mistake)).is_ok() {
        println!("taken");
    }
}

fn refused() {
    set_hook(Box::new(|told| {
        let words = told.payload();
        let literal = words.downcast_ref::<&str>().map(|it| it.to_string());
        println!("{}", literal.or(words.downcast_ref::<String>().cloned()).unwrap_or_default());
    }));
    let mut recorder = Recorder::new();
    recorder.object("q", "queue", 0);
    tell(|| recorder.object("a b", "queue", 0));
    tell(|| recorder.object("r", "deque", 0));
    tell(|| recorder.object("r", "queue", 1));
    tell(|| recorder.object("q", "stack", 0));
    let mut me = recorder.process_of(5);
    tell(|| drop(recorder.process_of(5)));
    tell(|| recorder.object("r", "queue", 0));
    tell(|| me.call("y", "enq", &[1]));
    tell(|| me.call("q", "push", &[1]));
    tell(|| me.call("q", "enq", &[1, 2]));
    tell(|| me.ret(Reply::Ok));
    me.call("q", "enq", &[1]);
    tell(|| me.call("q", "deq", &[]));
    tell(|| me.ret(1));
    me.ret(());
    me.call("q", "deq", &[]);
    tell(|| me.ret(()));
}

fn running() -> std::io::Result<()> {
    let count = AtomicI64::new(0);
    let mut recorder = Recorder::new();
    recorder.object("n", "counter", 0);
    std::thread::scope(|scope| {
        for _ in 0..3 {
            let mut me = recorder.process();
            let count = &count;
            scope.spawn(move || {
                for _ in 0..1000 {
                    me.record("n", "add", &[1], || {
                        count.fetch_add(1, SeqCst);
                    });
                    me.record("n", "get", &[], || count.load(SeqCst));
                }
            });
        }
        while count.load(SeqCst) < 300 {
            std::thread::yield_now();
        }
        recorder.write(&mut std::io::stdout())
    })
}

fn cost() {
    const CALLS: i64 = 10_000;
    let mut recorder = Recorder::new();
    recorder.object("q", "queue", 0);
    let mut me = recorder.process();
    let batches = (0..20).map(|_| {
        let start = Instant::now();
        for i in 0..CALLS {
            me.record("q", "enq", &[i], || ());
        }
        start.elapsed()
    });
    println!("{}", batches.min().unwrap_or_default().as_nanos() / CALLS as u128);
}

fn stuck(file: &str) {
    let mut recorder = Recorder::new();
    recorder.object("q", "queue", 0);
    recorder.write_at_end(file);
    let mut me = recorder.process();
    std::thread::scope(|scope| {
        scope.spawn(move || {
            me.record::<()>("q", "enq", &[1], || {
                println!("ready");
                loop {
                    std::thread::sleep(Duration::from_secs(3600));
                }
            })
        });
    });
}

fn main() -> std::io::Result<()> {
    let words: Vec<String> = std::env::args().collect();
    match words.iter().map(String::as_str).collect::<Vec<_>>()[..] {
        [_, "all"] => all()?,
        [_, "refused"] => refused(),
        [_, "running"] => running()?,
        [_, "cost"] => cost(),
        [_, "stuck", file] => stuck(file),
        _ => {}
    }
    Ok(())
}
