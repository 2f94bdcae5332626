//! Records what threads call on objects, as a history for lincheck. Copy this file; it needs the standard library alone (Rust 1.82).
//!
//! ```ignore
//! let mut recorder = Recorder::new();
//! recorder.object("q", "queue", 0);                               // before the first process
//! let mut me = recorder.process();                                // one for each thread, which owns it
//! me.record("q", "enq", &[7], || items.put(7));                   // one call: its instants and its reply
//! let item = me.record("q", "deq", &[], || items.take());
//! recorder.write(&mut std::io::stdout())?;                        // at any time
//! ```
//!
//! `record` returns what the operation returned. That is its reply: `()` (for an operation that answers ok), a `bool`, a whole
//! number, a text, or an `Option`, whose `None` says that there was none. `try_record` takes an operation that may end with an
//! error. Then nobody knows whether the call was done (`info`), unless its last argument says of the error that it was not
//! (`fail`); after a panic nobody knows either. `call`, then `ret`, `fail` or `info`, do the same in two lines.
//!
//! After `info` the thread goes on as a new process, with a number of its own. `recorder.value("red")` is the whole number that
//! stands for a text. What is given wrongly (a name, a kind, an operation, a call while one is pending) panics.
//!
//! `write` may be called while threads run or hang: calls that have not returned are pending. `write_at_end` writes the history
//! when the recorder is dropped, also by a panic, or when SIGHUP, SIGINT or SIGTERM ends the program. It does not after
//! `abort` or `std::process::exit`, which drop nothing.
#![allow(dead_code)]

use std::collections::{BTreeSet, HashMap};
use std::fs::File;
use std::io::{self, BufWriter, Write};
use std::path::{Path, PathBuf};
use std::sync::atomic::{AtomicU64, AtomicUsize, Ordering::*};
use std::sync::{Arc, Mutex, MutexGuard, OnceLock, RwLock};

struct Operation {
    name: &'static str,
    args: usize,
    answers_ok: bool,
}

struct Kind {
    name: &'static str,
    has_start: bool,
    operations: &'static [Operation],
}

const fn operation(name: &'static str, args: usize, answers_ok: bool) -> Operation {
    Operation { name, args, answers_ok }
}

const fn kind(name: &'static str, has_start: bool, operations: &'static [Operation]) -> Kind {
    Kind { name, has_start, operations }
}

static KINDS: [Kind; 7] = [
    kind("register", true, &[operation("write", 1, true), operation("read", 0, false), operation("cas", 2, false)]),
    kind("counter", true, &[operation("add", 1, true), operation("get", 0, false)]),
    kind("queue", false, &[operation("enq", 1, true), operation("deq", 0, false)]),
    kind("stack", false, &[operation("push", 1, true), operation("pop", 0, false)]),
    kind("set", false, &[operation("add", 1, false), operation("remove", 1, false), operation("contains", 1, false)]),
    kind("mutex", false, &[operation("lock", 0, true), operation("unlock", 0, true), operation("try_lock", 0, false)]),
    kind("map", false, &[operation("put", 2, true), operation("get", 1, false), operation("delete", 1, false)]),
];

/// What a call answered.
#[derive(Clone, Debug, PartialEq)]
pub enum Reply {
    Ok,
    Number(i64),
    Flag(bool),
    /// There was no item or value.
    Empty,
    Text(String),
}

/// What can be the reply of a call.
pub trait Answer {
    fn reply(&self) -> Reply;
}

impl Answer for () {
    fn reply(&self) -> Reply {
        Reply::Ok
    }
}

impl Answer for bool {
    fn reply(&self) -> Reply {
        Reply::Flag(*self)
    }
}

macro_rules! answers_a_number {
    ($($number:ty),*) => {$(
        impl Answer for $number {
            fn reply(&self) -> Reply {
                Reply::Number(i64::try_from(*self).expect("a number of 64 bits"))
            }
        }
    )*};
}

answers_a_number!(i8, i16, i32, i64, isize, u8, u16, u32, u64, usize);

impl Answer for str {
    fn reply(&self) -> Reply {
        Reply::Text(self.to_string())
    }
}

impl Answer for String {
    fn reply(&self) -> Reply {
        Reply::Text(self.clone())
    }
}

impl Answer for Reply {
    fn reply(&self) -> Reply {
        self.clone()
    }
}

impl<T: Answer + ?Sized> Answer for &T {
    fn reply(&self) -> Reply {
        (**self).reply()
    }
}

impl<T: Answer> Answer for Option<T> {
    fn reply(&self) -> Reply {
        self.as_ref().map_or(Reply::Empty, T::reply)
    }
}

#[derive(Clone, Copy, PartialEq)]
#[repr(u8)]
enum What {
    Call,
    Ok,
    Number,
    Flag,
    Empty,
    Fail,
    Info,
}

const WHATS: [What; 7] = [What::Call, What::Ok, What::Number, What::Flag, What::Empty, What::Fail, What::Info];

/// A call or its end, in plain numbers, which a writer may read while the thread goes on.
#[derive(Default)]
struct Event {
    /// Of a call that is about to begin it is 0.
    instant: AtomicU64,
    /// The process, the object, the operation and what it is, from the high bits down.
    head: AtomicU64,
    /// The arguments, or the reply.
    values: [AtomicU64; 2],
}

const CHUNK: usize = 512;

struct Chunk {
    events: Box<[Event]>,
    next: OnceLock<Arc<Chunk>>,
}

impl Chunk {
    fn new() -> Arc<Chunk> {
        Arc::new(Chunk { events: (0..CHUNK).map(|_| Event::default()).collect(), next: OnceLock::new() })
    }
}

/// What a process has shown so far.
struct Log {
    first: Arc<Chunk>,
    length: AtomicUsize,
}

impl Log {
    /// The events before an instant, each with its place in time: a call without an instant is right behind the event before.
    fn before(&self, cut: u64) -> Vec<(u64, [u64; 3])> {
        let (mut chunk, mut last, mut events) = (&self.first, 0, Vec::new());
        for at in 0..self.length.load(Acquire) {
            if at > 0 && at % CHUNK == 0 {
                chunk = chunk.next.get().expect("a chunk behind a full one");
            }
            let event = &chunk.events[at % CHUNK];
            let instant = event.instant.load(Relaxed);
            if instant >= cut {
                break;
            }
            last = last.max(instant);
            events.push((last, [event.head.load(Relaxed), event.values[0].load(Relaxed), event.values[1].load(Relaxed)]));
        }
        events
    }
}

struct Object {
    name: String,
    kind: &'static Kind,
    start: i64,
}

/// The instants, in a cache line of their own.
#[repr(align(64))]
struct Instants(AtomicU64);

struct Shared {
    instants: Instants,
    objects: Vec<Object>,
    logs: Mutex<Vec<Arc<Log>>>,
    numbers: Mutex<BTreeSet<u32>>,
    texts: RwLock<HashMap<String, i64>>,
    at_end: Mutex<Option<PathBuf>>,
}

/// Few tests use numbers as large as those of texts.
const FIRST_TEXT: i64 = 9_000_000_000_000_000_001;

fn lock<T>(it: &Mutex<T>) -> MutexGuard<'_, T> {
    it.lock().unwrap_or_else(|poisoned| poisoned.into_inner())
}

impl Shared {
    /// A number that no process has or had.
    fn next_number(&self) -> u32 {
        let mut numbers = lock(&self.numbers);
        let number = numbers.last().map_or(1, |last| last.checked_add(1).expect("a number is left for a process"));
        numbers.insert(number);
        number
    }

    fn value(&self, text: &str) -> i64 {
        let known = self.texts.read().unwrap_or_else(|poisoned| poisoned.into_inner()).get(text).copied();
        known.unwrap_or_else(|| {
            let mut texts = self.texts.write().unwrap_or_else(|poisoned| poisoned.into_inner());
            let next = FIRST_TEXT + texts.len() as i64;
            *texts.entry(text.to_string()).or_insert(next)
        })
    }

    /// Writes all events before an instant. The calls that have begun by then are seen, since a call is shown before it takes
    /// its instant.
    fn write(&self, to: &mut impl Write) -> io::Result<()> {
        let cut = self.instants.0.load(SeqCst);
        let logs = lock(&self.logs).clone();
        let mut events: Vec<_> = logs.iter().flat_map(|log| log.before(cut)).collect();
        events.sort_by_key(|(instant, _)| *instant);
        let texts = self.texts.read().unwrap_or_else(|poisoned| poisoned.into_inner()).clone();
        let texts: HashMap<i64, String> = texts.into_iter().map(|(text, number)| (number, quoted(&text))).collect();
        let mut out = BufWriter::new(to);
        writeln!(out, "{{\"format\":2}}")?;
        for Object { name, kind, start } in &self.objects {
            let start = if *start == 0 { String::new() } else { format!(",\"start\":{start}") };
            writeln!(out, "{{\"event\":\"object\",\"object\":\"{name}\",\"kind\":\"{}\"{start}}}", kind.name)?;
        }
        for (_, [head, values @ ..]) in events {
            writeln!(out, "{}", self.line(head, values.map(|value| value as i64), &texts))?;
        }
        out.flush()
    }

    fn line(&self, head: u64, values: [i64; 2], texts: &HashMap<i64, String>) -> String {
        let (process, object) = (head >> 32, &self.objects[(head >> 16) as usize & 0xFFFF]);
        let line = |event: &str, more: String| format!("{{\"event\":\"{event}\",\"process\":{process},\"object\":\"{}\"{more}}}", object.name);
        let result = |result: &str| line("return", format!(",\"result\":{result}"));
        match WHATS[head as usize & 0xFF] {
            What::Call => {
                let Operation { name, args, .. } = object.kind.operations[(head >> 8) as usize & 0xFF];
                line("call", format!(",\"op\":\"{name}\",\"args\":{}", args_with_texts(&values[..args], texts)))
            }
            What::Ok => result("\"ok\""),
            What::Number => {
                let text = texts.get(&values[0]).map_or(String::new(), |text| format!(",\"text\":{text}"));
                result(&format!("{}{text}", values[0]))
            }
            What::Flag => result(if values[0] == 0 { "false" } else { "true" }),
            What::Empty => result("null"),
            What::Fail => line("fail", String::new()),
            What::Info => line("info", String::new()),
        }
    }

    /// Writes the history to the file that was named for the end, once; who comes second waits.
    fn write_at_end(&self) {
        let mut at_end = lock(&self.at_end);
        let Some(path) = at_end.take() else { return };
        if let Err(fault) = File::create(&path).and_then(|mut file| self.write(&mut file)) {
            eprintln!("lincheck: the history was not written: {}: {fault}", path.display());
        }
    }
}

/// The list of arguments, and that of the texts behind them where there is one.
fn args_with_texts(args: &[i64], texts: &HashMap<i64, String>) -> String {
    let list = |words: Vec<String>| format!("[{}]", words.join(","));
    let numbers = list(args.iter().map(i64::to_string).collect());
    if !args.iter().any(|arg| texts.contains_key(arg)) {
        return numbers;
    }
    let texts = args.iter().map(|arg| texts.get(arg).cloned().unwrap_or("null".to_string())).collect();
    format!("{numbers},\"text\":{}", list(texts))
}

/// The text as JSON has it, at most 1,000 characters of it, since a line may not be long.
fn quoted(text: &str) -> String {
    let escaped = text.chars().take(1000).map(|letter| match letter {
        '"' | '\\' => format!("\\{letter}"),
        '\0'..='\x1F' => format!("\\u{:04x}", letter as u32),
        _ => letter.to_string(),
    });
    format!("\"{}\"", escaped.collect::<String>())
}

/// A history that is being recorded.
pub struct Recorder {
    shared: Arc<Shared>,
}

impl Default for Recorder {
    fn default() -> Recorder {
        let shared = Shared {
            instants: Instants(AtomicU64::new(1)),
            objects: Vec::new(),
            logs: Mutex::default(),
            numbers: Mutex::default(),
            texts: RwLock::default(),
            at_end: Mutex::default(),
        };
        Recorder { shared: Arc::new(shared) }
    }
}

impl Recorder {
    pub fn new() -> Recorder {
        Recorder::default()
    }

    /// Declares an object, before the first process and before `write_at_end`. A register and a counter may start with another
    /// number than 0.
    pub fn object(&mut self, name: &str, kind: &str, start: i64) {
        let is_name = (1..=64).contains(&name.len()) && name.bytes().all(|byte| byte.is_ascii_alphanumeric() || b"_./:-".contains(&byte));
        assert!(is_name, "no name of an object: {name}");
        let of = KINDS.iter().find(|it| it.name == kind).unwrap_or_else(|| panic!("no kind of an object: {kind}"));
        assert!(start == 0 || of.has_start, "{kind} has no start");
        let shared = Arc::get_mut(&mut self.shared).expect("objects are declared before the first process");
        assert!(shared.objects.iter().all(|it| it.name != name), "object is declared already: {name}");
        assert!(shared.objects.len() < 1024, "more than 1024 objects");
        shared.objects.push(Object { name: name.to_string(), kind: of, start });
    }

    /// A process for one thread, whose number is one more than the greatest until now.
    pub fn process(&self) -> Process {
        self.add_process(self.shared.next_number())
    }

    /// The same with this number, which no process has or had.
    pub fn process_of(&self, number: u32) -> Process {
        let is_new = lock(&self.shared.numbers).insert(number);
        assert!(is_new, "process {number} is there already");
        self.add_process(number)
    }

    /// The whole number that stands for a text: equal texts, equal numbers.
    pub fn value(&self, text: &str) -> i64 {
        self.shared.value(text)
    }

    /// Writes what has been recorded. Calls that have not returned are pending.
    pub fn write(&self, to: &mut impl Write) -> io::Result<()> {
        self.shared.write(to)
    }

    /// Writes the history to this file when the recorder is dropped, or when a signal ends the program. A file is removed until
    /// then; a device, a pipe or a link is not.
    pub fn write_at_end(&self, path: impl AsRef<Path>) {
        let path = path.as_ref().to_path_buf();
        if std::fs::symlink_metadata(&path).is_ok_and(|found| found.is_file()) {
            let _ = std::fs::remove_file(&path);
        }
        *lock(&self.shared.at_end) = Some(path);
        #[cfg(unix)]
        signals::watch(&self.shared);
    }

    fn add_process(&self, number: u32) -> Process {
        let chunk = Chunk::new();
        let log = Arc::new(Log { first: chunk.clone(), length: AtomicUsize::new(0) });
        lock(&self.shared.logs).push(log.clone());
        Process { shared: self.shared.clone(), log, chunk, at: 0, number, object: 0, pending: None }
    }
}

impl Drop for Recorder {
    fn drop(&mut self) {
        self.shared.write_at_end();
    }
}

/// What one thread records.
pub struct Process {
    shared: Arc<Shared>,
    log: Arc<Log>,
    /// The last chunk of the log, and the place in it.
    chunk: Arc<Chunk>,
    at: usize,
    number: u32,
    /// The object of the last call.
    object: usize,
    pending: Option<&'static Operation>,
}

impl Process {
    /// A call of this operation begins now.
    pub fn call(&mut self, object: &str, op: &str, args: &[i64]) {
        assert!(self.pending.is_none(), "process {} has a pending call", self.number);
        let objects = &self.shared.objects;
        if objects.get(self.object).is_none_or(|last| last.name != object) {
            self.object = objects.iter().position(|it| it.name == object).unwrap_or_else(|| panic!("unknown object: {object}"));
        }
        let kind = objects[self.object].kind;
        let of = kind.operations.iter().position(|it| it.name == op).unwrap_or_else(|| panic!("{} has no operation {op}", kind.name));
        assert!(args.len() == kind.operations[of].args, "wrong number of arguments: {op}");
        self.pending = Some(&kind.operations[of]);
        let at = self.room();
        self.fill(at, 0, What::Call, of, args);
        self.chunk.events[at].instant.store(self.now(), Relaxed);
    }

    /// The pending call has answered.
    pub fn ret(&mut self, reply: impl Answer) {
        let instant = self.now();
        let reply = reply.reply();
        if let Some(Operation { name, answers_ok, .. }) = self.pending {
            let said = if *answers_ok { "answers ok alone" } else { "does not answer ok" };
            assert!(*answers_ok == (reply == Reply::Ok), "{name} {said}");
        }
        match reply {
            Reply::Ok => self.end(instant, What::Ok, 0),
            Reply::Number(number) => self.end(instant, What::Number, number),
            Reply::Flag(flag) => self.end(instant, What::Flag, i64::from(flag)),
            Reply::Empty => self.end(instant, What::Empty, 0),
            Reply::Text(text) => self.end(instant, What::Number, self.shared.value(&text)),
        }
    }

    /// The pending call was not done and never will be.
    pub fn fail(&mut self) {
        self.end(self.now(), What::Fail, 0);
    }

    /// Nobody knows whether the pending call was done. The thread goes on as a new process.
    pub fn info(&mut self) {
        self.end(self.now(), What::Info, 0);
        self.number = self.shared.next_number();
    }

    /// Records the call that the operation makes, and returns what it returns.
    pub fn record<T: Answer>(&mut self, object: &str, op: &str, args: &[i64], operation: impl FnOnce() -> T) -> T {
        self.call(object, op, args);
        let rescue = Rescue(self);
        let answer = operation();
        rescue.0.ret(&answer);
        answer
    }

    /// The same of an operation that may end with an error: `fails` says of an error that the call was not done.
    pub fn try_record<T: Answer, E>(
        &mut self,
        object: &str,
        op: &str,
        args: &[i64],
        operation: impl FnOnce() -> Result<T, E>,
        fails: impl FnOnce(&E) -> bool,
    ) -> Result<T, E> {
        self.call(object, op, args);
        let rescue = Rescue(self);
        let answer = operation();
        match &answer {
            Ok(answer) => rescue.0.ret(answer),
            Err(error) if fails(error) => rescue.0.fail(),
            Err(_) => rescue.0.info(),
        }
        answer
    }

    fn now(&self) -> u64 {
        self.shared.instants.0.fetch_add(1, SeqCst)
    }

    /// The place of the next event.
    fn room(&mut self) -> usize {
        if self.at == CHUNK {
            self.chunk = self.chunk.next.get_or_init(Chunk::new).clone();
            self.at = 0;
        }
        self.at += 1;
        self.at - 1
    }

    /// Fills an event and shows it to a writer.
    fn fill(&self, at: usize, instant: u64, what: What, operation: usize, values: &[i64]) {
        let event = &self.chunk.events[at];
        let head = u64::from(self.number) << 32 | (self.object as u64) << 16 | (operation as u64) << 8 | what as u64;
        event.instant.store(instant, Relaxed);
        event.head.store(head, Relaxed);
        for (to, value) in event.values.iter().zip(values) {
            to.store(*value as u64, Relaxed);
        }
        self.log.length.store(self.log.length.load(Relaxed) + 1, Release);
    }

    fn end(&mut self, instant: u64, what: What, value: i64) {
        assert!(self.pending.take().is_some(), "process {} has no pending call", self.number);
        let at = self.room();
        self.fill(at, instant, what, 0, &[value]);
    }
}

/// Tells of a call whose operation panics that nobody knows whether it was done.
struct Rescue<'a>(&'a mut Process);

impl Drop for Rescue<'_> {
    fn drop(&mut self) {
        if self.0.pending.is_some() {
            self.0.info();
        }
    }
}

/// The library has no signals, so this asks the C library, which each program is linked with: a handler notes the signal, and
/// a thread that looks for it writes.
#[cfg(unix)]
mod signals {
    use super::Shared;
    use std::sync::atomic::{AtomicI32, Ordering::SeqCst};
    use std::sync::Arc;
    use std::time::Duration;

    const HANGUP: i32 = 1;
    const INTERRUPT: i32 = 2;
    const TERMINATE: i32 = 15;
    const DEFAULT: usize = 0;
    const ERROR: usize = usize::MAX;

    unsafe extern "C" {
        fn signal(number: i32, handler: usize) -> usize;
        fn raise(number: i32) -> i32;
    }

    static CAUGHT: AtomicI32 = AtomicI32::new(0);

    extern "C" fn note(number: i32) {
        CAUGHT.store(number, SeqCst);
    }

    /// Takes the signals that would end the program and have no handler. The recorder's memory stays with the thread.
    pub(super) fn watch(shared: &Arc<Shared>) {
        for number in [HANGUP, INTERRUPT, TERMINATE] {
            // SAFETY: `note` has the type of a handler, and a handler may store an atomic number.
            let old = unsafe { signal(number, note as extern "C" fn(i32) as usize) };
            if old != DEFAULT && old != ERROR {
                // SAFETY: it is what was there before.
                unsafe { signal(number, old) };
            }
        }
        let shared = shared.clone();
        std::thread::spawn(move || loop {
            std::thread::sleep(Duration::from_millis(20));
            let number = CAUGHT.load(SeqCst);
            if number != 0 {
                shared.write_at_end();
                // SAFETY: both take any number; the signal ends the program as it would have.
                unsafe {
                    signal(number, DEFAULT);
                    raise(number);
                }
            }
        });
    }
}
