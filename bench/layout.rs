//! The search of `search.rs` over structures laid out as those of `lincheck`, in plain Rust without a proof. It stands here
//! to tell how much of the difference between the two is the structures' and how much is not; it is no part of `lincheck`.
//!
//! - The table is an index map, as `indexmap` for Rattle lays it out: groups of twelve slots (a byte of the hash each, and
//!   an index), the keys in one vector, what is known of them in a second, and the hashes in a third.
//! - A key is a set of 48 bytes, with two words in it or a vector, and a state of 32 bytes, an enum that may hold a vector.
//!   With `--cfg small_sets` the set has 32 bytes, with one word in it or a box with a vector.
//! - The map's hash is fed the set's hash and the state, field by field.
//! - A step makes a new state; the state before it stands in the frame.
//! - The links both ways, the events and the places of the calls' entries are vectors of their own.
mod answer;
mod reader;

use answer::Done;
use reader::{Kind, Object, Op, Reply};
use std::arch::x86_64::{_mm_cmpeq_epi8, _mm_loadu_si128, _mm_movemask_epi8, _mm_set1_epi8};
use words::Words;

const MULTIPLIER: u64 = 0x9E37_79B9_7F4A_7C15;

/// A hash with one piece of 8 bytes more, as std's hasher for Rattle folds it.
fn fold(hash: u64, word: u64) -> u64 {
    let product = u128::from(hash ^ word) * u128::from(MULTIPLIER ^ 16);
    (product >> 64) as u64 ^ product as u64
}

/// What a call adds to the hash of a set.
fn weight(call: usize) -> u64 {
    let folded = |n: u64| n ^ n >> 32;
    let spread = (call as u64 + 1).wrapping_mul(MULTIPLIER);
    folded(folded(spread).wrapping_mul(0xBF58_476D_1CE4_E5B9))
}

/// What is known of a refuted configuration: 6 bytes.
#[derive(Clone, Copy, Default)]
struct Longest {
    more: u16,
    first: Option<u16>,
}

impl Longest {
    fn take(&mut self, call: usize, below: Longest) {
        if self.more < below.more + 1 {
            *self = Longest {
                more: below.more + 1,
                first: Some(call as u16),
            };
        }
    }
}

#[cfg(not(small_sets))]
mod words {
    /// Words, two of them without an allocation: 32 bytes.
    #[derive(Clone)]
    #[repr(u64)]
    pub enum Words {
        Inline { len: u64, words: [u64; 2] },
        Heap(Vec<u64>),
    }

    impl Words {
        pub fn none() -> Words {
            Words::Inline {
                len: 0,
                words: [0; 2],
            }
        }

        pub fn as_slice(&self) -> &[u64] {
            match self {
                Words::Inline { len, words } => &words[..*len as usize],
                Words::Heap(words) => words,
            }
        }

        pub fn as_mut_slice(&mut self) -> &mut [u64] {
            match self {
                Words::Inline { len, words } => &mut words[..*len as usize],
                Words::Heap(words) => words,
            }
        }

        pub fn insert(&mut self, place: usize, word: u64) {
            match self {
                Words::Inline { len, words } if *len < 2 => {
                    words.copy_within(place..*len as usize, place + 1);
                    words[place] = word;
                    *len += 1;
                }
                Words::Inline { .. } => {
                    let mut more = self.as_slice().to_vec();
                    more.insert(place, word);
                    *self = Words::Heap(more);
                }
                Words::Heap(words) => words.insert(place, word),
            }
        }

        pub fn remove(&mut self, place: usize) {
            match self {
                Words::Inline { len, words } => {
                    words.copy_within(place + 1..*len as usize, place);
                    *len -= 1;
                }
                Words::Heap(words) => drop(words.remove(place)),
            }
        }
    }
}

#[cfg(small_sets)]
mod words {
    /// Words, one of them without an allocation: 16 bytes.
    pub enum Words {
        Empty,
        One(u64),
        Many(Box<Vec<u64>>),
    }

    impl Clone for Words {
        fn clone(&self) -> Words {
            match self.as_slice() {
                [] => Words::Empty,
                [word] => Words::One(*word),
                words => Words::Many(Box::new(words.to_vec())),
            }
        }
    }

    impl Words {
        pub fn none() -> Words {
            Words::Empty
        }

        pub fn as_slice(&self) -> &[u64] {
            match self {
                Words::Empty => &[],
                Words::One(word) => std::slice::from_ref(word),
                Words::Many(words) => words,
            }
        }

        pub fn as_mut_slice(&mut self) -> &mut [u64] {
            match self {
                Words::Empty => &mut [],
                Words::One(word) => std::slice::from_mut(word),
                Words::Many(words) => words,
            }
        }

        pub fn insert(&mut self, place: usize, word: u64) {
            match self {
                Words::Empty => *self = Words::One(word),
                Words::One(other) => {
                    let mut words = vec![*other];
                    words.insert(place, word);
                    *self = Words::Many(Box::new(words));
                }
                Words::Many(words) => words.insert(place, word),
            }
        }

        pub fn remove(&mut self, place: usize) {
            match self {
                Words::Empty | Words::One(_) => *self = Words::Empty,
                Words::Many(words) => drop(words.remove(place)),
            }
        }
    }
}

/// A set of calls: 48 bytes, or 32 with `small_sets`.
#[derive(Clone)]
struct CallSet {
    hash: u64,
    sum: u32,
    calls: u16,
    full: u16,
    words: Words,
}

impl CallSet {
    fn none(calls: usize) -> CallSet {
        CallSet {
            hash: 0,
            sum: 0,
            calls: calls as u16,
            full: 0,
            words: Words::none(),
        }
    }

    fn insert(&mut self, call: usize) {
        let index = call / 64 - self.full as usize;
        while self.words.as_slice().len() <= index {
            self.words.insert(self.words.as_slice().len(), 0);
        }
        self.words.as_mut_slice()[index] |= 1 << (call % 64);
        while self.words.as_slice().first() == Some(&u64::MAX) {
            self.words.remove(0);
            self.full += 1;
        }
        self.hash = self.hash.wrapping_add(weight(call));
        self.sum += call as u32;
    }

    fn remove(&mut self, call: usize) {
        while call / 64 < self.full as usize {
            self.words.insert(0, u64::MAX);
            self.full -= 1;
        }
        self.words.as_mut_slice()[call / 64 - self.full as usize] &= !(1 << (call % 64));
        while self.words.as_slice().last() == Some(&0) {
            self.words.remove(self.words.as_slice().len() - 1);
        }
        self.hash = self.hash.wrapping_sub(weight(call));
        self.sum -= call as u32;
    }

    fn is(&self, other: &CallSet) -> bool {
        self.hash == other.hash
            && self.calls == other.calls
            && self.full == other.full
            && self.words.as_slice() == other.words.as_slice()
    }
}

/// The state of an object: 32 bytes.
#[derive(Clone, PartialEq)]
#[repr(u64)]
enum State {
    Register(i64),
    Counter(i64),
    Queue(Vec<i64>),
    Stack(Vec<i64>),
    Set(Vec<i64>),
    Mutex(Option<u32>),
    Map(Vec<(i64, i64)>),
}

/// The items in front, this one, and those behind, in an allocation made at once.
fn joined<T: Copy>(front: &[T], item: T, behind: &[T]) -> Vec<T> {
    let mut items = Vec::with_capacity(front.len() + behind.len() + 1);
    items.extend_from_slice(front);
    items.push(item);
    items.extend_from_slice(behind);
    items
}

fn with_in_order(items: &[i64], item: i64) -> Vec<i64> {
    let place = items.iter().position(|other| item < *other);
    let (front, behind) = items.split_at(place.unwrap_or(items.len()));
    joined(front, item, behind)
}

fn with_value(pairs: &[(i64, i64)], key: i64, value: i64) -> Vec<(i64, i64)> {
    let place = pairs.iter().position(|pair| pair.0 >= key);
    let (front, rest) = pairs.split_at(place.unwrap_or(pairs.len()));
    let is_there = rest.first().is_some_and(|pair| pair.0 == key);
    joined(front, (key, value), &rest[usize::from(is_there)..])
}

impl State {
    fn start(object: &Object) -> State {
        match object.kind {
            Kind::Register => State::Register(object.start),
            Kind::Counter => State::Counter(object.start),
            Kind::Queue => State::Queue(Vec::new()),
            Kind::Stack => State::Stack(Vec::new()),
            Kind::Set => State::Set(Vec::new()),
            Kind::Mutex => State::Mutex(None),
            Kind::Map => State::Map(Vec::new()),
        }
    }

    fn hash(&self, hash: u64) -> u64 {
        let items = |tag: u64, items: &[i64]| {
            let start = fold(fold(hash, tag), items.len() as u64);
            items
                .iter()
                .fold(start, |hash, item| fold(hash, *item as u64))
        };
        match self {
            State::Register(value) => fold(fold(hash, 0), *value as u64),
            State::Counter(value) => fold(fold(hash, 1), *value as u64),
            State::Queue(list) => items(2, list),
            State::Stack(list) => items(3, list),
            State::Set(list) => items(4, list),
            State::Mutex(holder) => fold(fold(hash, 5), holder.map_or(u64::MAX, u64::from)),
            State::Map(pairs) => {
                let start = fold(fold(hash, 6), pairs.len() as u64);
                pairs.iter().fold(start, |hash, (key, value)| {
                    fold(fold(hash, *key as u64), *value as u64)
                })
            }
        }
    }

    /// What the operation replies; `None` where there is no step.
    fn reply(&self, process: u32, op: Op) -> Option<Reply> {
        let first = |items: &[i64]| items.first().map_or(Reply::Empty, |item| Reply::Int(*item));
        match (self, op) {
            (State::Register(_), Op::Write(_)) => Some(Reply::Okay),
            (State::Register(value), Op::Read) => Some(Reply::Int(*value)),
            (State::Register(value), Op::Cas(from, _)) => Some(Reply::Flag(*value == from)),
            (State::Counter(value), Op::Add(more)) => value.checked_add(more).map(|_| Reply::Okay),
            (State::Counter(value), Op::Get) => Some(Reply::Int(*value)),
            (State::Queue(_), Op::Enqueue(_)) | (State::Stack(_), Op::Push(_)) => Some(Reply::Okay),
            (State::Queue(items), Op::Dequeue) | (State::Stack(items), Op::Pop) => {
                Some(first(items))
            }
            (State::Set(items), Op::Insert(item)) => Some(Reply::Flag(!items.contains(&item))),
            (State::Set(items), Op::Remove(item) | Op::Contains(item)) => {
                Some(Reply::Flag(items.contains(&item)))
            }
            (State::Mutex(holder), Op::Lock) => holder.is_none().then_some(Reply::Okay),
            (State::Mutex(holder), Op::Unlock) => (*holder == Some(process)).then_some(Reply::Okay),
            (State::Mutex(holder), Op::TryLock) => Some(Reply::Flag(holder.is_none())),
            (State::Map(_), Op::Put(..)) => Some(Reply::Okay),
            (State::Map(pairs), Op::Lookup(key)) => Some(
                pairs
                    .iter()
                    .find(|pair| pair.0 == key)
                    .map_or(Reply::Empty, |pair| Reply::Int(pair.1)),
            ),
            (State::Map(pairs), Op::Delete(key)) => {
                Some(Reply::Flag(pairs.iter().any(|pair| pair.0 == key)))
            }
            _ => None,
        }
    }

    /// The state after an operation that has a step.
    fn next(&self, process: u32, op: Op) -> State {
        match (self, op) {
            (State::Register(_), Op::Write(value)) => State::Register(value),
            (State::Register(value), Op::Cas(from, to)) if *value == from => State::Register(to),
            (State::Counter(value), Op::Add(more)) => State::Counter(value + more),
            (State::Queue(items), Op::Enqueue(item)) => State::Queue(joined(items, item, &[])),
            (State::Queue(items), Op::Dequeue) if !items.is_empty() => {
                State::Queue(items[1..].to_vec())
            }
            (State::Stack(items), Op::Push(item)) => State::Stack(joined(&[], item, items)),
            (State::Stack(items), Op::Pop) if !items.is_empty() => {
                State::Stack(items[1..].to_vec())
            }
            (State::Set(items), Op::Insert(item)) if !items.contains(&item) => {
                State::Set(with_in_order(items, item))
            }
            (State::Set(items), Op::Remove(item)) => State::Set(
                items
                    .iter()
                    .copied()
                    .filter(|other| *other != item)
                    .collect(),
            ),
            (State::Mutex(None), Op::Lock | Op::TryLock) => State::Mutex(Some(process)),
            (State::Mutex(_), Op::Unlock) => State::Mutex(None),
            (State::Map(pairs), Op::Put(key, value)) => State::Map(with_value(pairs, key, value)),
            (State::Map(pairs), Op::Delete(key)) => {
                State::Map(pairs.iter().copied().filter(|pair| pair.0 != key).collect())
            }
            _ => self.clone(),
        }
    }
}

/// A configuration: 80 bytes.
struct Config {
    lifted: CallSet,
    state: State,
}

impl Config {
    fn hash(&self) -> u64 {
        self.state
            .hash(fold(0x243F_6A88_85A3_08D3, self.lifted.hash))
    }

    fn is(&self, other: &Config) -> bool {
        self.lifted.is(&other.lifted) && self.state == other.state
    }
}

/// Twelve slots: a byte of each hash, with four bytes that tell which hashes went on to the next group, and the indices.
#[derive(Clone, Copy, Default)]
struct Group {
    tags: [u8; 16],
    indices: [u32; 12],
}

impl Group {
    fn matches(&self, tag: u8) -> u32 {
        // SAFETY: 16 bytes are there, and every x86-64 has these instructions.
        unsafe {
            let tags = _mm_loadu_si128(self.tags.as_ptr().cast());
            _mm_movemask_epi8(_mm_cmpeq_epi8(tags, _mm_set1_epi8(tag as i8))) as u32 & 0xFFF
        }
    }

    fn overflow(&self) -> u32 {
        u32::from_le_bytes([self.tags[12], self.tags[13], self.tags[14], self.tags[15]])
    }
}

/// The refuted configurations and what is known of them.
struct Table {
    groups: Vec<Group>,
    hashes: Vec<(u32, u32)>,
    keys: Vec<Config>,
    known: Vec<Longest>,
}

fn tag(hash: u32) -> u8 {
    ((hash >> 24) as u8).max(1)
}

/// Puts an index into the first slot that is free.
fn place(groups: &mut [Group], hash: u32, index: usize) -> (u32, u32) {
    let mut at = hash as usize & (groups.len() - 1);
    loop {
        let last = groups.len() - 1;
        let group = &mut groups[at];
        let free = group.matches(0);
        if free != 0 {
            let lane = free.trailing_zeros() as usize;
            group.tags[lane] = tag(hash);
            group.indices[lane] = index as u32;
            return (hash, (16 * at + lane) as u32);
        }
        let overflow = (group.overflow() | 1 << (tag(hash) & 31)).to_le_bytes();
        group.tags[12..].copy_from_slice(&overflow);
        at = (at + 1) & last;
    }
}

impl Table {
    fn new() -> Table {
        Table {
            groups: Vec::new(),
            hashes: Vec::new(),
            keys: Vec::new(),
            known: Vec::new(),
        }
    }

    fn find(&self, config: &Config, hash: u32) -> Option<usize> {
        if self.groups.is_empty() {
            return None;
        }
        let mut at = hash as usize & (self.groups.len() - 1);
        loop {
            let group = &self.groups[at];
            let mut matches = group.matches(tag(hash));
            while matches != 0 {
                let index = group.indices[matches.trailing_zeros() as usize] as usize;
                if self.keys[index].is(config) {
                    return Some(index);
                }
                matches &= matches - 1;
            }
            if group.overflow() >> (tag(hash) & 31) & 1 == 0 {
                return None;
            }
            at = (at + 1) & (self.groups.len() - 1);
        }
    }

    fn get(&self, config: &Config) -> Option<Longest> {
        let index = self.find(config, config.hash() as u32)?;
        Some(self.known[index])
    }

    fn insert(&mut self, config: Config, longest: Longest) {
        let hash = config.hash() as u32;
        if let Some(index) = self.find(&config, hash) {
            self.known[index] = longest;
            return;
        }
        if self.keys.len() >= 9 * self.groups.len() {
            self.groups = vec![Group::default(); (2 * self.groups.len()).max(1)];
            for (index, one) in self.hashes.iter_mut().enumerate() {
                *one = place(&mut self.groups, one.0, index);
            }
        }
        self.hashes
            .push(place(&mut self.groups, hash, self.keys.len()));
        self.keys.push(config);
        self.known.push(longest);
    }
}

#[derive(Clone, Copy)]
enum Event {
    Call(usize),
    Return(usize),
}

/// The entries of an object's events, counted from 1, linked both ways.
struct Entries {
    events: Vec<Event>,
    called: Vec<usize>,
    returned: Vec<Option<usize>>,
    next: Vec<usize>,
    previous: Vec<usize>,
    lifted: Vec<usize>,
    /// How many completed calls are not lifted.
    left: usize,
}

impl Entries {
    fn new(object: &Object) -> Entries {
        let mut timed = Vec::new();
        for (number, call) in object.calls.iter().enumerate() {
            timed.push((call.called, Event::Call(number)));
            if let Some((returned, _)) = call.returned {
                timed.push((returned, Event::Return(number)));
            }
        }
        timed.sort_by_key(|one| one.0);
        let events: Vec<Event> = timed.iter().map(|one| one.1).collect();
        let mut called = vec![0; object.calls.len()];
        let mut returned = vec![None; object.calls.len()];
        for (place, event) in events.iter().enumerate() {
            match event {
                Event::Call(call) => called[*call] = place + 1,
                Event::Return(call) => returned[*call] = Some(place + 1),
            }
        }
        let last = events.len() + 2;
        Entries {
            events,
            called,
            left: returned.iter().flatten().count(),
            returned,
            next: (1..=last).collect(),
            previous: (0..last).map(|entry| entry.saturating_sub(1)).collect(),
            lifted: Vec::with_capacity(object.calls.len()),
        }
    }

    fn take_out(&mut self, at: usize) {
        let (next, previous) = (self.next[at], self.previous[at]);
        self.next[previous] = next;
        self.previous[next] = previous;
    }

    fn put_back(&mut self, at: usize) {
        let (next, previous) = (self.next[at], self.previous[at]);
        self.next[previous] = at;
        self.previous[next] = at;
    }

    fn lift(&mut self, call: usize) {
        self.take_out(self.called[call]);
        if let Some(entry) = self.returned[call] {
            self.take_out(entry);
            self.left -= 1;
        }
        self.lifted.push(call);
    }

    fn put_down(&mut self, call: usize) {
        if let Some(entry) = self.returned[call] {
            self.put_back(entry);
            self.left += 1;
        }
        self.put_back(self.called[call]);
        self.lifted.pop();
    }

    /// The call whose entry comes after this one, where it is a call entry.
    fn call_after(&self, at: usize) -> Option<usize> {
        match self.events.get(self.next[at] - 1) {
            Some(Event::Call(call)) => Some(*call),
            _ => None,
        }
    }
}

/// A call that was lifted, the state before, and what was known before of the configuration above.
struct Frame {
    state: State,
    call: usize,
    longest: Longest,
}

struct Search<'o> {
    object: &'o Object,
    entries: Entries,
    config: Config,
    frames: Vec<Frame>,
    table: Table,
    lifts: u64,
}

impl<'o> Search<'o> {
    fn new(object: &'o Object) -> Search<'o> {
        Search {
            object,
            entries: Entries::new(object),
            config: Config {
                lifted: CallSet::none(object.calls.len()),
                state: State::start(object),
            },
            frames: Vec::with_capacity(object.calls.len()),
            table: Table::new(),
            lifts: 0,
        }
    }

    /// The state that the call leads to, where it has a step with the recorded reply.
    fn next_state(&self, call: usize) -> Option<State> {
        let call = &self.object.calls[call];
        let reply = self.config.state.reply(call.process, call.op)?;
        match call.returned {
            Some((_, recorded)) if recorded != reply => None,
            _ => Some(self.config.state.next(call.process, call.op)),
        }
    }

    /// Lifts the frame's call, which leads to the frame's state; the state before comes into the frame.
    fn lift(&mut self, frame: &mut Frame) {
        self.entries.lift(frame.call);
        self.config.lifted.insert(frame.call);
        std::mem::swap(&mut self.config.state, &mut frame.state);
    }

    fn put_down(&mut self, frame: &mut Frame) {
        self.entries.put_down(frame.call);
        self.config.lifted.remove(frame.call);
        std::mem::swap(&mut self.config.state, &mut frame.state);
    }

    fn candidate_after(&self, call: usize) -> Option<usize> {
        self.entries.call_after(self.entries.called[call])
    }

    /// Searches from the root: `None` where it has a completion; else what its longest runs tell.
    fn run(&mut self) -> Option<Longest> {
        let mut candidate = self.entries.call_after(0);
        let mut longest = Longest::default();
        while self.entries.left > 0 {
            if let Some(call) = candidate {
                let Some(state) = self.next_state(call) else {
                    candidate = self.candidate_after(call);
                    continue;
                };
                self.lifts += 1;
                let mut frame = Frame {
                    state,
                    call,
                    longest,
                };
                self.lift(&mut frame);
                if self.entries.left == 0 {
                    self.frames.push(frame);
                    return None;
                }
                match self.table.get(&self.config) {
                    Some(below) => {
                        self.put_down(&mut frame);
                        longest.take(call, below);
                        candidate = self.candidate_after(call);
                    }
                    None => {
                        self.frames.push(frame);
                        longest = Longest::default();
                        candidate = self.entries.call_after(0);
                    }
                }
            } else {
                let lifted = self.config.lifted.clone();
                let below = longest;
                let Some(mut frame) = self.frames.pop() else {
                    let state = self.config.state.clone();
                    self.table.insert(Config { lifted, state }, below);
                    return Some(longest);
                };
                self.put_down(&mut frame);
                let state = frame.state;
                self.table.insert(Config { lifted, state }, below);
                longest = frame.longest;
                longest.take(frame.call, below);
                candidate = self.candidate_after(frame.call);
            }
        }
        None
    }

    /// The first of the longest runs of an object whose root is refuted and in the table.
    fn longest_run(&mut self) -> Vec<usize> {
        let mut run = Vec::new();
        while let Some(call) = self
            .table
            .get(&self.config)
            .and_then(|longest| longest.first)
        {
            let call = usize::from(call);
            let state = self.next_state(call).expect("a call that follows");
            let longest = Longest::default();
            let mut frame = Frame {
                state,
                call,
                longest,
            };
            self.lift(&mut frame);
            run.push(call);
        }
        run
    }
}

/// `None` where the object has a linearization, else its longest run.
fn check(object: &Object, done: &mut Done) -> Option<Vec<usize>> {
    let mut search = Search::new(object);
    let refuted = search.run();
    done.add(search.lifts, search.table.keys.len());
    refuted?;
    Some(search.longest_run())
}

fn main() {
    answer::print(check);
}
