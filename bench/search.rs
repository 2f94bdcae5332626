//! A fast search in plain Rust, without a proof, that gives the answers of `lincheck`. It stands here to be timed beside
//! `lincheck` and is no part of it.
//!
//! It reads a history on standard input and prints `linearizable`, or `not linearizable: ` and the first object that has
//! no linearization and the length of its longest run. On standard error it tells what it did.
//!
//! The search is Wing and Gong's (1993), from the first call to the last, over linked entries of call and return events:
//! the calls that may be next are those before the first return entry. A table keeps the configurations (set of lifted
//! calls, and state) that are refuted (Lowe 2017), each with its longest continuation; the longest run of a refuted object
//! is read off it. There is one configuration, which changes in place and is taken back.
mod answer;
mod reader;

use answer::Done;
use reader::{Kind, Object, Op, Reply};

/// A hash with one word more: a product, folded.
fn fold(hash: u64, word: u64) -> u64 {
    let product = u128::from(hash ^ word) * 0x9E37_79B9_7F4A_7C15;
    (product >> 64) as u64 ^ product as u64
}

/// What a call adds to the hash of a set.
fn weight(call: usize) -> u64 {
    let mixed = fold(0x2545_F491_4F6C_DD1D, call as u64 + 1);
    fold(mixed, mixed >> 32)
}

/// What is known of a refuted configuration: how many calls its longest continuation has, and the least first call of
/// one of that length.
#[derive(Clone, Copy, Default)]
struct Longest {
    more: u32,
    first: u32,
}

impl Longest {
    /// Takes in that a call leads to a configuration of which this is known.
    fn take(&mut self, call: usize, below: Longest) {
        if self.more < below.more + 1 {
            *self = Longest {
                more: below.more + 1,
                first: call as u32,
            };
        }
    }
}

/// A slot of the table: half of a hash, and where its pair stands; place 0 is no pair.
#[derive(Clone, Copy, Default)]
struct Slot {
    tag: u32,
    place: u32,
}

/// The refuted configurations and what is known of them, one behind the other in one arena, found by open addressing.
struct Table {
    slots: Vec<Slot>,
    /// Of each pair: what is known, then the set, then the state. The first word is none.
    arena: Vec<u64>,
    count: usize,
}

impl Table {
    fn new() -> Table {
        Table {
            slots: vec![Slot::default(); 64],
            arena: vec![0],
            count: 0,
        }
    }

    /// The half of the hash by which a pair is found.
    fn tag(hash: u64) -> u32 {
        (hash ^ hash >> 32) as u32
    }

    fn get(&self, hash: u64, lifted: &CallSet, state: &State) -> Option<Longest> {
        let tag = Table::tag(hash);
        let mask = self.slots.len() - 1;
        let mut index = tag as usize & mask;
        loop {
            let slot = self.slots[index];
            if slot.place == 0 {
                return None;
            }
            if slot.tag == tag {
                let pair = &self.arena[slot.place as usize..];
                let words = lifted.words.len();
                if pair[1] == lifted.head()
                    && pair[2..2 + words] == lifted.words[..]
                    && state.is(&pair[2 + words..])
                {
                    return Some(Longest {
                        more: (pair[0] >> 32) as u32,
                        first: pair[0] as u32,
                    });
                }
            }
            index = (index + 1) & mask;
        }
    }

    /// Stores a pair that is not there.
    fn insert(&mut self, hash: u64, lifted: &CallSet, state: &State, longest: Longest) {
        let place = u32::try_from(self.arena.len()).expect("an arena of 32 gigabytes");
        let known = u64::from(longest.more) << 32 | u64::from(longest.first);
        self.arena.extend_from_slice(&[known, lifted.head()]);
        self.arena.extend_from_slice(&lifted.words);
        state.write(&mut self.arena);
        if 8 * (self.count + 1) > 7 * self.slots.len() {
            let old = std::mem::take(&mut self.slots);
            self.slots = vec![Slot::default(); 2 * old.len()];
            for slot in old {
                if slot.place > 0 {
                    self.put(slot);
                }
            }
        }
        let tag = Table::tag(hash);
        self.put(Slot { tag, place });
        self.count += 1;
    }

    fn put(&mut self, slot: Slot) {
        let mask = self.slots.len() - 1;
        let mut index = slot.tag as usize & mask;
        while self.slots[index].place > 0 {
            index = (index + 1) & mask;
        }
        self.slots[index] = slot;
    }
}

/// A set of calls as bits: how many leading words are full, and from there the words up to the last that is not empty.
#[derive(Default)]
struct CallSet {
    full: usize,
    words: Vec<u64>,
    /// The sum of the weights of the calls.
    hash: u64,
}

impl CallSet {
    /// One word that tells how many words are full and how many come next.
    fn head(&self) -> u64 {
        (self.full as u64) << 32 | self.words.len() as u64
    }

    fn insert(&mut self, call: usize) {
        self.hash = self.hash.wrapping_add(weight(call));
        let place = call / 64 - self.full;
        if place >= self.words.len() {
            self.words.resize(place + 1, 0);
        }
        self.words[place] |= 1 << (call % 64);
        while self.words.first() == Some(&u64::MAX) {
            self.words.remove(0);
            self.full += 1;
        }
    }

    fn remove(&mut self, call: usize) {
        self.hash = self.hash.wrapping_sub(weight(call));
        while call / 64 < self.full {
            self.words.insert(0, u64::MAX);
            self.full -= 1;
        }
        self.words[call / 64 - self.full] &= !(1 << (call % 64));
        while self.words.last() == Some(&0) {
            self.words.pop();
        }
    }
}

/// The state of an object: of each kind some of the fields are used.
struct State {
    kind: Kind,
    /// The value of a register or a counter.
    value: i64,
    /// The items of a stack, the newest last; of a set, in increasing order; all that was put in a queue, the oldest first.
    items: Vec<i64>,
    /// The keys of a map in increasing order, each with its value.
    pairs: Vec<(i64, i64)>,
    /// How many of a queue's items were taken out.
    taken: usize,
    holder: Option<u32>,
}

/// What takes a step back.
enum Undo {
    Nothing,
    Value(i64),
    TakeLast,
    PutLast(i64),
    PutFirst,
    Insert(usize, i64),
    Remove(usize),
    Holder(Option<u32>),
    InsertPair(usize, (i64, i64)),
    SetPair(usize, i64),
    RemovePair(usize),
}

impl State {
    fn start(object: &Object) -> State {
        State {
            kind: object.kind,
            value: object.start,
            items: Vec::new(),
            pairs: Vec::new(),
            taken: 0,
            holder: None,
        }
    }

    /// Makes the step of an operation: its reply, and what takes it back. `None` where there is no step.
    fn step(&mut self, process: u32, op: Op) -> Option<(Reply, Undo)> {
        let old = Undo::Value(self.value);
        match op {
            Op::Write(value) => {
                self.value = value;
                Some((Reply::Okay, old))
            }
            Op::Read | Op::Get => Some((Reply::Int(self.value), Undo::Nothing)),
            Op::Cas(from, to) => {
                let is_there = self.value == from;
                if is_there {
                    self.value = to;
                }
                Some((Reply::Flag(is_there), old))
            }
            Op::Add(difference) => {
                self.value = self.value.checked_add(difference)?;
                Some((Reply::Okay, old))
            }
            Op::Enqueue(item) | Op::Push(item) => {
                self.items.push(item);
                Some((Reply::Okay, Undo::TakeLast))
            }
            Op::Dequeue => match self.items.get(self.taken) {
                Some(item) => {
                    self.taken += 1;
                    Some((Reply::Int(*item), Undo::PutFirst))
                }
                None => Some((Reply::Empty, Undo::Nothing)),
            },
            Op::Pop => match self.items.pop() {
                Some(item) => Some((Reply::Int(item), Undo::PutLast(item))),
                None => Some((Reply::Empty, Undo::Nothing)),
            },
            Op::Insert(item) => match self.items.binary_search(&item) {
                Ok(_) => Some((Reply::Flag(false), Undo::Nothing)),
                Err(place) => {
                    self.items.insert(place, item);
                    Some((Reply::Flag(true), Undo::Remove(place)))
                }
            },
            Op::Remove(item) => match self.items.binary_search(&item) {
                Ok(place) => {
                    self.items.remove(place);
                    Some((Reply::Flag(true), Undo::Insert(place, item)))
                }
                Err(_) => Some((Reply::Flag(false), Undo::Nothing)),
            },
            Op::Contains(item) => Some((
                Reply::Flag(self.items.binary_search(&item).is_ok()),
                Undo::Nothing,
            )),
            Op::Lock => self
                .holder
                .is_none()
                .then(|| (Reply::Okay, Undo::Holder(self.holder.replace(process)))),
            Op::Unlock => (self.holder == Some(process))
                .then(|| (Reply::Okay, Undo::Holder(self.holder.take()))),
            Op::TryLock => Some(match self.holder {
                None => (
                    Reply::Flag(true),
                    Undo::Holder(self.holder.replace(process)),
                ),
                Some(_) => (Reply::Flag(false), Undo::Nothing),
            }),
            Op::Put(key, value) => Some((Reply::Okay, self.put(key, value))),
            Op::Lookup(key) => {
                let value = self.place_of(key).ok().map(|place| self.pairs[place].1);
                Some((value.map_or(Reply::Empty, Reply::Int), Undo::Nothing))
            }
            Op::Delete(key) => Some(match self.place_of(key) {
                Ok(place) => {
                    let pair = self.pairs.remove(place);
                    (Reply::Flag(true), Undo::InsertPair(place, pair))
                }
                Err(_) => (Reply::Flag(false), Undo::Nothing),
            }),
        }
    }

    /// Where the pair of the key stands, or would go.
    fn place_of(&self, key: i64) -> Result<usize, usize> {
        self.pairs.binary_search_by_key(&key, |pair| pair.0)
    }

    /// Gives the key the value: what takes that back.
    fn put(&mut self, key: i64, value: i64) -> Undo {
        match self.place_of(key) {
            Ok(place) => Undo::SetPair(place, std::mem::replace(&mut self.pairs[place].1, value)),
            Err(place) => {
                self.pairs.insert(place, (key, value));
                Undo::RemovePair(place)
            }
        }
    }

    fn undo(&mut self, undo: Undo) {
        match undo {
            Undo::Nothing => {}
            Undo::Value(value) => self.value = value,
            Undo::TakeLast => drop(self.items.pop()),
            Undo::PutLast(item) => self.items.push(item),
            Undo::PutFirst => self.taken -= 1,
            Undo::Insert(place, item) => self.items.insert(place, item),
            Undo::Remove(place) => drop(self.items.remove(place)),
            Undo::Holder(holder) => self.holder = holder,
            Undo::InsertPair(place, pair) => self.pairs.insert(place, pair),
            Undo::SetPair(place, value) => self.pairs[place].1 = value,
            Undo::RemovePair(place) => drop(self.pairs.remove(place)),
        }
    }

    /// The items that are there.
    fn items(&self) -> &[i64] {
        &self.items[self.taken..]
    }

    /// The state as one word, of those kinds that have no items.
    fn word(&self) -> u64 {
        match self.kind {
            Kind::Mutex => self.holder.map_or(u64::MAX, u64::from),
            _ => self.value as u64,
        }
    }

    fn has_items(&self) -> bool {
        matches!(self.kind, Kind::Queue | Kind::Stack | Kind::Set)
    }

    fn hash(&self, hash: u64) -> u64 {
        if self.kind == Kind::Map {
            let start = fold(hash, self.pairs.len() as u64);
            self.pairs.iter().fold(start, |hash, (key, value)| {
                fold(fold(hash, *key as u64), *value as u64)
            })
        } else if self.has_items() {
            let start = fold(hash, self.items().len() as u64);
            self.items()
                .iter()
                .fold(start, |hash, item| fold(hash, *item as u64))
        } else {
            fold(hash, self.word())
        }
    }

    /// Writes the state out as words.
    fn write(&self, words: &mut Vec<u64>) {
        if self.kind == Kind::Map {
            words.push(self.pairs.len() as u64);
            words.extend(
                self.pairs
                    .iter()
                    .flat_map(|(key, value)| [*key as u64, *value as u64]),
            );
        } else if self.has_items() {
            words.push(self.items().len() as u64);
            words.extend(self.items().iter().map(|item| *item as u64));
        } else {
            words.push(self.word());
        }
    }

    /// Whether the words begin with those of the state.
    fn is(&self, words: &[u64]) -> bool {
        if self.kind == Kind::Map {
            words[0] == self.pairs.len() as u64
                && self
                    .pairs
                    .iter()
                    .zip(words[1..].chunks_exact(2))
                    .all(|((key, value), pair)| [*key as u64, *value as u64] == pair)
        } else if self.has_items() {
            let items = self.items();
            words[0] == items.len() as u64
                && items
                    .iter()
                    .zip(&words[1..])
                    .all(|(item, word)| *item as u64 == *word)
        } else {
            words[0] == self.word()
        }
    }
}

/// A call or a return event, linked with those before and after it that are not lifted.
#[derive(Clone, Copy)]
struct Entry {
    call: usize,
    is_call: bool,
    before: usize,
    after: usize,
}

/// The entries of an object. Entry 0 stands before the first and after the last.
struct Entries {
    entries: Vec<Entry>,
    /// For each call its entry, and that of its return (0 while it is pending).
    of_call: Vec<(usize, usize)>,
}

impl Entries {
    fn new(object: &Object) -> Entries {
        let mut events = Vec::new();
        for (number, call) in object.calls.iter().enumerate() {
            events.push((call.called, number, true));
            if let Some((returned, _)) = call.returned {
                events.push((returned, number, false));
            }
        }
        events.sort_unstable();
        let last = events.len();
        let mut entries = vec![Entry {
            call: 0,
            is_call: false,
            before: last,
            after: usize::from(last > 0),
        }];
        let mut of_call = vec![(0, 0); object.calls.len()];
        for (index, (_, call, is_call)) in events.into_iter().enumerate() {
            let here = index + 1;
            entries.push(Entry {
                call,
                is_call,
                before: index,
                after: if here < last { here + 1 } else { 0 },
            });
            if is_call {
                of_call[call].0 = here;
            } else {
                of_call[call].1 = here;
            }
        }
        Entries { entries, of_call }
    }

    fn take_out(&mut self, at: usize) {
        let Entry { before, after, .. } = self.entries[at];
        self.entries[before].after = after;
        self.entries[after].before = before;
    }

    fn put_back(&mut self, at: usize) {
        let Entry { before, after, .. } = self.entries[at];
        self.entries[before].after = at;
        self.entries[after].before = at;
    }

    fn lift(&mut self, call: usize) {
        let (called, returned) = self.of_call[call];
        self.take_out(called);
        if returned != 0 {
            self.take_out(returned);
        }
    }

    fn put_down(&mut self, call: usize) {
        let (called, returned) = self.of_call[call];
        if returned != 0 {
            self.put_back(returned);
        }
        self.put_back(called);
    }

    /// The first call from this entry on that may be next; `None` where a return or the end comes first.
    fn next_call(&self, at: usize) -> Option<usize> {
        let entry = &self.entries[at];
        entry.is_call.then_some(entry.call)
    }
}

/// A call that was lifted to come where the search is, and what was known before of the configuration above.
struct Frame {
    call: usize,
    undo: Undo,
    longest: Longest,
}

/// Where a search is in one object.
struct Search<'o> {
    object: &'o Object,
    entries: Entries,
    lifted: CallSet,
    state: State,
    /// How many completed calls are not lifted.
    left: usize,
    frames: Vec<Frame>,
    table: Table,
    lifts: u64,
}

impl<'o> Search<'o> {
    fn new(object: &'o Object) -> Search<'o> {
        Search {
            object,
            entries: Entries::new(object),
            lifted: CallSet::default(),
            state: State::start(object),
            left: object
                .calls
                .iter()
                .filter(|call| call.returned.is_some())
                .count(),
            frames: Vec::new(),
            table: Table::new(),
            lifts: 0,
        }
    }

    /// Makes the step of a call where its reply is the recorded one.
    fn step(&mut self, call: usize) -> Option<Undo> {
        let call = &self.object.calls[call];
        let (reply, undo) = self.state.step(call.process, call.op)?;
        match call.returned {
            Some((_, recorded)) if recorded != reply => {
                self.state.undo(undo);
                None
            }
            _ => Some(undo),
        }
    }

    fn lift(&mut self, call: usize, undo: Undo, longest: Longest) {
        self.entries.lift(call);
        self.lifted.insert(call);
        self.left -= usize::from(self.object.calls[call].returned.is_some());
        self.frames.push(Frame {
            call,
            undo,
            longest,
        });
    }

    /// Goes back to the configuration above: by which call it was left, and what was known of it.
    fn go_back(&mut self) -> Option<(usize, Longest)> {
        let Frame {
            call,
            undo,
            longest,
        } = self.frames.pop()?;
        self.state.undo(undo);
        self.left += usize::from(self.object.calls[call].returned.is_some());
        self.lifted.remove(call);
        self.entries.put_down(call);
        Some((call, longest))
    }

    fn hash(&self) -> u64 {
        self.state.hash(self.lifted.hash)
    }

    fn known(&self) -> Option<Longest> {
        self.table.get(self.hash(), &self.lifted, &self.state)
    }

    fn note(&mut self, longest: Longest) {
        let hash = self.hash();
        self.table.insert(hash, &self.lifted, &self.state, longest);
    }

    fn first_entry(&self) -> usize {
        self.entries.entries[0].after
    }

    /// Searches from the root: `None` where it has a completion, whose calls are those of the frames then; else what
    /// its longest runs tell.
    fn run(&mut self) -> Option<Longest> {
        let mut at = self.first_entry();
        let mut longest = Longest::default();
        while self.left > 0 {
            if let Some(call) = self.entries.next_call(at) {
                at = self.entries.entries[at].after;
                let Some(undo) = self.step(call) else {
                    continue;
                };
                self.lifts += 1;
                self.lift(call, undo, longest);
                match self.known() {
                    Some(below) if self.left > 0 => {
                        self.go_back();
                        longest.take(call, below);
                    }
                    _ => {
                        at = self.first_entry();
                        longest = Longest::default();
                    }
                }
            } else {
                self.note(longest);
                let below = longest;
                let Some((call, above)) = self.go_back() else {
                    return Some(longest);
                };
                longest = above;
                longest.take(call, below);
                at = self.entries.entries[self.entries.of_call[call].0].after;
            }
        }
        None
    }

    /// The first of the longest runs of an object whose root is refuted and in the table.
    fn longest_run(&mut self) -> Vec<usize> {
        let mut run = Vec::new();
        while let Some(longest) = self.known().filter(|longest| longest.more > 0) {
            let call = longest.first as usize;
            let undo = self.step(call).expect("a call that follows");
            self.lift(call, undo, longest);
            run.push(call);
        }
        run
    }
}

/// `None` where the object has a linearization, else its longest run.
fn check(object: &Object, done: &mut Done) -> Option<Vec<usize>> {
    let mut search = Search::new(object);
    let refuted = search.run();
    done.add(search.lifts, search.table.count);
    refuted?;
    Some(search.longest_run())
}

fn main() {
    answer::print(check);
}
