//! A history as JSON Lines, read by Rust's standard library alone: a small reader of JSON, and the events in their order.
//! It is the part of `search.rs` that reads; it makes the checks of `docs/FORMAT.md`, but for limits of size and the bytes
//! of names, and it refuses escapes by number.
use std::borrow::Cow;
use std::collections::HashMap;

/// A JSON value. The texts borrow from the line where it has no escapes.
enum Value<'t> {
    Null,
    Flag(bool),
    Whole(i64),
    Other,
    Text(Cow<'t, str>),
    List(Vec<Value<'t>>),
    Map(Vec<(Cow<'t, str>, Value<'t>)>),
}

struct Reader<'t> {
    text: &'t str,
    at: usize,
}

impl<'t> Reader<'t> {
    fn peek(&self) -> Option<u8> {
        self.text.as_bytes().get(self.at).copied()
    }

    fn space(&mut self) {
        while matches!(self.peek(), Some(b' ' | b'\t' | b'\r')) {
            self.at += 1;
        }
    }

    fn take(&mut self, byte: u8) -> Option<()> {
        self.space();
        (self.peek() == Some(byte)).then(|| self.at += 1)
    }

    fn word(&mut self, word: &str, value: Value<'t>) -> Option<Value<'t>> {
        self.text[self.at..].starts_with(word).then(|| {
            self.at += word.len();
            value
        })
    }

    fn text(&mut self) -> Option<Cow<'t, str>> {
        self.take(b'"')?;
        let mut found = Cow::Borrowed("");
        loop {
            let rest = &self.text[self.at..];
            let end = rest
                .bytes()
                .position(|byte| matches!(byte, b'"' | b'\\' | 0..=31))?;
            found += &rest[..end];
            self.at += end + 1;
            match rest.as_bytes()[end] {
                b'"' => return Some(found),
                b'\\' => {
                    let escaped = match self.peek()? {
                        b'n' => '\n',
                        b't' => '\t',
                        b'r' => '\r',
                        byte @ (b'"' | b'\\' | b'/') => byte.into(),
                        _ => return None,
                    };
                    found.to_mut().push(escaped);
                    self.at += 1;
                }
                _ => return None,
            }
        }
    }

    fn number(&mut self) -> Option<Value<'t>> {
        let rest = &self.text[self.at..];
        let is_part = |byte: u8| matches!(byte, b'0'..=b'9' | b'-' | b'+' | b'.' | b'e' | b'E');
        let end = rest
            .bytes()
            .position(|byte| !is_part(byte))
            .unwrap_or(rest.len());
        let word = &rest[..end];
        self.at += end;
        match word.parse::<i64>() {
            Ok(number) => Some(Value::Whole(number)),
            Err(_) => word.parse::<f64>().ok().map(|_| Value::Other),
        }
    }

    /// What stands between two brackets, parted by commas; the first bracket comes next.
    fn parts<T>(&mut self, close: u8, part: impl Fn(&mut Self) -> Option<T>) -> Option<Vec<T>> {
        let mut parts = Vec::new();
        self.at += 1;
        if self.take(close).is_some() {
            return Some(parts);
        }
        loop {
            parts.push(part(self)?);
            if self.take(b',').is_none() {
                self.take(close)?;
                return Some(parts);
            }
        }
    }

    fn member(&mut self, depth: usize) -> Option<(Cow<'t, str>, Value<'t>)> {
        let key = self.text()?;
        self.take(b':')?;
        Some((key, self.value(depth)?))
    }

    fn value(&mut self, depth: usize) -> Option<Value<'t>> {
        self.space();
        match self.peek()? {
            b'{' if depth > 0 => self
                .parts(b'}', |reader| reader.member(depth - 1))
                .map(Value::Map),
            b'[' if depth > 0 => self
                .parts(b']', |reader| reader.value(depth - 1))
                .map(Value::List),
            b'"' => self.text().map(Value::Text),
            b'n' => self.word("null", Value::Null),
            b't' => self.word("true", Value::Flag(true)),
            b'f' => self.word("false", Value::Flag(false)),
            _ => self.number(),
        }
    }
}

fn read_line(line: &[u8]) -> Option<Value<'_>> {
    let text = std::str::from_utf8(line).ok()?;
    let mut reader = Reader { text, at: 0 };
    let value = reader.value(127)?;
    reader.space();
    (reader.at == text.len()).then_some(value)
}

/// The members of a line's JSON object. Of a key that stands twice the last counts.
struct Members<'v>(&'v [(Cow<'v, str>, Value<'v>)]);

impl<'v> Members<'v> {
    fn get(&self, key: &str) -> Option<&'v Value<'v>> {
        self.0
            .iter()
            .rev()
            .find(|member| member.0 == key)
            .map(|member| &member.1)
    }

    fn text(&self, key: &str) -> Option<&'v str> {
        match self.get(key)? {
            Value::Text(text) => Some(text),
            _ => None,
        }
    }

    fn process(&self) -> Option<u32> {
        match self.get("process")? {
            Value::Whole(number) => u32::try_from(*number).ok(),
            _ => None,
        }
    }

    fn args(&self) -> Option<Vec<i64>> {
        let whole = |item: &Value| {
            if let Value::Whole(number) = item {
                Some(*number)
            } else {
                None
            }
        };
        match self.get("args") {
            None => Some(Vec::new()),
            Some(Value::List(items)) => items.iter().map(whole).collect(),
            Some(_) => None,
        }
    }

    fn reply(&self) -> Option<Reply> {
        match self.get("result")? {
            Value::Null => Some(Reply::Empty),
            Value::Flag(flag) => Some(Reply::Flag(*flag)),
            Value::Whole(number) => Some(Reply::Int(*number)),
            Value::Text(text) if text == "ok" => Some(Reply::Okay),
            _ => None,
        }
    }
}

#[derive(Clone, Copy, PartialEq, Debug)]
pub enum Kind {
    Register,
    Counter,
    Queue,
    Stack,
    Set,
    Mutex,
    Map,
}

fn kind_of_name(name: &str) -> Option<Kind> {
    match name {
        "register" => Some(Kind::Register),
        "counter" => Some(Kind::Counter),
        "queue" => Some(Kind::Queue),
        "stack" => Some(Kind::Stack),
        "set" => Some(Kind::Set),
        "mutex" => Some(Kind::Mutex),
        "map" => Some(Kind::Map),
        _ => None,
    }
}

#[derive(Clone, Copy, Debug)]
pub enum Op {
    Write(i64),
    Read,
    Cas(i64, i64),
    Add(i64),
    Get,
    Enqueue(i64),
    Dequeue,
    Push(i64),
    Pop,
    Insert(i64),
    Remove(i64),
    Contains(i64),
    Lock,
    Unlock,
    TryLock,
    Put(i64, i64),
    Lookup(i64),
    Delete(i64),
}

fn read_op(kind: Kind, name: &str, args: &[i64]) -> Option<Op> {
    match (kind, name, args) {
        (Kind::Register, "write", [value]) => Some(Op::Write(*value)),
        (Kind::Register, "read", []) => Some(Op::Read),
        (Kind::Register, "cas", [from, to]) => Some(Op::Cas(*from, *to)),
        (Kind::Counter, "add", [difference]) => Some(Op::Add(*difference)),
        (Kind::Counter, "get", []) => Some(Op::Get),
        (Kind::Queue, "enq", [item]) => Some(Op::Enqueue(*item)),
        (Kind::Queue, "deq", []) => Some(Op::Dequeue),
        (Kind::Stack, "push", [item]) => Some(Op::Push(*item)),
        (Kind::Stack, "pop", []) => Some(Op::Pop),
        (Kind::Set, "add", [item]) => Some(Op::Insert(*item)),
        (Kind::Set, "remove", [item]) => Some(Op::Remove(*item)),
        (Kind::Set, "contains", [item]) => Some(Op::Contains(*item)),
        (Kind::Mutex, "lock", []) => Some(Op::Lock),
        (Kind::Mutex, "unlock", []) => Some(Op::Unlock),
        (Kind::Mutex, "try_lock", []) => Some(Op::TryLock),
        (Kind::Map, "put", [key, value]) => Some(Op::Put(*key, *value)),
        (Kind::Map, "get", [key]) => Some(Op::Lookup(*key)),
        (Kind::Map, "delete", [key]) => Some(Op::Delete(*key)),
        _ => None,
    }
}

#[derive(Clone, Copy, PartialEq, Debug)]
pub enum Reply {
    Okay,
    Int(i64),
    Flag(bool),
    Empty,
}

/// A call of one object. Events are numbered through the whole history.
pub struct Call {
    pub process: u32,
    pub op: Op,
    pub called: usize,
    /// The number of the return event, and the reply; `None` while the call is pending.
    pub returned: Option<(usize, Reply)>,
}

pub struct Object {
    pub name: String,
    pub kind: Kind,
    /// What a register or a counter starts with.
    pub start: i64,
    /// In the order of their call events.
    pub calls: Vec<Call>,
}

#[derive(Default)]
pub struct History {
    /// In the order of declaration.
    pub objects: Vec<Object>,
    indices: HashMap<String, usize>,
    /// Object and number of the pending call of a process.
    pending: HashMap<u32, (usize, usize)>,
    events: usize,
}

impl History {
    fn declare(&mut self, members: &Members, name: &str) -> Option<()> {
        let kind = kind_of_name(members.text("kind")?)?;
        let start = match members.get("start") {
            None => 0,
            Some(Value::Whole(number)) if matches!(kind, Kind::Register | Kind::Counter) => *number,
            Some(_) => return None,
        };
        let calls = Vec::new();
        let next = self.objects.len();
        self.objects.push(Object {
            name: name.to_owned(),
            kind,
            start,
            calls,
        });
        self.indices
            .insert(name.to_owned(), next)
            .is_none()
            .then_some(())
    }

    fn call(&mut self, members: &Members, name: &str) -> Option<()> {
        let process = members.process()?;
        let index = *self.indices.get(name)?;
        let object = &mut self.objects[index];
        let op = read_op(object.kind, members.text("op")?, &members.args()?)?;
        let next = object.calls.len();
        object.calls.push(Call {
            process,
            op,
            called: self.events,
            returned: None,
        });
        self.pending
            .insert(process, (index, next))
            .is_none()
            .then_some(())
    }

    fn ret(&mut self, members: &Members, name: &str) -> Option<()> {
        let (index, call) = self.pending.remove(&members.process()?)?;
        let object = &mut self.objects[index];
        object.calls[call].returned = Some((self.events, members.reply()?));
        (object.name == name).then_some(())
    }

    fn event(&mut self, value: &Value) -> Option<()> {
        let Value::Map(members) = value else {
            return None;
        };
        let members = Members(members);
        let name = members.text("object")?;
        self.events += 1;
        match members.text("event")? {
            "object" => self.declare(&members, name),
            "call" => self.call(&members, name),
            "return" => self.ret(&members, name),
            _ => None,
        }
    }

    /// The history that the text tells, or its first faulty line.
    pub fn of_text(text: &[u8]) -> Result<History, usize> {
        let mut history = History::default();
        for (index, line) in text.split(|byte| *byte == b'\n').enumerate() {
            let is_blank = line.iter().all(|byte| matches!(byte, b' ' | b'\t' | b'\r'));
            if !is_blank
                && read_line(line)
                    .and_then(|value| history.event(&value))
                    .is_none()
            {
                return Err(index + 1);
            }
        }
        Ok(history)
    }
}
