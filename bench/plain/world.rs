//! Journals and shards, what events make of them, and the report.
use crate::event::{App, Event, Kind, Publish, ShardSpec, Specs};
use crate::json::write_string;
use crate::line::{Flag, Message, message_of};
use std::borrow::Cow;
use std::collections::{BTreeMap, HashMap, HashSet};
use std::fmt::Write;

const MOST_PUBLISHED: usize = 1 << 20;

struct Journal {
    kind: Kind,
    text: Vec<u8>,
}

/// What a reader knows of a producer: the greatest clock that it took, and what waits for an ACK.
#[derive(Default)]
struct Producer {
    greatest: Option<u64>,
    waiting: Vec<(u64, String, String)>,
}

/// A reader of a journal's text, and how far it has come.
struct Reading {
    journal: String,
    at: usize,
    taken: usize,
    producers: HashMap<u64, Producer>,
}

impl Reading {
    fn new(journal: &str, at: usize) -> Self {
        Reading { journal: journal.to_string(), at, taken: 0, producers: HashMap::new() }
    }

    /// Reads to the text's end, and gives each message that is released to `take`.
    fn read(&mut self, text: &[u8], mut take: impl FnMut(&str, &str)) -> usize {
        let before = self.taken;
        while self.at < text.len() {
            let Some(length) = text[self.at..].iter().position(|byte| *byte == b'\n') else { break };
            let line = std::str::from_utf8(&text[self.at..self.at + length]);
            self.at += length + 1;
            if let Some((producer, message)) = line.ok().and_then(|line| message_of(line).ok()) {
                self.taken += self.producers.entry(producer).or_default().release(&message, &mut take);
            }
        }
        self.taken - before
    }

    /// Whether a message is released that wasn't read yet.
    fn is_behind(&self, text: &[u8]) -> bool {
        if self.at >= text.len() {
            return false;
        }
        let mut ahead = Reading::new("", self.at);
        for (producer, known) in &self.producers {
            let copy = Producer { greatest: known.greatest, waiting: known.waiting.clone() };
            ahead.producers.insert(*producer, copy);
        }
        ahead.read(text, |_, _| ()) > 0
    }
}

impl Producer {
    /// Gives what the message releases to `take`, and tells how many these are.
    fn release(&mut self, message: &Message, take: &mut impl FnMut(&str, &str)) -> usize {
        let is_new = Some(message.clock) > self.greatest;
        let mut released = 0;
        match message.flag {
            Flag::Continue => {
                if is_new && self.waiting.last().is_none_or(|last| message.clock > last.0) {
                    let (key, value) = (message.key.to_string(), message.value.to_string());
                    self.waiting.push((message.clock, key, value));
                }
                return 0;
            }
            Flag::Outside if is_new => {
                take(&message.key, &message.value);
                released = 1;
            }
            Flag::Outside => (),
            Flag::Ack => {
                for (_, key, value) in self.waiting.iter().take_while(|each| each.0 <= message.clock) {
                    take(key, value);
                    released += 1;
                }
            }
        }
        self.waiting.clear();
        self.greatest = self.greatest.max(Some(message.clock));
        released
    }
}

enum State {
    Counts(HashMap<String, u64>),
    Values(HashMap<String, String>),
    Nothing,
}

impl State {
    fn of(app: App) -> Self {
        match app {
            App::Count => State::Counts(HashMap::new()),
            App::Latest => State::Values(HashMap::new()),
            App::Relay => State::Nothing,
        }
    }

    /// The value that is emitted for a message, where one is.
    fn take<'a>(&mut self, key: &str, value: &'a str) -> Option<Cow<'a, str>> {
        match self {
            State::Counts(counts) => {
                let count = match counts.get_mut(key) {
                    Some(count) => count,
                    None => counts.entry(key.to_string()).or_default(),
                };
                *count += 1;
                Some(count.to_string().into())
            }
            State::Values(values) => {
                values.insert(key.to_string(), value.to_string());
                None
            }
            State::Nothing => Some(value.into()),
        }
    }

    fn write(&self, out: &mut Vec<u8>) {
        match self {
            State::Counts(counts) => write_object(out, counts, |out, count| {
                out.extend_from_slice(count.to_string().as_bytes());
            }),
            State::Values(values) => write_object(out, values, |out, value| write_string(out, value)),
            State::Nothing => out.extend_from_slice(b"{}"),
        }
    }
}

fn write_object<T>(out: &mut Vec<u8>, map: &HashMap<String, T>, write: impl Fn(&mut Vec<u8>, &T)) {
    let mut members: Vec<_> = map.iter().collect();
    members.sort_unstable_by_key(|member| member.0);
    out.push(b'{');
    for (place, (key, value)) in members.into_iter().enumerate() {
        if place > 0 {
            out.push(b',');
        }
        write_string(out, key);
        out.push(b':');
        write(out, value);
    }
    out.push(b'}');
}

struct Shard {
    spec: ShardSpec,
    producer: u64,
    clock: u64,
    commits: usize,
    state: State,
    readings: Vec<Reading>,
}

impl Shard {
    fn new(spec: ShardSpec, number: usize) -> Self {
        let readings = spec.sources.iter().map(|(name, from)| Reading::new(name, *from)).collect();
        let state = State::of(spec.app);
        Shard { producer: 5 << 40 | number as u64, clock: 0, commits: 0, state, readings, spec }
    }

    /// Another definition reads each source on from where this one has read it to.
    fn redefine(&mut self, spec: ShardSpec) {
        let mut before = std::mem::take(&mut self.readings);
        for (name, from) in &spec.sources {
            let place = before.iter().position(|reading| reading.journal == *name);
            self.readings.push(place.map_or_else(|| Reading::new(name, *from), |at| before.swap_remove(at)));
        }
        self.spec = spec;
    }

    fn is_behind(&self, journals: &BTreeMap<String, Journal>) -> bool {
        self.readings.iter().any(|reading| reading.is_behind(&journals[&reading.journal].text))
    }

    /// Takes all that is new in the sources as one commit, and tells whether there was anything.
    fn step(&mut self, journals: &mut BTreeMap<String, Journal>) -> bool {
        if self.spec.is_disabled {
            return false;
        }
        let mut lines = vec![Vec::new(); self.spec.outputs.len()];
        let (state, clock, producer) = (&mut self.state, &mut self.clock, self.producer);
        let mut taken = 0;
        for reading in &mut self.readings {
            taken += reading.read(&journals[&reading.journal].text, |key, value| {
                let Some(value) = state.take(key, value) else { return };
                *clock += 1;
                let message = Message { flag: Flag::Continue, clock: *clock, key: key.into(), value };
                let sum = key.bytes().map(usize::from).sum::<usize>();
                let output = sum % lines.len();
                message.write(producer, &mut lines[output]);
            });
        }
        if taken == 0 {
            return false;
        }
        *clock += 1;
        self.commits += 1;
        for (name, lines) in self.spec.outputs.iter().zip(&mut lines) {
            if !lines.is_empty() {
                Message::ack(*clock).write(producer, lines);
                journals.get_mut(name).expect("an output").text.append(lines);
            }
        }
        true
    }
}

#[derive(Default)]
pub struct World {
    journals: BTreeMap<String, Journal>,
    shards: BTreeMap<String, Shard>,
    told: String,
}

impl World {
    /// Does what the event of this line says.
    pub fn apply(&mut self, number: usize, event: Event) {
        match event {
            Event::Publish(publish) => self.publish(number, &publish),
            Event::Settle => self.settle(),
            Event::Specs(specs) | Event::Apply(specs) => {
                if self.is_bad(&specs) {
                    self.tell(format_args!("refused {number} bad specs"));
                } else {
                    self.define(specs);
                }
            }
        }
    }

    fn tell(&mut self, line: std::fmt::Arguments) {
        writeln!(self.told, "{line}").expect("a text takes all");
    }

    fn publish(&mut self, number: usize, publish: &Publish) {
        let client = &publish.client;
        if is_reserved(client) {
            return self.tell(format_args!("refused {number} name used"));
        }
        let Some(journal) = self.journals.get_mut(publish.journal.as_ref()) else {
            return self.tell(format_args!("refused {number} no route"));
        };
        let begin = journal.text.len();
        for message in &publish.messages {
            message.write(3 << 40 | publish.producer, &mut journal.text);
        }
        let end = journal.text.len();
        let is_framed = matches!(journal.kind, Kind::Lines | Kind::Bytes);
        if is_framed && end - begin <= MOST_PUBLISHED {
            return self.tell(format_args!("reply {number} {client} ok {begin} {end}"));
        }
        journal.text.truncate(begin);
        match end - begin <= MOST_PUBLISHED {
            true => self.tell(format_args!("reply {number} {client} not framed")),
            false => self.tell(format_args!("reply {number} {client} too large {MOST_PUBLISHED}")),
        }
    }

    fn settle(&mut self) {
        loop {
            let mut is_quiet = true;
            for shard in self.shards.values_mut() {
                is_quiet &= !shard.step(&mut self.journals);
            }
            if is_quiet {
                return;
            }
        }
    }

    fn define(&mut self, specs: Specs) {
        for journal in specs.journals {
            let empty = Journal { kind: journal.kind, text: Vec::new() };
            self.journals.entry(journal.name).or_insert(empty);
        }
        let mut shards = specs.shards;
        shards.sort_by(|one, other| one.id.cmp(&other.id));
        for spec in shards {
            if let Some(shard) = self.shards.get_mut(&spec.id) {
                shard.redefine(spec);
            } else {
                let shard = Shard::new(spec, self.shards.len() + 1);
                self.shards.insert(shard.spec.id.clone(), shard);
            }
        }
    }

    fn is_bad(&self, specs: &Specs) -> bool {
        let mut named = HashMap::new();
        for journal in &specs.journals {
            if self.journals.get(&journal.name).is_some_and(|there| there.kind != journal.kind) {
                return true;
            }
            named.insert(journal.name.as_str(), journal.kind);
        }
        let shards = specs.shards.iter().filter(|shard| !self.shards.contains_key(&shard.id));
        let journals = named.keys().filter(|name| !self.journals.contains_key(**name));
        if self.shards.len() + shards.count() > 256 || self.journals.len() + journals.count() > 1024 {
            return true;
        }
        let kind_of = |name: &str| {
            named.get(name).copied().or_else(|| self.journals.get(name).map(|journal| journal.kind))
        };
        specs.shards.iter().any(|shard| names_wrong(shard, kind_of)) || self.feeds_itself(specs)
    }

    /// Whether one of these shards reads, by whatever way round, what it writes.
    fn feeds_itself(&self, specs: &Specs) -> bool {
        let new: HashMap<_, _> = specs.shards.iter().map(|shard| (shard.id.as_str(), shard)).collect();
        let old = self.shards.values().map(|shard| &shard.spec).filter(|spec| !new.contains_key(spec.id.as_str()));
        let mut readers: HashMap<&str, Vec<&ShardSpec>> = HashMap::new();
        for spec in old.chain(specs.shards.iter()) {
            for (name, _) in &spec.sources {
                readers.entry(name).or_default().push(spec);
            }
        }
        specs.shards.iter().any(|spec| reaches_itself(spec, &readers))
    }

    /// The report, after the last line.
    pub fn report(self) -> Vec<u8> {
        let mut out = self.told.into_bytes();
        for (name, journal) in &self.journals {
            if journal.kind != Kind::Log {
                let committed = Reading::new(name, 0).read(&journal.text, |_, _| ());
                let line = format!("journal {name} {} {committed} -\n", journal.text.len());
                out.extend_from_slice(line.as_bytes());
            }
        }
        for (id, shard) in &self.shards {
            let status = match (shard.is_behind(&self.journals), shard.spec.is_disabled) {
                (false, _) => "caught",
                (true, true) => "stalled disabled",
                (true, false) => "behind",
            };
            let taken = shard.readings.iter().map(|reading| reading.taken).sum::<usize>();
            let begin = format!("shard {id} {} {taken} {status} ", shard.commits);
            out.extend_from_slice(begin.as_bytes());
            shard.state.write(&mut out);
            out.push(b'\n');
        }
        out
    }
}

/// Whether the shard names a journal that isn't there, or is of another kind.
fn names_wrong(shard: &ShardSpec, kind_of: impl Fn(&str) -> Option<Kind>) -> bool {
    let is_source = |name: &str| kind_of(name).is_some_and(|kind| kind != Kind::Log);
    kind_of(&shard.log) != Some(Kind::Log)
        || !shard.sources.iter().all(|source| is_source(&source.0))
        || !shard.outputs.iter().all(|name| kind_of(name) == Some(Kind::Lines))
}

fn reaches_itself(start: &ShardSpec, readers: &HashMap<&str, Vec<&ShardSpec>>) -> bool {
    let (mut left, mut seen) = (vec![start], HashSet::new());
    while let Some(shard) = left.pop() {
        for output in &shard.outputs {
            for next in readers.get(output.as_str()).into_iter().flatten() {
                if next.id == start.id {
                    return true;
                }
                if seen.insert(next.id.as_str()) {
                    left.push(next);
                }
            }
        }
    }
    false
}

fn is_reserved(name: &str) -> bool {
    let is_numbered = |digits: &str| !digits.is_empty() && digits.bytes().all(|byte| byte.is_ascii_digit());
    name == "keys" || name == "store" || name.strip_prefix("client").is_some_and(is_numbered)
}
