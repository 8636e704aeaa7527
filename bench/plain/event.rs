//! The events of a scenario, read from its lines.
use crate::json::{Fault, Reader, Result};
use crate::line::{Flag, Message};
use std::borrow::Cow;
use std::collections::BTreeSet;

#[derive(Clone, Copy, PartialEq)]
pub enum Kind {
    Lines,
    Frames,
    Log,
    Bytes,
}

pub struct JournalSpec {
    pub name: String,
    pub kind: Kind,
}

#[derive(Clone, Copy, PartialEq)]
pub enum App {
    Count,
    Relay,
    Latest,
}

pub struct ShardSpec {
    pub id: String,
    /// Each journal that is read, and from which byte on.
    pub sources: Vec<(String, usize)>,
    pub log: String,
    pub app: App,
    pub outputs: Vec<String>,
    pub is_disabled: bool,
}

#[derive(Default)]
pub struct Specs {
    pub journals: Vec<JournalSpec>,
    pub shards: Vec<ShardSpec>,
}

pub struct Publish<'a> {
    pub client: Cow<'a, str>,
    pub journal: Cow<'a, str>,
    pub producer: u64,
    pub messages: Vec<Message<'a>>,
}

pub enum Event<'a> {
    Specs(Specs),
    Apply(Specs),
    Publish(Publish<'a>),
    Settle,
}

/// The event that a line says.
pub fn event_of(line: &str) -> Result<Event<'_>> {
    let mut kind = None;
    let (mut client, mut journal, mut messages, mut producer) = (None, None, None, 1);
    let mut specs = Specs::default();
    let mut reader = Reader::new(line);
    reader.object(|reader, name| {
        match name {
            "do" => kind = Some(reader.string()?),
            "client" => client = Some(checked(reader.string()?, is_id)?),
            "journal" => journal = Some(checked(reader.string()?, is_name)?),
            "producer" => producer = reader.number()?,
            "messages" => messages = Some(reader.list(message)?),
            "journals" => specs.journals = reader.list(journal_spec)?,
            "shards" => specs.shards = reader.list(shard_spec)?,
            _ => return Err(Fault::BadField),
        }
        Ok(())
    })?;
    reader.end()?;
    match kind.as_deref() {
        Some("specs") => Ok(Event::Specs(specs)),
        Some("apply") => Ok(Event::Apply(specs)),
        Some("settle") => Ok(Event::Settle),
        Some("publish") => {
            let client = client.ok_or(Fault::BadField)?;
            let journal = journal.ok_or(Fault::BadField)?;
            let messages = messages.ok_or(Fault::BadField)?;
            if messages.is_empty() || producer >> 40 != 0 {
                return Err(Fault::BadField);
            }
            Ok(Event::Publish(Publish { client, journal, producer, messages }))
        }
        _ => Err(Fault::UnknownEvent),
    }
}

fn message<'a>(reader: &mut Reader<'a>) -> Result<Message<'a>> {
    let (mut flag, mut clock) = (None, None);
    let (mut key, mut value) = (Cow::Borrowed(""), Cow::Borrowed(""));
    reader.object(|reader, name| {
        match name {
            "flag" => flag = Some(flag_of(&reader.string()?)?),
            "clock" => clock = Some(reader.number()?),
            "key" => key = checked(reader.string()?, |key| key.len() <= 256)?,
            "value" => value = checked(reader.string()?, |value| value.len() <= 4096)?,
            _ => return Err(Fault::BadField),
        }
        Ok(())
    })?;
    let (flag, clock) = (flag.ok_or(Fault::BadField)?, clock.ok_or(Fault::BadField)?);
    Ok(Message { flag, clock, key, value })
}

fn flag_of(word: &str) -> Result<Flag> {
    match word {
        "outside" => Ok(Flag::Outside),
        "continue" => Ok(Flag::Continue),
        "ack" => Ok(Flag::Ack),
        _ => Err(Fault::BadField),
    }
}

fn journal_spec(reader: &mut Reader) -> Result<JournalSpec> {
    let (mut name_of, mut kind) = (None, Kind::Bytes);
    reader.object(|reader, name| {
        match name {
            "name" => name_of = Some(checked(reader.string()?, is_name)?),
            "labels" => each_label(reader, |label, values| {
                if label == "content-type" {
                    kind = kind_of(&values);
                }
            })?,
            "replication" => {
                reader.number()?;
            }
            _ => return Err(Fault::BadField),
        }
        Ok(())
    })?;
    Ok(JournalSpec { name: name_of.ok_or(Fault::BadField)?.into_owned(), kind })
}

fn kind_of(types: &[Cow<str>]) -> Kind {
    match types {
        [one] if one == "application/x-ndjson" => Kind::Lines,
        [one] if one == "application/x-protobuf-fixed" => Kind::Frames,
        [one] if one == "application/x-gazette-recoverylog" => Kind::Log,
        _ => Kind::Bytes,
    }
}

fn shard_spec(reader: &mut Reader) -> Result<ShardSpec> {
    let (mut id, mut sources, mut prefix, mut app) = (None, None, None, None);
    let (mut outputs, mut is_disabled) = (BTreeSet::new(), false);
    reader.object(|reader, name| {
        match name {
            "id" => id = Some(checked(reader.string()?, is_id)?),
            "sources" => sources = Some(reader.list(source)?),
            "recovery_log_prefix" => prefix = Some(checked(reader.string()?, is_name)?),
            "disable" => is_disabled = reader.boolean()?,
            "labels" => each_label(reader, |label, values| match label {
                "app" => app = app_of(&values),
                "output" => outputs = values.iter().map(|name| name.to_string()).collect(),
                _ => (),
            })?,
            "hot_standbys" => {
                reader.number()?;
            }
            _ => return Err(Fault::BadField),
        }
        Ok(())
    })?;
    let id = id.ok_or(Fault::BadField)?.into_owned();
    let log = format!("{}/{id}", prefix.ok_or(Fault::BadField)?);
    let (app, outputs) = (app.ok_or(Fault::BadField)?, outputs.into_iter().collect::<Vec<_>>());
    if outputs.len() > 8 || outputs.is_empty() != (app == App::Latest) {
        return Err(Fault::BadField);
    }
    let sources = sources.ok_or(Fault::BadField)?;
    Ok(ShardSpec { id, sources, log, app, outputs, is_disabled })
}

fn source(reader: &mut Reader) -> Result<(String, usize)> {
    let (mut journal, mut from) = (None, 0);
    reader.object(|reader, name| {
        match name {
            "journal" => journal = Some(checked(reader.string()?, is_name)?),
            "min_offset" => from = reader.number()?,
            _ => return Err(Fault::BadField),
        }
        Ok(())
    })?;
    Ok((journal.ok_or(Fault::BadField)?.into_owned(), from as usize))
}

fn app_of(values: &[Cow<str>]) -> Option<App> {
    match values {
        [one] if one == "count" => Some(App::Count),
        [one] if one == "relay" => Some(App::Relay),
        [one] if one == "latest" => Some(App::Latest),
        _ => None,
    }
}

fn each_label(reader: &mut Reader, mut label: impl FnMut(&str, Vec<Cow<str>>)) -> Result<()> {
    reader.object(|reader, name| {
        label(name, reader.list(Reader::string)?);
        Ok(())
    })
}

fn checked<'a>(text: Cow<'a, str>, is_good: impl Fn(&str) -> bool) -> Result<Cow<'a, str>> {
    if is_good(&text) { Ok(text) } else { Err(Fault::BadField) }
}

fn is_id(text: &str) -> bool {
    let is_good = |byte: u8| byte.is_ascii_alphanumeric() || byte == b'_' || byte == b'-';
    (1..=32).contains(&text.len()) && text.bytes().all(is_good)
}

fn is_name(text: &str) -> bool {
    let is_good = |byte: u8| byte.is_ascii_alphanumeric() || b"_.-".contains(&byte);
    let mut segments = text.split('/');
    text.len() <= 255 && segments.all(|part| !part.is_empty() && part.bytes().all(is_good))
}
