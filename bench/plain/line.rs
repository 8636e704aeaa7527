//! Messages, as lines of a journal's text.
use crate::json::{Fault, Reader, Result, write_string};
use std::borrow::Cow;

#[derive(Clone, Copy, PartialEq)]
pub enum Flag {
    Continue,
    Outside,
    Ack,
}

/// What a message says, without who wrote it.
pub struct Message<'a> {
    pub flag: Flag,
    pub clock: u64,
    pub key: Cow<'a, str>,
    pub value: Cow<'a, str>,
}

impl Message<'_> {
    pub fn ack(clock: u64) -> Self {
        Message { flag: Flag::Ack, clock, key: "".into(), value: "".into() }
    }

    /// Writes the message as a line. The producer is its six octets, as a number.
    pub fn write(&self, producer: u64, out: &mut Vec<u8>) {
        out.extend_from_slice(b"{\"key\":");
        write_string(out, &self.key);
        out.extend_from_slice(b",\"uuid\":\"");
        out.extend_from_slice(&uuid_text(identifier(producer, self.clock, self.flag)));
        out.extend_from_slice(b"\",\"value\":");
        write_string(out, &self.value);
        out.extend_from_slice(b"}\n");
    }
}

/// The message of a line that lacks its newline, and its producer.
pub fn message_of(line: &str) -> Result<(u64, Message<'_>)> {
    let (mut key, mut value, mut uuid) = (None, None, None);
    let mut reader = Reader::new(line);
    reader.object(|reader, name| {
        match name {
            "key" => key = Some(reader.string()?),
            "value" => value = Some(reader.string()?),
            "uuid" => uuid = Some(reader.string()?),
            _ => return Err(Fault::BadField),
        }
        Ok(())
    })?;
    reader.end()?;
    let (Some(key), Some(value), Some(uuid)) = (key, value, uuid) else {
        return Err(Fault::BadField);
    };
    let (producer, clock, flag) = uuid_of(&uuid).and_then(parts_of).ok_or(Fault::BadField)?;
    Ok((producer, Message { flag, clock, key, value }))
}

/// The identifier of version 1 that carries these three.
fn identifier(producer: u64, clock: u64, flag: Flag) -> u128 {
    let time = clock >> 4;
    let high = time << 32 | (time >> 32 & 0xffff) << 16 | 0x1000 | time >> 48;
    let low = 0x8000 | (clock & 15) << 10 | flag as u64;
    u128::from(high) << 64 | u128::from(low) << 48 | u128::from(producer)
}

fn parts_of(bits: u128) -> Option<(u64, u64, Flag)> {
    let (high, low) = ((bits >> 64) as u64, (bits as u64) >> 48);
    let producer = bits as u64 & 0xffff_ffff_ffff;
    let flag = match low & 0x3ff {
        0 => Flag::Continue,
        1 => Flag::Outside,
        2 => Flag::Ack,
        _ => return None,
    };
    let time = high >> 32 | (high >> 16 & 0xffff) << 32 | (high & 0xfff) << 48;
    let is_ours = high >> 12 & 15 == 1 && low >> 14 == 2 && producer >> 40 & 1 == 1;
    is_ours.then_some((producer, time << 4 | low >> 10 & 15, flag))
}

fn uuid_text(bits: u128) -> [u8; 36] {
    let mut text = [b'-'; 36];
    let mut left = 128;
    for (place, digit) in text.iter_mut().enumerate() {
        if !matches!(place, 8 | 13 | 18 | 23) {
            left -= 4;
            *digit = b"0123456789abcdef"[(bits >> left) as usize & 15];
        }
    }
    text
}

/// The bits of a hyphenated identifier.
fn uuid_of(text: &str) -> Option<u128> {
    if text.len() != 36 {
        return None;
    }
    let mut bits = 0;
    for (place, byte) in text.bytes().enumerate() {
        if !matches!(place, 8 | 13 | 18 | 23) {
            bits = bits << 4 | u128::from(char::from(byte).to_digit(16)?);
        } else if byte != b'-' {
            return None;
        }
    }
    Some(bits)
}
