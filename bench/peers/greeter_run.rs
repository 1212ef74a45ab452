//! The data flow of `run_bench` in plain Rust, over std alone: records of one split under 97 keys go to greeters, each with
//! a count, which greet and send an int to one total. Letters are batched by address, requests and answers are spelled and read
//! as the messages of proto/request_reply.proto, and the record of all steps is kept. Its words: the number of records, and the
//! most letters of a batch. It prints the egress lines, and then how many records were taken.
use std::collections::{HashMap, VecDeque};
use std::io::{self, BufWriter, Write};

const TEXT: &[u8] = b"io.statefun.types/string";
const INT: &[u8] = b"io.statefun.types/int";
const LONG: &[u8] = b"io.statefun.types/long";

#[derive(Clone, PartialEq, Eq, Hash)]
struct Address {
    namespace: String,
    name: String,
    id: String,
}

#[derive(Clone)]
#[allow(dead_code)]
enum Sender {
    Split(u32),
    Function(Address),
}

#[derive(Clone)]
struct Value {
    typename: Vec<u8>,
    value: Vec<u8>,
}

struct Letter {
    sender: Sender,
    value: Value,
}

#[allow(dead_code)]
enum Entry {
    Take(u32),
    Batch {
        call: (u64, u32, u32),
        address: Address,
        picks: Vec<Sender>,
        answer: Vec<u8>,
    },
    Register {
        call: (u64, u32, u32),
        address: Address,
        picks: Vec<Sender>,
        answer: Vec<u8>,
    },
}

struct Cell {
    name: Vec<u8>,
    typename: Vec<u8>,
    value: Option<Value>,
}

#[derive(Default)]
struct Mailbox {
    letters: VecDeque<Letter>,
    cells: Vec<Cell>,
}

// ---- spelling

fn put_varint(out: &mut Vec<u8>, mut value: u64) {
    while value >= 128 {
        out.push(value as u8 | 128);
        value >>= 7;
    }
    out.push(value as u8);
}

fn put_bytes(out: &mut Vec<u8>, field: u64, bytes: &[u8]) {
    put_varint(out, field << 3 | 2);
    put_varint(out, bytes.len() as u64);
    out.extend_from_slice(bytes);
}

fn put_some(out: &mut Vec<u8>, field: u64, bytes: &[u8]) {
    if !bytes.is_empty() {
        put_bytes(out, field, bytes);
    }
}

fn spelled_address(address: &Address) -> Vec<u8> {
    let mut out = Vec::new();
    put_some(&mut out, 1, address.namespace.as_bytes());
    put_some(&mut out, 2, address.name.as_bytes());
    put_some(&mut out, 3, address.id.as_bytes());
    out
}

fn spelled_value(value: &Value) -> Vec<u8> {
    let mut out = Vec::new();
    put_some(&mut out, 1, &value.typename);
    out.extend_from_slice(&[0x10, 1]);
    put_some(&mut out, 3, &value.value);
    out
}

fn letter_size(letter: &Letter) -> usize {
    spelled_letter(letter).len()
}

fn spelled_letter(letter: &Letter) -> Vec<u8> {
    let mut inner = Vec::new();
    if let Sender::Function(address) = &letter.sender {
        put_bytes(&mut inner, 1, &spelled_address(address));
    }
    put_bytes(&mut inner, 2, &spelled_value(&letter.value));
    let mut out = Vec::new();
    put_bytes(&mut out, 3, &inner);
    out
}

fn head_of(address: &Address, cells: &[Cell]) -> Vec<u8> {
    let mut out = Vec::new();
    put_bytes(&mut out, 1, &spelled_address(address));
    for cell in cells {
        let mut inner = Vec::new();
        put_some(&mut inner, 1, &cell.name);
        if let Some(value) = &cell.value {
            put_bytes(&mut inner, 2, &spelled_value(value));
        }
        put_bytes(&mut out, 2, &inner);
    }
    out
}

// ---- reading

enum Payload<'a> {
    Number(u64),
    Bytes(&'a [u8]),
}

struct Records<'a>(&'a [u8]);

impl<'a> Records<'a> {
    fn varint(&mut self) -> u64 {
        let (mut value, mut shift) = (0, 0);
        loop {
            let (first, rest) = self.0.split_first().expect("a varint");
            self.0 = rest;
            value |= u64::from(first & 127) << shift;
            if *first < 128 {
                return value;
            }
            shift += 7;
        }
    }
}

impl<'a> Iterator for Records<'a> {
    type Item = (u64, Payload<'a>);

    fn next(&mut self) -> Option<Self::Item> {
        if self.0.is_empty() {
            return None;
        }
        let tag = self.varint();
        let size = match tag & 7 {
            0 => return Some((tag >> 3, Payload::Number(self.varint()))),
            1 => 8,
            2 => self.varint() as usize,
            5 => 4,
            _ => panic!("a wire type"),
        };
        let (payload, rest) = self.0.split_at(size);
        self.0 = rest;
        Some((tag >> 3, Payload::Bytes(payload)))
    }
}

fn text(bytes: &[u8]) -> String {
    std::str::from_utf8(bytes).expect("UTF-8").to_string()
}

fn read_address(bytes: &[u8]) -> Address {
    let mut address = Address { namespace: String::new(), name: String::new(), id: String::new() };
    for (field, payload) in Records(bytes) {
        if let Payload::Bytes(bytes) = payload {
            match field {
                1 => address.namespace = text(bytes),
                2 => address.name = text(bytes),
                3 => address.id = text(bytes),
                _ => {}
            }
        }
    }
    address
}

fn read_value(bytes: &[u8]) -> Option<Value> {
    let (mut value, mut has) = (Value { typename: Vec::new(), value: Vec::new() }, false);
    for (field, payload) in Records(bytes) {
        match (field, payload) {
            (1, Payload::Bytes(bytes)) => value.typename = text(bytes).into_bytes(),
            (2, Payload::Number(number)) => has = number != 0,
            (3, Payload::Bytes(bytes)) => value.value = bytes.to_vec(),
            _ => {}
        }
    }
    has.then_some(value)
}

/// Field 1 of a wrapper of a number.
fn read_number(value: &Value) -> i64 {
    let mut number = 0;
    for (field, payload) in Records(&value.value) {
        if let (1, Payload::Bytes(bytes)) = (field, payload) {
            let mut wide = [0; 8];
            wide[..bytes.len()].copy_from_slice(bytes);
            number = if bytes.len() == 4 { i64::from(i32::from_le_bytes([wide[0], wide[1], wide[2], wide[3]])) } else { i64::from_le_bytes(wide) };
        }
    }
    number
}

// ---- the functions behind the endpoint

fn int_value(number: i32) -> Value {
    let mut value = Vec::new();
    if number != 0 {
        value.push(13);
        value.extend_from_slice(&number.to_le_bytes());
    }
    Value { typename: INT.to_vec(), value }
}

fn long_value(number: i64) -> Value {
    let mut value = Vec::new();
    if number != 0 {
        value.push(9);
        value.extend_from_slice(&number.to_le_bytes());
    }
    Value { typename: LONG.to_vec(), value }
}

fn text_value(text: &str) -> Value {
    let mut value = Vec::new();
    put_some(&mut value, 1, text.as_bytes());
    Value { typename: TEXT.to_vec(), value }
}

fn missing(name: &str, typename: &[u8]) -> Vec<u8> {
    let (mut spec, mut context, mut out) = (Vec::new(), Vec::new(), Vec::new());
    put_bytes(&mut spec, 1, name.as_bytes());
    put_bytes(&mut spec, 3, typename);
    put_bytes(&mut context, 1, &spec);
    put_bytes(&mut out, 101, &context);
    out
}

fn put_set(result: &mut Vec<u8>, name: &str, value: &Value) {
    let mut change = vec![8, 1];
    put_bytes(&mut change, 2, name.as_bytes());
    put_bytes(&mut change, 3, &spelled_value(value));
    put_bytes(result, 1, &change);
}

/// What the endpoint answers to a request.
fn answer(request: &[u8]) -> Vec<u8> {
    let Some((100, Payload::Bytes(batch))) = Records(request).next() else {
        panic!("a batch");
    };
    let (mut target, mut cells, mut letters) = (None, Vec::new(), Vec::new());
    for (field, payload) in Records(batch) {
        let Payload::Bytes(bytes) = payload else { continue };
        match field {
            1 => target = Some(read_address(bytes)),
            2 => {
                let (mut name, mut value) = (String::new(), None);
                for (field, payload) in Records(bytes) {
                    match (field, payload) {
                        (1, Payload::Bytes(bytes)) => name = text(bytes),
                        (2, Payload::Bytes(bytes)) => value = read_value(bytes),
                        _ => {}
                    }
                }
                cells.push((name, value));
            }
            3 => {
                let (mut caller, mut argument) = (None, None);
                for (field, payload) in Records(bytes) {
                    match (field, payload) {
                        (1, Payload::Bytes(bytes)) => caller = Some(read_address(bytes)),
                        (2, Payload::Bytes(bytes)) => argument = read_value(bytes),
                        _ => {}
                    }
                }
                letters.push((caller, argument));
            }
            _ => {}
        }
    }
    let mut result = Vec::new();
    if target.expect("a target").name == "greeter" {
        let Some((_, seen)) = cells.into_iter().find(|(name, _)| name == "seen") else {
            return missing("seen", INT);
        };
        let mut count = seen.map_or(0, |value| read_number(&value)) as i32;
        let (mut messages, mut egresses) = (Vec::new(), Vec::new());
        for (_, argument) in letters {
            let argument = argument.expect("a value");
            let Some((1, Payload::Bytes(name))) = Records(&argument.value).next() else { continue };
            count = count.saturating_add(1);
            let (mut message, mut egress) = (Vec::new(), Vec::new());
            let total = Address { namespace: "com.example".to_string(), name: "total".to_string(), id: "all".to_string() };
            put_bytes(&mut message, 1, &spelled_address(&total));
            put_bytes(&mut message, 2, &spelled_value(&int_value(1)));
            put_bytes(&mut messages, 2, &message);
            put_bytes(&mut egress, 1, b"com.example");
            put_bytes(&mut egress, 2, b"greetings");
            put_bytes(&mut egress, 3, &spelled_value(&text_value(&format!("hello {} {count}", text(name)))));
            put_bytes(&mut egresses, 4, &egress);
        }
        put_set(&mut result, "seen", &int_value(count));
        result.extend_from_slice(&messages);
        result.extend_from_slice(&egresses);
    } else {
        let Some((_, sum)) = cells.into_iter().find(|(name, _)| name == "sum") else {
            return missing("sum", LONG);
        };
        let mut total = sum.map_or(0, |value| read_number(&value));
        for (_, argument) in letters {
            total = total.saturating_add(read_number(&argument.expect("a value")));
        }
        put_set(&mut result, "sum", &long_value(total));
    }
    let mut out = Vec::new();
    put_bytes(&mut out, 100, &result);
    out
}

// ---- the run

#[derive(Default)]
struct Run {
    mail: HashMap<Address, Mailbox>,
    ready: VecDeque<Address>,
    entries: Vec<Entry>,
}

/// What an answer asks for.
#[derive(Default)]
struct Effects {
    sets: Vec<(Vec<u8>, Option<Value>)>,
    messages: Vec<(Address, Value)>,
}

fn read_result(bytes: &[u8]) -> Effects {
    let mut effects = Effects::default();
    for (field, payload) in Records(bytes) {
        let Payload::Bytes(bytes) = payload else { continue };
        match field {
            1 => {
                let (mut name, mut value) = (Vec::new(), None);
                for (field, payload) in Records(bytes) {
                    match (field, payload) {
                        (2, Payload::Bytes(bytes)) => name = bytes.to_vec(),
                        (3, Payload::Bytes(bytes)) => value = read_value(bytes),
                        _ => {}
                    }
                }
                effects.sets.push((name, value));
            }
            2 => {
                let (mut target, mut argument) = (None, None);
                for (field, payload) in Records(bytes) {
                    match (field, payload) {
                        (1, Payload::Bytes(bytes)) => target = Some(read_address(bytes)),
                        (2, Payload::Bytes(bytes)) => argument = read_value(bytes),
                        _ => {}
                    }
                }
                effects.messages.push((target.expect("a target"), argument.expect("a value")));
            }
            _ => {}
        }
    }
    effects
}

impl Run {
    fn post(&mut self, target: Address, letter: Letter) {
        let mailbox = self.mail.entry(target.clone()).or_default();
        mailbox.letters.push_back(letter);
        if mailbox.letters.len() == 1 {
            self.ready.push_back(target);
        }
    }

    /// Serves a batch of the address that waits longest.
    fn serve(&mut self, turn: u64, most: usize, most_bytes: usize) {
        let Some(address) = self.ready.pop_front() else { return };
        let mut calls = 0;
        loop {
            let mailbox = self.mail.get_mut(&address).expect("a mailbox");
            let mut body = head_of(&address, &mailbox.cells);
            let mut picked = 0;
            for letter in mailbox.letters.iter().take(most) {
                if body.len() + letter_size(letter) + 8 > most_bytes {
                    break;
                }
                body.extend_from_slice(&spelled_letter(letter));
                picked += 1;
            }
            let mut request = Vec::new();
            put_bytes(&mut request, 100, &body);
            let answer = answer(&request);
            let picks = mailbox.letters.iter().take(picked).map(|letter| letter.sender.clone()).collect();
            let call = (turn, 0, calls);
            calls += 1;
            match Records(&answer).next() {
                Some((100, Payload::Bytes(result))) => {
                    let effects = read_result(result);
                    mailbox.letters.drain(..picked);
                    for (name, value) in effects.sets {
                        let cell = mailbox.cells.iter_mut().find(|cell| cell.name == name).expect("a cell");
                        assert!(value.iter().all(|value| value.typename == cell.typename));
                        cell.value = value;
                    }
                    if !mailbox.letters.is_empty() {
                        self.ready.push_back(address.clone());
                    }
                    for (target, value) in effects.messages {
                        self.post(target, Letter { sender: Sender::Function(address.clone()), value });
                    }
                    self.entries.push(Entry::Batch { call, address, picks, answer });
                    return;
                }
                Some((101, Payload::Bytes(context))) => {
                    for (_, payload) in Records(context) {
                        let Payload::Bytes(bytes) = payload else { continue };
                        let mut cell = Cell { name: Vec::new(), typename: Vec::new(), value: None };
                        for (field, payload) in Records(bytes) {
                            match (field, payload) {
                                (1, Payload::Bytes(bytes)) => cell.name = bytes.to_vec(),
                                (3, Payload::Bytes(bytes)) => cell.typename = bytes.to_vec(),
                                _ => {}
                            }
                        }
                        mailbox.cells.push(cell);
                    }
                    self.entries.push(Entry::Register { call, address: address.clone(), picks, answer });
                }
                _ => panic!("an answer"),
            }
        }
    }

    fn write_egress(&self, out: &mut impl Write) -> io::Result<()> {
        for entry in &self.entries {
            let Entry::Batch { address, answer, .. } = entry else { continue };
            let Some((_, Payload::Bytes(result))) = Records(answer).next() else { continue };
            for (field, payload) in Records(result) {
                let (4, Payload::Bytes(bytes)) = (field, payload) else { continue };
                let (mut namespace, mut name, mut value) = (String::new(), String::new(), None);
                for (field, payload) in Records(bytes) {
                    match (field, payload) {
                        (1, Payload::Bytes(bytes)) => namespace = text(bytes),
                        (2, Payload::Bytes(bytes)) => name = text(bytes),
                        (3, Payload::Bytes(bytes)) => value = read_value(bytes),
                        _ => {}
                    }
                }
                let value = value.expect("a value");
                write!(out, "{}/{}/{} {namespace}/{name} {} ", address.namespace, address.name, address.id, text(&value.typename))?;
                for byte in &value.value {
                    write!(out, "{byte:02x}")?;
                }
                writeln!(out)?;
            }
        }
        Ok(())
    }
}

fn main() -> io::Result<()> {
    let words: Vec<usize> = std::env::args().skip(1).map(|word| word.parse().expect("a number")).collect();
    let (count, most) = (words[0], words[1]);
    let records: Vec<(String, Vec<u8>)> = (0..count).map(|place| (format!("k{}", place * 7 % 97), text_value(&format!("n{place}")).value)).collect();
    let (mut run, mut taken, mut turn) = (Run::default(), 0, 0);
    loop {
        turn += 1;
        let before = taken;
        for (key, value) in records[taken..].iter().take(64) {
            let target = Address { namespace: "com.example".to_string(), name: "greeter".to_string(), id: key.clone() };
            run.post(target, Letter { sender: Sender::Split(0), value: Value { typename: TEXT.to_vec(), value: value.clone() } });
            run.entries.push(Entry::Take(0));
            taken += 1;
        }
        run.serve(turn, most, 4_194_304);
        if taken - before < 64 && run.ready.is_empty() {
            break;
        }
    }
    let mut out = BufWriter::new(io::stdout().lock());
    run.write_egress(&mut out)?;
    writeln!(out, "done taken {taken}")
}
