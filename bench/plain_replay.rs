//! A replay in plain Rust, with no proofs: the yardstick of bench/paired.py. It answers the lines that the measured schedules
//! have, over one shard, with the program's replies and by the program's system calls: it reads 16 KiB at a time, and writes
//! each reply before it answers the next line. Each word is read with the program's bounds, and a line is refused for the
//! program's reasons. It does less in three things: it has 17 of the 36 kinds of step, and so no savers and no nodes that are
//! down; it keeps no tally, and no room for a handover; and where memory runs out it stops.
//! Build: rustc -O -C panic=abort bench/plain_replay.rs

use std::collections::HashMap;
use std::io::{self, Read, Write};
use std::os::fd::FromRawFd;
use std::process::ExitCode;
use std::sync::Arc;

struct Message {
    id: u64,
    channel: u128,
    ttl: u64,
    topic: Option<String>,
    accepted: u64,
    payload: Vec<u8>,
}

#[derive(Clone, Copy, PartialEq)]
enum Fetch {
    Idle,
    Topic,
    Plain,
}

struct Session {
    node: u8,
    at: u64,
    displaced: bool,
    inbox: Vec<Arc<Message>>,
    direct: Vec<Arc<Message>>,
    sent: Vec<(u128, u64)>,
    check: bool,
    fetch: Fetch,
}

struct Row {
    message: Arc<Message>,
    orphan: bool,
}

#[derive(Clone, Copy)]
enum Stage {
    Direct(u8),
    Told(bool),
    Store,
    Reread,
    Nudge(u8),
    ToldNudge(bool),
    Clear,
}

impl Stage {
    fn word(self) -> &'static str {
        match self {
            Stage::Direct(..) => "direct",
            Stage::Told(_) => "told",
            Stage::Store => "store",
            Stage::Reread => "reread",
            Stage::Nudge(..) => "nudge",
            Stage::ToldNudge(..) => "toldnudge",
            Stage::Clear => "clear",
        }
    }
}

struct Flight {
    uaid: u128,
    token: [u8; 24],
    message: Arc<Message>,
    stage: Stage,
}

struct User {
    node: Option<u8>,
    at: u64,
    channels: Vec<(u128, [u8; 24])>,
    rows: Vec<Row>,
}

#[derive(Default)]
struct Cell {
    user: Option<User>,
    claims: Vec<(u8, u64)>,
    sessions: Vec<Session>,
}

impl Cell {
    fn attached(&mut self, node: u8, at: u64) -> Option<&mut Session> {
        self.sessions.iter_mut().find(|x| x.node == node && x.at == at && !x.displaced)
    }

    fn at_node(&mut self, node: u8) -> Option<&mut Session> {
        self.sessions.iter_mut().find(|x| x.node == node && !x.displaced)
    }

    fn tell(&mut self, node: u8) -> bool {
        let Some(x) = self.at_node(node) else { return false };
        x.check = true;
        let key = (x.node, x.at);
        self.clear_marks(key);
        true
    }

    fn clear_marks(&mut self, key: (u8, u64)) {
        if let Some(user) = &mut self.user {
            if user.node == Some(key.0) && user.at == key.1 {
                user.rows.iter_mut().for_each(|row| row.orphan = false);
            }
        }
    }
}

struct Shard {
    clock: u64,
    next: u64,
    cells: HashMap<u128, Cell>,
    tokens: HashMap<[u8; 24], (u128, u128)>,
    flights: HashMap<(u64, u64), Flight>,
}

fn number(word: Option<&[u8]>, low: u64, high: u64) -> Option<u64> {
    let word = word?;
    if word.is_empty() || word.len() > 20 || (word[0] == b'0' && word.len() > 1) {
        return None;
    }
    let mut value = 0u64;
    for digit in word {
        if !digit.is_ascii_digit() {
            return None;
        }
        value = value.checked_mul(10)?.checked_add(u64::from(digit - b'0'))?;
    }
    (low <= value && value <= high).then_some(value)
}

fn digit(byte: u8) -> Option<u8> {
    match byte {
        b'0'..=b'9' => Some(byte - b'0'),
        b'a'..=b'f' => Some(byte - b'a' + 10),
        _ => None,
    }
}

fn hex(word: Option<&[u8]>) -> Option<u128> {
    let word = word?;
    if word.is_empty() || word.len() > 32 || (word[0] == b'0' && word.len() > 1) {
        return None;
    }
    word.iter().try_fold(0, |value, byte| Some(value << 4 | u128::from(digit(*byte)?)))
}

fn token(word: Option<&[u8]>) -> Option<[u8; 24]> {
    let word = word?;
    if word.is_empty() || word.len() > 48 || (word[0] == b'0' && word.len() > 1) {
        return None;
    }
    let mut bytes = [0; 24];
    for (place, byte) in word.iter().rev().enumerate() {
        bytes[23 - place / 2] |= digit(*byte)? << (4 * (place % 2));
    }
    Some(bytes)
}

fn payload(word: Option<&[u8]>) -> Option<Vec<u8>> {
    let word = word?;
    if word == b"." {
        return Some(Vec::new());
    }
    if word.is_empty() || word.len() > 8192 || word.len() % 2 == 1 {
        return None;
    }
    word.chunks_exact(2).map(|pair| Some(digit(pair[0])? << 4 | digit(pair[1])?)).collect()
}

fn topic(word: Option<&[u8]>) -> Option<Option<String>> {
    let word = word?;
    if word == b"." {
        return Some(None);
    }
    let fits = |b: &u8| b.is_ascii_alphanumeric() || *b == b'-' || *b == b'_';
    if word.is_empty() || word.len() > 32 || !word.iter().all(fits) {
        return None;
    }
    Some(Some(String::from_utf8(word.to_vec()).ok()?))
}

const DIGITS: &[u8; 16] = b"0123456789abcdef";

fn put_hex(out: &mut Vec<u8>, bytes: &[u8]) {
    for byte in bytes {
        out.push(DIGITS[usize::from(byte >> 4)]);
        out.push(DIGITS[usize::from(byte & 15)]);
    }
}

fn put_token(out: &mut Vec<u8>, token: &[u8; 24]) {
    let from = out.len();
    put_hex(out, token);
    let zeros = out[from..].iter().take(47).take_while(|b| **b == b'0').count();
    out.drain(from..from + zeros);
}

fn put_page(out: &mut Vec<u8>, messages: &[Arc<Message>]) {
    out.extend_from_slice(b"page");
    for m in messages {
        let _ = write!(out, " {}:{:x}:", m.id, m.channel);
        if m.payload.is_empty() {
            out.push(b'.');
        } else {
            put_hex(out, &m.payload);
        }
    }
}

impl Shard {
    fn expired(clock: u64, m: &Message) -> bool {
        m.ttl > 0 && m.accepted + m.ttl <= clock
    }

    fn session(&mut self, key: (u128, u8, u64)) -> Option<&mut Session> {
        self.cells.get_mut(&key.0)?.attached(key.1, key.2)
    }

    // what the line says is answered into out, or the line is outside the grammar
    fn answer(&mut self, line: &[u8], out: &mut Vec<u8>) -> Option<()> {
        let mut words = line.split(|b| *b == b' ');
        let name = words.next()?;
        let words = &mut words;
        match name {
            b"create" => {
                let (uaid, node, at) = session(words)?;
                end(words)?;
                let cell = self.cells.entry(uaid).or_default();
                if cell.user.is_some() {
                    out.extend_from_slice(b"taken");
                } else {
                    cell.user = Some(User { node: Some(node), at, channels: Vec::new(), rows: Vec::new() });
                    cell.claims.push((node, at));
                    out.extend_from_slice(b"made");
                }
            }
            b"attach" => {
                let (uaid, node, at) = session(words)?;
                end(words)?;
                let Some(cell) = self.cells.get_mut(&uaid) else {
                    out.extend_from_slice(b"notclaimed");
                    return Some(());
                };
                let Some(place) = cell.claims.iter().position(|c| *c == (node, at)) else {
                    out.extend_from_slice(b"notclaimed");
                    return Some(());
                };
                cell.claims.remove(place);
                let mut other = None;
                if let Some(x) = cell.at_node(node) {
                    if x.at > at {
                        let _ = write!(out, "outrun {}", x.at);
                        return Some(());
                    }
                    x.displaced = true;
                    other = Some(x.at);
                }
                cell.sessions.push(Session {
                    node,
                    at,
                    displaced: false,
                    inbox: Vec::new(),
                    direct: Vec::new(),
                    sent: Vec::new(),
                    check: true,
                    fetch: Fetch::Idle,
                });
                cell.clear_marks((node, at));
                match other {
                    Some(at) => drop(write!(out, "attached {at}")),
                    None => out.extend_from_slice(b"attached ."),
                }
            }
            b"register" => {
                let (uaid, node, at) = session(words)?;
                let channel = hex(words.next())?;
                let token = token(words.next())?;
                end(words)?;
                let taken = self.tokens.contains_key(&token);
                let Some(cell) = self.cells.get_mut(&uaid) else {
                    out.extend_from_slice(b"nosession");
                    return Some(());
                };
                if cell.attached(node, at).is_none() {
                    out.extend_from_slice(b"nosession");
                    return Some(());
                }
                let user = cell.user.as_mut()?;
                let its = user.channels.iter().find(|c| c.0 == channel).map(|c| c.1);
                if its.is_none() && taken {
                    out.extend_from_slice(b"tokentaken");
                    return Some(());
                }
                if its.is_none() {
                    user.channels.push((channel, token));
                    self.tokens.insert(token, (uaid, channel));
                }
                out.extend_from_slice(b"endpoint ");
                put_token(out, &its.unwrap_or(token));
            }
            b"begin" => {
                let op = op(words)?;
                let token = token(words.next())?;
                let ttl = number(words.next(), 0, 2_592_000)?;
                let topic = topic(words.next())?;
                if !matches!(words.next()?, b"very-low" | b"low" | b"normal" | b"high") {
                    return None;
                }
                let payload = payload(words.next())?;
                end(words)?;
                if let Some(flight) = self.flights.get(&op) {
                    let _ = write!(out, "stage {}", flight.stage.word());
                    return Some(());
                }
                let Some((uaid, channel)) = self.tokens.get(&token).copied() else {
                    out.extend_from_slice(b"notoken");
                    return Some(());
                };
                if self.next == 1 << 63 {
                    out.extend_from_slice(b"idsspent");
                    return Some(());
                }
                let user = self.cells.get_mut(&uaid)?.user.as_mut()?;
                let message = Arc::new(Message { id: self.next, channel, ttl, topic, accepted: self.clock, payload });
                self.next += 1;
                let stage = match user.node {
                    Some(node) => {
                        let _ = write!(out, "begun {} {node} {}", message.id, user.at);
                        Stage::Direct(node)
                    }
                    None => {
                        let _ = write!(out, "begun {} .", message.id);
                        Stage::Store
                    }
                };
                if user.node.is_some() || ttl > 0 {
                    self.flights.insert(op, Flight { uaid, token, message, stage });
                }
            }
            b"direct" => {
                let op = op(words)?;
                end(words)?;
                let Some(flight) = self.flights.get_mut(&op) else {
                    out.extend_from_slice(b"noflight");
                    return Some(());
                };
                let Stage::Direct(node) = flight.stage else {
                    let _ = write!(out, "stage {}", flight.stage.word());
                    return Some(());
                };
                let cell = self.cells.get_mut(&flight.uaid)?;
                let m = &flight.message;
                let has = cell.user.as_ref().is_some_and(|u| u.channels.contains(&(m.channel, flight.token)));
                let expired = Shard::expired(self.clock, m);
                let mut here = false;
                if let Some(x) = cell.at_node(node) {
                    if has && !expired && x.inbox.len() + x.direct.len() < 500 {
                        x.inbox.push(Arc::clone(m));
                        here = true;
                    }
                }
                flight.stage = Stage::Told(here);
                out.extend_from_slice(if here { b"here" } else { b"nothere" });
            }
            b"store" => {
                let op = op(words)?;
                end(words)?;
                let Some(flight) = self.flights.get_mut(&op) else {
                    out.extend_from_slice(b"noflight");
                    return Some(());
                };
                if !matches!(flight.stage, Stage::Store) {
                    let _ = write!(out, "stage {}", flight.stage.word());
                    return Some(());
                }
                let cell = self.cells.get_mut(&flight.uaid)?;
                let m = &flight.message;
                let mut code = 0;
                match &mut cell.user {
                    Some(user) if user.channels.contains(&(m.channel, flight.token)) => {
                        if Shard::expired(self.clock, m) {
                            code = 201;
                        } else if !user.rows.iter().any(|row| row.message.id == m.id) {
                            let same = |row: &Row| row.message.channel == m.channel && row.message.topic == m.topic;
                            let old = m.topic.as_ref().and_then(|_| user.rows.iter().position(same));
                            match old {
                                Some(place) if user.rows[place].message.id > m.id => code = 201,
                                Some(place) => drop(user.rows.remove(place)),
                                None if user.rows.len() >= 1000 => code = 503,
                                None => {}
                            }
                            if code == 0 {
                                user.rows.push(Row { message: Arc::clone(m), orphan: false });
                            }
                        }
                    }
                    _ => code = 410,
                }
                if code == 0 {
                    flight.stage = Stage::Reread;
                    out.extend_from_slice(b"stored");
                } else {
                    self.flights.remove(&op);
                    let _ = write!(out, "end {code}");
                }
            }
            b"reread" | b"nudge" | b"heard" | b"lost" => {
                if words.next()? != b"f" {
                    return None;
                }
                let op = op(words)?;
                end(words)?;
                self.actor(name, op, out)?;
            }
            b"check" => {
                let key = session(words)?;
                end(words)?;
                out.extend_from_slice(match self.session(key) {
                    None => b"nosession",
                    Some(x) if x.check && x.sent.is_empty() && x.fetch == Fetch::Idle => {
                        x.check = false;
                        x.fetch = Fetch::Topic;
                        b"due"
                    }
                    Some(_) => b"notdue",
                });
            }
            b"topics" | b"plains" => {
                let (uaid, node, at) = session(words)?;
                end(words)?;
                let with_topic = name == b"topics";
                let Some(cell) = self.cells.get_mut(&uaid) else {
                    out.extend_from_slice(b"nosession");
                    return Some(());
                };
                let Cell { user, sessions, .. } = cell;
                let Some(x) = sessions.iter_mut().find(|x| x.node == node && x.at == at && !x.displaced) else {
                    out.extend_from_slice(b"nosession");
                    return Some(());
                };
                let wanted = if with_topic { Fetch::Topic } else { Fetch::Plain };
                if x.fetch != wanted {
                    let word: &[u8] = match x.fetch {
                        Fetch::Idle => b"stage idle",
                        Fetch::Topic => b"stage topic",
                        Fetch::Plain => b"stage plain",
                    };
                    out.extend_from_slice(word);
                    return Some(());
                }
                let mut page = Vec::new();
                let mut more = false;
                for row in &user.as_ref()?.rows {
                    let m = &row.message;
                    if m.topic.is_some() == with_topic && !x.sent.iter().any(|s| s.1 == m.id) {
                        if page.len() == 10 {
                            more = true;
                            break;
                        }
                        page.push(Arc::clone(m));
                    }
                }
                x.sent.extend(page.iter().map(|m| (m.channel, m.id)));
                x.check |= more;
                x.fetch = if with_topic { Fetch::Plain } else { Fetch::Idle };
                put_page(out, &page);
            }
            b"take" => {
                let key = session(words)?;
                end(words)?;
                let clock = self.clock;
                let Some(x) = self.session(key) else {
                    out.extend_from_slice(b"nosession");
                    return Some(());
                };
                x.inbox.retain(|m| !Shard::expired(clock, m));
                let taken = x.inbox.len().min(10);
                put_page(out, &x.inbox[..taken]);
                x.direct.extend(x.inbox.drain(..taken));
            }
            b"ack" => {
                let (uaid, node, at) = session(words)?;
                let channel = hex(words.next())?;
                let id = number(words.next(), 1, i64::MAX as u64)?;
                end(words)?;
                let Some(cell) = self.cells.get_mut(&uaid) else {
                    out.extend_from_slice(b"nosession");
                    return Some(());
                };
                let Some(x) = cell.attached(node, at) else {
                    out.extend_from_slice(b"nosession");
                    return Some(());
                };
                let direct = x.direct.iter().position(|m| m.channel == channel && m.id == id);
                let sent = x.sent.iter().position(|s| *s == (channel, id));
                if let Some(place) = direct {
                    x.direct.remove(place);
                }
                if let Some(place) = sent {
                    x.sent.remove(place);
                }
                if direct.is_some() || sent.is_some() {
                    let rows = &mut cell.user.as_mut()?.rows;
                    if let Some(place) = rows.iter().position(|row| row.message.id == id) {
                        rows.remove(place);
                    }
                }
                out.extend_from_slice(match (direct, sent) {
                    (Some(_), _) => b"acked direct",
                    (None, Some(_)) => b"acked stored",
                    (None, None) => b"unknown",
                });
            }
            b"tick" => {
                let moment = number(words.next(), 0, (1 << 62) - 1)?;
                end(words)?;
                self.clock = self.clock.max(moment);
                let clock = self.clock;
                for cell in self.cells.values_mut() {
                    if let Some(user) = &mut cell.user {
                        user.rows.retain(|row| !Shard::expired(clock, &row.message));
                    }
                }
                out.extend_from_slice(b"done");
            }
            b"report" => {
                end(words)?;
                let (mut users, mut stored, mut held, mut unsent, mut orphans) = (0, 0, 0, 0, 0);
                for cell in self.cells.values() {
                    held += cell.sessions.iter().map(|x| x.direct.len() + x.inbox.len()).sum::<usize>();
                    let Some(user) = &cell.user else { continue };
                    users += 1;
                    stored += user.rows.len();
                    orphans += user.rows.iter().filter(|row| row.orphan).count();
                    let routed = |x: &&Session| Some(x.node) == user.node && x.at == user.at && !x.displaced;
                    if let Some(x) = cell.sessions.iter().find(routed) {
                        unsent += user.rows.iter().filter(|row| !x.sent.iter().any(|s| s.1 == row.message.id)).count();
                    }
                }
                let flights = self.flights.len();
                let _ = write!(
                    out,
                    "report users {users} stored {stored} held {held} flights {flights} unsent {unsent} orphans {orphans} waiting 0"
                );
            }
            _ => return None,
        }
        Some(())
    }

    fn actor(&mut self, name: &[u8], op: (u64, u64), out: &mut Vec<u8>) -> Option<()> {
        let Some(flight) = self.flights.get_mut(&op) else {
            out.extend_from_slice(b"noflight");
            return Some(());
        };
        let cell = self.cells.get_mut(&flight.uaid)?;
        let unheard = flight.message.ttl > 0;
        let moved = match (name, flight.stage) {
            (b"reread", Stage::Reread) => match &cell.user {
                Some(User { node: Some(node), at, .. }) => {
                    let _ = write!(out, "names {node} {at}");
                    flight.stage = Stage::Nudge(*node);
                    return Some(());
                }
                _ => None,
            },
            (b"nudge", Stage::Nudge(node)) => {
                let here = cell.tell(node);
                flight.stage = Stage::ToldNudge(here);
                out.extend_from_slice(if here { b"here" } else { b"nothere" });
                return Some(());
            }
            (b"heard", Stage::Told(true)) | (b"heard", Stage::ToldNudge(true)) => None,
            (b"heard", Stage::Told(false)) | (b"lost", Stage::Direct(..) | Stage::Told(_)) => unheard.then_some(Stage::Store),
            (b"heard", Stage::ToldNudge(false)) | (b"lost", Stage::Nudge(_) | Stage::ToldNudge(_)) => Some(Stage::Clear),
            (_, stage) => {
                let _ = write!(out, "stage {}", stage.word());
                return Some(());
            }
        };
        match moved {
            Some(stage) => {
                flight.stage = stage;
                let _ = write!(out, "moved {}", stage.word());
            }
            None => {
                self.flights.remove(&op);
                out.extend_from_slice(b"end 201");
            }
        }
        Some(())
    }
}

fn end<'a>(words: &mut impl Iterator<Item = &'a [u8]>) -> Option<()> {
    words.next().is_none().then_some(())
}

fn session<'a>(words: &mut impl Iterator<Item = &'a [u8]>) -> Option<(u128, u8, u64)> {
    let uaid = hex(words.next())?;
    let node = number(words.next(), 1, 8)? as u8;
    let at = number(words.next(), 0, i64::MAX as u64)?;
    Some((uaid, node, at))
}

fn op<'a>(words: &mut impl Iterator<Item = &'a [u8]>) -> Option<(u64, u64)> {
    Some((number(words.next(), 0, u64::MAX)?, number(words.next(), 0, i64::MAX as u64)?))
}

fn replay() -> io::Result<u8> {
    // the bare descriptors, so that nothing is buffered but here
    let mut input = std::mem::ManuallyDrop::new(unsafe { std::fs::File::from_raw_fd(0) });
    let mut output = std::mem::ManuallyDrop::new(unsafe { std::fs::File::from_raw_fd(1) });
    let mut shard = Shard {
        clock: 0,
        next: 1,
        cells: HashMap::new(),
        tokens: HashMap::new(),
        flights: HashMap::new(),
    };
    let mut room = vec![0; 16384];
    let mut pending: Vec<u8> = Vec::new();
    let mut reply = Vec::new();
    let mut count = 0;
    loop {
        let got = input.read(&mut room)?;
        pending.extend_from_slice(&room[..got]);
        let mut start = 0;
        loop {
            let line = match pending[start..].iter().position(|b| *b == b'\n') {
                Some(length) => &pending[start..start + length],
                None if got == 0 && start < pending.len() => &pending[start..],
                None => break,
            };
            count += 1;
            reply.clear();
            if count > 1_000_000 || line.len() > 16384 || shard.answer(line, &mut reply).is_none() {
                reply.clear();
                writeln!(reply, "refused line {count}")?;
                output.write_all(&reply)?;
                return Ok(4);
            }
            start = (start + line.len() + 1).min(pending.len());
            reply.push(b'\n');
            output.write_all(&reply)?;
        }
        if got == 0 {
            return Ok(0);
        }
        pending.drain(..start);
    }
}

fn main() -> ExitCode {
    match replay() {
        Ok(status) => ExitCode::from(status),
        Err(_) => ExitCode::from(1),
    }
}
