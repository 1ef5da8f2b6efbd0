//! A load for a push service that runs on this machine: sessions over WebSockets, and senders that POST to their endpoints.
//!
//! It opens sessions, which read notifications and acknowledge each, and lets keep-alive senders post messages to them in turn,
//! at a fixed rate or flat out. Every message carries its own number in its body, so the time from the POST's first byte to the
//! notification is known. It talks to 127.0.0.1 alone, and ends by itself: a run has a number of seconds and of messages.
//!
//! Its words are `name=value`: `cp` and `cn`, the first port of the connection nodes and how many there are; `ep` and `en`, the
//! same of the endpoint nodes; `sessions`, `senders`, `rate` (messages a second in all; 0 is flat out), `seconds`; `pid`, the
//! server, whose processor time and memory are told; `idle`, seconds for which the sessions do nothing and nobody sends;
//! `unfinished`, further connections that send the front of a head and no more; `deaf`, further sessions that read nothing once
//! they are registered, to which every second message goes. It prints a line `name value` for each thing that it measured.
use std::collections::HashMap;
use std::fs;
use std::io::{self, ErrorKind, Read, Write};
use std::net::TcpStream;
use std::os::fd::AsRawFd;
use std::sync::atomic::{AtomicBool, AtomicU64, Ordering::SeqCst};
use std::thread;
use std::time::{Duration, Instant};

const BODY: usize = 256;
const MOST: usize = 4_000_000;
const OPENERS: usize = 8;
const READERS: usize = 2;
const PATIENCE: Duration = Duration::from_secs(10);

// ---- what std lacks

#[cfg_attr(target_arch = "x86_64", repr(C, packed))]
#[cfg_attr(not(target_arch = "x86_64"), repr(C))]
#[derive(Clone, Copy)]
struct Event {
    events: u32,
    data: u64,
}

unsafe extern "C" {
    fn epoll_create1(flags: i32) -> i32;
    fn epoll_ctl(epoll: i32, change: i32, file: i32, event: *mut Event) -> i32;
    fn epoll_wait(epoll: i32, events: *mut Event, room: i32, milliseconds: i32) -> i32;
    fn setsockopt(file: i32, level: i32, name: i32, value: *const i32, size: u32) -> i32;
}

/// The sockets of one reader; each is known by its place.
struct Watch(i32);

impl Watch {
    fn new() -> io::Result<Watch> {
        match unsafe { epoll_create1(0) } {
            file if file >= 0 => Ok(Watch(file)),
            _ => Err(io::Error::last_os_error()),
        }
    }

    fn add(&self, stream: &TcpStream, place: usize) -> io::Result<()> {
        let mut event = Event { events: 1, data: place as u64 };
        match unsafe { epoll_ctl(self.0, 1, stream.as_raw_fd(), &mut event) } {
            0 => Ok(()),
            _ => Err(io::Error::last_os_error()),
        }
    }

    fn remove(&self, stream: &TcpStream) {
        let mut event = Event { events: 0, data: 0 };
        unsafe { epoll_ctl(self.0, 2, stream.as_raw_fd(), &mut event) };
    }

    /// The places that have something to read, after 20 ms at most.
    fn ready(&self) -> Vec<usize> {
        let mut events = [Event { events: 0, data: 0 }; 256];
        let found = unsafe { epoll_wait(self.0, events.as_mut_ptr(), 256, 20) };
        events[..found.max(0) as usize].iter().map(|event| event.data as usize).collect()
    }
}

fn wants_few_bytes(stream: &TcpStream) {
    let size: i32 = 4096;
    // SOL_SOCKET, SO_RCVBUF
    unsafe { setsockopt(stream.as_raw_fd(), 1, 8, &size, 4) };
}

// ---- the server, as the kernel tells of it

/// The nanoseconds of processor time that the process has used.
fn processor_time(pid: u64) -> u64 {
    let Ok(tasks) = fs::read_dir(format!("/proc/{pid}/task")) else { return 0 };
    let of_task = |path: &str| fs::read_to_string(path).ok()?.split(' ').next()?.parse::<u64>().ok();
    let exact: u64 = tasks.flatten().filter_map(|task| of_task(&format!("{}/schedstat", task.path().display()))).sum();
    if exact > 0 {
        return exact;
    }
    let text = fs::read_to_string(format!("/proc/{pid}/stat")).unwrap_or_default();
    let behind = text.rsplit(')').next().unwrap_or_default();
    let ticks: u64 = behind.split_whitespace().skip(11).take(2).filter_map(|word| word.parse::<u64>().ok()).sum();
    10_000_000 * ticks
}

fn field(path: String, name: &str) -> u64 {
    let text = fs::read_to_string(path).unwrap_or_default();
    let line = text.lines().find_map(|line| line.strip_prefix(name)).unwrap_or_default();
    line.split_whitespace().next().and_then(|word| word.parse().ok()).unwrap_or_default()
}

fn resident_bytes(pid: u64) -> u64 {
    1024 * field(format!("/proc/{pid}/status"), "VmRSS:")
}

/// How often the threads of the process slept.
fn sleeps(pid: u64) -> u64 {
    let Ok(tasks) = fs::read_dir(format!("/proc/{pid}/task")) else { return 0 };
    tasks.flatten().map(|task| field(format!("{}/status", task.path().display()), "voluntary_ctxt_switches:")).sum()
}

// ---- frames (RFC 6455)

fn add_text(frames: &mut Vec<u8>, text: &str) {
    let mask = [0x5a, 0xc3, 0x96, 0x1f];
    frames.push(0x81);
    match text.len() {
        size if size < 126 => frames.push(0x80 | size as u8),
        size => frames.extend([0xfe, (size >> 8) as u8, size as u8]),
    }
    frames.extend(mask);
    frames.extend(text.bytes().enumerate().map(|(place, byte)| byte ^ mask[place % 4]));
}

/// The kind and the payload's place of the first frame, where it is whole.
fn first_frame(bytes: &[u8]) -> Option<(u8, usize, usize)> {
    let (kind, short) = (*bytes.first()? & 15, usize::from(*bytes.get(1)? & 127));
    let number = |size: usize| Some(bytes.get(2..2 + size)?.iter().fold(0, |sum, byte| 256 * sum + usize::from(*byte)));
    let (from, size) = match short {
        126 => (4, number(2)?),
        127 => (10, number(8)?),
        _ => (2, short),
    };
    (bytes.len() >= from + size).then_some((kind, from, from + size))
}

fn member<'a>(text: &'a str, name: &str) -> Option<&'a str> {
    let from = text.find(&format!("\"{name}\":\""))? + name.len() + 4;
    text[from..].split('"').next()
}

/// The number in front of the payload, of which 11 digits of base64url are read.
fn number_of(data: &str) -> Option<usize> {
    let digit = |byte: u8| match byte {
        b'A'..=b'Z' => Some(byte - b'A'),
        b'a'..=b'z' => Some(byte - b'a' + 26),
        b'0'..=b'9' => Some(byte - b'0' + 52),
        b'-' => Some(62),
        b'_' => Some(63),
        _ => None,
    };
    let digits = data.as_bytes().get(..11)?;
    let bits = digits.iter().try_fold(0_u128, |bits, byte| Some(64 * bits + u128::from(digit(*byte)?)))?;
    Some((bits >> 2) as usize)
}

// ---- sessions

struct Session {
    stream: TcpStream,
    have: Vec<u8>,
    path: String,
}

fn failed(what: &str) -> io::Error {
    io::Error::new(ErrorKind::Other, what.to_string())
}

fn connect(port: u64) -> io::Result<TcpStream> {
    let begun = Instant::now();
    loop {
        match TcpStream::connect(("127.0.0.1", port as u16)) {
            Ok(stream) => {
                stream.set_nodelay(true)?;
                stream.set_read_timeout(Some(PATIENCE))?;
                stream.set_write_timeout(Some(PATIENCE))?;
                return Ok(stream);
            }
            Err(error) if begun.elapsed() > PATIENCE => return Err(error),
            Err(_) => thread::sleep(Duration::from_millis(20)),
        }
    }
}

impl Session {
    fn more(&mut self) -> io::Result<()> {
        let mut room = [0; 4096];
        match self.stream.read(&mut room)? {
            0 => Err(failed("the server ended a connection")),
            size => Ok(self.have.extend(&room[..size])),
        }
    }

    fn answer(&mut self, text: &str) -> io::Result<String> {
        let mut frames = Vec::new();
        add_text(&mut frames, text);
        self.stream.write_all(&frames)?;
        loop {
            if let Some((_, from, to)) = first_frame(&self.have) {
                let answer = String::from_utf8_lossy(&self.have[from..to]).into_owned();
                self.have.drain(..to);
                return Ok(answer);
            }
            self.more()?;
        }
    }

    /// A session that is open and has one channel.
    fn open(port: u64, number: usize) -> io::Result<Session> {
        let mut session = Session { stream: connect(port)?, have: Vec::new(), path: String::new() };
        write!(
            session.stream,
            "GET / HTTP/1.1\r\nHost: 127.0.0.1:{port}\r\nUpgrade: websocket\r\nConnection: Upgrade\r\n\
             Sec-WebSocket-Key: dGhlIHNhbXBsZSBub25jZQ==\r\nSec-WebSocket-Version: 13\r\n\r\n"
        )?;
        while !session.have.ends_with(b"\r\n\r\n") {
            session.more()?;
        }
        if !session.have.starts_with(b"HTTP/1.1 101") {
            return Err(failed("the WebSocket was refused"));
        }
        session.have.clear();
        session.answer("{\"messageType\":\"hello\",\"use_webpush\":true}")?;
        let channel = format!("{number:08x}-0000-4000-8000-000000000001");
        let answer = session.answer(&format!("{{\"messageType\":\"register\",\"channelID\":\"{channel}\"}}"))?;
        let endpoint = member(&answer, "pushEndpoint").ok_or_else(|| failed("no endpoint"))?;
        let from = endpoint.find("/wpush/").ok_or_else(|| failed("another path"))?;
        session.path = endpoint[from..].to_string();
        Ok(session)
    }
}

/// So many sessions, spread over the connection nodes.
fn open_all(words: &Words, count: usize, first: usize) -> io::Result<Vec<Session>> {
    let (cp, cn) = (words.get("cp", 18000), words.get("cn", 1));
    let lists: Vec<io::Result<Vec<Session>>> = thread::scope(|scope| {
        let open = |own: usize| (own..count).step_by(OPENERS).map(move |i| Session::open(cp + i as u64 % cn, first + i)).collect();
        let openers: Vec<_> = (0..OPENERS).map(|own| scope.spawn(move || open(own))).collect();
        openers.into_iter().map(|opener| opener.join().expect("an opener ended")).collect()
    });
    let mut sessions = Vec::new();
    for list in lists {
        sessions.extend(list?);
    }
    Ok(sessions)
}

// ---- what all threads share

struct Shared {
    /// When each message was sent, in nanoseconds since the beginning; 0 once it came.
    sent: Vec<AtomicU64>,
    next: AtomicU64,
    arrived: AtomicU64,
    again: AtomicU64,
    lost_sessions: AtomicU64,
    last: AtomicU64,
    is_over: AtomicBool,
    begun: Instant,
}

impl Shared {
    fn now(&self) -> u64 {
        self.begun.elapsed().as_nanos() as u64
    }
}

/// Reads what the session has, notes the time of each message, and acknowledges it. It says whether the session goes on.
fn hear(session: &mut Session, shared: &Shared, times: &mut Vec<u64>) -> io::Result<()> {
    let mut room = [0; 65536];
    let size = match session.stream.read(&mut room) {
        Err(error) if error.kind() == ErrorKind::WouldBlock => return Ok(()),
        Ok(0) => return Err(failed("the server ended a session")),
        other => other?,
    };
    let now = shared.now();
    session.have.extend(&room[..size]);
    let (mut at, mut acks) = (0, Vec::new());
    while let Some((kind, from, to)) = first_frame(&session.have[at..]) {
        if kind == 8 {
            return Err(failed("the server closed a session"));
        }
        let text = String::from_utf8_lossy(&session.have[at + from..at + to]).into_owned();
        if let (Some(channel), Some(version)) = (member(&text, "channelID"), member(&text, "version")) {
            add_text(&mut acks, &format!("{{\"messageType\":\"ack\",\"updates\":[{{\"channelID\":\"{channel}\",\"version\":\"{version}\"}}]}}"));
            let number = member(&text, "data").and_then(number_of).unwrap_or(MOST);
            match shared.sent.get(number).map(|sent| sent.swap(0, SeqCst)) {
                Some(0) | None => drop(shared.again.fetch_add(1, SeqCst)),
                Some(sent) => {
                    times.push(now.saturating_sub(sent));
                    shared.arrived.fetch_add(1, SeqCst);
                    shared.last.fetch_max(now, SeqCst);
                }
            }
        }
        at += to;
    }
    session.have.drain(..at);
    let mut rest = &acks[..];
    while !rest.is_empty() {
        match session.stream.write(rest) {
            Ok(size) => rest = &rest[size..],
            Err(error) if error.kind() == ErrorKind::WouldBlock => thread::yield_now(),
            Err(error) => return Err(error),
        }
    }
    Ok(())
}

fn read_all(mut sessions: Vec<Session>, shared: &Shared) -> io::Result<Vec<u64>> {
    let (watch, mut times) = (Watch::new()?, Vec::new());
    for (place, session) in sessions.iter().enumerate() {
        session.stream.set_nonblocking(true)?;
        watch.add(&session.stream, place)?;
    }
    while !shared.is_over.load(SeqCst) {
        for place in watch.ready() {
            if hear(&mut sessions[place], shared, &mut times).is_err() {
                watch.remove(&sessions[place].stream);
                shared.lost_sessions.fetch_add(1, SeqCst);
            }
        }
    }
    Ok(times)
}

// ---- senders

#[derive(Default)]
struct Answers {
    /// How often each status came from a session that reads, and from one that doesn't.
    statuses: HashMap<(bool, String), u64>,
    connections: u64,
    late: u64,
}

/// Reads one answer: its status, and whether the connection goes on.
fn read_answer(stream: &mut TcpStream, have: &mut Vec<u8>) -> io::Result<(String, bool)> {
    have.clear();
    let mut room = [0; 4096];
    loop {
        if let Some(end) = have.windows(4).position(|part| part == b"\r\n\r\n") {
            let head = String::from_utf8_lossy(&have[..end]).to_ascii_lowercase();
            let size = head.lines().find_map(|line| line.strip_prefix("content-length:")).and_then(|text| text.trim().parse::<usize>().ok());
            if have.len() >= end + 4 + size.unwrap_or(0) {
                let status = head.split(' ').nth(1).unwrap_or("none").to_string();
                return Ok((status, !head.contains("connection: close")));
            }
        }
        match stream.read(&mut room)? {
            0 => return Err(failed("the server ended a connection")),
            size => have.extend(&room[..size]),
        }
    }
}

struct Order {
    paths: Vec<(bool, String)>,
    port: u64,
    rate: u64,
    until: Duration,
}

/// Posts one message after the other, until the time is over.
fn send_all(order: &Order, shared: &Shared) -> Answers {
    let mut answers = Answers::default();
    let (mut stream, mut have) = (None, Vec::new());
    loop {
        let number = shared.next.fetch_add(1, SeqCst) as usize;
        let due = if order.rate == 0 { 0 } else { 1_000_000_000 * number as u64 / order.rate };
        if number >= shared.sent.len() || shared.begun.elapsed() > order.until || due > order.until.as_nanos() as u64 {
            return answers;
        }
        while shared.now() < due {
            thread::sleep(Duration::from_nanos(due - shared.now().min(due)));
        }
        if order.rate > 0 {
            answers.late = answers.late.max(shared.now() - due);
        }
        let (is_deaf, path) = &order.paths[number % order.paths.len()];
        let mut request = format!(
            "POST {path} HTTP/1.1\r\nHost: 127.0.0.1:{}\r\nUser-Agent: load/1\r\nAccept: */*\r\nTTL: 60\r\n\
             Content-Encoding: aes128gcm\r\nContent-Length: {BODY}\r\n\r\n",
            order.port
        )
        .into_bytes();
        request.extend((number as u64).to_be_bytes());
        request.extend((8..BODY).map(|place| (place * 7 + number) as u8));
        let status = post(&mut stream, order.port, &request, &mut have, &mut answers.connections, || {
            shared.sent[number].store(shared.now().max(1), SeqCst)
        });
        let status = status.unwrap_or_else(|error| format!("{:?}", error.kind()));
        *answers.statuses.entry((*is_deaf, status)).or_default() += 1;
    }
}

/// Posts the request on the connection, or on a new one where there is none or it was ended meanwhile, and gives the status.
fn post(
    kept: &mut Option<TcpStream>,
    port: u64,
    request: &[u8],
    have: &mut Vec<u8>,
    connections: &mut u64,
    note: impl Fn(),
) -> io::Result<String> {
    loop {
        let was_kept = kept.is_some();
        let mut stream = match kept.take() {
            Some(stream) => stream,
            None => {
                *connections += 1;
                connect(port)?
            }
        };
        note();
        let answered = stream.write_all(request).and_then(|()| read_answer(&mut stream, have));
        match answered {
            Ok((status, goes_on)) => {
                *kept = goes_on.then_some(stream);
                return Ok(status);
            }
            Err(_) if was_kept && have.is_empty() => (),
            Err(error) => return Err(error),
        }
    }
}

// ---- the scenes

struct Words(HashMap<String, u64>);

impl Words {
    fn get(&self, name: &str, usual: u64) -> u64 {
        *self.0.get(name).unwrap_or(&usual)
    }
}

/// Connections that send the front of a head and no more, to nodes of both kinds by turns.
fn open_unfinished(words: &Words) -> io::Result<Vec<TcpStream>> {
    let ports = [words.get("ep", 18100), words.get("cp", 18000)];
    let open = |number: u64| {
        let mut stream = connect(ports[number as usize % 2])?;
        stream.write_all(b"POST /wpush/v1/AAAA HTTP/1.1\r\nHost: localhost\r\nTTL: ")?;
        stream.set_nonblocking(true)?;
        Ok(stream)
    };
    (0..words.get("unfinished", 0)).map(open).collect()
}

/// How many of these the server ended.
fn count_ended(streams: &mut [TcpStream]) -> usize {
    let is_ended = |stream: &mut TcpStream| loop {
        match stream.read(&mut [0; 256]) {
            Ok(0) => return true,
            Ok(_) => (),
            Err(error) => return error.kind() != ErrorKind::WouldBlock,
        }
    };
    streams.iter_mut().filter_map(|stream| is_ended(stream).then_some(())).count()
}

fn tell(name: &str, value: impl std::fmt::Display) {
    println!("{name} {value}");
}

/// The sessions do nothing for so many seconds.
fn stay_idle(pid: u64, count: u64, before: u64, seconds: u64) {
    thread::sleep(Duration::from_secs(2));
    tell("resident_bytes_a_session", (resident_bytes(pid).saturating_sub(before)) / count.max(1));
    let (used, slept) = (processor_time(pid), sleeps(pid));
    thread::sleep(Duration::from_secs(seconds));
    let used = processor_time(pid) - used;
    tell("idle_processor_percent", format!("{:.3}", used as f64 / 1e7 / seconds.max(1) as f64));
    tell("idle_sleeps_a_second", (sleeps(pid) - slept) / seconds.max(1));
}

/// Lets the senders send, and the sessions read, and tells what came of it.
fn deliver(words: &Words, sessions: Vec<Session>, deaf: &[Session]) -> io::Result<()> {
    let (pid, rate, seconds) = (words.get("pid", 0), words.get("rate", 0), words.get("seconds", 10));
    let mut paths: Vec<(bool, String)> = Vec::new();
    for place in 0..sessions.len().max(2 * deaf.len()) {
        paths.push((false, sessions[place % sessions.len()].path.clone()));
        paths.extend((!deaf.is_empty()).then(|| (true, deaf[place % deaf.len()].path.clone())));
    }
    let most = if rate == 0 { MOST } else { (rate * (seconds + 1)) as usize };
    let mut unfinished = open_unfinished(words)?;
    let mut shares: Vec<Vec<Session>> = (0..READERS).map(|_| Vec::new()).collect();
    for (place, session) in sessions.into_iter().enumerate() {
        shares[place % READERS].push(session);
    }
    let shared = &Shared {
        sent: (0..most).map(|_| AtomicU64::new(0)).collect(),
        next: AtomicU64::new(0),
        arrived: AtomicU64::new(0),
        again: AtomicU64::new(0),
        lost_sessions: AtomicU64::new(0),
        last: AtomicU64::new(0),
        is_over: AtomicBool::new(false),
        begun: Instant::now(),
    };
    let used = processor_time(pid);
    let (ep, en) = (words.get("ep", 18100), words.get("en", 1));
    let orders: Vec<Order> = (0..words.get("senders", 16))
        .map(|own| Order { paths: paths.clone(), port: ep + own % en, rate, until: Duration::from_secs(seconds) })
        .collect();
    thread::scope(|scope| -> io::Result<()> {
        let readers: Vec<_> = shares.into_iter().map(|share| scope.spawn(move || read_all(share, shared))).collect();
        let senders: Vec<_> = orders.iter().map(|order| scope.spawn(move || send_all(order, shared))).collect();
        let answers: Vec<Answers> = senders.into_iter().map(|sender| sender.join().expect("a sender ended")).collect();
        let took = shared.begun.elapsed().as_secs_f64();
        let mut statuses: HashMap<(bool, String), u64> = HashMap::new();
        for ((is_deaf, status), times) in answers.iter().flat_map(|one| &one.statuses) {
            *statuses.entry((*is_deaf, status.clone())).or_default() += times;
        }
        let taken = *statuses.get(&(false, "201".to_string())).unwrap_or(&0);
        let waited = Instant::now();
        while shared.arrived.load(SeqCst) < taken && waited.elapsed() < PATIENCE / 2 {
            thread::sleep(Duration::from_millis(5));
        }
        let used = processor_time(pid) - used;
        shared.is_over.store(true, SeqCst);
        let mut times = Vec::new();
        for reader in readers {
            times.extend(reader.join().expect("a reader ended")?);
        }
        times.sort_unstable();
        let arrived = times.len() as u64;
        let part = |share: f64| times.get((share * times.len() as f64) as usize).map_or(0, |time| time / 1000);
        let mut lines: Vec<_> = statuses.into_iter().collect();
        lines.sort();
        for ((is_deaf, status), times) in lines {
            tell(&format!("{}_{status}", if is_deaf { "deaf" } else { "answered" }), times);
        }
        let all: u64 = answers.iter().flat_map(|one| one.statuses.values()).sum();
        tell("answers_a_second", format!("{:.0}", all as f64 / took));
        tell("arrived", arrived);
        tell("arrived_a_second", format!("{:.0}", arrived as f64 / (shared.last.load(SeqCst) as f64 / 1e9).max(0.001)));
        tell("missing", taken.saturating_sub(arrived));
        tell("again", shared.again.load(SeqCst));
        tell("lost_sessions", shared.lost_sessions.load(SeqCst));
        tell("connections", answers.iter().map(|one| one.connections).sum::<u64>());
        tell("latest_ms", answers.iter().map(|one| one.late).max().unwrap_or(0) / 1_000_000);
        for (name, share) in [("p50_us", 0.5), ("p99_us", 0.99), ("p999_us", 0.999)] {
            tell(name, part(share));
        }
        tell("processor_us_a_message", format!("{:.1}", used as f64 / 1e3 / all.max(1) as f64));
        Ok(())
    })?;
    if !unfinished.is_empty() {
        tell("unfinished_ended", count_ended(&mut unfinished));
    }
    tell("resident_bytes", resident_bytes(pid));
    Ok(())
}

fn main() -> io::Result<()> {
    let pairs = std::env::args().skip(1);
    let pairs = pairs.map(|word| word.split_once('=').and_then(|(name, value)| Some((name.to_string(), value.parse::<u64>().ok()?))));
    let words = Words(pairs.collect::<Option<_>>().ok_or_else(|| failed("give words name=value"))?);
    let (pid, count) = (words.get("pid", 0), words.get("sessions", 64));
    let (before, begun) = (resident_bytes(pid), Instant::now());
    let sessions = open_all(&words, count as usize, 1)?;
    tell("opened_a_second", format!("{:.0}", count as f64 / begun.elapsed().as_secs_f64()));
    let deaf = open_all(&words, words.get("deaf", 0) as usize, 1_000_000)?;
    deaf.iter().for_each(|session| wants_few_bytes(&session.stream));
    match words.get("idle", 0) {
        0 => deliver(&words, sessions, &deaf),
        seconds => Ok(stay_idle(pid, count, before, seconds)),
    }
}
