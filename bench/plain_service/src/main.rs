//! A push service in plain Rust on tokio and hyper, which does the job of `autopush serve` without its proofs: a yardstick.
//!
//! Its words are those of `serve`, and then how many worker threads it has: `plain_service [serve] CN EN CP EP [WORKERS]`. It
//! listens on 127.0.0.1 alone, answers `report` on its input with a line, and ends at `stop` or the input's end. It keeps users in
//! sixteen maps under locks, holds 500 messages a session and 1,000 rows a user at most, and gives back to the rows what a
//! session that ended was not acknowledged. An endpoint waits without end for the rest of a head: hyper 0.14.19 has a time for it,
//! which was tried and didn't end them.
mod sessions;
mod web_socket;

use hyper::service::{make_service_fn, service_fn};
use hyper::{Body, Method, Request, Response, Server, StatusCode};
use std::collections::HashMap;
use std::convert::Infallible;
use std::io::BufRead;
use std::sync::atomic::{AtomicU64, Ordering::SeqCst};
use std::sync::{Arc, Mutex, MutexGuard};
use std::time::{Duration, Instant};
use tokio::net::TcpListener;
use tokio::sync::mpsc::Sender;

const SHARDS: usize = 16;
const ROWS: usize = 1000;
const HELD: usize = 500;
const LONGEST: u64 = 2_592_000;

pub struct Message {
    pub id: u64,
    pub channel: String,
    pub topic: Option<String>,
    pub data: String,
    pub ttl: u64,
    pub until: Instant,
}

#[derive(Default)]
pub struct User {
    /// The session that is attached: its number, and where its messages go.
    pub session: Option<(u64, Sender<Arc<Message>>)>,
    pub channels: HashMap<String, String>,
    pub rows: Vec<Arc<Message>>,
}

impl User {
    /// Keeps a message as a row, in the place of one of its topic; false where there are too many.
    pub fn keep(&mut self, message: Arc<Message>) -> bool {
        let now = Instant::now();
        self.rows.retain(|row| row.until > now);
        if message.topic.is_some() {
            self.rows.retain(|row| (&row.channel, &row.topic) != (&message.channel, &message.topic));
        }
        if self.rows.len() >= ROWS {
            return false;
        }
        self.rows.push(message);
        true
    }
}

#[derive(Default)]
pub struct Push {
    users: [Mutex<HashMap<u128, User>>; SHARDS],
    tokens: [Mutex<HashMap<String, (u128, String)>>; SHARDS],
    pub messages: AtomicU64,
    pub sessions: AtomicU64,
}

fn shard_of(text: &str) -> usize {
    text.bytes().map(usize::from).sum::<usize>() % SHARDS
}

impl Push {
    pub fn users(&self, uaid: u128) -> MutexGuard<'_, HashMap<u128, User>> {
        self.users[(uaid % SHARDS as u128) as usize].lock().expect("a lock")
    }

    pub fn tokens(&self, token: &str) -> MutexGuard<'_, HashMap<String, (u128, String)>> {
        self.tokens[shard_of(token)].lock().expect("a lock")
    }

    /// Gives the message to the user's session, or keeps it as a row, as the status says.
    fn give(&self, uaid: u128, message: Message) -> StatusCode {
        let mut users = self.users(uaid);
        let Some(user) = users.get_mut(&uaid) else { return StatusCode::GONE };
        if !user.channels.contains_key(&message.channel) {
            return StatusCode::GONE;
        }
        let message = Arc::new(message);
        let given = user.session.as_ref().map(|(_, session)| session.try_send(message.clone()).is_ok());
        if given == Some(true) || message.ttl == 0 || user.keep(message) {
            return StatusCode::CREATED;
        }
        StatusCode::SERVICE_UNAVAILABLE
    }
}

struct Asked {
    ttl: u64,
    topic: Option<String>,
    has_coding: bool,
}

/// What the head asks for, or none where it is at fault.
fn asked(request: &Request<Body>) -> Option<Asked> {
    let text = |name: &str| request.headers().get(name).map(|value| value.to_str().unwrap_or("").to_string());
    let ttl = text("ttl")?.parse::<u64>().ok().filter(|ttl| *ttl <= LONGEST)?;
    let urgency = text("urgency").unwrap_or_else(|| "normal".into()).to_ascii_lowercase();
    let coding = text("content-encoding").map(|coding| coding.to_ascii_lowercase());
    let is_known = coding.as_ref().map_or(true, |coding| coding == "aes128gcm" || coding == "aesgcm");
    let is_right = ["very-low", "low", "normal", "high"].contains(&urgency.as_str()) && is_known;
    is_right.then_some(Asked { ttl, topic: text("topic"), has_coding: coding.is_some() })
}

fn refusal(status: StatusCode) -> Response<Body> {
    let code = status.as_u16();
    let body = format!("{{\"code\":{code},\"error\":\"{}\"}}", status.canonical_reason().unwrap_or(""));
    let made = Response::builder().status(status).header("content-type", "application/json").body(Body::from(body));
    made.expect("a response")
}

async fn answer(push: Arc<Push>, request: Request<Body>) -> Response<Body> {
    let Some(token) = request.uri().path().strip_prefix("/wpush/v1/").map(str::to_string) else {
        return refusal(StatusCode::NOT_FOUND);
    };
    if request.method() != Method::POST {
        return refusal(StatusCode::METHOD_NOT_ALLOWED);
    }
    let Some(asked) = asked(&request) else { return refusal(StatusCode::BAD_REQUEST) };
    let Ok(body) = hyper::body::to_bytes(request.into_body()).await else {
        return refusal(StatusCode::BAD_REQUEST);
    };
    if body.len() > 4096 {
        return refusal(StatusCode::PAYLOAD_TOO_LARGE);
    }
    if !body.is_empty() && !asked.has_coding {
        return refusal(StatusCode::BAD_REQUEST);
    }
    let owner = push.tokens(&token).get(&token).cloned();
    let Some((uaid, channel)) = owner else { return refusal(StatusCode::GONE) };
    let id = push.messages.fetch_add(1, SeqCst) + 1;
    let message = Message {
        id,
        channel,
        topic: asked.topic,
        data: base64::encode_config(&body, base64::URL_SAFE_NO_PAD),
        ttl: asked.ttl,
        until: Instant::now() + Duration::from_secs(asked.ttl.max(1)),
    };
    match push.give(uaid, message) {
        StatusCode::CREATED => {
            let made = Response::builder().status(StatusCode::CREATED);
            let made = made.header("location", format!("/m/00-{id:016x}")).header("ttl", asked.ttl);
            made.body(Body::empty()).expect("a response")
        }
        status => refusal(status),
    }
}

fn no_port(port: u16) -> ! {
    eprintln!("plain_service: port {port} is taken");
    std::process::exit(5)
}

async fn serve_endpoint(push: Arc<Push>, port: u16) {
    let make = make_service_fn(move |_| {
        let push = push.clone();
        let serve = move |request| {
            let push = push.clone();
            async move { Ok::<_, Infallible>(answer(push, request).await) }
        };
        async move { Ok::<_, Infallible>(service_fn(serve)) }
    });
    let Ok(bound) = Server::try_bind(&([127, 0, 0, 1], port).into()) else { no_port(port) };
    if let Err(error) = bound.tcp_nodelay(true).serve(make).await {
        eprintln!("plain_service: port {port}: {error}");
    }
}

async fn serve_connections(push: Arc<Push>, port: u16, endpoint_port: u16) {
    let Ok(listener) = TcpListener::bind(("127.0.0.1", port)).await else { no_port(port) };
    loop {
        if let Ok((stream, _)) = listener.accept().await {
            let push = push.clone();
            tokio::spawn(async move { sessions::serve(push, stream, endpoint_port).await });
        }
    }
}

/// Answers the operator's lines until they end.
fn obey(push: &Push) {
    for line in std::io::stdin().lock().lines().map_while(Result::ok) {
        match line.as_str() {
            "stop" => return,
            "report" => {
                let counts = |count: fn(&User) -> usize| -> usize {
                    push.users.iter().map(|users| users.lock().expect("a lock").values().map(count).sum::<usize>()).sum()
                };
                println!("report users {} stored {} attached {}", counts(|_| 1), counts(|user| user.rows.len()), counts(|user| user.session.is_some().into()));
            }
            _ => (),
        }
    }
}

fn main() {
    let numbers: Vec<u16> = std::env::args().skip(1).filter_map(|word| word.parse().ok()).collect();
    let [connections, endpoints, connection_port, endpoint_port, ref workers @ ..] = numbers[..] else {
        eprintln!("usage: plain_service [serve] CN EN CP EP [WORKERS]");
        std::process::exit(2);
    };
    let workers = usize::from(workers.first().copied().unwrap_or(2));
    let runtime = tokio::runtime::Builder::new_multi_thread().worker_threads(workers).enable_all().build().expect("threads");
    let push = Arc::new(Push::default());
    for own in 0..connections {
        runtime.spawn(serve_connections(push.clone(), connection_port + own, endpoint_port));
    }
    for own in 0..endpoints {
        runtime.spawn(serve_endpoint(push.clone(), endpoint_port + own));
    }
    obey(&push);
    runtime.shutdown_background();
}
