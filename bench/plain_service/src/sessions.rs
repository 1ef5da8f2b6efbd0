//! A client's session: hello, channels, notifications and acknowledgements.
use crate::web_socket::{accept, add_frame, take_frame, Heard};
use crate::{Message, Push, User, HELD};
use serde_json::Value;
use std::io;
use std::sync::atomic::Ordering::SeqCst;
use std::sync::Arc;
use std::time::{Duration, Instant};
use tokio::io::{AsyncReadExt, AsyncWriteExt};
use tokio::net::TcpStream;
use tokio::sync::mpsc::{channel, Receiver, Sender};

struct Session {
    push: Arc<Push>,
    number: u64,
    uaid: Option<u128>,
    endpoint_port: u16,
    /// What was sent and not acknowledged.
    unacked: Vec<Arc<Message>>,
}

fn hex(text: &str) -> Option<u128> {
    u128::from_str_radix(&text.replace('-', ""), 16).ok()
}

fn notification(message: &Message) -> String {
    let (channel, id) = (&message.channel, message.id);
    let data = match message.data.as_str() {
        "" => String::new(),
        data => format!("\"data\":\"{data}\",\"headers\":{{\"encoding\":\"aes128gcm\"}},"),
    };
    format!("{{\"channelID\":\"{channel}\",{data}\"messageType\":\"notification\",\"version\":\"00-{id:016x}\"}}")
}

impl Session {
    /// Adds a message to what is sent.
    fn send(&mut self, frames: &mut Vec<u8>, message: Arc<Message>) {
        if message.until > Instant::now() {
            add_frame(frames, 1, notification(&message).as_bytes());
            self.unacked.push(message);
        }
    }

    fn hello(&mut self, frames: &mut Vec<u8>, value: &Value, sender: Sender<Arc<Message>>) {
        let mut drawn = [0; 16];
        getrandom::getrandom(&mut drawn).expect("random bytes");
        let asked = value["uaid"].as_str().and_then(hex);
        let stored = {
            let known = asked.filter(|uaid| self.push.users(*uaid).contains_key(uaid));
            let uaid = known.unwrap_or(u128::from_be_bytes(drawn));
            self.uaid = Some(uaid);
            let mut users = self.push.users(uaid);
            let user = users.entry(uaid).or_insert_with(User::default);
            user.session = Some((self.number, sender));
            std::mem::take(&mut user.rows)
        };
        let uaid = self.uaid.unwrap_or(0);
        let text = format!("{{\"broadcasts\":{{}},\"messageType\":\"hello\",\"status\":200,\"uaid\":\"{uaid:032x}\",\"use_webpush\":true}}");
        add_frame(frames, 1, text.as_bytes());
        stored.into_iter().for_each(|message| self.send(frames, message));
    }

    fn register(&mut self, frames: &mut Vec<u8>, uaid: u128, channel: String) {
        let mut drawn = [0; 24];
        getrandom::getrandom(&mut drawn).expect("random bytes");
        let mut users = self.push.users(uaid);
        let Some(user) = users.get_mut(&uaid) else { return };
        let token = user.channels.entry(channel.clone()).or_insert_with(|| base64::encode_config(drawn, base64::URL_SAFE_NO_PAD));
        let text = format!(
            "{{\"channelID\":\"{channel}\",\"messageType\":\"register\",\"pushEndpoint\":\"http://localhost:{}/wpush/v1/{token}\",\"status\":200}}",
            self.endpoint_port
        );
        self.push.tokens(token).insert(token.clone(), (uaid, channel));
        add_frame(frames, 1, text.as_bytes());
    }

    fn unregister(&mut self, frames: &mut Vec<u8>, uaid: u128, channel: &str) {
        let mut users = self.push.users(uaid);
        let Some(user) = users.get_mut(&uaid) else { return };
        if let Some(token) = user.channels.remove(channel) {
            self.push.tokens(&token).remove(&token);
        }
        self.unacked.retain(|message| message.channel != channel);
        let text = format!("{{\"channelID\":\"{channel}\",\"messageType\":\"unregister\",\"status\":200}}");
        add_frame(frames, 1, text.as_bytes());
    }

    fn ack(&mut self, updates: &[Value]) {
        for update in updates {
            let (channel, version) = (update["channelID"].as_str(), update["version"].as_str());
            let number = version.and_then(|text| u64::from_str_radix(text.rsplit('-').next()?, 16).ok());
            self.unacked.retain(|message| Some(message.channel.as_str()) != channel || Some(message.id) != number);
        }
    }

    /// Answers a text; false ends the session.
    fn answer(&mut self, frames: &mut Vec<u8>, text: &str, sender: &mut Option<Sender<Arc<Message>>>) -> bool {
        let Ok(value) = serde_json::from_str::<Value>(text) else { return false };
        if value.as_object().map_or(false, |members| members.is_empty()) {
            add_frame(frames, 1, b"{}");
            return true;
        }
        let channel = value["channelID"].as_str().map(str::to_string);
        match (value["messageType"].as_str(), self.uaid, channel) {
            (Some("hello"), None, _) => match sender.take() {
                Some(sender) => self.hello(frames, &value, sender),
                None => return false,
            },
            (Some("register"), Some(uaid), Some(channel)) => self.register(frames, uaid, channel),
            (Some("unregister"), Some(uaid), Some(channel)) => self.unregister(frames, uaid, &channel),
            (Some("ack"), Some(_), _) => self.ack(value["updates"].as_array().map_or(&[][..], |updates| updates)),
            (Some("nack" | "broadcast_subscribe"), Some(_), _) => (),
            _ => return false,
        }
        true
    }

    /// Gives what was not acknowledged, and what still waits, to the user's rows.
    fn save(&mut self, inbox: &mut Receiver<Arc<Message>>) {
        let Some(uaid) = self.uaid else { return };
        let mut users = self.push.users(uaid);
        let Some(user) = users.get_mut(&uaid) else { return };
        if user.session.as_ref().map(|(number, _)| *number) == Some(self.number) {
            user.session = None;
        }
        inbox.close();
        let mut left = std::mem::take(&mut self.unacked);
        while let Ok(message) = inbox.try_recv() {
            left.push(message);
        }
        for message in left.into_iter().filter(|message| message.ttl > 0) {
            user.keep(message);
        }
    }
}

/// Reads a head, and answers it.
async fn open(stream: &mut TcpStream, bytes: &mut Vec<u8>) -> io::Result<bool> {
    while !bytes.windows(4).any(|part| part == b"\r\n\r\n") {
        if bytes.len() > 16_384 || stream.read_buf(bytes).await? == 0 {
            return Ok(false);
        }
    }
    let head = String::from_utf8_lossy(bytes).into_owned();
    bytes.clear();
    match accept(&head) {
        Some(answer) => stream.write_all(answer.as_bytes()).await.map(|()| true),
        None => stream.write_all(b"HTTP/1.1 400 Bad Request\r\nContent-Length: 0\r\n\r\n").await.map(|()| false),
    }
}

async fn talk(stream: &mut TcpStream, session: &mut Session, sender: Sender<Arc<Message>>, inbox: &mut Receiver<Arc<Message>>) -> io::Result<()> {
    let mut bytes = Vec::with_capacity(1024);
    let opened = tokio::time::timeout(Duration::from_secs(10), open(stream, &mut bytes)).await;
    if !matches!(opened, Ok(Ok(true))) {
        return Ok(());
    }
    let (mut sender, mut frames) = (Some(sender), Vec::new());
    loop {
        tokio::select! {
            read = stream.read_buf(&mut bytes) => if read? == 0 { return Ok(()) },
            Some(message) = inbox.recv(), if session.unacked.len() < HELD => {
                session.send(&mut frames, message);
                while session.unacked.len() < HELD {
                    let Ok(message) = inbox.try_recv() else { break };
                    session.send(&mut frames, message);
                }
            }
        }
        let mut goes_on = true;
        while let Some(heard) = take_frame(&mut bytes).filter(|_| goes_on) {
            match heard {
                Heard::Text(text) => goes_on = session.answer(&mut frames, &text, &mut sender),
                Heard::Ping(payload) => add_frame(&mut frames, 10, &payload),
                Heard::Other => (),
                Heard::Close => goes_on = false,
            }
        }
        if !goes_on {
            add_frame(&mut frames, 8, &1000_u16.to_be_bytes());
        }
        if !frames.is_empty() {
            stream.write_all(&frames).await?;
            frames.clear();
        }
        if !goes_on {
            return Ok(());
        }
    }
}

/// Serves a connection to its end.
pub async fn serve(push: Arc<Push>, mut stream: TcpStream, endpoint_port: u16) {
    let _ = stream.set_nodelay(true);
    let (sender, mut inbox) = channel(HELD);
    let number = push.sessions.fetch_add(1, SeqCst);
    let mut session = Session { push, number, uaid: None, endpoint_port, unacked: Vec::new() };
    let _ = talk(&mut stream, &mut session, sender, &mut inbox).await;
    session.save(&mut inbox);
}
