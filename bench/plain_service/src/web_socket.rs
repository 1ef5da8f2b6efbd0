//! The frames of a WebSocket (RFC 6455), as a server reads and writes them.
use sha1::{Digest, Sha1};

/// The longest frame that is read.
const LONGEST: usize = 16_384;

/// The answer to a request for a WebSocket, or none where the head asks for none.
pub fn accept(head: &str) -> Option<String> {
    let value = |name: &str| {
        let line = head.lines().find(|line| line.to_ascii_lowercase().starts_with(name))?;
        Some(line.split_once(':')?.1.trim().to_string())
    };
    let upgrade = value("upgrade:")?;
    if !head.starts_with("GET ") || !upgrade.eq_ignore_ascii_case("websocket") {
        return None;
    }
    let key = value("sec-websocket-key:")?;
    let sum = Sha1::digest(format!("{key}258EAFA5-E914-47DA-95CA-C5AB0DC85B11"));
    Some(format!(
        "HTTP/1.1 101 Switching Protocols\r\nConnection: Upgrade\r\nUpgrade: websocket\r\nSec-WebSocket-Accept: {}\r\n\r\n",
        base64::encode(sum)
    ))
}

pub enum Heard {
    Text(String),
    Ping(Vec<u8>),
    Other,
    Close,
}

/// Takes the first frame of the bytes, where it is whole. What is no frame of a client closes.
pub fn take_frame(bytes: &mut Vec<u8>) -> Option<Heard> {
    let (first, second) = (*bytes.first()?, *bytes.get(1)?);
    let (mask_at, size) = match second & 127 {
        126 => (4, usize::from(u16::from_be_bytes(bytes.get(2..4)?.try_into().ok()?))),
        127 => return Some(Heard::Close),
        size => (2, usize::from(size)),
    };
    if second & 128 == 0 || size > LONGEST || first & 128 == 0 {
        return Some(Heard::Close);
    }
    let end = mask_at + 4 + size;
    let mask: [u8; 4] = bytes.get(mask_at..mask_at + 4)?.try_into().ok()?;
    let payload: Vec<u8> = bytes.get(mask_at + 4..end)?.iter().enumerate().map(|(place, byte)| byte ^ mask[place % 4]).collect();
    bytes.drain(..end);
    Some(match first & 15 {
        1 => String::from_utf8(payload).map_or(Heard::Close, Heard::Text),
        9 => Heard::Ping(payload),
        10 => Heard::Other,
        _ => Heard::Close,
    })
}

pub fn add_frame(frames: &mut Vec<u8>, kind: u8, payload: &[u8]) {
    frames.push(0x80 | kind);
    match payload.len() {
        size if size < 126 => frames.push(size as u8),
        size => frames.extend([126, (size >> 8) as u8, size as u8]),
    }
    frames.extend(payload);
}
