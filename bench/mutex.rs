//! The work of `crates/board_bench` in plain Rust: users in ordered maps, each map under a lock, asked whether a session of
//! theirs is due. Its arguments are those of that program; 0 callers ask one bare map. It prints how many weren't due.
use std::collections::BTreeMap;
use std::hint::black_box;
use std::sync::Mutex;
use std::thread;

struct Session {
    node: u8,
    at: u64,
    displaced: bool,
    check: bool,
    fetching: bool,
    sent: Vec<(u128, u64)>,
}

#[derive(Default)]
struct Shard {
    users: BTreeMap<u128, Vec<Session>>,
    answered: u64,
}

impl Shard {
    fn open(&mut self, uaid: u128, node: u8) {
        let session = Session { node, at: 1, displaced: false, check: false, fetching: true, sent: Vec::new() };
        self.users.entry(uaid).or_default().push(session);
    }

    fn is_due(&mut self, uaid: u128, node: u8, at: u64) -> Option<bool> {
        self.answered += 1;
        let sessions = self.users.get_mut(&uaid)?;
        let session = sessions.iter_mut().find(|s| s.node == node && s.at == at && !s.displaced)?;
        let due = session.check && !session.fetching && session.sent.is_empty();
        if due {
            session.check = false;
            session.fetching = true;
        }
        Some(due)
    }
}

fn serve(shards: &[Mutex<Shard>], caller: u8, rounds: u64) -> u64 {
    for shard in shards {
        shard.lock().unwrap().open(caller.into(), caller);
    }
    let mut answered = 0;
    for _ in 0..rounds {
        for shard in shards {
            let uaid = black_box(u128::from(caller));
            answered += u64::from(shard.lock().unwrap().is_due(uaid, caller, 1) == Some(false));
        }
    }
    answered
}

fn main() {
    let mut words = std::env::args().skip(1).map(|word| word.parse::<u64>().unwrap());
    let (callers, width, rounds) = (words.next().unwrap(), words.next().unwrap(), words.next().unwrap());
    let mut shards: Vec<Mutex<Shard>> = (0..width).map(|_| Mutex::default()).collect();
    let answered: u64 = match callers {
        0 => {
            let bare = shards[0].get_mut().unwrap();
            bare.open(1, 1);
            (0..rounds).map(|_| u64::from(bare.is_due(black_box(1), 1, 1) == Some(false))).sum()
        }
        1 => serve(&shards, 1, rounds),
        _ => thread::scope(|scope| {
            let shards = &shards;
            let threads: Vec<_> = (1..=callers).map(|k| scope.spawn(move || serve(shards, k as u8, rounds))).collect();
            threads.into_iter().map(|thread| thread.join().unwrap()).sum()
        }),
    };
    println!("{answered}");
}
