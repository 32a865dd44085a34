//! What `xaswitch threads` does with synchronous calls, in plain Rust over std's bounded channels: threads
//! that put a call to each manager in turn and wait for its code, and a thread for each manager that looks
//! a branch up and answers. Nothing is read, recorded or printed.
//!
//! usage: plain THREADS MANAGERS CALLS, with so many calls of each thread.
use std::collections::HashMap;
use std::sync::mpsc::{Receiver, SyncSender, TryRecvError, sync_channel};
use std::{env, hint, thread};

const QUEUE: usize = 8;

struct Call {
    thread: usize,
    branch: u64,
}

/// Spins for a few moments, and then yields its processor at each turn.
struct Backoff(u32);

impl Backoff {
    fn snooze(&mut self) {
        if self.0 <= 6 {
            (0..1 << self.0).for_each(|_| hint::spin_loop());
            self.0 += 1;
        } else {
            thread::yield_now();
        }
    }
}

/// Takes the next item, waiting for it; none where all senders are gone.
fn take<T>(receiver: &Receiver<T>) -> Option<T> {
    let mut backoff = Backoff(0);
    loop {
        match receiver.try_recv() {
            Ok(item) => return Some(item),
            Err(TryRecvError::Empty) => backoff.snooze(),
            Err(TryRecvError::Disconnected) => return None,
        }
    }
}

fn serve(calls: Receiver<Call>, threads: Vec<SyncSender<u64>>) {
    let mut branches = HashMap::new();
    while let Some(call) = take(&calls) {
        let code = branches.entry(call.branch).or_insert(0);
        *code += 1;
        threads[call.thread].send(*code).expect("the thread waits");
    }
}

fn work(thread: usize, calls: u64, managers: Vec<SyncSender<Call>>, codes: Receiver<u64>) -> u64 {
    let mut sum = 0;
    for number in 0..calls {
        let branch = number / 5;
        let manager = branch as usize % managers.len();
        let call = Call { thread, branch };
        managers[manager].send(call).expect("the manager takes calls");
        sum += take(&codes).expect("the manager answers");
    }
    sum
}

fn main() {
    let words: Vec<u64> = env::args().skip(1).map(|word| word.parse().expect("a number")).collect();
    let [threads, managers, calls] = words[..] else {
        panic!("usage: plain THREADS MANAGERS CALLS");
    };
    let (codes, receivers): (Vec<_>, Vec<_>) = (0..threads).map(|_| sync_channel(QUEUE)).unzip();
    let (requests, queues): (Vec<_>, Vec<_>) = (0..managers).map(|_| sync_channel(QUEUE)).unzip();
    thread::scope(|scope| {
        for queue in queues {
            let codes = codes.clone();
            scope.spawn(move || serve(queue, codes));
        }
        for (thread, receiver) in receivers.into_iter().enumerate() {
            let requests = requests.clone();
            scope.spawn(move || work(thread, calls, requests, receiver));
        }
        drop(requests);
    });
}
