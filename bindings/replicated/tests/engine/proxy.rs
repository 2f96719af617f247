//! A wire between a program and a server, which counts, waits, cuts and stalls.

use std::io::{Read, Write};
use std::net::{Shutdown, TcpListener, TcpStream};
use std::sync::atomic::{AtomicU64, Ordering};
use std::sync::mpsc::{self, Receiver, Sender};
use std::sync::{Arc, Mutex};
use std::thread;
use std::time::{Duration, Instant};

/// What is done at a byte.
#[derive(Clone, Copy, Debug, PartialEq, Eq)]
pub enum Action {
    /// Both sides lose the connection, once the bytes before are delivered.
    Cut,
    /// Nothing more is delivered on this way.
    Stall,
    /// Nothing more is delivered before `Way::disarm`.
    Hold,
}

/// One way of the wire.
#[derive(Default)]
pub struct Way {
    count: AtomicU64,
    // At which count something is done.
    action: Mutex<Option<(u64, Action)>>,
}

impl Way {
    /// How many bytes were delivered.
    pub fn count(&self) -> u64 {
        self.count.load(Ordering::SeqCst)
    }

    /// Does something once this number of further bytes is delivered.
    pub fn arm(&self, after: u64, action: Action) {
        *self.action.lock().unwrap() = Some((self.count() + after, action));
    }

    pub fn disarm(&self) {
        *self.action.lock().unwrap() = None;
    }

    fn is_armed(&self) -> bool {
        self.action.lock().unwrap().is_some()
    }

    // How many bytes may be delivered, and what is done then.
    fn allowed(&self, len: usize) -> (usize, Option<Action>) {
        match *self.action.lock().unwrap() {
            Some((at, action)) if at < self.count() + len as u64 => {
                (at.saturating_sub(self.count()) as usize, Some(action))
            }
            _ => (len, None),
        }
    }
}

pub struct Proxy {
    port: u16,
    /// From the program to the server.
    pub requests: Arc<Way>,
    /// From the server to the program.
    pub answers: Arc<Way>,
}

impl Proxy {
    /// A wire to a server, on which each byte takes so long each way.
    pub fn new(port: u16, delay: Duration) -> Proxy {
        let listener = TcpListener::bind("127.0.0.1:0").unwrap();
        let proxy = Proxy {
            port: listener.local_addr().unwrap().port(),
            requests: Arc::default(),
            answers: Arc::default(),
        };
        let ways = [proxy.requests.clone(), proxy.answers.clone()];
        thread::spawn(move || {
            for program in listener.incoming().map_while(Result::ok) {
                let Ok(server) = TcpStream::connect(("127.0.0.1", port)) else {
                    continue;
                };
                let _ = (program.set_nodelay(true), server.set_nodelay(true));
                let [requests, answers] = ways.clone();
                carry(&program, &server, requests, delay);
                carry(&server, &program, answers, delay);
            }
        });
        proxy
    }

    pub fn port(&self) -> u16 {
        self.port
    }
}

// Carries what comes on one way: one thread reads, and another delivers when it is time to.
fn carry(from: &TcpStream, to: &TcpStream, way: Arc<Way>, delay: Duration) {
    let (mut from, to) = (from.try_clone().unwrap(), to.try_clone().unwrap());
    let (sender, receiver): (Sender<(Instant, Vec<u8>)>, _) = mpsc::channel();
    let ends = (from.try_clone().unwrap(), to);
    thread::spawn(move || deliver(&receiver, ends, &way));
    thread::spawn(move || {
        let mut bytes = vec![0; 1 << 16];
        while let Ok(len @ 1..) = from.read(&mut bytes) {
            if sender
                .send((Instant::now() + delay, bytes[..len].to_vec()))
                .is_err()
            {
                return;
            }
        }
    });
}

fn deliver(receiver: &Receiver<(Instant, Vec<u8>)>, ends: (TcpStream, TcpStream), way: &Way) {
    let (from, mut to) = ends;
    for (time, bytes) in receiver {
        thread::sleep(time.saturating_duration_since(Instant::now()));
        let (len, action) = way.allowed(bytes.len());
        way.count.fetch_add(len as u64, Ordering::SeqCst);
        let failed = to.write_all(&bytes[..len]).is_err();
        match action {
            _ if failed => break,
            None => {}
            Some(Action::Cut) => break,
            // the ends stay open as long as the program has its own
            Some(Action::Stall) => receiver.iter().for_each(drop),
            Some(Action::Hold) => {
                while way.is_armed() {
                    thread::sleep(Duration::from_millis(1));
                }
                way.count
                    .fetch_add((bytes.len() - len) as u64, Ordering::SeqCst);
                if to.write_all(&bytes[len..]).is_err() {
                    break;
                }
            }
        }
    }
    let _ = (from.shutdown(Shutdown::Both), to.shutdown(Shutdown::Both));
}
