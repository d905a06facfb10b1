//! `Proxy`: stands between a host and a node of etcd, and lets through what the test says.

use std::io::{ErrorKind, Read, Write};
use std::net::{Ipv4Addr, Shutdown, TcpListener, TcpStream};
use std::sync::Arc;
use std::sync::atomic::{AtomicBool, AtomicI64, AtomicU8, Ordering};
use std::thread;
use std::time::{Duration, Instant};

const TICK: Duration = Duration::from_millis(10);
const LINGER: Duration = Duration::from_millis(500);
const LONG: Duration = Duration::from_secs(20);

// How a request for a transaction begins.
const TRANSACTION: &[u8] = b"POST /v3/kv/txn";

/// What a proxy lets through.
#[derive(Debug, Clone, Copy, PartialEq, Eq)]
#[repr(u8)]
pub(crate) enum Way {
    /// All.
    Open,
    /// Nothing: what is sent waits in between, and comes when the way is open again.
    Cut,
    /// Requests alone: the answers are lost.
    Mute,
}

/// Stands between a host and a node, and lets through what the test says.
pub(crate) struct Proxy {
    endpoint: String,
    shared: Arc<Passage>,
}

struct Passage {
    node: String,
    way: AtomicU8,
    // So many transactions go through before the way is cut; none is counted below zero.
    left: AtomicI64,
    ends: AtomicBool,
}

impl Passage {
    fn is(&self, way: Way) -> bool {
        self.way.load(Ordering::SeqCst) == way as u8
    }

    // Counts a piece that begins a transaction, and cuts the way before it if it is one too many.
    fn count(&self, piece: &[u8]) {
        if piece.starts_with(TRANSACTION)
            && self.left.load(Ordering::SeqCst) >= 0
            && self.left.fetch_sub(1, Ordering::SeqCst) == 0
        {
            self.way.store(Way::Cut as u8, Ordering::SeqCst);
        }
    }
}

impl Proxy {
    /// Before the node of this endpoint. The way is open.
    pub(crate) fn before(node: &str) -> Proxy {
        Proxy::before_at(node, Ipv4Addr::LOCALHOST)
    }

    /// Before the node of this endpoint, at this address of the machine. The way is open.
    pub(crate) fn before_at(node: &str, address: Ipv4Addr) -> Proxy {
        let listener = TcpListener::bind((address, 0)).expect("a port is free");
        let place = listener.local_addr().expect("bound");
        let shared = Arc::new(Passage {
            node: node.trim_start_matches("http://").to_owned(),
            way: AtomicU8::new(Way::Open as u8),
            left: AtomicI64::new(-1),
            ends: AtomicBool::new(false),
        });
        let served = Arc::clone(&shared);
        thread::spawn(move || serve(&listener, &served));
        Proxy {
            endpoint: format!("http://{place}"),
            shared,
        }
    }

    pub(crate) fn endpoint(&self) -> &str {
        &self.endpoint
    }

    pub(crate) fn set(&self, way: Way) {
        self.shared.left.store(-1, Ordering::SeqCst);
        self.shared.way.store(way as u8, Ordering::SeqCst);
    }

    /// Cuts the way before the transaction that comes after so many.
    pub(crate) fn cut_after(&self, transactions: i64) {
        self.shared.left.store(transactions, Ordering::SeqCst);
    }

    /// Waits until a transaction has come that cuts the way.
    pub(crate) fn await_cut(&self) {
        let limit = Instant::now() + LONG;
        while !self.shared.is(Way::Cut) {
            assert!(Instant::now() < limit, "no transaction comes");
            thread::sleep(TICK);
        }
    }
}

impl Drop for Proxy {
    fn drop(&mut self) {
        self.shared.ends.store(true, Ordering::SeqCst);
    }
}

fn serve(listener: &TcpListener, shared: &Arc<Passage>) {
    for host in listener.incoming().map_while(Result::ok) {
        if shared.ends.load(Ordering::SeqCst) {
            return;
        }
        let Ok(node) = TcpStream::connect(&shared.node) else {
            continue;
        };
        let (host_too, node_too) = (clone(&host), clone(&node));
        let (to, back) = (Arc::clone(shared), Arc::clone(shared));
        thread::spawn(move || pump(host, node_too, &to, true));
        thread::spawn(move || pump(node, host_too, &back, false));
    }
}

fn clone(stream: &TcpStream) -> TcpStream {
    stream.set_nodelay(true).expect("set");
    stream.set_read_timeout(Some(TICK)).expect("set");
    stream.try_clone().expect("cloned")
}

// Copies what comes, as the way lets it through, until one end closes.
fn pump(mut from: TcpStream, mut to: TcpStream, shared: &Passage, is_request: bool) {
    let mut room = vec![0; 64 * 1024];
    let mut is_lossy = false;
    while !shared.ends.load(Ordering::SeqCst) {
        let read = match from.read(&mut room) {
            Err(error) if matches!(error.kind(), ErrorKind::WouldBlock | ErrorKind::TimedOut) => {
                continue;
            }
            Ok(read) if read > 0 => read,
            _ => break,
        };
        if is_request {
            shared.count(&room[..read]);
        }
        while shared.is(Way::Cut) && !shared.ends.load(Ordering::SeqCst) {
            thread::sleep(TICK);
        }
        is_lossy |= !is_request && shared.is(Way::Mute);
        if !is_lossy && to.write_all(&room[..read]).is_err() {
            break;
        }
    }
    if is_request {
        // A node carries a request out only while its host is connected, as far as it knows.
        thread::sleep(LINGER);
    }
    let _ = from.shutdown(Shutdown::Both);
    let _ = to.shutdown(Shutdown::Both);
}
