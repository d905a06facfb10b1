//! `Server`: a listener, and the threads that answer what comes; `Service`: what answers it.

use crate::arguments::HttpArguments;
use crate::reply::Reply;
use crate::request::{Request, Token};
use crate::visit::Visit;
use std::error::Error;
use std::net::{IpAddr, Ipv4Addr, SocketAddr, TcpListener, TcpStream};
use std::panic::{AssertUnwindSafe, catch_unwind};
use std::process::ExitCode;
use std::sync::atomic::{AtomicBool, Ordering};
use std::sync::mpsc::{Receiver, TrySendError, sync_channel};
use std::sync::{Mutex, PoisonError};
use std::thread;
use std::time::Duration;

const TICK: Duration = Duration::from_millis(50);

const PAUSE: Duration = Duration::from_millis(10);

/// So many refusals wait to be sent.
const REFUSALS: usize = 64;

/// After the service has ended it still says so for so long.
const LAST_WORDS: Duration = Duration::from_secs(3);

/// The status of a service that has ended by itself.
const ENDED: u8 = 4;

/// What answers requests.
pub(crate) trait Service: Sync {
    fn answer(&self, request: &Request) -> Reply;

    /// Called twenty times a second, by one thread. Whether it has ended, and can't serve any more.
    fn tick(&self) -> bool;

    /// Called once no request is answered any more.
    fn end(&self);
}

/// How much of this machine requests may take.
#[derive(Debug, Clone, Copy)]
pub(crate) struct Limits {
    /// Threads that answer requests.
    pub(crate) workers: usize,
    /// Connections that wait for one.
    pub(crate) queue: usize,
    /// The largest body, in bytes.
    pub(crate) body: usize,
    /// How long after its connection a request may still be read or wait for its locks.
    pub(crate) time: Duration,
}

/// A listener, and the threads that answer what comes.
#[derive(Debug)]
pub(crate) struct Server {
    address: SocketAddr,
    limits: Limits,
    token: Option<Token>,
}

impl Server {
    pub(crate) fn begin(asked: &HttpArguments) -> Result<Server, Box<dyn Error>> {
        let token = asked.token()?;
        if token.is_none() && !asked.listen.ip().is_loopback() {
            return Err("elsewhere than on loopback it wants a --token-file".into());
        }
        Ok(Server {
            address: asked.listen,
            limits: asked.limits(),
            token,
        })
    }

    /// Listens until a signal comes or the service ends; then answers what was accepted.
    pub(crate) fn run(
        &self,
        service: &impl Service,
        ends: &AtomicBool,
    ) -> Result<ExitCode, Box<dyn Error>> {
        let listener = TcpListener::bind(self.address)?;
        let address = listener.local_addr()?;
        println!("listens at {address}");
        let (has_ended, over) = (AtomicBool::new(false), AtomicBool::new(false));
        thread::scope(|scope| {
            scope.spawn(|| {
                has_ended.store(wait(service, ends), Ordering::Relaxed);
                over.store(true, Ordering::Release);
                wake(address);
            });
            self.accept(service, &listener, &over);
        });
        service.end();
        if has_ended.into_inner() {
            return Ok(ExitCode::from(ENDED));
        }
        Ok(ExitCode::SUCCESS)
    }

    // Gives each connection to a thread that is free, or refuses it, until this is over.
    fn accept(&self, service: &impl Service, listener: &TcpListener, over: &AtomicBool) {
        let (visits, waiting) = sync_channel(self.limits.queue);
        let (refusals, refused) = sync_channel(REFUSALS);
        let waiting = Mutex::new(waiting);
        thread::scope(|scope| {
            scope.spawn(move || refuse_each(&refused));
            for _ in 0..self.limits.workers {
                scope.spawn(|| self.work(service, &waiting));
            }
            while let Some(visit) = next_visit(listener, over) {
                if let Err(TrySendError::Full(visit)) = visits.try_send(visit) {
                    // Where even refusals wait, the connection is closed.
                    let _ = refusals.try_send(visit);
                }
            }
            drop((visits, refusals));
        });
    }

    // Answers one request after another, until none comes any more.
    fn work(&self, service: &impl Service, waiting: &Mutex<Receiver<Visit>>) {
        loop {
            let next = waiting
                .lock()
                .unwrap_or_else(PoisonError::into_inner)
                .recv();
            let Ok(mut visit) = next else { return };
            let reply = match visit.read(&self.limits, self.token.as_ref()) {
                Ok(request) => catch_unwind(AssertUnwindSafe(|| service.answer(&request)))
                    .unwrap_or_else(|_| {
                        Reply::error(
                            500,
                            "fault",
                            "a fault of the program; an order may be carried out",
                        )
                    }),
                Err(reply) => reply,
            };
            visit.end(&reply);
        }
    }
}

// The next connection; None: it is over.
fn next_visit(listener: &TcpListener, over: &AtomicBool) -> Option<Visit> {
    loop {
        let accepted = listener.accept();
        if over.load(Ordering::Acquire) {
            return None;
        }
        match accepted {
            Ok((stream, _)) => return Some(Visit::new(stream)),
            // There are too many files open, or the client has gone.
            Err(_) => thread::sleep(PAUSE),
        }
    }
}

// Whether the service has ended by itself, not by a signal.
fn wait(service: &impl Service, ends: &AtomicBool) -> bool {
    while !ends.load(Ordering::Relaxed) {
        if service.tick() {
            thread::sleep(LAST_WORDS);
            return true;
        }
        thread::sleep(TICK);
    }
    false
}

// The thread that accepts finds out at its next connection.
fn wake(mut address: SocketAddr) {
    if address.ip().is_unspecified() {
        address.set_ip(IpAddr::V4(Ipv4Addr::LOCALHOST));
    }
    let _ = TcpStream::connect_timeout(&address, Duration::from_secs(1));
}

fn refuse_each(refused: &Receiver<Visit>) {
    let reply = Reply::error(
        503,
        "overloaded",
        "too many requests at once; this one wasn't read",
    );
    for visit in refused {
        visit.end(&reply);
    }
}
