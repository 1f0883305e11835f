//! A server that many tenants share. It answers lines over TCP on the loopback address: `NAME cheap` and `NAME costly`
//! do some work for the tenant of this name, which may be new, and are answered `done`; `metrics` is answered by the
//! counts of a fair pool for Prometheus; all else is `refused`. A client may send many lines at once; an answer comes
//! when its work is done, with the line's number before it. A fair pool cancels the waiting requests of a lost client.
//!
//!     cargo run --release --example server -- 2dfq      # or wfq, wf2q, msf2q, 2dfq+; or fifo: one queue for all
//!     cargo run --release --example server -- limited   # 2dfq+, and at most two costly requests of a tenant at once
//!
//! It prints its port, and serves until its standard input ends. `crowd` drives it.
mod fifo;

use std::env;
use std::io::{self, BufRead, BufReader, Write};
use std::net::{TcpListener, TcpStream};
use std::process;
use std::sync::atomic::{AtomicBool, Ordering};
use std::sync::{Arc, Mutex};
use std::thread;
use std::time::Duration;

use fifo::Fifo;
use twodfq::{tick, Handle, KindId, Policy, Pool};

const WORKERS: u32 = 16;

/// How many tenants may have requests at once.
const TENANTS: u32 = 64;

/// The kinds of requests, each with its steps of work and the time of a step, such as a wait for a disk.
const KINDS: [(&str, u32, Duration); 2] =
    [("cheap", 1, Duration::from_micros(200)), ("costly", 10, Duration::from_millis(5))];

enum Service {
    Fair(Pool),
    Fifo(Fifo),
}

impl Service {
    fn open(mode: &str) -> Option<Service> {
        let policy = match mode {
            "fifo" => return Some(Service::Fifo(Fifo::open(WORKERS))),
            "wfq" => Policy::Wfq,
            "wf2q" => Policy::Wf2q,
            "msf2q" => Policy::Msf2q,
            "2dfq" => Policy::TwoDfq,
            "2dfq+" | "limited" => Policy::TwoDfqPlus,
            _ => return None,
        };
        let builder = Pool::builder().workers(WORKERS).policy(policy).most_tenants(TENANTS);
        let builder = KINDS.iter().fold(builder, |builder, (name, ..)| builder.kind(name));
        let builder = if mode == "limited" { builder.kind_most_running("costly", 2) } else { builder };
        Some(Service::Fair(builder.open().expect("a pool of two kinds opens")))
    }

    /// Hands the job in; none where it is refused. Only a job of a fair pool has a handle.
    fn submit(&self, tenant: &str, kind: usize, job: impl FnOnce() + Send + 'static) -> Option<Option<Handle<()>>> {
        match self {
            Service::Fair(pool) => pool.submit(tenant, KindId::new(kind as u32), job).ok().map(Some),
            Service::Fifo(fifo) => {
                fifo.submit(job);
                Some(None)
            }
        }
    }

    fn metrics(&self) -> Option<String> {
        match self {
            Service::Fair(pool) => Some(pool.status().prometheus()),
            Service::Fifo(_) => None,
        }
    }
}

/// Does the work of a kind, and reports its use on the way.
fn work(kind: usize) {
    let (_, steps, time) = KINDS[kind];
    for _ in 0..steps {
        thread::sleep(time);
        tick();
    }
}

/// The tenant and the kind of a line.
fn request(line: &str) -> Option<(&str, usize)> {
    let (tenant, kind) = line.split_once(' ')?;
    Some((tenant, KINDS.iter().position(|(name, ..)| *name == kind)?))
}

/// Where a client's answers go.
struct Client {
    stream: Mutex<TcpStream>,
    is_gone: AtomicBool,
}

impl Client {
    fn answer(&self, number: usize, text: &str) {
        if writeln!(self.stream.lock().unwrap(), "{number} {text}").is_err() {
            self.is_gone.store(true, Ordering::Relaxed);
        }
    }
}

/// Answers a line, or submits its request; the handle of that, if it has one.
fn respond(service: &Service, client: &Arc<Client>, number: usize, line: &str) -> Option<Handle<()>> {
    if let Some(text) = service.metrics().filter(|_| line == "metrics") {
        client.answer(number, &text);
        return None;
    }
    let submitted = request(line).and_then(|(tenant, kind)| {
        let client = client.clone();
        service.submit(tenant, kind, move || {
            work(kind);
            client.answer(number, "done");
        })
    });
    if submitted.is_none() {
        client.answer(number, "refused");
    }
    submitted.flatten()
}

fn serve(service: &Service, stream: TcpStream) -> io::Result<()> {
    stream.set_nodelay(true)?;
    let client = Arc::new(Client { stream: Mutex::new(stream.try_clone()?), is_gone: AtomicBool::new(false) });
    let mut handles: Vec<Handle<()>> = Vec::new();
    for (number, line) in BufReader::new(stream).lines().enumerate() {
        let Ok(line) = line else {
            client.is_gone.store(true, Ordering::Relaxed);
            break;
        };
        handles.retain(|handle| !handle.is_done());
        handles.extend(respond(service, &client, number, &line));
    }
    for handle in handles {
        if client.is_gone.load(Ordering::Relaxed) {
            handle.cancel();
        } else {
            let _ = handle.join();
        }
    }
    Ok(())
}

fn main() -> io::Result<()> {
    let Some(service) = env::args().nth(1).and_then(|mode| Service::open(&mode)) else {
        eprintln!("server: say fifo, wfq, wf2q, msf2q, 2dfq, 2dfq+ or limited");
        process::exit(2);
    };
    let service = Arc::new(service);
    let listener = TcpListener::bind("127.0.0.1:0")?;
    println!("{}", listener.local_addr()?.port());
    thread::spawn(move || {
        for stream in listener.incoming().flatten() {
            let service = service.clone();
            thread::spawn(move || serve(&service, stream));
        }
    });
    io::copy(&mut io::stdin(), &mut io::sink())?;
    Ok(())
}
