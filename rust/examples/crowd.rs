//! A crowd at the server of `server.rs`: six tenants flood its 16 workers with costly requests, and three send a cheap
//! one now and then. For each way to serve them it prints the times of the tenants' requests in milliseconds, those of
//! the flood together.
//!
//!     cargo build --release --examples
//!     cargo run --release --example crowd -- 10 crowd.svg      # seconds for each, and a file for a picture,
//!                                                              # then more ways to serve: 2dfq+ limited
//!
//! Each tenant of the flood keeps 20 requests under way. The others send one every 10 milliseconds, whether the last
//! was answered or not, and a time counts from the moment at which its request was due.
mod bars;

use std::env;
use std::fs;
use std::io::{self, BufRead, BufReader, Write};
use std::net::{Shutdown, TcpStream};
use std::process::{Child, Command, Stdio};
use std::thread;
use std::time::{Duration, Instant};

use bars::Bar;

const MODES: [&str; 4] = ["fifo", "wfq", "wf2q", "2dfq"];
const FLOOD: [&str; 6] = ["initech", "stark", "tyrell", "umbrella", "wayne", "wonka"];
const UNDER_WAY: usize = 20;
const PAUSE: Duration = Duration::from_millis(10);

/// The time before times count: at first the estimator knows no costs.
const WARM_UP: Duration = Duration::from_secs(1);

/// When times count.
#[derive(Clone, Copy)]
struct Turn {
    from: Instant,
    until: Instant,
}

/// A server in a process of its own, which ends when its input does.
struct Server {
    child: Child,
    port: u16,
}

impl Server {
    fn start(mode: &str) -> io::Result<Server> {
        let program = env::current_exe()?.with_file_name("server");
        let mut child = Command::new(program).arg(mode).stdin(Stdio::piped()).stdout(Stdio::piped()).spawn()?;
        let mut line = String::new();
        BufReader::new(child.stdout.take().expect("it is piped")).read_line(&mut line)?;
        let port = line.trim().parse().map_err(|_| io::Error::other(format!("no port: `{line}`")))?;
        Ok(Server { child, port })
    }

    fn connect(&self) -> io::Result<TcpStream> {
        let stream = TcpStream::connect(("127.0.0.1", self.port))?;
        stream.set_nodelay(true)?;
        Ok(stream)
    }
}

impl Drop for Server {
    fn drop(&mut self) {
        drop(self.child.stdin.take());
        let _ = self.child.wait();
    }
}

/// The number of the request that the next line answers; none at the end.
fn answer(answers: &mut impl BufRead) -> io::Result<Option<usize>> {
    let mut line = String::new();
    answers.read_line(&mut line)?;
    match line.split_once(' ') {
        Some((number, "done\n")) => Ok(number.parse().ok()),
        None if line.is_empty() => Ok(None),
        _ => Err(io::Error::other(format!("another answer: {line}"))),
    }
}

/// Sends costly requests, and the next for each that is answered. How long each took.
fn flood(stream: TcpStream, tenant: &str, turn: Turn) -> io::Result<Vec<Duration>> {
    let mut requests = stream.try_clone()?;
    let mut answers = BufReader::new(stream);
    let mut sent = Vec::new();
    let mut times = Vec::new();
    for _ in 0..UNDER_WAY {
        sent.push(Instant::now());
        writeln!(requests, "{tenant} costly")?;
    }
    while let Some(number) = answer(&mut answers)? {
        if sent[number] >= turn.from {
            times.push(sent[number].elapsed());
        }
        if Instant::now() >= turn.until {
            break;
        }
        sent.push(Instant::now());
        writeln!(requests, "{tenant} costly")?;
    }
    Ok(times)
}

/// Sends a cheap request whenever it is due, and reads the answers beside. How long each took.
fn visit(stream: TcpStream, tenant: &str, turn: Turn) -> io::Result<Vec<Duration>> {
    let mut requests = stream.try_clone()?;
    let begun = Instant::now();
    let due = move |number: usize| begun + PAUSE * number as u32;
    let reader = thread::spawn(move || {
        let mut answers = BufReader::new(stream);
        let mut times = Vec::new();
        while let Some(number) = answer(&mut answers)? {
            if due(number) >= turn.from {
                times.push(due(number).elapsed());
            }
        }
        io::Result::Ok(times)
    });
    for moment in (0..).map(due).take_while(|moment| *moment < turn.until) {
        thread::sleep(moment.saturating_duration_since(Instant::now()));
        writeln!(requests, "{tenant} cheap")?;
    }
    requests.shutdown(Shutdown::Write)?; // the server closes once it has answered all
    reader.join().expect("the reader does not panic")
}

/// Prints a line of the table.
fn row(mode: &str, tenant: &str, mut times: Vec<Duration>) -> Bar {
    times.sort_unstable();
    let rank = |part: usize| times[(times.len() * part).div_ceil(100).max(1) - 1].as_secs_f64() * 1000.0;
    let [median, ninety, most, greatest] = [50, 90, 99, 100].map(rank);
    println!("{mode:7} {tenant:7} {:8} {median:8.1} {ninety:8.1} {most:8.1} {greatest:8.1}", times.len());
    Bar { group: mode.to_string(), name: tenant.to_string(), median, most }
}

fn try_mode(mode: &str, time: Duration) -> io::Result<Vec<Bar>> {
    let server = Server::start(mode)?;
    let from = Instant::now() + WARM_UP;
    let turn = Turn { from, until: from + time };
    let mut floods = Vec::new();
    for tenant in FLOOD {
        let stream = server.connect()?;
        floods.push(thread::spawn(move || flood(stream, tenant, turn)));
    }
    let mut visitors = Vec::new();
    for tenant in ["acme", "globex", "hooli"] {
        let stream = server.connect()?;
        visitors.push((tenant, thread::spawn(move || visit(stream, tenant, turn))));
    }
    let mut times = Vec::new();
    for flood in floods {
        times.append(&mut flood.join().expect("a flood does not panic")?);
    }
    let mut rows = vec![row(mode, "flood", times)];
    for (tenant, visitor) in visitors {
        rows.push(row(mode, tenant, visitor.join().expect("a visitor does not panic")?));
    }
    Ok(rows)
}

fn main() -> io::Result<()> {
    let seconds = env::args().nth(1).and_then(|word| word.parse().ok()).unwrap_or(10);
    println!("{:7} {:7} {:>8} {:>8} {:>8} {:>8} {:>8}", "mode", "tenant", "requests", "50", "90", "99", "100");
    let mut rows = Vec::new();
    for mode in MODES.map(String::from).into_iter().chain(env::args().skip(3)) {
        rows.append(&mut try_mode(&mode, Duration::from_secs(seconds))?);
    }
    env::args().nth(2).map_or(Ok(()), |file| fs::write(file, bars::picture(&rows)))
}
