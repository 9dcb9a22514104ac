//! rov ADDR PORT: fetches the records of a cache, follows it, and judges the routes of standard input, each a line `PREFIX/LENGTH ORIGIN`, by
//! the records that are committed then. ORIGIN is the number of an AS, or `none`.
use rpkirtr::{Link, Route, Router};
use std::error::Error;
use std::io::{self, BufRead, Read, Write};
use std::net::TcpStream;
use std::process::ExitCode;
use std::sync::mpsc::{self, Receiver, RecvTimeoutError};
use std::thread;
use std::time::{Duration, Instant};

/// What the threads that read report.
enum Event {
    Received(Vec<u8>),
    Closed,
    Line(String),
    EndOfInput,
}

/// A thread that reads the socket, and one that reads standard input.
fn readers(mut socket: TcpStream) -> Receiver<Event> {
    let (events, received) = mpsc::sync_channel(64);
    let lines = events.clone();
    thread::spawn(move || {
        let mut room = [0; 65536];
        while let Ok(count @ 1..) = socket.read(&mut room) {
            if events.send(Event::Received(room[..count].to_vec())).is_err() {
                return;
            }
        }
        let _ = events.send(Event::Closed);
    });
    thread::spawn(move || {
        for line in io::stdin().lock().lines().map_while(Result::ok) {
            if lines.send(Event::Line(line)).is_err() {
                return;
            }
        }
        let _ = lines.send(Event::EndOfInput);
    });
    received
}

/// A router, its connection and its clock, and the lines that wait for records.
struct Client {
    router: Router,
    socket: TcpStream,
    began: Instant,
    waiting: Vec<String>,
}

impl Client {
    fn now(&self) -> u64 {
        self.began.elapsed().as_secs()
    }

    fn send_all(&mut self) -> io::Result<()> {
        let mut room = [0; 512];
        loop {
            match self.router.pull(&mut room) {
                0 => return Ok(()),
                count => self.socket.write_all(&room[..count])?,
            }
        }
    }

    fn receive(&mut self, mut bytes: &[u8]) -> Result<(), Box<dyn Error>> {
        while !bytes.is_empty() {
            let now = self.now();
            let taken = self.router.receive(bytes, now);
            bytes = &bytes[taken..];
            self.send_all()?;
            if let Link::Ended(end) = self.router.link() {
                return Err(end.to_string().into());
            }
        }
        self.judge_waiting()
    }

    fn judge_waiting(&mut self) -> Result<(), Box<dyn Error>> {
        if self.router.committed().is_none() {
            return Ok(());
        }
        let mut out = io::stdout().lock();
        for line in self.waiting.drain(..) {
            match read_route(&line).and_then(|route| self.router.state(&route).ok()) {
                Some(state) => writeln!(out, "{state}")?,
                None => writeln!(out, "bad route")?,
            }
        }
        out.flush()?;
        Ok(())
    }

    /// How long nothing has to be done, if no bytes come.
    fn pause(&self) -> Duration {
        let wake = self.router.wake_at().unwrap_or(u64::MAX);
        Duration::from_secs(wake.saturating_sub(self.now()).clamp(1, 3600))
    }

    /// Follows the cache until standard input ends and each route is judged.
    fn follow(&mut self, events: &Receiver<Event>) -> Result<(), Box<dyn Error>> {
        let mut ends = false;
        while !(ends && self.waiting.is_empty()) {
            match events.recv_timeout(self.pause()) {
                Ok(Event::Received(bytes)) => self.receive(&bytes)?,
                Ok(Event::Line(line)) => {
                    self.waiting.push(line);
                    self.judge_waiting()?;
                }
                Ok(Event::EndOfInput) => ends = true,
                Ok(Event::Closed) | Err(RecvTimeoutError::Disconnected) => return Err("the cache closed the connection".into()),
                Err(RecvTimeoutError::Timeout) => {}
            }
            let now = self.now();
            self.router.tick(now);
            self.send_all()?;
        }
        Ok(())
    }
}

/// A route of a line `PREFIX/LENGTH ORIGIN`.
fn read_route(line: &str) -> Option<Route> {
    let (prefix, origin) = line.split_once(' ')?;
    let origin = if origin == "none" { None } else { Some(origin.parse().ok()?) };
    Some(Route { prefix: prefix.parse().ok()?, origin })
}

fn run(host: &str, port: u16) -> Result<(), Box<dyn Error>> {
    let socket = TcpStream::connect((host, port)).map_err(|error| format!("no connection to {host} port {port}: {error}"))?;
    let events = readers(socket.try_clone()?);
    let mut client = Client { router: Router::new()?, socket, began: Instant::now(), waiting: Vec::new() };
    client.router.connect(0);
    client.send_all()?;
    client.follow(&events)
}

fn main() -> ExitCode {
    let words: Vec<String> = std::env::args().skip(1).collect();
    let cache = match words.as_slice() {
        [host, port] => port.parse().ok().map(|port| (host, port)),
        _ => None,
    };
    match cache.map(|(host, port)| run(host, port)) {
        None => {
            eprintln!("usage: rov ADDR PORT");
            ExitCode::from(2)
        }
        Some(Ok(())) => ExitCode::SUCCESS,
        Some(Err(error)) => {
            eprintln!("rov: {error}");
            ExitCode::FAILURE
        }
    }
}
