//! What the drivers share that compare the server with Open vSwitch's ovsdb-server: how each is started and spoken to, how a
//! reply is compared with the one that is wanted, and how figures are printed.
//!
//! Ours is spoken to over pipes, the peer over a Unix socket; or both over TCP, by any number of sessions. Plain Rust, std only.

// Each driver uses some of it.
#![allow(dead_code)]

use std::collections::VecDeque;
use std::fs;
use std::io::{BufRead, BufReader, Read, Write};
use std::net::TcpStream;
use std::os::unix::net::UnixStream;
use std::path::{Path, PathBuf};
use std::process::{Child, ChildStderr, Command, Stdio};
use std::time::{Duration, Instant};

pub type Outcome<T> = Result<T, String>;

/// The server's own schema, which the peer's file is made with.
const SCHEMA: &str = r#"{"name":"Net","tables":{"Port":{"columns":{"name":{"type":"string"},"peer":{"type":{"key":{"refTable":"Port","type":"uuid"},"max":1,"min":0}},"tag":{"type":{"key":{"maxInteger":4095,"minInteger":0,"type":"integer"},"max":1,"min":0}}}},"Switch":{"columns":{"load":{"type":"integer"},"main":{"type":{"key":{"refTable":"Port","refType":"weak","type":"uuid"},"max":1,"min":0}},"name":{"type":"string"},"ports":{"type":{"key":{"refTable":"Port","type":"uuid"},"max":"unlimited","min":0}}},"indexes":[["name"]],"isRoot":true}},"version":"1.0.0"}"#;

/// Stands in a wanted reply for each byte of an identifier that the server draws.
const DRAWN: char = '\0';

/// How many bytes an identifier has.
const IDENTIFIER: usize = 36;

/// How many rows one transaction inserts while a table is filled: some 80 KB of text.
const FILLED_AT_ONCE: usize = 1_000;

/// How long a start may take, and a reply over TCP.
const LONGEST_START: Duration = Duration::from_secs(300);
const LONGEST_REPLY: Duration = Duration::from_secs(60);

/// An order of a reply's members: `error`, `id` and `result` by their numbers.
type Order = [usize; 3];

/// All orders, ours first. The peer's is the one of its hashes.
const ORDERS: [Order; 6] = [[0, 1, 2], [0, 2, 1], [1, 0, 2], [1, 2, 0], [2, 0, 1], [2, 1, 0]];

/// What is measured.
#[derive(Clone, Copy, PartialEq)]
pub enum System {
    File,
    Memory,
    /// The peer over a file, which it writes without a sync.
    Peer,
    /// The peer over a file, each commit of which is synced before the reply.
    DurablePeer,
}

impl System {
    pub fn name(self) -> &'static str {
        match self {
            System::File => "ours in a file",
            System::Memory => "ours in memory",
            System::Peer => "peer without a sync",
            System::DurablePeer => "peer in a file",
        }
    }

    fn orders(self) -> &'static [Order] {
        match self {
            System::File | System::Memory => &ORDERS[..1],
            System::Peer | System::DurablePeer => &ORDERS,
        }
    }

    pub fn is_peer(self) -> bool {
        matches!(self, System::Peer | System::DurablePeer)
    }
}

/// A request, and the result that is wanted in its reply.
pub struct Exchange {
    pub id: u64,
    pub request: String,
    pub result: String,
}

impl Exchange {
    /// The wanted reply, its members in this order.
    fn reply(&self, order: Order) -> Vec<u8> {
        let members = ["\"error\":null".into(), format!("\"id\":{}", self.id), format!("\"result\":{}", self.result)];
        format!("{{{}}}", order.map(|member| members[member].as_str()).join(",")).into_bytes()
    }
}

pub fn list_dbs(system: System) -> Exchange {
    let result = if system.is_peer() { "[\"Net\",\"_Server\"]" } else { "[\"Net\"]" };
    Exchange { id: 0, request: "{\"id\":0,\"method\":\"list_dbs\",\"params\":[]}".into(), result: result.into() }
}

pub fn transact(id: u64, operations: &str, result: String) -> Exchange {
    Exchange { id, request: format!("{{\"id\":{id},\"method\":\"transact\",\"params\":[\"Net\"{operations}]}}"), result }
}

pub fn by_identifier(identifier: &str) -> String {
    format!("[\"_uuid\",\"==\",[\"uuid\",\"{identifier}\"]]")
}

/// The result of an insert, whose identifier the server draws.
pub fn inserted() -> String {
    format!("{{\"uuid\":[\"uuid\",\"{}\"]}}", String::from(DRAWN).repeat(IDENTIFIER))
}

/// A delete of the switch of an identifier, which must be there.
pub fn deletion(id: u64, identifier: &str) -> Exchange {
    let condition = by_identifier(identifier);
    let operation = format!(",{{\"op\":\"delete\",\"table\":\"Switch\",\"where\":[{condition}]}}");
    transact(id, &operation, "[{\"count\":1}]".into())
}

/// One transaction that inserts rows of the numbers from `first` on. The peer is asked to sync before the reply
/// (RFC 7047, 5.2.7); ours always does.
pub fn inserts(system: System, first: u64, rows: usize) -> Exchange {
    let mut operations: String = (first..)
        .take(rows)
        .map(|n| format!(",{{\"op\":\"insert\",\"table\":\"Switch\",\"row\":{{\"load\":{n},\"name\":\"switch {n}\"}}}}"))
        .collect();
    let mut results = vec![inserted(); rows];
    if system == System::DurablePeer {
        operations.push_str(",{\"op\":\"commit\",\"durable\":true}");
        results.push("{}".into());
    }
    transact(first, &operations, format!("[{}]", results.join(",")))
}

/// A search for the row of a number, which must be there once.
pub fn search(n: u64) -> Exchange {
    let operation = format!(
        ",{{\"op\":\"select\",\"table\":\"Switch\",\"where\":[[\"name\",\"==\",\"switch {n}\"]],\"columns\":[\"name\"]}}"
    );
    transact(n, &operation, format!("[{{\"rows\":[{{\"name\":\"switch {n}\"}}]}}]"))
}

fn is_wanted(seen: &[u8], wanted: &[u8]) -> bool {
    let is_of_an_id = |byte: u8| byte == b'-' || byte.is_ascii_hexdigit();
    seen.iter().zip(wanted).all(|(&s, &w)| s == w || char::from(w) == DRAWN && is_of_an_id(s))
}

/// A process that is killed where it has not ended.
struct Process(Child);

impl Process {
    fn has_ended(&mut self) -> bool {
        !matches!(self.0.try_wait(), Ok(None))
    }

    /// Resident memory in KiB.
    fn resident(&self) -> Outcome<u64> {
        let path = format!("/proc/{}/status", self.0.id());
        let text = fs::read_to_string(&path).map_err(|e| format!("{path}: {e}"))?;
        text.lines()
            .find_map(|line| line.strip_prefix("VmRSS:"))
            .and_then(|rest| rest.split_whitespace().next())
            .and_then(|number| number.parse().ok())
            .ok_or_else(|| format!("{path}: no VmRSS"))
    }
}

impl Drop for Process {
    fn drop(&mut self) {
        let _ = self.0.kill();
        let _ = self.0.wait();
    }
}

/// A running server, how many rows it has, and what came of its output and has not been compared. A session over TCP is one
/// without a process of its own.
pub struct Server {
    pub system: System,
    order: Order,
    pub rows: u64,
    process: Option<Process>,
    input: Box<dyn Write + Send>,
    output: Box<dyn Read + Send>,
    unread: Vec<u8>,
    chunk: Vec<u8>,
}

impl Server {
    fn new(system: System, process: Option<Process>, input: Box<dyn Write + Send>, output: Box<dyn Read + Send>) -> Server {
        let order = ORDERS[0];
        Server { system, order, rows: 0, process, input, output, unread: Vec::new(), chunk: vec![0; 1 << 16] }
    }

    pub fn send(&mut self, text: &str) -> Outcome<()> {
        self.input.write_all(text.as_bytes()).map_err(|e| format!("a write to the server: {e}"))
    }

    /// Waits for bytes, and appends them to those that were not compared yet.
    fn read(&mut self) -> Outcome<()> {
        let n = self.output.read(&mut self.chunk).map_err(|e| format!("a read from the server: {e}"))?;
        if n == 0 {
            let name = self.system.name();
            return Err(format!("{name} ended its output after {}", String::from_utf8_lossy(&self.unread)));
        }
        self.unread.extend_from_slice(&self.chunk[..n]);
        Ok(())
    }

    /// Reads as many bytes as the wanted reply has, and gives them.
    pub fn take(&mut self, exchange: &Exchange) -> Outcome<String> {
        self.take_bytes(exchange.reply(self.order).len())
    }

    /// Asks, and gives the time until the reply was whole, and the reply. The length of the wanted one is found before the clock
    /// begins, and the reply is copied when it has ended.
    pub fn ask_on_the_clock(&mut self, exchange: &Exchange) -> Outcome<(Duration, String)> {
        let length = exchange.reply(self.order).len();
        let begin = Instant::now();
        self.send(&exchange.request)?;
        self.read_until(length)?;
        let time = begin.elapsed();
        Ok((time, self.take_bytes(length)?))
    }

    /// Reads until `length` bytes are there.
    fn read_until(&mut self, length: usize) -> Outcome<()> {
        while self.unread.len() < length {
            self.read()?;
        }
        Ok(())
    }

    /// Reads `length` bytes, and returns them.
    pub fn take_bytes(&mut self, length: usize) -> Outcome<String> {
        self.read_until(length)?;
        String::from_utf8(self.unread.drain(..length).collect()).map_err(|e| format!("a reply: {e}"))
    }

    /// Reads until a text that stands before a reply is whole, and compares it.
    pub fn receive_before(&mut self, text: &str) -> Outcome<()> {
        let text = text.as_bytes();
        while self.unread.len() < text.len() && (self.unread.last() != Some(&b'}') || text.starts_with(&self.unread)) {
            self.read()?;
        }
        if !self.unread.starts_with(text) {
            return Err(self.wrong(&self.unread));
        }
        self.unread.drain(..text.len());
        Ok(())
    }

    fn wrong(&self, seen: &[u8]) -> String {
        let seen = String::from_utf8_lossy(&seen[..seen.len().min(300)]);
        format!("a wrong reply of {}: {seen}", self.system.name())
    }

    /// Reads until the wanted reply is whole, and compares it.
    pub fn receive(&mut self, exchange: &Exchange) -> Outcome<()> {
        let (_, length) = self.wait(exchange, &[self.order])?;
        self.unread.drain(..length);
        Ok(())
    }

    /// Reads until the wanted reply is whole, and compares it in each of these orders. It gives the one that fits, and how many
    /// bytes the reply has, which stay unread.
    fn wait(&mut self, exchange: &Exchange, orders: &[Order]) -> Outcome<(Order, usize)> {
        let length = exchange.reply(self.order).len();
        while self.unread.len() < length {
            // Where a wrong reply is shorter than the wanted one, nothing comes after it.
            if self.unread.ends_with(b"}") {
                self.fitting(&self.unread, exchange, orders)?;
            }
            self.read()?;
        }
        Ok((self.fitting(&self.unread[..length], exchange, orders)?, length))
    }

    /// The order in which the wanted reply begins with these bytes.
    fn fitting(&self, seen: &[u8], exchange: &Exchange, orders: &[Order]) -> Outcome<Order> {
        let order = orders.iter().find(|&&order| is_wanted(seen, &exchange.reply(order)));
        order.copied().ok_or_else(|| self.wrong(seen))
    }

    /// Sends a request whole before it reads the reply: a server answers a message only when it has all of it.
    pub fn ask(&mut self, exchange: &Exchange) -> Outcome<()> {
        self.send(&exchange.request)?;
        self.receive(exchange)
    }

    /// Asks, and gives the identifiers of the reply.
    pub fn ask_for_identifiers(&mut self, exchange: &Exchange) -> Outcome<Vec<String>> {
        self.send(&exchange.request)?;
        let (_, length) = self.wait(exchange, &[self.order])?;
        let reply: Vec<u8> = self.unread.drain(..length).collect();
        let parts = reply.split(|&byte| byte == b'"').filter(|part| part.len() == IDENTIFIER);
        Ok(parts.map(|part| String::from_utf8_lossy(part).into_owned()).collect())
    }

    /// Asks for an insert of one row, and gives its identifier.
    pub fn ask_for_identifier(&mut self, exchange: &Exchange) -> Outcome<String> {
        let drawn = self.ask_for_identifiers(exchange)?;
        drawn.into_iter().next().ok_or("an insert without an identifier".into())
    }

    /// Asks, and returns whether the reply is the wanted one; a transaction whose one operation is unknown to the server
    /// (RFC 7047, 4.1.3) has another.
    pub fn ask_if_known(&mut self, exchange: &Exchange) -> Outcome<bool> {
        self.send(&exchange.request)?;
        if self.receive(exchange).is_ok() {
            return Ok(true);
        }
        let unknown = "[{\"error\":\"unknown operation\"}]";
        self.receive(&transact(exchange.id, "", unknown.into()))?;
        Ok(false)
    }

    /// The first request: its reply shows the order of the members of all others.
    pub fn greet(&mut self) -> Outcome<()> {
        let exchange = list_dbs(self.system);
        self.send(&exchange.request)?;
        let (order, length) = self.wait(&exchange, self.system.orders())?;
        self.unread.drain(..length);
        self.order = order;
        Ok(())
    }

    /// Fills the table up to `rows` rows, and returns the identifiers of the new ones.
    pub fn fill(&mut self, rows: usize) -> Outcome<Vec<String>> {
        let mut identifiers = Vec::new();
        while self.rows < rows as u64 {
            let count = FILLED_AT_ONCE.min(rows - self.rows as usize);
            let exchange = inserts(self.system, self.rows, count);
            identifiers.extend(self.ask_for_identifiers(&exchange)?);
            self.rows += count as u64;
        }
        Ok(identifiers)
    }

    /// Resident memory in KiB.
    pub fn resident(&self) -> Outcome<u64> {
        self.process.as_ref().ok_or("a session has no process of its own")?.resident()
    }

    /// Looks for the last row, and ends the server: ours by the end of its input, the peer by a kill.
    pub fn finish(mut self) -> Outcome<()> {
        if self.rows > 0 {
            self.ask(&search(self.rows - 1))?;
        }
        let Server { system, process, input, mut output, unread: mut rest, .. } = self;
        drop(input);
        let Some(mut process) = process.filter(|_| !system.is_peer()) else {
            return if rest.is_empty() { Ok(()) } else { Err("unexpected bytes".into()) };
        };
        output.read_to_end(&mut rest).map_err(|e| format!("the last read: {e}"))?;
        let status = process.0.wait().map_err(|e| format!("waiting for the server: {e}"))?;
        if !status.success() || !rest.is_empty() {
            return Err(format!("the server ended with {status} and {} unexpected bytes", rest.len()));
        }
        Ok(())
    }
}

/// The peer's executables and libraries, where its package is installed or unpacked.
struct Peer {
    server: PathBuf,
    tool: PathBuf,
    libraries: PathBuf,
}

impl Peer {
    /// The peer under a root, and its version, if it is there and starts.
    fn find(root: &Path) -> Option<(Peer, String)> {
        let libraries = root.join(format!("usr/lib/{}-linux-gnu", std::env::consts::ARCH));
        let place = |name: &str| {
            ["usr/sbin", "usr/bin", ""].iter().map(|folder| root.join(folder).join(name)).find(|path| path.is_file())
        };
        let peer = Peer { server: place("ovsdb-server")?, tool: place("ovsdb-tool")?, libraries };
        let said = peer.command(&peer.server).arg("--version").output().ok().filter(|said| said.status.success())?;
        let version = String::from_utf8_lossy(&said.stdout).lines().next()?.to_string();
        Some((peer, version))
    }

    fn command(&self, executable: &Path) -> Command {
        let mut command = Command::new(executable);
        command.env("LD_LIBRARY_PATH", &self.libraries).stdin(Stdio::null());
        command
    }

    /// Makes a database file in a folder.
    fn create(&self, folder: &Path) -> Outcome<()> {
        let (file, schema) = (folder.join("peer.db"), folder.join("net.ovsschema"));
        fs::write(&schema, SCHEMA).map_err(|e| format!("the peer's schema: {e}"))?;
        let status = self.command(&self.tool).arg("create").arg(&file).arg(&schema).status();
        match status {
            Ok(status) if status.success() => Ok(()),
            Ok(status) => Err(format!("ovsdb-tool ended with {status}")),
            Err(error) => Err(format!("ovsdb-tool: {error}")),
        }
    }

    /// Starts the peer over the file in a folder, and waits for its socket.
    fn start(&self, system: System, folder: &Path) -> Outcome<Server> {
        let socket = folder.join("peer.sock");
        let _ = fs::remove_file(&socket);
        let child = self
            .command(&self.server)
            .arg(format!("--remote=punix:{}", socket.display()))
            .arg(format!("--unixctl={}", folder.join("peer.ctl").display()))
            .args(["-vconsole:off", "-vsyslog:off"])
            .arg(folder.join("peer.db"))
            .stdout(Stdio::null())
            .spawn()
            .map_err(|e| format!("ovsdb-server: {e}"))?;
        let mut process = Process(child);
        let stream = connect(&socket, &mut process)?;
        let input = stream.try_clone().map_err(|e| format!("the peer's socket: {e}"))?;
        Ok(Server::new(system, Some(process), Box::new(input), Box::new(stream)))
    }

    /// The command of the peer that listens on a port of its own, which it writes to standard error.
    fn listen(&self, folder: &Path) -> Command {
        let mut command = self.command(&self.server);
        command
            .arg("--remote=ptcp:0:127.0.0.1")
            .arg(format!("--unixctl={}", folder.join("peer.ctl").display()))
            .args(["-vconsole:off", "-vsyslog:off", "-vsocket_util:console:info"])
            .arg(folder.join("peer.db"));
        command
    }
}

/// A server that listens on a port of its own, for any number of sessions.
pub struct Host {
    pub system: System,
    process: Process,
    port: u16,
    _errors: BufReader<ChildStderr>,
}

impl Host {
    /// Starts a server, and waits until it writes its port.
    fn start(system: System, mut command: Command) -> Outcome<Host> {
        let spawned = command.stdin(Stdio::null()).stdout(Stdio::null()).stderr(Stdio::piped()).spawn();
        let mut process = Process(spawned.map_err(|e| format!("{}: {e}", system.name()))?);
        let mut errors = BufReader::new(process.0.stderr.take().ok_or("no standard error")?);
        loop {
            let mut line = String::new();
            let length = errors.read_line(&mut line).map_err(|e| format!("standard error: {e}"))?;
            if length == 0 {
                return Err(format!("{} ended before it wrote its port", system.name()));
            }
            let line = line.trim_end();
            let port = line.strip_prefix("ov_server: listening at 127.0.0.1:").or(line.split(": listening on port ").nth(1));
            if let Some(port) = port.and_then(|port| port.parse().ok()) {
                return Ok(Host { system, process, port, _errors: errors });
            }
        }
    }

    /// Opens a session, and greets.
    pub fn session(&self) -> Outcome<Server> {
        let said = |e| format!("a session of {}: {e}", self.system.name());
        let stream = TcpStream::connect(("127.0.0.1", self.port)).map_err(said)?;
        stream.set_nodelay(true).map_err(said)?;
        stream.set_read_timeout(Some(LONGEST_REPLY)).map_err(said)?;
        let input = stream.try_clone().map_err(said)?;
        let mut session = Server::new(self.system, None, Box::new(input), Box::new(stream));
        session.greet()?;
        Ok(session)
    }

    /// Resident memory in KiB.
    pub fn resident(&self) -> Outcome<u64> {
        self.process.resident()
    }
}

/// Tries until the socket of a process takes a connection.
fn connect(socket: &Path, process: &mut Process) -> Outcome<UnixStream> {
    let begin = Instant::now();
    loop {
        match UnixStream::connect(socket) {
            Ok(stream) => return Ok(stream),
            Err(error) if begin.elapsed() > LONGEST_START || process.has_ended() => {
                return Err(format!("the peer's socket: {error}"));
            }
            Err(_) => std::thread::sleep(Duration::from_micros(100)),
        }
    }
}

/// A folder for the files of one figure, which is removed at the end.
pub struct Folder(pub PathBuf);

impl Folder {
    pub fn make(above: &Path) -> Outcome<Folder> {
        let path = above.join(format!("bench-{}", std::process::id()));
        fs::create_dir(&path).map_err(|e| format!("{}: {e}", path.display()))?;
        Ok(Folder(path))
    }
}

impl Drop for Folder {
    fn drop(&mut self) {
        let _ = fs::remove_dir_all(&self.0);
    }
}

/// The kind of the file system that a folder lies on. One in memory is refused, since a sync costs nothing there.
pub fn file_system(folder: &Path) -> Outcome<String> {
    let mounts = fs::read_to_string("/proc/self/mounts").map_err(|e| format!("the mounts: {e}"))?;
    let kind = mounts
        .lines()
        .filter_map(|line| line.split(' ').skip(1).take(2).collect::<Vec<_>>().try_into().ok())
        .filter(|[place, _]: &[&str; 2]| folder.starts_with(place))
        .max_by_key(|[place, _]| place.len())
        .map(|[_, kind]| kind.to_string())
        .ok_or("no file system is mounted there")?;
    if kind == "tmpfs" || kind == "ramfs" {
        return Err(format!("the folder for the files lies on {kind}, which is no disk"));
    }
    Ok(kind)
}

/// What was measured of one figure.
#[derive(Default)]
pub struct Measured {
    pub times: Vec<Duration>,
    pub whole: Duration,
}

impl Measured {
    pub fn rate(&self) -> f64 {
        self.times.len() as f64 / self.whole.as_secs_f64()
    }

    /// The median in microseconds.
    pub fn median(&self) -> f64 {
        self.quantile(0.5)
    }

    /// The time in microseconds that this share of all times is below.
    pub fn quantile(&self, share: f64) -> f64 {
        let mut times = self.times.clone();
        times.sort();
        let at = (times.len() as f64 * share) as usize;
        times.get(at.min(times.len().saturating_sub(1))).map_or(0.0, |time| time.as_secs_f64() * 1e6)
    }

    /// Adds a turn: `count` requests, as `make` gives them, with up to `depth` under way. New ones are sent when half of them are
    /// answered.
    pub fn add_turn(
        &mut self,
        server: &mut Server,
        depth: usize,
        count: usize,
        mut make: impl FnMut(&mut Server) -> Exchange,
    ) -> Outcome<()> {
        let begin = Instant::now();
        let mut sent: VecDeque<(Instant, Exchange)> = VecDeque::new();
        let mut left = count;
        while left > 0 || !sent.is_empty() {
            if sent.len() <= depth / 2 && left > 0 {
                let more = left.min(depth - sent.len());
                let exchanges: Vec<Exchange> = (0..more).map(|_| make(server)).collect();
                let batch: String = exchanges.iter().map(|exchange| exchange.request.as_str()).collect();
                let now = Instant::now();
                sent.extend(exchanges.into_iter().map(|exchange| (now, exchange)));
                left -= more;
                server.send(&batch)?;
            }
            if let Some((at, exchange)) = sent.pop_front() {
                server.receive(&exchange)?;
                self.times.push(at.elapsed());
            }
        }
        self.whole += begin.elapsed();
        Ok(())
    }

    /// Adds what was measured of several sessions at the same time, which took as long as the last of them.
    pub fn join(&mut self, all: Vec<Measured>) {
        self.whole += all.iter().map(|one| one.whole).max().unwrap_or_default();
        all.into_iter().for_each(|one| self.times.extend(one.times));
    }

    /// Adds a turn of one time.
    pub fn add(&mut self, time: Duration) {
        self.times.push(time);
        self.whole += time;
    }

    /// Adds a turn: the time that this takes.
    pub fn time(&mut self, work: impl FnOnce() -> Outcome<()>) -> Outcome<()> {
        let begin = Instant::now();
        work()?;
        self.add(begin.elapsed());
        Ok(())
    }

    /// The longest time in milliseconds.
    pub fn longest(&self) -> f64 {
        self.times.iter().max().map_or(0.0, |time| time.as_secs_f64() * 1e3)
    }
}

/// Prints the line of one figure.
pub fn say(name: &str, value: String) -> Outcome<()> {
    writeln!(std::io::stdout(), "{name:<52} {value}").map_err(|e| format!("printing a figure: {e}"))
}

/// Prints a figure as `bench/table` reads it: its name, ours, the peer's, and the unit, with tabs between. One that was not
/// measured is empty.
pub fn figure(name: &str, ours: Option<f64>, peer: Option<f64>, unit: &str) -> Outcome<()> {
    let text = |value: Option<f64>| {
        value.map_or(String::new(), |value| {
            let places = if value < 10.0 { 3 } else if value < 1_000.0 { 1 } else { 0 };
            format!("{value:.places$}")
        })
    };
    writeln!(std::io::stdout(), "figure\t{name}\t{}\t{}\t{unit}", text(ours), text(peer))
        .map_err(|e| format!("printing a figure: {e}"))
}

/// Prints a figure of which each system has a value.
pub fn figure_of(name: &str, all: &[(System, f64)], unit: &str) -> Outcome<()> {
    let value = |is_peer| all.iter().find(|(system, _)| system.is_peer() == is_peer).map(|&(_, value)| value);
    figure(name, value(false), value(true), unit)
}

/// The program, and the peer if it is there.
pub struct Systems {
    program: String,
    peer: Option<Peer>,
}

impl Systems {
    /// The program at a path, and the peer under a root, whose version is printed.
    pub fn find(program: &str, root: &Path) -> Outcome<Systems> {
        let found = Peer::find(root);
        say("peer", found.as_ref().map_or("missing, and left out".into(), |(_, version)| version.clone()))?;
        Ok(Systems { program: program.into(), peer: found.map(|(peer, _)| peer) })
    }

    /// Those of these systems that are there.
    pub fn present(&self, all: &[System]) -> Vec<System> {
        all.iter().copied().filter(|system| !system.is_peer() || self.peer.is_some()).collect()
    }

    /// Makes what a system finds in a folder at its first start.
    pub fn prepare(&self, folder: &Path) -> Outcome<()> {
        self.peer.as_ref().map_or(Ok(()), |peer| peer.create(folder))
    }

    /// Starts a system over the files in a folder, or in memory.
    pub fn start(&self, system: System, folder: &Path) -> Outcome<Server> {
        if let (true, Some(peer)) = (system.is_peer(), &self.peer) {
            return peer.start(system, folder);
        }
        let mut command = Command::new(&self.program);
        if system == System::File {
            command.arg("--db").arg(folder.join("ours.db"));
        }
        let spawned = command.stdin(Stdio::piped()).stdout(Stdio::piped()).spawn();
        let mut process = Process(spawned.map_err(|e| format!("{}: {e}", self.program))?);
        let input = process.0.stdin.take().ok_or("no standard input")?;
        let output = process.0.stdout.take().ok_or("no standard output")?;
        Ok(Server::new(system, Some(process), Box::new(input), Box::new(output)))
    }

    /// Starts a system over the files in a folder, or in memory, on a port of its own.
    pub fn listen(&self, system: System, folder: &Path) -> Outcome<Host> {
        if let (true, Some(peer)) = (system.is_peer(), &self.peer) {
            return Host::start(system, peer.listen(folder));
        }
        let mut command = Command::new(&self.program);
        command.args(["--listen", "127.0.0.1:0"]);
        if system == System::File {
            command.arg("--db").arg(folder.join("ours.db"));
        }
        Host::start(system, command)
    }

    /// Systems that are started anew in a folder, each with a table of `rows` rows.
    pub fn filled(&self, systems: &[System], folder: &Path, rows: usize) -> Outcome<Vec<Server>> {
        self.prepare(folder)?;
        let start = |&system: &System| {
            let mut server = self.start(system, folder)?;
            server.greet()?;
            server.fill(rows)?;
            Ok(server)
        };
        systems.iter().map(start).collect()
    }
}
