//! A driver for many sessions over TCP, beside Open vSwitch's ovsdb-server: echoes of one session and of sixteen, echoes after a
//! pause, durable inserts of sixteen, selects of one row, updates sent to thirty-two sessions, and the memory of sixty-four.
//!
//! Each reply and each update is compared with the one that is wanted, byte by byte; where an identifier is drawn, any one will
//! do. Those that are compared take turns in one run. Plain Rust, std only; `bench/run` builds and starts it.

mod systems;
mod turns;
mod watched;

use std::process::ExitCode;
use std::sync::Barrier;
use std::thread;
use std::time::Duration;
use systems::{Exchange, Host, Measured, Outcome, Server, System, figure_of, file_system, inserts, say, search};
use turns::{Bench, MICROSECONDS, STEP, SYSTEMS};
use watched::{Row, call, monitor};

/// What is compared where each commit is synced before its reply.
const DURABLE: [System; 2] = [System::File, System::DurablePeer];

/// How many sessions echo, and how many requests of each are under way.
const ECHOING: [usize; 2] = [1, 16];
const DEPTHS: [usize; 2] = [1, 32];

/// The pauses before an echo of its own, and the shares of all echoes whose time is printed.
const PAUSES: [(&str, Duration); 2] = [("0.2 ms", Duration::from_micros(200)), ("3 ms", Duration::from_millis(3))];
const SHARES: [(&str, f64); 3] = [("p50", 0.5), ("p99", 0.99), ("p99.9", 0.999)];

/// How many sessions insert, and how many are sent updates.
const INSERTING: usize = 16;
const WATCHING: usize = 32;

/// How many sessions a server has at most.
const MOST: usize = 64;

/// How many rows the table has that selects look into.
const ROWS: usize = 10_000;

/// How many requests all sessions have together in a turn.
const ECHOES_IN_A_TURN: usize = 4_000;
const PAUSES_IN_A_TURN: usize = 50;
const INSERTS_IN_A_TURN: usize = 320;
const SELECTS_IN_A_TURN: usize = 20;
const UPDATES_IN_A_TURN: usize = 100;

/// How far the numbers of the rows of two sessions are apart.
const APART: u64 = 1_000_000;

/// Sessions of one server.
struct Group {
    host: Host,
    sessions: Vec<Server>,
}

impl Group {
    fn open(host: Host, count: usize) -> Outcome<Group> {
        let mut sessions: Vec<Server> = (0..count).map(|_| host.session()).collect::<Outcome<_>>()?;
        (0..).zip(&mut sessions).for_each(|(n, session)| session.rows = n * APART);
        Ok(Group { host, sessions })
    }

    /// Adds a turn of all sessions at the same time.
    fn add_turn(&mut self, measured: &mut Measured, depth: usize, all: usize, make: fn(&mut Server) -> Exchange) -> Outcome<()> {
        let count = all / self.sessions.len();
        let gate = Barrier::new(self.sessions.len());
        let turn = |session: &mut Server| {
            let mut own = Measured::default();
            gate.wait();
            own.add_turn(session, depth, count, make).map(|()| own)
        };
        measured.join(at_once(&mut self.sessions, turn)?);
        Ok(())
    }
}

/// Does this with all of these at the same time, in threads.
fn at_once<S: Send, T: Send>(all: &mut [S], work: impl Fn(&mut S) -> Outcome<T> + Sync) -> Outcome<Vec<T>> {
    thread::scope(|scope| {
        let started: Vec<_> = all.iter_mut().map(|one| scope.spawn(|| work(one))).collect();
        started.into_iter().map(|one| one.join().map_err(|_| "a session's thread panicked")?).collect()
    })
}

/// The next echo of a session.
fn next_echo(session: &mut Server) -> Exchange {
    session.rows += 1;
    let id = session.rows;
    call(id, "echo", &format!("\"hello\",{id}"), format!("[\"hello\",{id}]"))
}

/// An insert of the row after those of the session.
fn next_insert(session: &mut Server) -> Exchange {
    session.rows += 1;
    inserts(session.system, session.rows - 1, 1)
}

/// A search for another row than the one before.
fn next_search(session: &mut Server) -> Exchange {
    session.rows += STEP as u64;
    search(session.rows % ROWS as u64)
}

/// A row that one session changes, and the sessions that watch it, each with its monitor's number.
struct Watched {
    row: Row,
    changing: Server,
    watching: Vec<(usize, Server)>,
    host: Host,
}

impl Watched {
    fn open(host: Host) -> Outcome<Watched> {
        let mut changing = host.session()?;
        let identifier = changing.fill(1)?.pop().ok_or("a table without its row")?;
        let row = Row { identifier, n: 0, load: 0 };
        let watch = |n: usize| {
            let mut session = host.session()?;
            session.ask(&monitor(n, std::slice::from_ref(&row)))?;
            Ok((n, session))
        };
        let watching = (0..WATCHING).map(watch).collect::<Outcome<_>>()?;
        Ok(Watched { row, changing, watching, host })
    }

    /// Adds a turn: updates one after the other, until all sessions have read all. Before it each of these sends an echo, since
    /// the peer asks a session that is silent for long whether it is there.
    fn add_turn(&mut self, measured: &mut Measured) -> Outcome<()> {
        self.watching.iter_mut().try_for_each(|(_, session)| {
            let echo = next_echo(session);
            session.ask(&echo)
        })?;
        let made: Vec<(Exchange, usize)> = (0..UPDATES_IN_A_TURN).map(|_| (self.row.change(), self.row.load)).collect();
        let (identifier, changing) = (self.row.identifier.as_str(), &mut self.changing);
        let told = |(n, session): &mut (usize, Server)| {
            made.iter().try_for_each(|&(_, load)| {
                let row = Row { identifier: identifier.into(), n: 0, load };
                session.receive_before(&row.update(*n))
            })
        };
        let watching = &mut self.watching;
        measured.time(|| {
            thread::scope(|scope| {
                let all = scope.spawn(|| at_once(watching, told));
                made.iter().try_for_each(|(change, _)| changing.ask(change))?;
                all.join().map_err(|_| "a session's thread panicked")?.map(drop)
            })
        })
    }
}

impl Bench {
    /// Measures one figure of `count` sessions of each system.
    fn sessions(
        &self,
        systems: &[System],
        count: usize,
        depth: usize,
        all: usize,
        make: fn(&mut Server) -> Exchange,
    ) -> Outcome<Vec<(System, Measured)>> {
        let folder = self.folder()?;
        let open = |host| Group::open(host, count);
        let mut groups: Vec<Group> = self.listening(systems, &folder)?.into_iter().map(open).collect::<Outcome<_>>()?;
        let measured = self.take_turns(&mut groups, |group, measured| group.add_turn(measured, depth, all, make))?;
        Ok(groups.iter().map(|group| group.host.system).zip(measured).collect())
    }

    fn echoes(&self, count: usize, depth: usize) -> Outcome<()> {
        let all = self.sessions(&SYSTEMS, count, depth, ECHOES_IN_A_TURN, next_echo)?;
        self.say_rates(&format!("echo, sessions: {count}, depth {depth}"), &all).map(drop)
    }

    /// The times of single echoes, each after a pause, as clients send them that have other work.
    fn pauses(&self, name: &str, pause: Duration) -> Outcome<()> {
        let folder = self.folder()?;
        let hosts = self.listening(&SYSTEMS, &folder)?;
        let mut sessions: Vec<Server> = hosts.iter().map(Host::session).collect::<Outcome<_>>()?;
        let turn = |session: &mut Server, measured: &mut Measured| {
            (0..PAUSES_IN_A_TURN).try_for_each(|_| {
                let echo = next_echo(session);
                thread::sleep(pause);
                measured.time(|| session.ask(&echo))
            })?;
            // A turn takes as long as its pauses, too.
            measured.whole += pause * PAUSES_IN_A_TURN as u32;
            Ok(())
        };
        let measured = self.take_turns(&mut sessions, turn)?;
        for (share, part) in SHARES {
            let name = format!("echo after a pause of {name}, {share}");
            let all: Vec<_> = hosts.iter().zip(&measured).map(|(host, one)| (host.system, one.quantile(part))).collect();
            for (system, time) in &all {
                say(&format!("{name}, {}", system.name()), format!("{time:>11.1} us"))?;
            }
            figure_of(&name, &all, "us")?;
        }
        Ok(())
    }

    fn durable_inserts(&self) -> Outcome<()> {
        say("files on", file_system(&self.folder()?.0)?)?;
        let all = self.sessions(&DURABLE, INSERTING, 1, INSERTS_IN_A_TURN, next_insert)?;
        self.say_rates(&format!("insert in a file, sessions: {INSERTING}"), &all).map(drop)
    }

    fn selects(&self) -> Outcome<()> {
        let folder = self.folder()?;
        let hosts = self.listening(&SYSTEMS, &folder)?;
        let filled = |host: &Host| {
            let mut session = host.session()?;
            session.fill(ROWS)?;
            Ok(session)
        };
        let mut sessions: Vec<Server> = hosts.iter().map(filled).collect::<Outcome<_>>()?;
        let measured = self.take_turns(&mut sessions, |session, measured| {
            measured.add_turn(session, 1, SELECTS_IN_A_TURN, next_search)
        })?;
        let all: Vec<_> = hosts.iter().map(|host| host.system).zip(measured).collect();
        self.say_medians(&format!("select by name over TCP, {ROWS} rows"), &all, MICROSECONDS).map(drop)
    }

    fn monitors(&self) -> Outcome<()> {
        let folder = self.folder()?;
        let hosts = self.listening(&SYSTEMS, &folder)?;
        let mut all: Vec<Watched> = hosts.into_iter().map(Watched::open).collect::<Outcome<_>>()?;
        let measured = self.take_turns(&mut all, Watched::add_turn)?;
        let rate = |measured: &Measured| measured.rate() * (UPDATES_IN_A_TURN * WATCHING) as f64;
        for (watched, measured) in all.iter().zip(&measured) {
            let name = format!("updates delivered, sessions: {WATCHING}, {}", watched.host.system.name());
            say(&name, format!("{:>9.0} per second", rate(measured)))?;
        }
        if let [ours, peer] = &measured[..] {
            let name = format!("updates delivered, sessions: {WATCHING}, ours / peer");
            say(&name, format!("{:>9.2} times as many", rate(ours) / rate(peer)))?;
        }
        let rates: Vec<_> = all.iter().zip(&measured).map(|(watched, measured)| (watched.host.system, rate(measured))).collect();
        figure_of(&format!("updates delivered, sessions: {WATCHING}"), &rates, "per second")
    }

    /// The resident memory of a server with one session, and with as many as it has at most, each of which was greeted.
    fn memory(&self) -> Outcome<()> {
        let folder = self.folder()?;
        let (mut one, mut most) = (Vec::new(), Vec::new());
        for host in self.listening(&SYSTEMS, &folder)? {
            let name = host.system.name();
            let mut sessions = vec![host.session()?];
            let before = host.resident()?;
            (1..MOST).try_for_each(|_| host.session().map(|session| sessions.push(session)))?;
            let after = host.resident()?;
            sessions.into_iter().try_for_each(Server::finish)?;
            say(&format!("resident memory, sessions: 1, {name}"), format!("{before:>9} KiB"))?;
            say(&format!("resident memory, sessions: {MOST}, {name}"), format!("{after:>9} KiB"))?;
            one.push((host.system, before as f64));
            most.push((host.system, after as f64));
        }
        figure_of("resident memory, sessions: 1", &one, "KiB")?;
        figure_of(&format!("resident memory, sessions: {MOST}"), &most, "KiB")
    }

    fn all_figures(&self) -> Outcome<()> {
        ECHOING.into_iter().try_for_each(|count| DEPTHS.into_iter().try_for_each(|depth| self.echoes(count, depth)))?;
        PAUSES.into_iter().try_for_each(|(name, pause)| self.pauses(name, pause))?;
        self.durable_inserts()?;
        self.selects()?;
        self.monitors()?;
        self.memory()
    }
}

fn main() -> ExitCode {
    turns::run("sockets", Bench::all_figures)
}
