//! A driver for what a session keeps, in memory beside Open vSwitch's ovsdb-server: commits with waits outstanding, locks taken
//! and released beside others, commits with monitors, the first answer of a monitor, and the memory after it.
//!
//! Each figure is of one session of each server. Each reply and each update is compared with the one that is wanted, byte by
//! byte; where an identifier is drawn, any one will do. The rows of a first answer may stand in any order. Plain Rust, std only;
//! `bench/run` builds and starts it.

mod systems;
mod turns;
mod watched;

use std::collections::BTreeMap;
use std::process::ExitCode;
use std::time::Instant;
use systems::{Exchange, Measured, Outcome, Server, System, deletion, figure_of, inserts, say, transact};
use turns::{Bench, MILLISECONDS};
use watched::{Row, call, monitor};

/// How many waits are outstanding. With the last, ours takes one transaction more and no more.
const WAITS: [u64; 2] = [0, 63];

/// How many other locks the session holds. With the last, ours takes one more and no more.
const LOCKS: [u64; 2] = [1, 255];

/// How many monitors there are.
const MONITORS: [usize; 3] = [1, 8, 32];

/// How many rows the table has that a first answer lists.
const ROWS: usize = 10_000;

/// The number of the first row that is waited for.
const AWAITED: u64 = 1_000_000;

/// A transaction that waits until there is the row of a number.
fn wait(n: u64) -> Exchange {
    let operation = format!(
        ",{{\"op\":\"wait\",\"table\":\"Switch\",\"where\":[[\"name\",\"==\",\"switch {n}\"]],\"columns\":[\"name\"],\
         \"until\":\"==\",\"rows\":[{{\"name\":\"switch {n}\"}}]}}"
    );
    transact(n, &operation, "[{}]".into())
}

/// A session with `waits` waits outstanding.
fn waiting(mut server: Server, waits: u64) -> Outcome<Server> {
    (AWAITED..AWAITED + waits).try_for_each(|n| server.send(&wait(n).request))?;
    Ok(server)
}

/// Two commits: an insert of a row that no wait is for, and a delete of it.
fn insert_and_delete(server: &mut Server, measured: &mut Measured) -> Outcome<()> {
    let insert = inserts(server.system, 0, 1);
    let begin = Instant::now();
    let identifier = server.ask_for_identifier(&insert)?;
    measured.add(begin.elapsed());
    let delete = deletion(1, &identifier);
    measured.time(|| server.ask(&delete))
}

/// Inserts all rows that are waited for, so each wait is answered, which shows that all were outstanding. The row before them
/// goes with them: the request has its number, and none of a wait.
fn meet_all(mut server: Server, waits: u64) -> Outcome<Server> {
    server.ask(&inserts(server.system, AWAITED - 1, waits as usize + 1))?;
    (AWAITED..AWAITED + waits).try_for_each(|n| server.receive(&wait(n)))?;
    Ok(server)
}

fn lock(n: u64) -> Exchange {
    call(n, "lock", &format!("\"lock_{n}\""), "{\"locked\":true}".into())
}

fn unlock(n: u64) -> Exchange {
    call(n, "unlock", &format!("\"lock_{n}\""), "{}".into())
}

/// A server whose session holds locks, or gives them up.
fn with_locks(mut server: Server, numbers: std::ops::RangeInclusive<u64>, exchange: fn(u64) -> Exchange) -> Outcome<Server> {
    for n in numbers {
        server.ask(&exchange(n))?;
    }
    Ok(server)
}

fn monitor_cancel(n: usize) -> Exchange {
    call(n as u64, "monitor_cancel", &format!("\"monitor {n:02}\""), "{}".into())
}

/// A session that has rows.
struct Filled {
    server: Server,
    rows: Vec<Row>,
}

impl Filled {
    fn fill(mut server: Server, rows: usize) -> Outcome<Filled> {
        let identifiers = server.fill(rows)?;
        let rows = (0..).zip(identifiers).map(|(n, identifier)| Row { identifier, n, load: n }).collect();
        Ok(Filled { server, rows })
    }

    /// Asks for a monitor, and compares the rows of its first answer, off the clock. Then the monitor is canceled.
    fn first_answer(&mut self, measured: &mut Measured) -> Outcome<()> {
        let exchange = monitor(0, &self.rows);
        let (time, reply) = self.server.ask_on_the_clock(&exchange)?;
        measured.add(time);
        let told = rows_told(&reply);
        let is_told = |row: &Row| told.get(row.identifier.as_str()).is_some_and(|values| *values == row.values());
        if told.len() != self.rows.len() || !self.rows.iter().all(is_told) {
            return Err(format!("a wrong first answer of {}", self.server.system.name()));
        }
        self.server.ask(&monitor_cancel(0))
    }
}

/// The rows of a first answer: the columns of each by its identifier.
fn rows_told(reply: &str) -> BTreeMap<&str, &str> {
    let rows = reply.split("}}").filter_map(|part| part.split_once(":{\"new\":{"));
    rows.filter_map(|(front, values)| Some((front.rsplit('"').nth(1)?, values))).collect()
}

/// A session with a table of one row, and its monitors in the order of their updates after a commit.
struct Watched {
    server: Server,
    row: Row,
    monitors: Vec<usize>,
}

impl Watched {
    fn new(server: Server, monitors: usize) -> Outcome<Watched> {
        let Filled { mut server, mut rows } = Filled::fill(server, 1)?;
        (0..monitors).try_for_each(|n| server.ask(&monitor(n, &rows)))?;
        let row = rows.pop().ok_or("a table without its row")?;
        let mut watched = Watched { server, row, monitors: Vec::new() };
        watched.learn(monitors)?;
        Ok(watched)
    }

    /// A commit.
    fn change(&mut self) -> Exchange {
        self.row.change()
    }

    /// The first commit, which shows the order of the monitors: ours has that of their creation, the peer that of its hashes.
    fn learn(&mut self, monitors: usize) -> Outcome<()> {
        let change = self.change();
        self.server.send(&change.request)?;
        let updates: Vec<String> = (0..monitors).map(|n| self.row.update(n)).collect();
        for update in &updates {
            let seen = self.server.take_bytes(update.len())?;
            let monitor = updates.iter().position(|update| *update == seen).filter(|n| !self.monitors.contains(n));
            self.monitors.push(monitor.ok_or_else(|| format!("a wrong update of {}: {seen}", self.server.system.name()))?);
        }
        self.server.receive(&change)
    }

    /// A commit whose updates are read, and then its reply.
    fn commit(&mut self, measured: &mut Measured) -> Outcome<()> {
        let change = self.change();
        let updates: String = self.monitors.iter().map(|&n| self.row.update(n)).collect();
        measured.time(|| {
            self.server.send(&change.request)?;
            self.server.receive_before(&updates)?;
            self.server.receive(&change)
        })
    }

    /// Takes back all monitors.
    fn end(mut self) -> Outcome<Server> {
        (0..self.monitors.len()).try_for_each(|n| self.server.ask(&monitor_cancel(n)))?;
        Ok(self.server)
    }
}

impl Bench {
    /// Commits with `waits` waits outstanding, each for another row, which is not there.
    fn waits(&self, waits: u64) -> Outcome<()> {
        let all = self.made_ready(
            0,
            |server| waiting(server, waits),
            |server, measured| turns::turn(|| insert_and_delete(server, measured)),
            |server| meet_all(server, waits),
        )?;
        self.say_rates(&format!("insert or delete, {waits} waits"), &all).map(drop)
    }

    /// Pairs of `lock` and `unlock` of one name, in a session that holds `others` other locks.
    fn locks(&self, others: u64) -> Outcome<()> {
        let (lock_it, unlock_it) = (lock(0), unlock(0));
        let pair = |server: &mut Server| {
            server.ask(&lock_it)?;
            server.ask(&unlock_it)
        };
        let all = self.made_ready(
            0,
            |server| with_locks(server, 1..=others, lock),
            |server, measured| turns::turn(|| measured.time(|| pair(server))),
            |server| with_locks(server, 1..=others, unlock),
        )?;
        self.say_rates(&format!("lock and unlock, others held: {others}"), &all).map(drop)
    }

    /// Commits with `monitors` monitors.
    fn monitors(&self, monitors: usize) -> Outcome<()> {
        let all = self.made_ready(
            0,
            |server| Watched::new(server, monitors),
            |watched, measured| turns::turn(|| watched.commit(measured)),
            Watched::end,
        )?;
        self.say_rates(&format!("update, monitors: {monitors}"), &all).map(drop)
    }

    /// First answers of a monitor over a table.
    fn first_answers(&self) -> Outcome<()> {
        let all = self.made_ready(0, |server| Filled::fill(server, ROWS), Filled::first_answer, |filled| Ok(filled.server))?;
        self.say_medians(&format!("first answer of a monitor, {ROWS} rows"), &all, MILLISECONDS).map(drop)
    }

    /// The resident memory of a session with a table, and of one with a monitor over it.
    fn memory(&self) -> Outcome<()> {
        let folder = self.folder()?;
        let names = [format!("resident memory, {ROWS} rows"), format!("resident memory, a monitor of {ROWS} rows")];
        let mut looks: [Vec<(System, f64)>; 2] = Default::default();
        for server in self.started(&folder, 0)? {
            let system = server.system;
            let mut look = |n: usize, server: &Server| {
                let resident = server.resident()?;
                looks[n].push((system, resident as f64));
                say(&format!("{}, {}", names[n], system.name()), format!("{resident:>9} KiB"))
            };
            let mut filled = Filled::fill(server, ROWS)?;
            look(0, &filled.server)?;
            let exchange = monitor(0, &filled.rows);
            filled.server.send(&exchange.request)?;
            filled.server.take(&exchange)?;
            look(1, &filled.server)?;
            filled.server.finish()?;
        }
        names.iter().zip(&looks).try_for_each(|(name, look)| figure_of(name, look, "KiB"))
    }

    fn all_figures(&self) -> Outcome<()> {
        WAITS.into_iter().try_for_each(|waits| self.waits(waits))?;
        LOCKS.into_iter().try_for_each(|others| self.locks(others))?;
        MONITORS.into_iter().try_for_each(|monitors| self.monitors(monitors))?;
        self.first_answers()?;
        self.memory()
    }
}

fn main() -> ExitCode {
    turns::run("sessions", Bench::all_figures)
}
