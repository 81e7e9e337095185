//! A driver for the server in memory beside Open vSwitch's ovsdb-server: echoes of all sizes, the memory after them,
//! selects of all rows, and inserts.
//!
//! Each reply is compared with the one that is wanted, byte by byte; the rows of a select may stand in any order. Those that are
//! compared take turns in one run. Plain Rust, std only; `bench/run` builds and starts it.

mod systems;
mod turns;

use std::collections::BTreeSet;
use std::process::ExitCode;
use std::time::Duration;
use systems::{Exchange, Measured, Outcome, Server, System, figure_of, inserts, say, transact};
use turns::{Bench, MILLISECONDS, Medians, say_growth};

/// The size of a piece, in bytes: what the server reads at once.
const PIECE: usize = 4_096;

/// How many small echoes come in one turn, and how many selects.
const ECHOES_IN_A_TURN: usize = 2_000;
const SELECTS_IN_A_TURN: usize = 3;

/// The tables that selects go over, by their rows.
const TABLES: [usize; 3] = [2_000, 10_000, 20_000];

/// How many echoes come before each look at the resident memory.
const ECHOES_BEFORE_A_LOOK: [usize; 4] = [0, 5_000, 100_000, 1_000_000];

/// A request of a few bytes, which is answered with its own parameters (RFC 7047, 4.1.11).
fn small_echo(id: u64) -> Exchange {
    Exchange {
        id,
        request: format!("{{\"id\":{id},\"method\":\"echo\",\"params\":[\"hello\",{id}]}}"),
        result: format!("[\"hello\",{id}]"),
    }
}

/// An echo of one text in a request of `length` bytes.
fn long_echo(length: usize) -> Exchange {
    let begin = "{\"id\":0,\"method\":\"echo\",\"params\":[\"";
    let text = "a".repeat(length - begin.len() - "\"]}".len());
    Exchange { id: 0, request: format!("{begin}{text}\"]}}"), result: format!("[\"{text}\"]") }
}

/// Sends a request in pieces, and waits for its reply.
fn ask_in_pieces(server: &mut Server, exchange: &Exchange) -> Outcome<()> {
    let text = &exchange.request;
    let ends = (PIECE..text.len()).step_by(PIECE).chain([text.len()]);
    ends.scan(0, |from, to| Some(std::mem::replace(from, to)..to)).try_for_each(|piece| server.send(&text[piece]))?;
    server.receive(exchange)
}

/// Asks for the names of all rows, and compares the names of the reply, which may stand in any order. It gives the time until
/// the reply was whole.
fn select_all(server: &mut Server, rows: usize) -> Outcome<Duration> {
    let rows_of = |numbers: &mut dyn Iterator<Item = usize>| {
        numbers.map(|n| format!("{{\"name\":\"switch {n}\"}}")).collect::<Vec<_>>().join(",")
    };
    let wanted = rows_of(&mut (0..rows));
    let operation = ",{\"op\":\"select\",\"table\":\"Switch\",\"where\":[],\"columns\":[\"name\"]}";
    let exchange = transact(1, operation, format!("[{{\"rows\":[{wanted}]}}]"));
    let (time, reply) = server.ask_on_the_clock(&exchange)?;
    let names: BTreeSet<&str> = reply.split('"').filter(|part| part.starts_with("switch ")).collect();
    let all = (0..rows).all(|n| names.contains(format!("switch {n}").as_str()));
    if all && names.len() == rows { Ok(time) } else { Err(format!("a wrong select of {}", server.system.name())) }
}

impl Bench {
    fn small_echoes(&self, depth: usize) -> Outcome<()> {
        let mut id = 0;
        let mut next = move |_: &mut Server| {
            id += 1;
            small_echo(id)
        };
        let all = self.in_turns(0, |server, measured| measured.add_turn(server, depth, ECHOES_IN_A_TURN, &mut next))?;
        self.say_rates(&format!("small echo, depth {depth}"), &all).map(drop)
    }

    /// The median times of an echo in a request of `length` bytes that is sent in pieces.
    fn long_echoes(&self, name: &str, length: usize) -> Outcome<Medians> {
        let exchange = long_echo(length);
        let all = self.in_turns(0, |server, measured| measured.time(|| ask_in_pieces(server, &exchange)))?;
        self.say_medians(name, &all, MILLISECONDS)
    }

    /// The resident memory after ever more small echoes, and how it grew.
    fn memory(&self) -> Outcome<()> {
        let folder = self.folder()?;
        let mut servers = self.started(&folder, 0)?;
        let mut looks: [Vec<(System, f64)>; ECHOES_BEFORE_A_LOOK.len()] = Default::default();
        for server in &mut servers {
            let mut sent = 0;
            for (count, look) in ECHOES_BEFORE_A_LOOK.into_iter().zip(&mut looks) {
                let mut next = |_: &mut Server| {
                    sent += 1;
                    small_echo(sent as u64)
                };
                let more = count - ECHOES_BEFORE_A_LOOK.iter().filter(|&&before| before < count).max().unwrap_or(&0);
                Measured::default().add_turn(server, 32, more, &mut next)?;
                let name = format!("resident memory, {count} small echoes, {}", server.system.name());
                let resident = server.resident()?;
                say(&name, format!("{resident:>9} KiB"))?;
                look.push((server.system, resident as f64));
            }
        }
        let [start, few, .., most] = &looks;
        let grown = |from: &[(System, f64)]| -> Vec<(System, f64)> {
            most.iter().zip(from).map(|((system, to), (_, from))| (*system, to - from)).collect()
        };
        let [_, first, .., all] = ECHOES_BEFORE_A_LOOK;
        figure_of("resident memory at the start", start, "KiB")?;
        figure_of(&format!("growth over {all} small echoes"), &grown(start), "KiB")?;
        figure_of(&format!("growth after the first {first} small echoes"), &grown(few), "KiB")?;
        servers.into_iter().try_for_each(Server::finish)
    }

    /// Selects of all names over tables of more and more rows, and by how much longer the largest takes than the smallest.
    fn selects(&self) -> Outcome<()> {
        let mut medians = Vec::new();
        for rows in TABLES {
            let all = self.in_turns(rows, |server, measured| {
                (0..SELECTS_IN_A_TURN).try_for_each(|_| {
                    let time = select_all(server, rows)?;
                    measured.add(time);
                    Ok(())
                })
            })?;
            medians.push(self.say_medians(&format!("select of all names, {rows} rows"), &all, MILLISECONDS)?);
        }
        let [first, .., last] = TABLES;
        say_growth(&format!("select of all names, {last} rows over {first}"), &medians[0], &medians[TABLES.len() - 1])
    }

    /// Inserts of one row a transaction, 32 under way.
    fn inserts(&self, rows: usize) -> Outcome<()> {
        let all = self.in_turns(rows, |server, measured| {
            measured.add_turn(server, 32, 200, |server| {
                server.rows += 1;
                inserts(server.system, server.rows - 1, 1)
            })
        })?;
        self.say_rates(&format!("insert, depth 32, {rows} rows and more"), &all).map(drop)
    }

    fn figures(&self) -> Outcome<()> {
        self.small_echoes(1)?;
        self.small_echoes(32)?;
        let shorter = self.long_echoes("64 KiB echo in pieces", 1 << 16)?;
        let longer = self.long_echoes("1 MiB echo in pieces", 1 << 20)?;
        let longer: Medians = longer.into_iter().map(|(system, median)| (system, median / 16.0)).collect();
        say_growth("a byte of a 1 MiB echo over one of 64 KiB", &shorter, &longer)?;
        self.memory()?;
        self.selects()?;
        self.inserts(1_000)
    }
}

fn main() -> ExitCode {
    turns::run("beside", Bench::figures)
}
