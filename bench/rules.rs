//! A driver for commits by the rules of RFC 7047, 3.2, in memory beside Open vSwitch's ovsdb-server: an insert into a table
//! with an index, an update of an indexed column, and a delete that takes a referenced row with it, in tables of three sizes.
//!
//! Each switch has one port, which goes with it. Each reply is compared with the one that is wanted, byte by byte; where an
//! identifier is drawn, any one will do. What a transaction did is looked at, and undone, outside the clock. Plain Rust, std
//! only; `bench/run` builds and starts it.

mod systems;
mod turns;

use std::process::ExitCode;
use std::time::Instant;
use systems::{Exchange, Measured, Outcome, Server, System, by_identifier, deletion, inserted, transact};
use turns::{Bench, Medians, STEP, say_growth};

/// The tables, by their switches.
const TABLES: [usize; 3] = [1_000, 10_000, 100_000];

/// How many switches one transaction inserts while a table is filled.
const FILLED_AT_ONCE: usize = 500;

/// What is measured.
#[derive(Clone, Copy, PartialEq)]
enum Figure {
    Insert,
    Rename,
    Delete,
}

impl Figure {
    const ALL: [Figure; 3] = [Figure::Insert, Figure::Rename, Figure::Delete];

    fn name(self) -> &'static str {
        match self {
            Figure::Insert => "insert of a switch",
            Figure::Rename => "update of an indexed name by _uuid",
            Figure::Delete => "delete by _uuid, its port goes too",
        }
    }
}

/// A switch as it must be in a server's table, and its port.
struct Switch {
    identifier: String,
    port: String,
    name: String,
}

/// One transaction that inserts switches of the numbers from `first` on, each with its port.
fn with_ports(first: usize, switches: usize) -> Exchange {
    let operations: String = (first..first + switches)
        .map(|n| {
            format!(
                ",{{\"op\":\"insert\",\"table\":\"Port\",\"uuid-name\":\"p{n}\",\"row\":{{\"name\":\"port {n}\"}}}}\
                 ,{{\"op\":\"insert\",\"table\":\"Switch\",\"row\":{{\"load\":{n},\"name\":\"switch {n}\",\
                 \"ports\":[\"named-uuid\",\"p{n}\"]}}}}"
            )
        })
        .collect();
    let results = vec![inserted(); 2 * switches];
    transact(first as u64, &operations, format!("[{}]", results.join(",")))
}

/// A server, its switches by their numbers, and the one that was asked for last.
struct Table {
    server: Server,
    switches: Vec<Switch>,
    last: usize,
}

impl Table {
    /// Fills a server's empty tables with `switches` switches and as many ports.
    fn fill(server: Server, switches: usize) -> Outcome<Table> {
        let mut table = Table { server, switches: Vec::new(), last: 0 };
        while table.switches.len() < switches {
            let count = FILLED_AT_ONCE.min(switches - table.switches.len());
            let more = table.inserted(table.switches.len(), count)?;
            table.switches.extend(more);
        }
        Ok(table)
    }

    /// Inserts switches with their ports.
    fn inserted(&mut self, first: usize, count: usize) -> Outcome<Vec<Switch>> {
        let identifiers = self.server.ask_for_identifiers(&with_ports(first, count))?;
        let pairs = identifiers.chunks_exact(2).zip(first..);
        let switch = |(pair, n): (&[String], usize)| Switch {
            identifier: pair[1].clone(),
            port: pair[0].clone(),
            name: format!("switch {n}"),
        };
        Ok(pairs.map(switch).collect())
    }

    /// Reads a column of the row of an identifier, which must have this value; without one the row must not be there.
    fn read_back(&mut self, table: &str, identifier: &str, name: Option<&str>) -> Outcome<()> {
        let condition = by_identifier(identifier);
        let operation = format!(",{{\"op\":\"select\",\"table\":\"{table}\",\"where\":[{condition}],\"columns\":[\"name\"]}}");
        let rows = name.map_or(String::new(), |name| format!("{{\"name\":\"{name}\"}}"));
        self.server.ask(&transact(0, &operation, format!("[{{\"rows\":[{rows}]}}]")))
    }

    /// One insert of a switch without a port. It is deleted again outside the clock.
    fn insert(&mut self, n: usize, measured: &mut Measured) -> Outcome<()> {
        let operation = format!(",{{\"op\":\"insert\",\"table\":\"Switch\",\"row\":{{\"load\":{n},\"name\":\"new {n}\"}}}}");
        let exchange = transact(n as u64, &operation, format!("[{}]", inserted()));
        let begin = Instant::now();
        let identifier = self.server.ask_for_identifier(&exchange)?;
        measured.add(begin.elapsed());
        self.read_back("Switch", &identifier, Some(&format!("new {n}")))?;
        self.server.ask(&deletion(n as u64, &identifier))
    }

    /// One update of the name of a switch, which has two names in turn.
    fn rename(&mut self, n: usize, measured: &mut Measured) -> Outcome<()> {
        let switch = &mut self.switches[n];
        switch.name = if switch.name.starts_with("switch") { format!("bridge {n}") } else { format!("switch {n}") };
        let (condition, name) = (by_identifier(&switch.identifier), switch.name.clone());
        let operation =
            format!(",{{\"op\":\"update\",\"table\":\"Switch\",\"where\":[{condition}],\"row\":{{\"name\":\"{name}\"}}}}");
        let exchange = transact(n as u64, &operation, "[{\"count\":1}]".into());
        measured.time(|| self.server.ask(&exchange))?;
        let identifier = self.switches[n].identifier.clone();
        self.read_back("Switch", &identifier, Some(&name))
    }

    /// One delete of a switch. Its port must be gone then; both are inserted again outside the clock.
    fn delete(&mut self, n: usize, measured: &mut Measured) -> Outcome<()> {
        let Switch { identifier, port, .. } = &self.switches[n];
        let (exchange, identifier, port) = (deletion(n as u64, identifier), identifier.clone(), port.clone());
        measured.time(|| self.server.ask(&exchange))?;
        self.read_back("Switch", &identifier, None)?;
        self.read_back("Port", &port, None)?;
        let mut again = self.inserted(n, 1)?;
        self.switches[n] = again.pop().ok_or("an insert without an identifier")?;
        Ok(())
    }

    /// A turn of one figure.
    fn turn(&mut self, figure: Figure, measured: &mut Measured) -> Outcome<()> {
        turns::turn(|| {
            self.last = (self.last + STEP) % self.switches.len();
            let n = self.last;
            match figure {
                Figure::Insert => self.insert(n, measured),
                Figure::Rename => self.rename(n, measured),
                Figure::Delete => self.delete(n, measured),
            }
        })
    }
}

impl Bench {
    /// All figures of tables of `switches` switches. Returns the medians of each.
    fn figures(&self, switches: usize) -> Outcome<Vec<Medians>> {
        let folder = self.folder()?;
        let servers = self.started(&folder, 0)?;
        let mut tables: Vec<Table> = servers.into_iter().map(|server| Table::fill(server, switches)).collect::<Outcome<_>>()?;
        let mut medians = Vec::new();
        for figure in Figure::ALL {
            let measured = self.take_turns(&mut tables, |table, measured| table.turn(figure, measured))?;
            let systems = tables.iter().map(|table| table.server.system);
            let all: Vec<(System, Measured)> = systems.zip(measured).collect();
            medians.push(self.say_rates(&format!("{}, {switches} switches", figure.name()), &all)?);
        }
        tables.into_iter().try_for_each(|table| table.server.finish())?;
        Ok(medians)
    }

    fn all_figures(&self) -> Outcome<()> {
        let medians: Vec<_> = TABLES.into_iter().map(|switches| self.figures(switches)).collect::<Outcome<_>>()?;
        let [first, .., last] = TABLES;
        Figure::ALL.into_iter().zip(medians[0].iter().zip(&medians[TABLES.len() - 1])).try_for_each(|(figure, (small, large))| {
            say_growth(&format!("{}, {last} switches over {first}", figure.name()), small, large)
        })
    }
}

fn main() -> ExitCode {
    turns::run("rules", Bench::all_figures)
}
