//! A driver for the operations of RFC 7047, 5.2, in memory beside Open vSwitch's ovsdb-server: selects, updates, mutations and
//! deletes of one row, found by its identifier or by its name, and transactions of many inserts, in tables of three sizes.
//!
//! Each reply is compared with the one that is wanted, byte by byte; where an identifier is drawn, any one will do. What a
//! transaction wrote is read back outside the clock. Both servers take turns in one run; an operation that one of them does not
//! know is said in a line and left out. Plain Rust, std only; `bench/run` builds and starts it.

mod systems;
mod turns;

use std::process::ExitCode;
use systems::{Exchange, Measured, Outcome, Server, System, by_identifier, inserts, say, transact};
use turns::{Bench, Medians, STEP, say_growth};

/// The tables, by their rows.
const TABLES: [usize; 3] = [1_000, 10_000, 100_000];

/// How many rows one of the long transactions inserts.
const INSERTS: usize = 1_000;

/// No row has this identifier.
const NO_ROW: &str = "00000000-0000-0000-0000-000000000000";

/// An operation on one row.
#[derive(Clone, Copy, PartialEq)]
enum Operation {
    Select,
    Update,
    Mutate,
    Delete,
}

impl Operation {
    const ALL: [Operation; 4] = [Operation::Select, Operation::Update, Operation::Mutate, Operation::Delete];

    fn name(self) -> &'static str {
        match self {
            Operation::Select => "select",
            Operation::Update => "update",
            Operation::Mutate => "mutate",
            Operation::Delete => "delete",
        }
    }

    /// The operation on the rows that meet a condition. An update writes this load, and a mutation adds one to the row's own.
    fn text(self, condition: &str, load: usize) -> String {
        let members = match self {
            Operation::Select => ",\"columns\":[\"name\"]".into(),
            Operation::Update => format!(",\"row\":{{\"load\":{load}}}"),
            Operation::Mutate => ",\"mutations\":[[\"load\",\"+=\",1]]".into(),
            Operation::Delete => String::new(),
        };
        format!(",{{\"op\":\"{}\",\"table\":\"Switch\",\"where\":[{condition}]{members}}}", self.name())
    }

    /// Whether a server knows it. No row is found for it, so none changes.
    fn is_known(self, server: &mut Server) -> Outcome<bool> {
        let rows = if self == Operation::Select { "rows\":[]" } else { "count\":0" };
        let exchange = transact(0, &self.text(&by_identifier(NO_ROW), 0), format!("[{{\"{rows}}}]"));
        server.ask_if_known(&exchange)
    }
}

/// What a row is found by.
#[derive(Clone, Copy)]
enum Key {
    Identifier,
    Name,
}

impl Key {
    const ALL: [Key; 2] = [Key::Identifier, Key::Name];

    fn name(self) -> &'static str {
        match self {
            Key::Identifier => "_uuid",
            Key::Name => "name",
        }
    }
}

/// A row as it must be in a server's table. Its name has its number.
struct Row {
    identifier: String,
    load: usize,
}

/// A server, the rows of its table by their numbers, and the row that was asked for last.
struct Table {
    server: Server,
    rows: Vec<Row>,
    last: usize,
}

impl Table {
    /// Fills a server's empty table with `rows` rows.
    fn fill(mut server: Server, rows: usize) -> Outcome<Table> {
        let identifiers = server.fill(rows)?;
        let rows = (0..).zip(identifiers).map(|(load, identifier)| Row { identifier, load }).collect();
        Ok(Table { server, rows, last: 0 })
    }

    /// An operation on the row of a number, which must be there once.
    fn exchange(&self, operation: Operation, key: Key, n: usize) -> Exchange {
        let row = &self.rows[n];
        let condition = match key {
            Key::Identifier => by_identifier(&row.identifier),
            Key::Name => format!("[\"name\",\"==\",\"switch {n}\"]"),
        };
        let result = match operation {
            Operation::Select => format!("[{{\"rows\":[{{\"name\":\"switch {n}\"}}]}}]"),
            _ => "[{\"count\":1}]".into(),
        };
        transact(n as u64, &operation.text(&condition, row.load + 1), result)
    }

    /// Reads the load of the row of an identifier, which must be this one; without one the row must not be there.
    fn read_back(&mut self, identifier: &str, load: Option<usize>) -> Outcome<()> {
        let condition = by_identifier(identifier);
        let operation = format!(",{{\"op\":\"select\",\"table\":\"Switch\",\"where\":[{condition}],\"columns\":[\"load\"]}}");
        let rows = load.map_or(String::new(), |load| format!("{{\"load\":{load}}}"));
        self.server.ask(&transact(0, &operation, format!("[{{\"rows\":[{rows}]}}]")))
    }

    /// What follows an operation outside the clock: its effect is looked at, and a row that was deleted is inserted again.
    fn settle(&mut self, operation: Operation, n: usize) -> Outcome<()> {
        if operation == Operation::Select {
            return Ok(());
        }
        let Row { identifier, load } = &mut self.rows[n];
        *load += 1;
        let (identifier, load) = (identifier.clone(), *load);
        if operation != Operation::Delete {
            return self.read_back(&identifier, Some(load));
        }
        self.read_back(&identifier, None)?;
        let identifier = self.server.ask_for_identifier(&inserts(self.server.system, n as u64, 1))?;
        self.rows[n] = Row { identifier, load: n };
        Ok(())
    }

    /// A turn of one operation.
    fn turn(&mut self, operation: Operation, key: Key, measured: &mut Measured) -> Outcome<()> {
        turns::turn(|| {
            self.last = (self.last + STEP) % self.rows.len();
            let exchange = self.exchange(operation, key, self.last);
            measured.time(|| self.server.ask(&exchange))?;
            self.settle(operation, self.last)
        })
    }
}

/// Removes the rows of a long transaction again. Where the server does not know how, it has more rows from now on.
fn remove_inserted(server: &mut Server) -> Outcome<()> {
    let condition = format!("[\"load\",\">=\",{}]", server.rows);
    let exchange = transact(0, &Operation::Delete.text(&condition, 0), format!("[{{\"count\":{INSERTS}}}]"));
    if !server.ask_if_known(&exchange)? {
        server.rows += INSERTS as u64;
    }
    Ok(())
}

impl Bench {
    /// One operation on one row, by those of the servers that know it. Returns its name and the medians.
    fn operation(&self, tables: &mut [Table], operation: Operation, key: Key) -> Outcome<(String, Medians)> {
        let what = format!("{} by {}", operation.name(), key.name());
        let name = format!("{what}, {} rows", tables[0].rows.len());
        let mut able = Vec::new();
        for table in tables {
            if operation.is_known(&mut table.server)? {
                able.push(table);
            } else {
                let name = format!("{name}, {}", table.server.system.name());
                say(&name, "left out, since the operation is unknown".into())?;
            }
        }
        let measured = self.take_turns(&mut able, |table, measured| table.turn(operation, key, measured))?;
        let systems = able.iter().map(|table| table.server.system);
        let all: Vec<(System, Measured)> = systems.zip(measured).collect();
        Ok((what, self.say_rates(&name, &all)?))
    }

    /// All operations on one row of a table of `rows`. Returns the medians of each.
    fn operations(&self, rows: usize) -> Outcome<Vec<(String, Medians)>> {
        let folder = self.folder()?;
        let servers = self.started(&folder, 0)?;
        let mut tables: Vec<Table> = servers.into_iter().map(|server| Table::fill(server, rows)).collect::<Outcome<_>>()?;
        let kinds = Operation::ALL.into_iter().flat_map(|operation| Key::ALL.map(|key| (operation, key)));
        let medians = kinds.map(|(operation, key)| self.operation(&mut tables, operation, key)).collect::<Outcome<_>>()?;
        tables.into_iter().try_for_each(|table| table.server.finish())?;
        Ok(medians)
    }

    /// Transactions of many inserts into a table of `rows` rows.
    fn long_transactions(&self, rows: usize) -> Outcome<()> {
        let mut growing = None;
        let all = self.in_turns(rows, |server, measured| {
            let exchange = inserts(server.system, server.rows, INSERTS);
            measured.time(|| server.ask(&exchange))?;
            remove_inserted(server)?;
            if server.rows > rows as u64 {
                growing = Some(server.system);
            }
            Ok(())
        })?;
        let name = format!("{INSERTS} inserts at once, {rows} rows");
        if let Some(system) = growing {
            say(&format!("{name}, {}", system.name()), "and more, since delete is unknown".into())?;
        }
        self.say_rates(&name, &all).map(drop)
    }

    fn all_operations(&self) -> Outcome<()> {
        let mut medians = Vec::new();
        for rows in TABLES {
            medians.push(self.operations(rows)?);
            self.long_transactions(rows)?;
        }
        let [first, .., last] = TABLES;
        medians[0].iter().zip(&medians[TABLES.len() - 1]).try_for_each(|((name, small), (_, large))| {
            say_growth(&format!("{name}, {last} rows over {first}"), small, large)
        })
    }
}

fn main() -> ExitCode {
    turns::run("operations", Bench::all_operations)
}
