//! A driver for the server with a database file: how many durable inserts it takes, beside itself in memory and beside Open
//! vSwitch's ovsdb-server, how much memory it holds, and how long it takes to start over a file.
//!
//! Each reply is compared with the one that is wanted, byte by byte; where an identifier is drawn, any one will do. Those that
//! are compared take turns in one run. Plain Rust, std only; `bench/run` builds and starts it.

mod systems;

use std::fs;
use std::path::Path;
use std::process::ExitCode;
use std::time::{Duration, Instant};
use systems::{Exchange, Folder, Measured, Outcome, Server, System, Systems, figure, figure_of, file_system, inserts, say};

/// What is compared.
const SYSTEMS: [System; 3] = [System::File, System::Memory, System::DurablePeer];

/// The tables that inserts are measured on, by their rows, the last one being the largest.
const TABLES: [usize; 4] = [100, 1_000, 10_000, 100_000];
const LARGEST: usize = TABLES[TABLES.len() - 1];

/// How many requests are under way.
const DEPTHS: [usize; 2] = [1, 32];

/// How many rounds a figure has at most, each over files of its own, and how many inserts of a system come in one turn.
const ROUNDS: usize = 8;
const INSERTS_IN_A_TURN: usize = 100;

/// How often each system is started over a file.
const STARTS: usize = 5;

/// How many turns of each system a round has: five, and more where the table hardly grows by them.
fn turns(rows: usize) -> usize {
    (rows / 20 / INSERTS_IN_A_TURN).max(5)
}

/// An insert of the row after those that the server has.
fn next_insert(server: &mut Server) -> Exchange {
    server.rows += 1;
    inserts(server.system, server.rows - 1, 1)
}

/// The resident memory of each system, in KiB.
type Resident = Vec<(System, f64)>;

/// What the driver works with: the systems, and the time for one figure.
struct Bench {
    systems: Systems,
    limit: Duration,
}

/// A value of each system as figures: ours in a file beside the peer, and ours in memory alone.
fn figures_of(what: &str, name: &str, all: &[(System, f64)], unit: &str) -> Outcome<()> {
    let (memory, files): (Vec<_>, Vec<_>) = all.iter().copied().partition(|&(system, _)| system == System::Memory);
    figure_of(&format!("{what} in a file, {name}"), &files, unit)?;
    figure_of(&format!("{what} in memory, {name}"), &memory, unit)
}

impl Bench {
    fn present(&self) -> Vec<System> {
        self.systems.present(&SYSTEMS)
    }

    /// One round of a figure: all systems insert in turns, into tables of `rows` rows, and what is measured of each is
    /// added. Returns the resident memory with the filled tables.
    fn round(&self, folder: &Path, rows: usize, depth: usize, all: &mut [Measured]) -> Outcome<Resident> {
        let mut servers = self.systems.filled(&self.present(), folder, rows)?;
        let resident = servers.iter().map(|server| Ok((server.system, server.resident()? as f64))).collect::<Outcome<_>>()?;
        for _ in 0..turns(rows) {
            let open = servers.iter_mut().zip(all.iter_mut()).filter(|(_, measured)| measured.whole < self.limit);
            open.into_iter().try_for_each(|(server, measured)| measured.add_turn(server, depth, INSERTS_IN_A_TURN, next_insert))?;
        }
        servers.into_iter().try_for_each(Server::finish)?;
        Ok(resident)
    }

    /// Measures inserts into a table of `rows` rows, and prints the lines of all systems. Returns the resident memory with the
    /// filled tables of the first round. With the largest table it measures the starts too.
    fn inserts(&self, above: &Path, rows: usize, depth: usize) -> Outcome<Resident> {
        let mut all: Vec<Measured> = self.present().iter().map(|_| Measured::default()).collect();
        let mut resident = Vec::new();
        for round in 0..ROUNDS {
            if all.iter().all(|measured| measured.whole >= self.limit) {
                break;
            }
            let folder = Folder::make(above)?;
            let filled = self.round(&folder.0, rows, depth, &mut all)?;
            if round == 0 {
                resident = filled;
            }
            if round == 0 && rows == LARGEST && depth == DEPTHS[0] {
                let counts: Vec<usize> = all.iter().map(|measured| rows + measured.times.len()).collect();
                self.starts(&folder.0, &counts)?;
            }
        }
        let name = format!("depth {depth}, {rows} rows");
        self.say_all(&format!("insert, {name}"), &all)?;
        let each = |value: fn(&Measured) -> f64| self.present().into_iter().zip(&all).map(move |(s, m)| (s, value(m)));
        figures_of("insert", &name, &each(Measured::rate).collect::<Vec<_>>(), "per second")?;
        figures_of("insert", &name, &each(Measured::median).collect::<Vec<_>>(), "us")?;
        figures_of("p99 of an insert", &name, &each(|measured| measured.quantile(0.99)).collect::<Vec<_>>(), "us")?;
        Ok(resident)
    }

    /// Prints the resident memory with `rows` rows.
    fn say_resident(&self, rows: usize, resident: &Resident) -> Outcome<()> {
        resident.iter().try_for_each(|(system, kib)| {
            say(&format!("resident memory, {rows} rows, {}", system.name()), format!("{kib:>9} KiB"))
        })?;
        figures_of("resident memory", &format!("{rows} rows"), resident, "KiB")
    }

    /// Prints what was measured of each system, and how ours compares with the peer.
    fn say_all(&self, name: &str, all: &[Measured]) -> Outcome<()> {
        for (system, measured) in self.present().iter().zip(all) {
            let (rate, median) = (measured.rate(), measured.median());
            let (longest, count) = (measured.longest(), measured.times.len());
            say(
                &format!("{name}, {}", system.name()),
                format!("{rate:>9.0} per second  {median:>9.1} us median  {longest:>7.1} ms longest  {count:>5} requests"),
            )?;
        }
        if let [file, _, peer] = all {
            let name = format!("{name}, ours / peer in a file");
            let (rates, medians) = (file.rate() / peer.rate(), file.median() / peer.median());
            say(&name, format!("{rates:>9.2} times as many  {medians:>8.2} times the median"))?;
        }
        Ok(())
    }

    /// The time from a system's start to its first reply, over the file in a folder, whose last row must be there.
    fn first_reply(&self, system: System, folder: &Path, rows: usize) -> Outcome<Duration> {
        let begin = Instant::now();
        let mut server = self.systems.start(system, folder)?;
        server.greet()?;
        let time = begin.elapsed();
        server.rows = rows as u64;
        server.finish()?;
        Ok(time)
    }

    /// Measures the starts over the files in a folder, in turns, and prints their lines.
    fn starts(&self, folder: &Path, rows: &[usize]) -> Outcome<()> {
        let mut all: Vec<Measured> = rows.iter().map(|_| Measured::default()).collect();
        for _ in 0..STARTS {
            for ((&system, &rows), measured) in self.present().iter().zip(rows).zip(&mut all) {
                if system != System::Memory {
                    measured.times.push(self.first_reply(system, folder, rows)?);
                }
            }
        }
        for (system, measured) in self.present().iter().zip(&all).filter(|(_, m)| !m.times.is_empty()) {
            let name = format!("start to first reply, {LARGEST} rows, {}", system.name());
            say(&name, format!("{:>9.1} ms median  {:>5} starts", measured.median() / 1e3, measured.times.len()))?;
        }
        let medians: Vec<_> = self.present().into_iter().zip(&all).map(|(system, m)| (system, m.median() / 1e3)).collect();
        let files: Vec<_> = medians.into_iter().filter(|&(system, _)| system != System::Memory).collect();
        figure_of(&format!("start to first reply, {LARGEST} rows"), &files, "ms")
    }

    /// All figures; the files lie in new folders in this one.
    fn figures(&self, above: &Path) -> Outcome<()> {
        let mut all = Vec::new();
        for (rows, depth) in TABLES.into_iter().flat_map(|rows| DEPTHS.map(|depth| (rows, depth))) {
            let resident = self.inserts(above, rows, depth)?;
            if depth == DEPTHS[0] {
                self.say_resident(rows, &resident)?;
                all.push(resident);
            }
        }
        // Of ours in a file and of the peer, which is the last one, if it is there.
        let more = (LARGEST - TABLES[0]) as f64;
        let small = &all[0];
        let a_row = |n: usize| Some((all[TABLES.len() - 1].get(n)?.1 - small.get(n)?.1) * 1_024.0 / more);
        figure("resident memory of a row in a file", a_row(0), a_row(2), "bytes")
    }
}

fn run(program: &str, seconds: f64, root: &Path, above: &Path) -> Outcome<()> {
    let above = fs::canonicalize(above).map_err(|e| format!("the folder for the files: {e}"))?;
    say("files on", file_system(&above)?)?;
    let systems = Systems::find(program, root)?;
    Bench { systems, limit: Duration::from_secs_f64(seconds.clamp(0.1, 60.0)) }.figures(&above)
}

fn main() -> ExitCode {
    let words: Vec<String> = std::env::args().skip(1).collect();
    let seconds = words.get(1).map_or(Ok(4.0), |word| word.parse::<f64>());
    let (Some(program), Ok(seconds), 1..=4) = (words.first(), seconds, words.len()) else {
        eprintln!("durable PROGRAM [SECONDS [ROOT-OF-THE-PEER [FOLDER-FOR-FILES]]]");
        return ExitCode::from(2);
    };
    let root = words.get(2).map_or("/", String::as_str);
    let above = words.get(3).map_or(".", String::as_str);
    match run(program, seconds, Path::new(root), Path::new(above)) {
        Ok(()) => ExitCode::SUCCESS,
        Err(why) => {
            eprintln!("durable: {why}");
            ExitCode::FAILURE
        }
    }
}
