//! What the drivers share that measure the server in memory beside the peer: how the two take turns, how what was measured is
//! printed, and how a driver is started.
//!
//! Plain Rust, std only.

// Each driver uses some of it.
#![allow(dead_code)]

use crate::systems::{Folder, Host, Measured, Outcome, Server, System, Systems, figure_of, say};
use std::path::{Path, PathBuf};
use std::process::ExitCode;
use std::time::{Duration, Instant};

/// A turn has this many requests, or as many as begin in this time.
const REQUESTS_IN_A_TURN: usize = 100;
const LONGEST_TURN: Duration = Duration::from_millis(50);

/// How many rows stand between two that are asked for one after the other. It has no divisor with the tables' sizes in common,
/// so all rows have their turn.
pub const STEP: usize = 7_919;

/// What is compared. The peer writes a file without a sync, since it has no database in memory alone.
pub const SYSTEMS: [System; 2] = [System::Memory, System::Peer];

/// A turn: this is done again and again, each time when the last one is answered.
pub fn turn(mut request: impl FnMut() -> Outcome<()>) -> Outcome<()> {
    let begin = Instant::now();
    (0..REQUESTS_IN_A_TURN).take_while(|_| begin.elapsed() <= LONGEST_TURN).try_for_each(|_| request())
}

/// The driver: the systems that are there, where the peer's files lie, and the time for one figure of a system.
pub struct Bench {
    systems: Systems,
    above: PathBuf,
    limit: Duration,
}

impl Bench {
    /// A new folder for the peer's files.
    pub fn folder(&self) -> Outcome<Folder> {
        Folder::make(&self.above)
    }

    /// The systems, started anew in a folder, each with a table of `rows` rows.
    pub fn started(&self, folder: &Folder, rows: usize) -> Outcome<Vec<Server>> {
        self.systems.filled(&self.systems.present(&SYSTEMS), &folder.0, rows)
    }

    /// These systems, started anew in a folder, each listening on a port of its own.
    pub fn listening(&self, systems: &[System], folder: &Folder) -> Outcome<Vec<Host>> {
        self.systems.prepare(&folder.0)?;
        self.systems.present(systems).into_iter().map(|system| self.systems.listen(system, &folder.0)).collect()
    }

    /// A turn of each of these after the other, until the time of all is over. It gives what was measured of each.
    pub fn take_turns<S>(
        &self,
        all: &mut [S],
        mut turn: impl FnMut(&mut S, &mut Measured) -> Outcome<()>,
    ) -> Outcome<Vec<Measured>> {
        let mut measured: Vec<Measured> = all.iter().map(|_| Measured::default()).collect();
        while measured.iter().any(|measured| measured.whole < self.limit) {
            all.iter_mut().zip(&mut measured).try_for_each(|(one, measured)| turn(one, measured))?;
        }
        Ok(measured)
    }

    /// Measures one figure: the systems are started anew and take turns. It gives what was measured of each.
    pub fn in_turns(
        &self,
        rows: usize,
        turn: impl FnMut(&mut Server, &mut Measured) -> Outcome<()>,
    ) -> Outcome<Vec<(System, Measured)>> {
        self.made_ready(rows, Ok, turn, Ok)
    }

    /// Measures one figure: the systems are started anew, each is made ready, they take turns, and each is looked at in the
    /// end. It gives what was measured of each.
    pub fn made_ready<S>(
        &self,
        rows: usize,
        ready: impl FnMut(Server) -> Outcome<S>,
        turn: impl FnMut(&mut S, &mut Measured) -> Outcome<()>,
        end: impl FnMut(S) -> Outcome<Server>,
    ) -> Outcome<Vec<(System, Measured)>> {
        let folder = self.folder()?;
        let mut all: Vec<S> = self.started(&folder, rows)?.into_iter().map(ready).collect::<Outcome<_>>()?;
        let measured = self.take_turns(&mut all, turn)?;
        let servers: Vec<Server> = all.into_iter().map(end).collect::<Outcome<_>>()?;
        let systems: Vec<System> = servers.iter().map(|server| server.system).collect();
        servers.into_iter().try_for_each(Server::finish)?;
        Ok(systems.into_iter().zip(measured).collect())
    }

    /// Prints how many a second each system answered, and the ratio. Returns the medians.
    pub fn say_rates(&self, name: &str, all: &[(System, Measured)]) -> Outcome<Medians> {
        for (system, measured) in all {
            let (rate, median) = (measured.rate(), measured.median());
            say(&format!("{name}, {}", system.name()), format!("{rate:>9.0} per second  {median:>11.1} us median"))?;
        }
        if let [(_, ours), (_, peer)] = all {
            say(&format!("{name}, ours / peer"), format!("{:>9.2} times as many", ours.rate() / peer.rate()))?;
        }
        figure_of(name, &each(all, Measured::rate), "per second")?;
        Ok(each(all, Measured::median))
    }

    /// Prints the median of each system, and the ratio. The figure has this unit, of `size` microseconds. Returns the medians.
    pub fn say_medians(&self, name: &str, all: &[(System, Measured)], (unit, size): (&str, f64)) -> Outcome<Medians> {
        for (system, measured) in all {
            let value = format!("{:>11.1} us median  {:>6} requests", measured.median(), measured.times.len());
            say(&format!("{name}, {}", system.name()), value)?;
        }
        if let [(_, ours), (_, peer)] = all {
            say(&format!("{name}, ours / peer"), format!("{:>9.2} times as long", ours.median() / peer.median()))?;
        }
        figure_of(name, &each(all, |measured| measured.median() / size), unit)?;
        Ok(each(all, Measured::median))
    }
}

/// The medians of the systems, in microseconds.
pub type Medians = Vec<(System, f64)>;

/// The units of figures, and how many microseconds each has.
pub const MICROSECONDS: (&str, f64) = ("us", 1.0);
pub const MILLISECONDS: (&str, f64) = ("ms", 1_000.0);

/// A value of what was measured of each system.
fn each(all: &[(System, Measured)], value: impl Fn(&Measured) -> f64) -> Medians {
    all.iter().map(|(system, measured)| (*system, value(measured))).collect()
}

/// Prints how many times as long each system takes in one case as in another.
pub fn say_growth(name: &str, small: &Medians, large: &Medians) -> Outcome<()> {
    let of_both = |&(system, large): &(System, f64)| {
        small.iter().find(|(other, _)| *other == system).map(|(_, small)| (system, large / small))
    };
    let growth: Medians = large.iter().filter_map(of_both).collect();
    for (system, growth) in &growth {
        say(&format!("{name}, {}", system.name()), format!("{growth:>9.2} times as long"))?;
    }
    figure_of(name, &growth, "times")
}

/// Looks for the systems. The peer takes a path of its own folder for the current one, so that of the files must be absolute.
fn start(program: &str, seconds: f64, root: &Path, above: &Path) -> Outcome<Bench> {
    let above = above.canonicalize().map_err(|e| format!("the folder for the files: {e}"))?;
    Ok(Bench { systems: Systems::find(program, root)?, above, limit: Duration::from_secs_f64(seconds.clamp(0.1, 60.0)) })
}

/// Starts a driver over the program that the arguments name.
pub fn run(driver: &str, figures: impl FnOnce(&Bench) -> Outcome<()>) -> ExitCode {
    let words: Vec<String> = std::env::args().skip(1).collect();
    let seconds = words.get(1).map_or(Ok(4.0), |word| word.parse::<f64>());
    let (Some(program), Ok(seconds), 1..=4) = (words.first(), seconds, words.len()) else {
        eprintln!("{driver} PROGRAM [SECONDS [ROOT-OF-THE-PEER [FOLDER-FOR-FILES]]]");
        return ExitCode::from(2);
    };
    let root = words.get(2).map_or("/", String::as_str);
    let above = words.get(3).map_or(".", String::as_str);
    match start(program, seconds, Path::new(root), Path::new(above)).and_then(|bench| figures(&bench)) {
        Ok(()) => ExitCode::SUCCESS,
        Err(why) => {
            eprintln!("{driver}: {why}");
            ExitCode::FAILURE
        }
    }
}
