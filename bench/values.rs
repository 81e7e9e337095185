//! Measures how much longer it takes to read a text as values or as a schema, and to write them again, than to read and print
//! it as JSON alone. It starts `ov_bench`, which does one piece of work a number of times, for few times and for many, so
//! that the start falls out, and takes the processor's time. Plain Rust, std only; `bench/run` builds and starts it.

use std::fmt::Write as _;
use std::io::{Read, Write as _};
use std::process::{Command, ExitCode, Stdio};

type Outcome<T> = Result<T, String>;

/// How often a piece of work is done in the two runs that are compared, and how many such pairs the least is taken of.
const FEW: u64 = 10;
const MANY: u64 = 110;
const PAIRS: usize = 25;

/// The schema where no other is given: the one that the server has.
const NET: &str = r#"{"name":"Net","tables":{"Port":{"columns":{"name":{"type":"string"},"peer":{"type":{"key":{"refTable":"Port","type":"uuid"},"max":1,"min":0}},"tag":{"type":{"key":{"maxInteger":4095,"minInteger":0,"type":"integer"},"max":1,"min":0}}}},"Switch":{"columns":{"load":{"type":"integer"},"main":{"type":{"key":{"refTable":"Port","refType":"weak","type":"uuid"},"max":1,"min":0}},"name":{"type":"string"},"ports":{"type":{"key":{"refTable":"Port","type":"uuid"},"max":"unlimited","min":0}}},"indexes":[["name"]],"isRoot":true}},"version":"1.0.0"}"#;

/// Numbers that look drawn, the same in each run (xorshift).
struct Numbers(u64);

impl Numbers {
    fn next(&mut self) -> u64 {
        self.0 ^= self.0 << 13;
        self.0 ^= self.0 >> 7;
        self.0 ^= self.0 << 17;
        self.0
    }

    /// The element at a place. Two keys of a map end with other digits.
    fn element(&mut self, list: &str, place: u64) -> String {
        let n = self.next();
        match list {
            "integers" => format!("{}", n % 10_000),
            "texts" => format!("\"port{}\"", n % 1_000),
            "uuids" => format!("[\"uuid\",\"{:08x}-{:04x}-4{:03x}-8{:03x}-{:012x}\"]", n >> 32, n >> 16 & 0xffff, n >> 8 & 0xfff, n & 0xfff, n >> 16),
            _ => format!("[\"key{}{place}\",\"{}\"]", n % 100, n >> 32 & 0xff),
        }
    }

    /// A set or a map of one to eight elements.
    fn value(&mut self, list: &str) -> String {
        let count = 1 + self.next() % 8;
        let elements: Vec<String> = (0..count).map(|place| self.element(list, place)).collect();
        format!("[\"{}\",[{}]]", if list == "maps" { "map" } else { "set" }, elements.join(","))
    }
}

/// 1,000 sets and maps, by what they hold.
fn values() -> String {
    let mut numbers = Numbers(0x9e37_79b9_7f4a_7c15);
    let mut text = String::new();
    for (list, count) in [("integers", 400), ("maps", 200), ("texts", 300), ("uuids", 100)] {
        let items: Vec<String> = (0..count).map(|_| numbers.value(list)).collect();
        let _ = write!(text, "{}\"{list}\":[{}]", if text.is_empty() { "{" } else { "," }, items.join(","));
    }
    text + "}"
}

/// A JSON text without the white space between its parts.
fn compact(text: &str) -> String {
    let (mut in_text, mut escaped) = (false, false);
    text.chars()
        .filter(|&c| {
            let kept = in_text || !c.is_ascii_whitespace();
            in_text ^= c == '"' && !escaped;
            escaped = c == '\\' && !escaped;
            kept
        })
        .collect()
}

/// The processor's time that a run takes, in nanoseconds.
fn time(program: &str, work: &str, times: u64, text: &str) -> Outcome<u64> {
    let mut child = Command::new(program)
        .args([work, &times.to_string()])
        .stdin(Stdio::piped())
        .stdout(Stdio::piped())
        .spawn()
        .map_err(|e| format!("{program}: {e}"))?;
    let mut input = child.stdin.take().ok_or("no standard input")?;
    input.write_all(text.as_bytes()).map_err(|e| format!("a write to {program}: {e}"))?;
    drop(input);
    let mut output = child.stdout.take().ok_or("no standard output")?;
    output.read_to_end(&mut Vec::new()).map_err(|e| format!("a read from {program}: {e}"))?;
    let path = format!("/proc/{}/schedstat", child.id());
    let told = std::fs::read_to_string(&path).map_err(|e| format!("{path}: {e}"))?;
    let status = child.wait().map_err(|e| format!("waiting for {program}: {e}"))?;
    if !status.success() {
        return Err(format!("{program} {work} ended with {status}"));
    }
    told.split(' ').next().and_then(|word| word.parse().ok()).ok_or_else(|| format!("{path}: {told}"))
}

/// The nanoseconds that doing each of two pieces of work once takes. They take turns, so that both meet the same machine.
fn once(program: &str, works: [&str; 2], text: &str) -> Outcome<[f64; 2]> {
    let mut least = [(u64::MAX, u64::MAX); 2];
    for _ in 0..PAIRS {
        for (work, (few, many)) in works.iter().zip(&mut least) {
            *few = time(program, work, FEW, text)?.min(*few);
            *many = time(program, work, MANY, text)?.min(*many);
        }
    }
    Ok(least.map(|(few, many)| many.saturating_sub(few) as f64 / (MANY - FEW) as f64))
}

fn all_figures(program: &str, schema: &str) -> Outcome<()> {
    let values = values();
    println!("the values have {} bytes, the schema {}", values.len(), schema.len());
    for (name, alone, work, text) in [
        ("1,000 values read", "read-json", "read-values", values.as_str()),
        ("1,000 values read and written", "copy-json", "copy-values", values.as_str()),
        ("a schema read", "read-json", "read-schema", schema),
        ("a schema read and written", "copy-json", "copy-schema", schema),
    ] {
        let [alone, whole] = once(program, [alone, work], text)?;
        println!("{name:<30} {:>8.1} us as JSON alone  {:>8.1} us  {:>5.2} times as long", alone / 1e3, whole / 1e3, whole / alone);
        println!("figure\t{name}\t{:.1}\t{:.1}\tus", whole / 1e3, alone / 1e3);
    }
    Ok(())
}

fn main() -> ExitCode {
    let words: Vec<String> = std::env::args().skip(1).collect();
    let Some(program) = words.first() else {
        eprintln!("values PROGRAM [SCHEMA]");
        return ExitCode::from(2);
    };
    let schema = words.get(1).map_or(Ok(NET.to_string()), |path| {
        std::fs::read_to_string(path).map(|text| compact(&text)).map_err(|e| format!("{path}: {e}"))
    });
    match schema.and_then(|schema| all_figures(program, &schema)) {
        Ok(()) => ExitCode::SUCCESS,
        Err(why) => {
            eprintln!("values: {why}");
            ExitCode::FAILURE
        }
    }
}
