//! Measures a program with one load. `bench/run` compiles it and `bench/report.py` calls it:
//!
//!     measure whole PROGRAM INPUT OUTPUT WORD ..    one run over the whole input
//!     measure fault PROGRAM INPUT OUTPUT WORD ..    the same, of a run that ends with a fault
//!     measure check INPUT REPLIES                   what the replies of a run say
//!     measure single PROGRAM INPUT PASSES           one request at a time, over pipes
//!     measure serve PROGRAM CONFIGURATION WAY OPENING INPUT ..
//!                                                   clients of a server, one for each input
//!
//! The words are those that the program is given. Each prints lines of a word and its value. It
//! runs on 64-bit Linux.

mod serving;

use std::collections::BTreeMap;
use std::fs::{self, File};
use std::io::{BufRead, BufReader, Write};
use std::process::{Command, Stdio};
use std::time::Instant;

/// What went wrong, as it is printed.
type Fault = Box<dyn std::error::Error>;

/// A release by nobody of no call: it is refused, is not recorded and changes nothing. Its reply
/// says that the configuration before it has been read.
const PROBE: &[u8] = b"DRQ 1 measuring-probe 1\n";

/// Words of refusals that mean a limit of the program was met, so that a load went too far.
const SPENT: [&str; 5] =
    ["endpoints-full", "calls-full", "record-full", "reloads-spent", "no-memory"];

fn main() {
    let words: Vec<String> = std::env::args().skip(1).collect();
    let words: Vec<&str> = words.iter().map(String::as_str).collect();
    let done = match words[..] {
        ["whole", program, input, output, ref words @ ..] => whole(program, words, input, output),
        ["fault", program, input, output, ref words @ ..] => fault(program, words, input, output),
        ["check", input, replies] => check(input, replies),
        ["single", program, input, passes] => single(program, input, passes),
        ["serve", program, configuration, way, opening, ref inputs @ ..] => {
            serving::serve(program, configuration, way, opening, inputs)
        }
        _ => Err("the first word is whole, fault, check, single or serve".into()),
    };
    if let Err(fault) = done {
        eprintln!("measure: {fault}");
        std::process::exit(1);
    }
}

/// Runs the program once, from a file to a file.
fn whole(program: &str, words: &[&str], input: &str, output: &str) -> Result<(), Fault> {
    let mut command = Command::new(program);
    command.args(words).stdin(File::open(input)?).stdout(File::create(output)?);
    timed(&mut command, 0, output)
}

/// Runs the program once; what it says of its fault goes to a file.
fn fault(program: &str, words: &[&str], input: &str, output: &str) -> Result<(), Fault> {
    let mut command = Command::new(program);
    command.args(words).stdin(File::open(input)?).stderr(File::create(output)?);
    timed(&mut command.stdout(Stdio::null()), 1, output)
}

/// Runs a command that should end with this status. This process stays small meanwhile: the kernel
/// counts the pages of whoever starts a program towards the program's own peak.
fn timed(command: &mut Command, due: i32, output: &str) -> Result<(), Fault> {
    let begun = Instant::now();
    let ended = ended(command.spawn()?.id())?;
    let seconds = begun.elapsed().as_secs_f64();
    if ended.status != due << 8 {
        let mut said = String::new();
        BufReader::new(File::open(output)?).read_line(&mut said)?;
        let status = ended.status;
        return Err(format!("the program ended with wait status {status} and wrote {said}").into());
    }
    println!("seconds {seconds}\npeak_kb {}", ended.peak_kb);
    Ok(())
}

/// What is known of a program that has ended: its wait status, and the most memory that it had.
struct Ended {
    status: i32,
    peak_kb: i64,
}

/// Waits for the end of a program that this process started.
fn ended(id: u32) -> Result<Ended, Fault> {
    let mut status = 0;
    let mut usage = Usage::default();
    // SAFETY: both pointers are to values of the layouts that wait4 fills in.
    let waited = unsafe { wait4(id as i32, &mut status, 0, &mut usage) };
    if waited != id as i32 {
        return Err(std::io::Error::last_os_error().into());
    }
    Ok(Ended { status, peak_kb: usage.peak_kb })
}

/// `struct rusage` of 64-bit Linux; the largest resident set is in units of 1,024 bytes.
#[repr(C)]
#[derive(Default)]
struct Usage {
    user_and_system: [i64; 4],
    peak_kb: i64,
    others: [i64; 13],
}

unsafe extern "C" {
    fn wait4(id: i32, status: *mut i32, options: i32, usage: *mut Usage) -> i32;
}

/// Checks that each request has its reply, and counts what was granted and why the others were
/// refused.
fn check(input: &str, replies: &str) -> Result<(), Fault> {
    let input = fs::read(input)?;
    let (_, requests) = parts_of(&input)?;
    let replies = fs::read_to_string(replies)?;
    let replies: Vec<&str> = replies.lines().collect();
    if replies.len() != requests.len() {
        let (asked, answered) = (requests.len(), replies.len());
        return Err(format!("{asked} requests have {answered} replies").into());
    }
    let mut granted = 0;
    let mut refused: BTreeMap<String, u32> = BTreeMap::new();
    for (request, reply) in requests.iter().zip(&replies) {
        let asked: Vec<&str> = first_line(request)?.split(' ').collect();
        let said: Vec<&str> = reply.split(' ').collect();
        match said[0].get(1..) {
            Some("CF") if is_to(&asked, &said) => granted += 1,
            Some("RJ") if is_to(&asked, &said) && !said.iter().any(|word| SPENT.contains(word)) => {
                // the reason, without the number or name before it and that of a zone after it
                let reason = said[3..said.len().min(5)].join(" ");
                *refused.entry(format!("{} {reason}", said[0])).or_default() += 1;
            }
            _ => return Err(format!("{} is answered by {reply}", asked.join(" ")).into()),
        }
    }
    let reloads = requests.iter().filter(|request| is_reload(request)).count();
    let lines: usize = requests.iter().map(|request| lines_in(request)).sum();
    println!("requests {}\nreloads {reloads}\nlines {lines}", requests.len());
    println!("granted {granted}");
    for (reason, count) in refused {
        println!("refused {reason} {count}");
    }
    Ok(())
}

/// Whether a reply grants or refuses this request, by its letter and its number.
fn is_to(asked: &[&str], said: &[&str]) -> bool {
    said.len() > 2
        && said[0].get(..1) == asked[0].get(..1)
        && matches!(said[0].get(1..), Some("CF" | "RJ"))
        && said[1] == asked[1]
}

/// Writes each request and reads its reply before the next one, in as many passes as are asked
/// for. What counts of a request is its least time: what slows it down in every pass is the
/// program's own doing, and a pause of the machine comes at another request each time.
fn single(program: &str, input: &str, passes: &str) -> Result<(), Fault> {
    let input = fs::read(input)?;
    let (configuration, requests) = parts_of(&input)?;
    let mut least = vec![u64::MAX; requests.len()];
    for _ in 0..passes.parse::<u32>()? {
        pass(program, configuration, &requests, &mut least)?;
    }
    for (word, reloads) in [("slowest", false), ("slowest_reload", true)] {
        let of_kind = (0..requests.len()).filter(|&place| is_reload(requests[place]) == reloads);
        if let Some(place) = of_kind.max_by_key(|&place| least[place]) {
            let kind = &first_line(requests[place])?[..3];
            println!("{word} {} {kind} {}", least[place] as f64 / 1e6, place + 1);
        }
    }
    Ok(())
}

fn pass(
    program: &str,
    configuration: &[u8],
    requests: &[&[u8]],
    least: &mut [u64],
) -> Result<(), Fault> {
    let mut child =
        Command::new(program).stdin(Stdio::piped()).stdout(Stdio::piped()).spawn()?;
    let mut asking = child.stdin.take().ok_or("no pipe to the program")?;
    let mut answers = BufReader::new(child.stdout.take().ok_or("no pipe from the program")?);
    let mut reply = Vec::with_capacity(1_024);
    asking.write_all(configuration)?;
    asking.write_all(PROBE)?;
    answers.read_until(b'\n', &mut reply)?;
    for (request, least) in requests.iter().zip(least) {
        reply.clear();
        let begun = Instant::now();
        asking.write_all(request)?;
        answers.read_until(b'\n', &mut reply)?;
        *least = (*least).min(begun.elapsed().as_nanos() as u64);
        if !reply.ends_with(b"\n") {
            return Err("the program ended before its last reply".into());
        }
    }
    drop(asking);
    let status = child.wait()?;
    if !status.success() {
        return Err(format!("the program ended with {status}").into());
    }
    Ok(())
}

/// The configuration up to its line `end`, and the requests after it: a reload with its lines.
fn parts_of(input: &[u8]) -> Result<(&[u8], Vec<&[u8]>), Fault> {
    let end = input.windows(5).position(|bytes| bytes == b"\nend\n").ok_or("no line `end`")? + 5;
    let mut rest = &input[end..];
    let mut requests = Vec::new();
    while !rest.is_empty() {
        let mut lines = rest.split_inclusive(|&byte| byte == b'\n');
        let mut length = lines.next().map_or(0, <[u8]>::len);
        if is_reload(rest) {
            let count = first_line(rest)?.rsplit(' ').next().unwrap_or("").parse()?;
            length += lines.take(count).map(<[u8]>::len).sum::<usize>();
        }
        let (request, after) = rest.split_at(length);
        requests.push(request);
        rest = after;
    }
    Ok((&input[..end], requests))
}

fn is_reload(request: &[u8]) -> bool {
    request.starts_with(b"CFG ")
}

fn first_line(request: &[u8]) -> Result<&str, Fault> {
    let line = request.split(|&byte| byte == b'\n').next().unwrap_or(request);
    Ok(std::str::from_utf8(line)?)
}

fn lines_in(request: &[u8]) -> usize {
    request.split_inclusive(|&byte| byte == b'\n').count()
}
