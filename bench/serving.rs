//! Measures a server with clients that talk to it at the same time, over TCP on this machine.

use std::fs;
use std::io::{self, Read, Write};
use std::net::{Ipv4Addr, Shutdown, TcpListener, TcpStream};
use std::process::{Child, Command, Stdio};
use std::sync::Barrier;
use std::thread;
use std::time::{Duration, Instant};

use crate::{Fault, ended, is_to};

/// How long a client waits for the server before it gives up.
const PATIENCE: Duration = Duration::from_secs(60);

/// What a client does with its requests.
#[derive(Clone, Copy)]
enum Way {
    /// It sends on, and reads replies as they come.
    On,
    /// It waits for the reply to each before it sends the next.
    Each,
}

/// What one client was told, and when.
struct Talk {
    begun: Instant,
    ended: Instant,
    replies: Vec<u8>,
    /// How long each reply was waited for, in nanoseconds, if it was.
    waits: Vec<u64>,
}

/// Serves one client for each input. The first `opening` requests of each come before what is
/// measured, which begins when all clients have their replies to these.
pub fn serve(
    program: &str,
    configuration: &str,
    way: &str,
    opening: &str,
    inputs: &[&str],
) -> Result<(), Fault> {
    let way = match way {
        "on" => Way::On,
        "each" => Way::Each,
        _ => return Err("the ways are on and each".into()),
    };
    let opening = opening.parse()?;
    let port = free_port()?;
    let seats = inputs.len().to_string();
    let words = ["serve", configuration, "--port", &port.to_string(), "--seats", &seats];
    // The inputs are read after this: what this process has would count towards the program's peak.
    let mut server = Command::new(program).args(words).stdout(Stdio::piped()).spawn()?;
    let served = talk_all(&mut server, port, way, opening, inputs);
    if served.is_err() {
        server.kill()?;
    }
    let mut said = String::new();
    server.stdout.take().ok_or("no pipe from the program")?.read_to_string(&mut said)?;
    let ended = ended(server.id())?;
    let (talks, granted) = served?;
    if ended.status != 0 {
        let status = ended.status;
        return Err(format!("the program ended with wait status {status} and wrote {said}").into());
    }
    print!("{said}");
    println!("seconds {}\npeak_kb {}\ngranted {granted}", seconds(&talks), ended.peak_kb);
    show_waits(talks);
    Ok(())
}

/// A port that nobody listened on a moment ago.
fn free_port() -> io::Result<u16> {
    Ok(TcpListener::bind((Ipv4Addr::LOCALHOST, 0))?.local_addr()?.port())
}

/// Connects to the server, which may not listen yet.
fn connect(server: &mut Child, port: u16) -> Result<TcpStream, Fault> {
    let begun = Instant::now();
    loop {
        match TcpStream::connect((Ipv4Addr::LOCALHOST, port)) {
            Ok(stream) => {
                stream.set_nodelay(true)?;
                stream.set_read_timeout(Some(PATIENCE))?;
                stream.set_write_timeout(Some(PATIENCE))?;
                return Ok(stream);
            }
            Err(_) if server.try_wait()?.is_none() && begun.elapsed() < PATIENCE => {
                thread::sleep(Duration::from_millis(5));
            }
            Err(fault) => return Err(format!("no session: {fault}").into()),
        }
    }
}

/// All clients at the same time; also counts the requests that were granted.
fn talk_all(
    server: &mut Child,
    port: u16,
    way: Way,
    opening: usize,
    inputs: &[&str],
) -> Result<(Vec<Talk>, usize), Fault> {
    let requests = inputs.iter().map(fs::read).collect::<io::Result<Vec<_>>>()?;
    let streams =
        inputs.iter().map(|_| connect(server, port)).collect::<Result<Vec<_>, Fault>>()?;
    let all = Barrier::new(inputs.len());
    let talks = thread::scope(|scope| {
        let clients: Vec<_> = (streams.iter().zip(&requests))
            .map(|(stream, requests)| scope.spawn(|| talk(stream, requests, way, opening, &all)))
            .collect();
        clients
            .into_iter()
            .map(|client| client.join().expect("a client"))
            .collect::<io::Result<Vec<Talk>>>()
    })?;
    let mut granted = 0;
    for (talk, requests) in talks.iter().zip(&requests) {
        granted += granted_in(requests, &talk.replies)?;
    }
    Ok((talks, granted))
}

/// The whole talk of one client.
fn talk(
    stream: &TcpStream,
    requests: &[u8],
    way: Way,
    opening: usize,
    all: &Barrier,
) -> io::Result<Talk> {
    let length = requests.split_inclusive(|&byte| byte == b'\n').take(opening).map(<[u8]>::len);
    let (first, rest) = requests.split_at(length.sum());
    let mut replies = Vec::new();
    let opened = send_on(stream, first, &mut replies);
    // also after a fault, since the others wait
    all.wait();
    opened?;
    let mut waits = Vec::new();
    let begun = Instant::now();
    match way {
        Way::On => send_on(stream, rest, &mut replies)?,
        Way::Each => ask_each(stream, rest, &mut replies, &mut waits)?,
    }
    let ended = Instant::now();
    stream.shutdown(Shutdown::Write)?;
    let mut source = stream;
    source.read_to_end(&mut replies)?;
    Ok(Talk { begun, ended, replies, waits })
}

/// Sends these requests while it reads their replies, a line to each.
fn send_on(stream: &TcpStream, requests: &[u8], replies: &mut Vec<u8>) -> io::Result<()> {
    let mut due = lines_of(requests);
    thread::scope(|scope| {
        let writer = scope.spawn(|| {
            let mut sink = stream;
            sink.write_all(requests)
        });
        let mut piece = vec![0; 1 << 16];
        while due > 0 {
            due = due.saturating_sub(read_lines(stream, &mut piece, replies)?);
        }
        writer.join().expect("a writer")
    })
}

/// Sends each request once it has read the reply to the one before.
fn ask_each(
    stream: &TcpStream,
    requests: &[u8],
    replies: &mut Vec<u8>,
    waits: &mut Vec<u64>,
) -> io::Result<()> {
    let mut sink = stream;
    let mut piece = vec![0; 1 << 12];
    for request in requests.split_inclusive(|&byte| byte == b'\n') {
        let begun = Instant::now();
        sink.write_all(request)?;
        while read_lines(stream, &mut piece, replies)? == 0 {}
        waits.push(begun.elapsed().as_nanos() as u64);
    }
    Ok(())
}

/// Reads once, and counts the lines that ended with it.
fn read_lines(
    mut stream: &TcpStream,
    piece: &mut [u8],
    replies: &mut Vec<u8>,
) -> io::Result<usize> {
    let count = stream.read(piece)?;
    if count == 0 {
        return Err(io::Error::other("the server ended a session before its last reply"));
    }
    replies.extend_from_slice(&piece[..count]);
    Ok(lines_of(&piece[..count]))
}

fn lines_of(bytes: &[u8]) -> usize {
    bytes.iter().filter(|&&byte| byte == b'\n').count()
}

/// How many requests of a client are granted. Each has to have its reply, in its place.
fn granted_in(requests: &[u8], replies: &[u8]) -> Result<usize, Fault> {
    let (requests, replies) = (std::str::from_utf8(requests)?, std::str::from_utf8(replies)?);
    if requests.lines().count() != replies.lines().count() {
        return Err("a client has more replies than requests, or fewer".into());
    }
    let mut granted = 0;
    for (request, reply) in requests.lines().zip(replies.lines()) {
        let asked: Vec<&str> = request.split(' ').collect();
        let said: Vec<&str> = reply.split(' ').collect();
        if !is_to(&asked, &said) {
            return Err(format!("{request} is answered by {reply}").into());
        }
        granted += usize::from(said[0].ends_with("CF"));
    }
    Ok(granted)
}

/// From the first request that is measured to the last reply, of all clients.
fn seconds(talks: &[Talk]) -> f64 {
    let begun = talks.iter().map(|talk| talk.begun).min();
    let ended = talks.iter().map(|talk| talk.ended).max();
    begun.zip(ended).map_or(0.0, |(begun, ended)| (ended - begun).as_secs_f64())
}

/// How long replies were waited for, in microseconds: half of them as long as the one, and 99 of
/// a hundred as long as the other at most.
fn show_waits(talks: Vec<Talk>) {
    let mut waits: Vec<u64> = talks.into_iter().flat_map(|talk| talk.waits).collect();
    waits.sort_unstable();
    for (word, share) in [("half_us", 50), ("most_us", 99)] {
        if let Some(&wait) = waits.get(waits.len() * share / 100) {
            println!("{word} {}", wait as f64 / 1e3);
        }
    }
}
