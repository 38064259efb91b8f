// Calls an office, or Redis, by as many connections as are named, each from a thread of its own, and has each sell a seat so
// often: so many lines at once (one without LINES), and the next behind their replies. Prints the microseconds from the
// first line to the last reply, and of one sale, from its line to its reply: the median, the 99th percentile and the worst.
//
// usage: callers PEER CALLERS SALES [LINES [REPLY]]
//
// PEER is the port of an office on this machine, or SOCKET,SHA: Redis at a Unix socket, where SHA names a script that
// sells a seat under a number and returns what is left. REPLY is what an office answers each, `done` without it.

use std::io::{BufRead, BufReader, Read, Write};
use std::net::TcpStream;
use std::os::unix::net::UnixStream;
use std::sync::{Arc, Barrier};
use std::thread;
use std::time::{Duration, Instant};

#[derive(Clone)]
enum Peer {
    Office { port: u16, wanted: String },
    Redis { socket: String, sha: String },
}

type Ends = (Box<dyn BufRead + Send>, Box<dyn Write + Send>);

fn ends<S: Read + Write + Send + 'static>(stream: S, again: S) -> Ends {
    (Box::new(BufReader::new(stream)), Box::new(again))
}

impl Peer {
    fn of(word: &str, wanted: String) -> Peer {
        match word.split_once(',') {
            Some((socket, sha)) => Peer::Redis { socket: socket.to_string(), sha: sha.to_string() },
            None => Peer::Office { port: word.parse().expect("a port"), wanted },
        }
    }

    fn connect(&self) -> std::io::Result<Ends> {
        match self {
            Peer::Office { port, .. } => {
                let stream = TcpStream::connect(("127.0.0.1", *port))?;
                stream.set_nodelay(true)?;
                Ok(ends(stream.try_clone()?, stream))
            }
            Peer::Redis { socket, .. } => {
                let stream = UnixStream::connect(socket)?;
                Ok(ends(stream.try_clone()?, stream))
            }
        }
    }

    fn connected(&self) -> Ends {
        loop {
            match self.connect() {
                Ok(ends) => return ends,
                Err(_) => thread::sleep(Duration::from_millis(5)),
            }
        }
    }

    // The line that sells a seat under a number.
    fn sale(&self, number: u64) -> String {
        match self {
            Peer::Office { .. } => format!("sell {number} gala 1\n"),
            Peer::Redis { sha, .. } => {
                let number = number.to_string();
                let length = number.len();
                format!("*4\r\n$7\r\nEVALSHA\r\n$40\r\n{sha}\r\n$1\r\n0\r\n${length}\r\n{number}\r\n")
            }
        }
    }

    fn is_sold(&self, reply: &str) -> bool {
        match self {
            Peer::Office { wanted, .. } => reply.trim_end() == wanted,
            Peer::Redis { .. } => reply.starts_with(':') && !reply.starts_with(":-"),
        }
    }
}

fn sell(peer: &Peer, (mut replies, mut out): Ends, first: u64, sales: u64, lines: u64) -> Vec<u128> {
    let mut reply = String::new();
    let mut times = Vec::with_capacity(sales as usize);
    let mut sold = 0;
    while sold < sales {
        let at_once = lines.min(sales - sold);
        let text: String = (0..at_once).map(|sale| peer.sale(first + sold + sale)).collect();
        let began = Instant::now();
        out.write_all(text.as_bytes()).expect("a connection");
        for _ in 0..at_once {
            reply.clear();
            replies.read_line(&mut reply).expect("a reply");
            assert!(peer.is_sold(&reply), "{reply}");
            times.push(began.elapsed().as_micros());
        }
        sold += at_once;
    }
    times
}

fn main() {
    let words: Vec<String> = std::env::args().skip(1).collect();
    let peer = Peer::of(&words[0], words.get(4).cloned().unwrap_or("done".to_string()));
    let numbers: Vec<u64> = words[1..].iter().take(3).map(|word| word.parse().expect("a number")).collect();
    let (callers, sales, lines) = (numbers[0], numbers[1], numbers.get(2).copied().unwrap_or(1));
    let connections: Vec<Ends> = (0..callers).map(|_| peer.connected()).collect();
    let ready = Arc::new(Barrier::new(callers as usize + 1));
    let threads: Vec<_> = (0..)
        .zip(connections)
        .map(|(caller, ends)| {
            let (ready, peer) = (ready.clone(), peer.clone());
            thread::spawn(move || {
                ready.wait();
                sell(&peer, ends, 10 + caller * sales, sales, lines)
            })
        })
        .collect();
    ready.wait();
    let began = Instant::now();
    let mut times: Vec<u128> = threads.into_iter().flat_map(|thread| thread.join().expect("a caller")).collect();
    let taken = began.elapsed().as_micros();
    times.sort_unstable();
    let at = |part: f64| times[((times.len() - 1) as f64 * part) as usize];
    println!("{} {} {} {}", taken, at(0.5), at(0.99), at(1.0));
}
