// What the built site_trial does with sessions at one desk, once more, as a plain, unproved program over Rust's standard
// library alone: what the figures for desks are ratios to. One Mutex lies round a HashMap and a Vec; with `kept`, each entry
// is first copied to a second Vec, as the list in memory keeps what the book of a desk then enters.
//
// usage: plain_desk [kept] < INPUT
//
// INPUT is what site_trial is given: a byte that parts the pieces, `!` with a site's number, a count of sites and a limit,
// `?` with the lines of a session, and last `=` with those of several, each behind a `|`. It knows the lines `announce`,
// `release` and `sell`. The replies come session by session, each with how many receipts it was given.
use std::collections::{HashMap, HashSet};
use std::io::{self, Read, Write};
use std::sync::Mutex;
use std::thread;

const MOST: u64 = 1_000_000_000_000;
const SITES: usize = 2;

#[derive(Clone, Copy, PartialEq, Eq, Hash)]
struct Event {
    name: [u8; 32],
    len: u8,
}

#[derive(Clone, Copy, PartialEq, Eq)]
enum Request {
    Announce { event: Event },
    Release { event: Event, amount: u64 },
    Sell { event: Event, amount: u64 },
}

#[derive(Clone, Copy, PartialEq, Eq)]
enum Reply {
    Done,
    Known,
    Unknown,
    Short { left: u64 },
    CellFull,
}

#[derive(Clone, Copy)]
enum Cell {
    Gave { by: usize, to: usize },
    Used { by: usize },
}

#[derive(Clone, Copy)]
struct Mark {
    event: Event,
    cell: Cell,
    value: u64,
}

#[derive(Clone, Default)]
struct Delta {
    names: Vec<Event>,
    marks: Vec<Mark>,
}

#[derive(Clone)]
struct Entry {
    number: u64,
    request: Request,
    reply: Reply,
    delta: Delta,
}

struct Receipt {
    number: u64,
    request: Request,
    reply: Reply,
    place: usize,
}

// The cells of an event: what each site gave each, and what each sold.
#[derive(Default)]
struct Cells {
    gave: [[u64; SITES]; SITES],
    used: [u64; SITES],
}

impl Cells {
    fn at(&mut self, cell: Cell) -> &mut u64 {
        match cell {
            Cell::Gave { by, to } => &mut self.gave[by][to],
            Cell::Used { by } => &mut self.used[by],
        }
    }

    fn left(&self, me: usize) -> u64 {
        let got: u64 = self.gave.iter().map(|row| row[me]).sum();
        let given: u64 = self.gave[me].iter().sum::<u64>() - self.gave[me][me];
        got - given - self.used[me]
    }
}

#[derive(Default)]
struct Book {
    me: usize,
    limit: usize,
    kept: HashMap<u64, usize>,
    history: Vec<Entry>,
    list: Option<Vec<Entry>>,
    names: HashSet<Event>,
    cells: HashMap<Event, Cells>,
    asked: u64,
}

impl Book {
    // What a request leads to.
    fn decide(&self, request: Request) -> (Reply, Delta) {
        let nothing = Delta::default();
        match request {
            Request::Announce { event } if self.names.contains(&event) => (Reply::Known, nothing),
            Request::Announce { event } => {
                let names = vec![event];
                (Reply::Done, Delta { names, ..nothing })
            }
            Request::Release { event, .. } | Request::Sell { event, .. } if !self.names.contains(&event) => {
                (Reply::Unknown, nothing)
            }
            Request::Release { event, amount } => {
                let (by, to) = (self.me, self.me);
                let old = self.cells.get(&event).map_or(0, |cells| cells.gave[by][to]);
                raised(event, Cell::Gave { by, to }, old, amount)
            }
            Request::Sell { event, amount } => {
                let left = self.cells.get(&event).map_or(0, |cells| cells.left(self.me));
                if left < amount {
                    return (Reply::Short { left }, nothing);
                }
                let by = self.me;
                let old = self.cells.get(&event).map_or(0, |cells| cells.used[by]);
                raised(event, Cell::Used { by }, old, amount)
            }
        }
    }

    // Answers a request under its number, and gives its receipt and whether it is new.
    fn ask(&mut self, number: u64, request: Request) -> Option<(Receipt, bool)> {
        if let Some(&place) = self.kept.get(&number) {
            let Entry { request: kept, reply, .. } = self.history[place];
            return (kept == request).then_some((Receipt { number, request, reply, place }, false));
        }
        if self.history.len() >= self.limit {
            return None;
        }
        let (reply, delta) = self.decide(request);
        let entry = Entry { number, request, reply, delta };
        if let Some(list) = &mut self.list {
            list.push(entry.clone());
        }
        for name in &entry.delta.names {
            self.names.insert(*name);
        }
        for mark in &entry.delta.marks {
            let cell = self.cells.entry(mark.event).or_default().at(mark.cell);
            *cell = mark.value.max(*cell);
        }
        let place = self.history.len();
        self.kept.insert(number, place);
        self.history.push(entry);
        self.asked += 1;
        Some((Receipt { number, request, reply, place }, true))
    }

    // Whether the entry at the receipt's place is what it says.
    fn has(&self, receipt: &Receipt) -> bool {
        let entry = &self.history[receipt.place];
        entry.number == receipt.number && entry.request == receipt.request && entry.reply == receipt.reply
    }
}

fn raised(event: Event, cell: Cell, old: u64, amount: u64) -> (Reply, Delta) {
    let value = old + amount;
    if value > MOST {
        return (Reply::CellFull, Delta::default());
    }
    let marks = vec![Mark { event, cell, value }];
    (Reply::Done, Delta { marks, names: Vec::new() })
}

// A number without leading zeros, from 1 on.
fn number(word: &str) -> Option<u64> {
    let is_spelled = word.bytes().all(|byte| byte.is_ascii_digit()) && !word.starts_with('0');
    if is_spelled { word.parse().ok().filter(|number| *number <= MOST) } else { None }
}

// The name of an event: 1 to 32 small letters, digits and dashes.
fn event(word: &str) -> Option<Event> {
    let is_of_name = |byte: u8| byte.is_ascii_lowercase() || byte.is_ascii_digit() || byte == b'-';
    if word.is_empty() || word.len() > 32 || !word.bytes().all(is_of_name) {
        return None;
    }
    let mut name = [0; 32];
    name[..word.len()].copy_from_slice(word.as_bytes());
    Some(Event { name, len: word.len() as u8 })
}

// The request that a line asks, under its number.
fn request(line: &str) -> Option<(u64, Request)> {
    let mut words = line.split(' ');
    let (verb, asked, event) = (words.next()?, number(words.next()?)?, event(words.next()?)?);
    let request = match verb {
        "announce" => Request::Announce { event },
        "release" => Request::Release { event, amount: number(words.next()?)? },
        "sell" => Request::Sell { event, amount: number(words.next()?)? },
        _ => return None,
    };
    words.next().is_none().then_some((asked, request))
}

fn put_reply(reply: Reply, replies: &mut Vec<u8>) -> io::Result<()> {
    match reply {
        Reply::Done => writeln!(replies, "done"),
        Reply::Known => writeln!(replies, "known"),
        Reply::Unknown => writeln!(replies, "unknown"),
        Reply::Short { left } => writeln!(replies, "short {left}"),
        Reply::CellFull => writeln!(replies, "cell-full"),
    }
}

// What a session wrote, what it was given, and how much of that was new.
#[derive(Default)]
struct Served {
    replies: Vec<u8>,
    receipts: Vec<Receipt>,
    new: u64,
}

// Answers each line of a session.
fn serve(desk: &Mutex<Book>, lines: &str) -> io::Result<Served> {
    let mut served = Served::default();
    for line in lines.lines() {
        let Some((number, request)) = request(line) else {
            writeln!(served.replies, "bad-line")?;
            continue;
        };
        let answer = desk.lock().unwrap().ask(number, request);
        let Some((receipt, is_new)) = answer else {
            writeln!(served.replies, "refused")?;
            continue;
        };
        put_reply(receipt.reply, &mut served.replies)?;
        served.receipts.push(receipt);
        served.new += u64::from(is_new);
    }
    Ok(served)
}

// Serves each session in a thread of its own, and holds what they were given against the history.
fn serve_all(book: Book, sessions: &str, out: &mut Vec<u8>) -> io::Result<()> {
    let before = book.asked;
    let desk = Mutex::new(book);
    let shared = &desk;
    let ends: Vec<Served> = thread::scope(|scope| {
        let all: Vec<_> = sessions.split('|').map(|lines| scope.spawn(move || serve(shared, lines))).collect();
        all.into_iter().map(|thread| thread.join().unwrap()).collect::<io::Result<_>>()
    })?;
    let book = desk.into_inner().unwrap();
    for end in &ends {
        out.extend_from_slice(&end.replies);
        writeln!(out, "receipts {} looks 0", end.receipts.len())?;
    }
    let new: u64 = ends.iter().map(|end| end.new).sum();
    let is_whole = new == book.asked - before && ends.iter().all(|end| end.receipts.iter().all(|receipt| book.has(receipt)));
    writeln!(out, "{}", if is_whole { "whole" } else { "strangers" })
}

fn main() -> io::Result<()> {
    let list = std::env::args().nth(1).map(|_| Vec::new());
    let mut input = String::new();
    io::stdin().read_to_string(&mut input)?;
    let mut pieces = input[1..].split(&input[..1]);
    let office: Vec<usize> = pieces.next().unwrap()[1..].split(' ').map(|word| word.parse().unwrap()).collect();
    let mut book = Book { me: office[0], limit: office[2], list, ..Book::default() };
    let mut out = Vec::new();
    for piece in pieces {
        if let Some(sessions) = piece.strip_prefix('=') {
            serve_all(book, sessions, &mut out)?;
            break;
        }
        let desk = Mutex::new(book);
        out.extend_from_slice(&serve(&desk, &piece[1..])?.replies);
        book = desk.into_inner().unwrap();
    }
    io::stdout().write_all(&out)
}
