// `boxoffice world` once more, as a plain, unproved program over Rust's standard library alone: what the figures for
// scripts are ratios to, and a second opinion on every answer.
//
// usage: plain_world < script
use std::collections::{BTreeMap, BTreeSet, HashMap};
use std::io::{self, Read, Write};
use std::rc::Rc;

const BIG: u64 = 1_000_000_000_000;
type Ev = Rc<str>;
type Cell = (u8, u8, u8); // kind, by, to
type Cells = BTreeMap<(Ev, Cell), u64>;

#[derive(Clone, PartialEq)]
enum Req {
    Announce(Ev),
    Release(Ev, u64),
    Sell(Ev, u64),
    Refund(u64, Option<u64>),
    Cede(Ev, u64, u8),
}
#[derive(Clone, PartialEq)]
enum Reply {
    Done,
    Known,
    Unknown,
    Short(u64),
    CellFull,
    NoSale,
    Refunded,
    TooMany(u64),
    ToSelf,
    NoSite,
}
struct Delta {
    names: Vec<Ev>,
    marks: Vec<((Ev, Cell), u64)>,
}
enum Entry {
    Asked {
        amount: u64,
        kind: u8,
        event: Option<Ev>,
        delta: Delta,
    },
    Joined(Delta),
    Grown,
}
struct Site {
    me: u8,
    sites: u8,
    limit: usize,
    history: Vec<Entry>,
    kept: HashMap<u64, (Req, Reply)>,
    given: HashMap<u64, u64>,
    cells: Cells,
    left: HashMap<Ev, i64>,
    names: BTreeSet<Ev>,
    acked: Vec<usize>,
}
enum Msg {
    Delta {
        by: u8,
        to: u8,
        upto: usize,
        delta: Delta,
    },
    Ack {
        by: u8,
        to: u8,
        upto: usize,
    },
}

impl Site {
    fn new(me: u8, sites: u8, limit: usize) -> Site {
        Site {
            me,
            sites,
            limit,
            history: vec![],
            kept: HashMap::new(),
            given: HashMap::new(),
            cells: BTreeMap::new(),
            left: HashMap::new(),
            names: BTreeSet::new(),
            acked: vec![0; 64],
        }
    }
    fn get(&self, e: &Ev, c: Cell) -> u64 {
        *self.cells.get(&(e.clone(), c)).unwrap_or(&0)
    }
    fn left(&self, e: &Ev) -> u64 {
        *self.left.get(e).unwrap_or(&0) as u64
    }
    fn raise(&mut self, k: &(Ev, Cell), v: u64) {
        let old = self.cells.entry(k.clone()).or_insert(0);
        if v <= *old {
            return;
        }
        let by = (v - *old) as i64;
        *old = v;
        let (kind, i, j) = k.1;
        let me = self.me;
        let d = match kind {
            0 if i == me && j == me => by,
            0 if j == me => by,
            0 if i == me => -by,
            1 if i == me => -by,
            2 if i == me => by,
            _ => 0,
        };
        if d != 0 {
            *self.left.entry(k.0.clone()).or_insert(0) += d;
        }
    }
    fn enter_delta(&mut self, d: &Delta) {
        for n in &d.names {
            self.names.insert(n.clone());
        }
        for (k, v) in &d.marks {
            self.raise(k, *v);
        }
    }
    fn plan(&self, req: &Req) -> (Reply, u8, u64, Option<Ev>, Delta) {
        let none = || Delta {
            names: vec![],
            marks: vec![],
        };
        let no = |r: Reply| (r, 9u8, 0u64, None, none());
        let me = self.me;
        let up = |e: &Ev, c: Cell, n: u64, kind: u8| {
            let v = self.get(e, c) + n;
            if v > BIG {
                (Reply::CellFull, 9, 0, None, none())
            } else {
                (
                    Reply::Done,
                    kind,
                    n,
                    Some(e.clone()),
                    Delta {
                        names: vec![],
                        marks: vec![((e.clone(), c), v)],
                    },
                )
            }
        };
        match req {
            Req::Announce(e) => {
                if self.names.contains(e) {
                    no(Reply::Known)
                } else {
                    (
                        Reply::Done,
                        9,
                        0,
                        None,
                        Delta {
                            names: vec![e.clone()],
                            marks: vec![],
                        },
                    )
                }
            }
            Req::Refund(sale, part) => match self.kept.get(sale) {
                Some((Req::Sell(e, n), Reply::Done)) => {
                    let rest = *n - self.given.get(sale).copied().unwrap_or(0);
                    if rest == 0 {
                        no(Reply::Refunded)
                    } else if part.is_some_and(|part| part > rest) {
                        no(Reply::TooMany(rest))
                    } else {
                        up(e, (2, me, me), part.unwrap_or(rest), 2)
                    }
                }
                _ => no(Reply::NoSale),
            },
            Req::Release(e, n) => {
                if !self.names.contains(e) {
                    no(Reply::Unknown)
                } else {
                    up(e, (0, me, me), *n, 0)
                }
            }
            Req::Sell(e, n) => {
                if !self.names.contains(e) {
                    no(Reply::Unknown)
                } else if *n > self.left(e) {
                    no(Reply::Short(self.left(e)))
                } else {
                    up(e, (1, me, me), *n, 1)
                }
            }
            Req::Cede(e, n, t) => {
                if !self.names.contains(e) {
                    no(Reply::Unknown)
                } else if *t == me {
                    no(Reply::ToSelf)
                } else if *t >= self.sites {
                    no(Reply::NoSite)
                } else if *n > self.left(e) {
                    no(Reply::Short(self.left(e)))
                } else {
                    up(e, (0, me, *t), *n, 3)
                }
            }
        }
    }
    fn ask(&mut self, number: u64, req: Req, store: bool) -> String {
        if let Some((q, r)) = self.kept.get(&number) {
            return if *q == req { text(r) } else { "reused".into() };
        }
        if self.history.len() >= self.limit {
            return "history-full".into();
        }
        let (reply, kind, amount, event, delta) = self.plan(&req);
        let t = text(&reply);
        if store {
            self.enter_delta(&delta);
            if kind == 2 {
                if let Req::Refund(sale, _) = &req {
                    *self.given.entry(*sale).or_insert(0) += amount;
                }
            }
            self.kept.insert(number, (req, reply));
            self.history.push(Entry::Asked {
                amount,
                kind,
                event,
                delta,
            });
        }
        t
    }
    fn take(&mut self, m: &Msg, store: bool) -> (String, Option<Msg>) {
        match m {
            Msg::Ack { by, to, upto } => {
                if *to != self.me || *by == self.me {
                    return ("not-for-me".into(), None);
                }
                if *by >= self.sites {
                    return ("unknown-site".into(), None);
                }
                if *upto > self.history.len() {
                    return (format!("stray-ack {}", self.history.len()), None);
                }
                let a = &mut self.acked[*by as usize];
                *a = (*a).max(*upto);
                ("acked".into(), None)
            }
            Msg::Delta { by, to, upto, delta } => {
                if *to != self.me || *by == self.me {
                    return ("not-for-me".into(), None);
                }
                if *by >= self.sites
                    || delta
                        .marks
                        .iter()
                        .any(|((_, c), _)| c.1 >= self.sites || c.2 >= self.sites)
                {
                    return ("unknown-site".into(), None);
                }
                if delta
                    .marks
                    .iter()
                    .any(|((e, c), v)| c.1 == self.me && *v > self.get(e, *c))
                {
                    return ("foreign-row".into(), None);
                }
                let ack = Msg::Ack {
                    by: self.me,
                    to: *by,
                    upto: *upto,
                };
                if delta.names.iter().all(|n| self.names.contains(n))
                    && delta.marks.iter().all(|((e, c), v)| *v <= self.get(e, *c))
                {
                    return ("nothing-new".into(), Some(ack));
                }
                if self.history.len() >= self.limit {
                    return ("history-full".into(), None);
                }
                if store {
                    let d = Delta {
                        names: delta.names.clone(),
                        marks: delta.marks.clone(),
                    };
                    self.enter_delta(&d);
                    self.history.push(Entry::Joined(d));
                }
                ("joined".into(), Some(ack))
            }
        }
    }
    fn next(&self, to: u8) -> Option<Msg> {
        let a = self.acked[to as usize];
        if a == self.history.len() {
            return None;
        }
        let (mut names, mut cells) = (BTreeSet::new(), BTreeMap::new());
        for e in &self.history[a..] {
            let d = match e {
                Entry::Asked { delta, .. } => delta,
                Entry::Joined(d) => d,
                Entry::Grown => continue,
            };
            for n in &d.names {
                names.insert(n.clone());
            }
            for (k, v) in &d.marks {
                let o = cells.entry(k.clone()).or_insert(0);
                *o = (*o).max(*v);
            }
        }
        Some(Msg::Delta {
            by: self.me,
            to,
            upto: self.history.len(),
            delta: Delta {
                names: names.into_iter().collect(),
                marks: cells.into_iter().collect(),
            },
        })
    }
    fn grow(&mut self, count: u8, store: bool) -> String {
        if count <= self.sites {
            return "not-more".into();
        }
        if self.history.len() >= self.limit {
            return "history-full".into();
        }
        if store {
            self.history.push(Entry::Grown);
            self.sites = count;
        }
        "grown".into()
    }
    fn view(&self, e: &Ev) -> (u64, u64, u64, String) {
        let (mut released, mut sold, mut refunded) = (0, 0, 0);
        let mut rights = [0_i64; 64];
        for ((_, (kind, by, to)), v) in self.cells.range((e.clone(), (0, 0, 0))..=(e.clone(), (9, 0, 0))) {
            match kind {
                0 if by == to => {
                    released += v;
                    rights[*by as usize] += *v as i64;
                }
                0 => {
                    rights[*by as usize] -= *v as i64;
                    rights[*to as usize] += *v as i64;
                }
                1 => {
                    sold += v;
                    rights[*by as usize] -= *v as i64;
                }
                _ => {
                    refunded += v;
                    rights[*by as usize] += *v as i64;
                }
            }
        }
        let open = if rights.iter().all(|right| *right >= 0) {
            (released + refunded - sold).to_string()
        } else {
            "none".into()
        };
        (released, sold, refunded, open)
    }
}
fn text(r: &Reply) -> String {
    match r {
        Reply::Done => "done".into(),
        Reply::Known => "known".into(),
        Reply::Unknown => "unknown".into(),
        Reply::Short(n) => format!("short {n}"),
        Reply::CellFull => "full-cell".into(),
        Reply::NoSale => "no-sale".into(),
        Reply::Refunded => "refunded".into(),
        Reply::TooMany(n) => format!("too-many {n}"),
        Reply::ToSelf => "to-self".into(),
        Reply::NoSite => "no-site".into(),
    }
}
fn num(w: &str, lo: u64, hi: u64) -> Option<u64> {
    if w.is_empty()
        || w.len() > 13
        || !w.bytes().all(|b| b.is_ascii_digit())
        || (w.len() > 1 && w.starts_with('0'))
    {
        return None;
    }
    let n = w.parse().ok()?;
    (lo <= n && n <= hi).then_some(n)
}
fn site(w: &str) -> Option<u8> {
    num(w, 0, 63).map(|n| n as u8)
}
fn ev(w: &str) -> Option<Ev> {
    (!w.is_empty()
        && w.len() <= 32
        && w.bytes()
            .all(|b| b.is_ascii_lowercase() || b.is_ascii_digit() || b == b'-'))
    .then(|| w.into())
}
fn req(w: &[&str]) -> Option<(u64, Req)> {
    let n = num(w.get(1)?, 1, BIG)?;
    Some((
        n,
        match (w[0], w.len()) {
            ("announce", 3) => Req::Announce(ev(w[2])?),
            ("release", 4) => Req::Release(ev(w[2])?, num(w[3], 1, BIG)?),
            ("sell", 4) => Req::Sell(ev(w[2])?, num(w[3], 1, BIG)?),
            ("refund", 3) => Req::Refund(num(w[2], 1, BIG)?, None),
            ("refund", 4) => Req::Refund(num(w[2], 1, BIG)?, Some(num(w[3], 1, BIG)?)),
            ("cede", 5) => Req::Cede(ev(w[2])?, num(w[3], 1, BIG)?, site(w[4])?),
            _ => return None,
        },
    ))
}
struct World {
    sites: Vec<Site>,
    sent: Vec<Msg>,
    limit: usize,
}
impl World {
    fn grow(&mut self, s: usize, count: u8, store: bool) -> String {
        let t = self.sites[s].grow(count, store);
        if store && t == "grown" {
            for i in self.sites.len()..count as usize {
                self.sites.push(Site::new(i as u8, count, self.limit));
            }
        }
        t
    }
    fn line(&mut self, l: &[u8]) -> Option<String> {
        let l = std::str::from_utf8(l).ok()?;
        let w: Vec<&str> = l.split(' ').collect();
        let none = || Some("no-such-site".to_string());
        match (w[0], w.len()) {
            ("send", 3) => {
                let (a, b) = (site(w[1])? as usize, site(w[2])? as usize);
                if a >= self.sites.len()
                    || b >= self.sites.len()
                    || a == b
                    || b >= self.sites[a].sites as usize
                {
                    return none();
                }
                match self.sites[a].next(b as u8) {
                    None => Some("nothing".into()),
                    Some(m) => {
                        self.sent.push(m);
                        Some(format!("message {}", self.sent.len() - 1))
                    }
                }
            }
            ("deliver", 2) => {
                let k = num(w[1], 0, 1_000_000_000)? as usize;
                let Some(m) = self.sent.get(k) else {
                    return Some("no-message".into());
                };
                let to = match m {
                    Msg::Delta { to, .. } | Msg::Ack { to, .. } => *to as usize,
                };
                let (t, ack) = self.sites[to].take(m, true);
                match ack {
                    None => Some(t),
                    Some(a) => {
                        self.sent.push(a);
                        Some(format!("{t} message {}", self.sent.len() - 1))
                    }
                }
            }
            ("restart", 2) => {
                let s = site(w[1])? as usize;
                if s >= self.sites.len() {
                    return none();
                }
                self.sites[s].acked = vec![0; 64];
                Some("restarted".into())
            }
            ("grow", 3) => {
                let s = site(w[1])? as usize;
                let count = num(w[2], 1, 64)? as u8;
                if s >= self.sites.len() {
                    return none();
                }
                Some(self.grow(s, count, true))
            }
            ("stop", n) if n >= 4 => {
                let s = site(w[1])? as usize;
                let kept = match w[2] {
                    "kept" => true,
                    "lost" => false,
                    _ => return None,
                };
                match (w[3], n) {
                    ("deliver", 5) => {
                        let k = num(w[4], 0, 1_000_000_000)? as usize;
                        if s >= self.sites.len() {
                            return none();
                        }
                        let Some(m) = self.sent.get(k) else {
                            return Some("no-message".into());
                        };
                        self.sites[s].take(m, kept);
                    }
                    ("grow", 5) => {
                        let count = num(w[4], 1, 64)? as u8;
                        if s >= self.sites.len() {
                            return none();
                        }
                        self.grow(s, count, kept);
                    }
                    _ => {
                        let (n, q) = req(&w[3..])?;
                        if s >= self.sites.len() {
                            return none();
                        }
                        self.sites[s].ask(n, q, kept);
                    }
                }
                self.sites[s].acked = vec![0; 64];
                Some("stopped".into())
            }
            (_, n) if n >= 3 => {
                let s = site(w[0])? as usize;
                if (w[1] == "left" || w[1] == "totals") && n == 3 {
                    let e = ev(w[2])?;
                    if s >= self.sites.len() {
                        return none();
                    }
                    let b = &self.sites[s];
                    if !b.names.contains(&e) {
                        return Some("unknown".into());
                    }
                    return Some(if w[1] == "left" {
                        format!("left {}", b.left(&e))
                    } else {
                        let (r, s, f, o) = b.view(&e);
                        format!("totals released {r} sold {s} refunded {f} open {o}")
                    });
                }
                let (k, q) = req(&w[1..])?;
                if s >= self.sites.len() {
                    return none();
                }
                Some(self.sites[s].ask(k, q, true))
            }
            _ => None,
        }
    }
}
fn main() -> io::Result<()> {
    let mut input = vec![];
    io::stdin().read_to_end(&mut input)?;
    let mut out = io::BufWriter::with_capacity(1 << 16, io::stdout());
    let mut fail = None;
    let mut lines = vec![];
    let mut rest = &input[..];
    while !rest.is_empty() {
        if lines.len() == 1_000_000 {
            fail = Some("too-many-lines");
            break;
        }
        match rest.iter().take(201).position(|b| *b == b'\n') {
            Some(k) => {
                lines.push(&rest[..k]);
                rest = &rest[k + 1..];
            }
            None if rest.len() > 200 => {
                fail = Some("line-too-long");
                break;
            }
            None => {
                lines.push(rest);
                rest = &[];
            }
        }
    }
    let first = lines
        .first()
        .and_then(|l| std::str::from_utf8(l).ok())
        .and_then(|l| l.strip_prefix("sites "))
        .and_then(|w| num(w, 1, 64));
    if lines.is_empty() && fail.is_some() {
        eprintln!("{}", fail.unwrap());
        std::process::exit(3);
    }
    let Some(n) = first else {
        writeln!(out, "bad-line")?;
        out.flush()?;
        std::process::exit(1)
    };
    let mut w: Option<World> = None;
    let mut limit = 1_000_000;
    for (k, l) in lines.iter().enumerate().skip(1) {
        if k == 1 {
            if let Some(x) = std::str::from_utf8(l)
                .ok()
                .and_then(|l| l.strip_prefix("limit "))
                .and_then(|x| num(x, 1, 1_000_000))
            {
                limit = x as usize;
                continue;
            }
        }
        let w = w.get_or_insert_with(|| World {
            sites: (0..n as u8).map(|i| Site::new(i, n as u8, limit)).collect(),
            sent: vec![],
            limit,
        });
        let t = w.line(l).unwrap_or_else(|| "bad-line".into());
        writeln!(out, "{t}")?;
    }
    if let Some(f) = fail {
        out.flush()?;
        eprintln!("{f}");
        std::process::exit(3);
    }
    let mut t: BTreeMap<Ev, (u64, u64, u64)> = BTreeMap::new();
    if let Some(w) = &w {
        for s in &w.sites {
            for e in &s.names {
                t.entry(e.clone()).or_default();
            }
            for e in &s.history {
                if let Entry::Asked {
                    amount,
                    kind,
                    event: Some(e),
                    ..
                } = e
                {
                    let x = t.entry(e.clone()).or_default();
                    match kind {
                        0 => x.0 += amount,
                        1 => x.1 += amount,
                        2 => x.2 += amount,
                        _ => {}
                    }
                }
            }
        }
    }
    for (e, (r, s, f)) in t {
        writeln!(
            out,
            "{e} released {r} sold {s} refunded {f} outstanding {}",
            s - f
        )?;
    }
    out.flush()
}
