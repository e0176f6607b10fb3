// A plain Rust implementation of document 01's reader, with times of two bytes, speeds to the nearest segment and exits, and formula, under a
// cap on the borders or without one, to time the proved one against: structs, Vec and iterators, follow lists and meeting triples worked out
// once a book, one walk over the families and the cap's counter that is generic in where its words go (counted, or stored in a slice).
// Written from tools/reference.py; nothing in it is tuned by hand.

// a node's kind
const EXIT: u8 = 3;

pub struct Train {
    pub departure: usize,
    pub place: Vec<u8>,
    pub l: usize,
    pub k: usize,
    pub calls: Vec<Call>,
}

#[derive(Clone, Copy)]
pub struct Call {
    pub segment: usize,
    pub first: usize,
    pub last: usize,
}

#[derive(Clone, Copy)]
pub struct Segment {
    pub a: u8,
    pub b: u8,
    pub ttd: u8,
}

#[derive(Default)]
pub struct Book {
    pub rs: usize,
    pub rt: usize,
    pub intervals: usize,
    pub nodes: Vec<u8>,
    pub segments: Vec<Segment>,
    pub joins: Vec<(u8, u8, u8)>,
    pub trains: Vec<Train>,
    pub runs: Vec<Vec<Vec<u8>>>,
}

impl Book {
    pub fn touches(&self, s: u8, node: u8) -> bool {
        let s = self.segments[s as usize];
        s.a == node || s.b == node
    }

    fn start_node(&self, d: u8) -> u8 {
        let s = self.segments[d as usize / 2];
        if d % 2 == 0 { s.a } else { s.b }
    }

    fn end_node(&self, d: u8) -> u8 {
        let s = self.segments[d as usize / 2];
        if d % 2 == 0 { s.b } else { s.a }
    }

    fn joined(&self, node: u8, s: u8, t: u8) -> bool {
        self.joins.iter().any(|&(n, x, y)| n == node && ((x, y) == (s, t) || (y, x) == (s, t)))
    }

    fn leads_to(&self, d: u8, e: u8) -> bool {
        let node = self.end_node(d);
        node == self.start_node(e) && self.joined(node, d / 2, e / 2)
    }

    fn is_path(&self, row: &[u8]) -> bool {
        let different = (0..row.len()).all(|i| (0..i).all(|j| row[i] / 2 != row[j] / 2));
        different && row.windows(2).all(|w| self.leads_to(w[0], w[1]))
    }
}

pub fn two(p: &[u8], at: usize) -> usize {
    p[at] as usize | (p[at + 1] as usize) << 8
}

pub fn refuse_if(test: bool, number: usize) -> Result<(), usize> {
    if test { Err(number) } else { Ok(()) }
}

// The book that the bytes hold, or a refusal's number.
pub fn read_book(s: &[u8]) -> Result<Book, usize> {
    let mut book = Book::default();
    let (mut at, mut last) = (0, 0);
    while last != 8 {
        refuse_if(s.len() - at < 4, 1)?;
        let (len, kind) = (two(s, at), two(s, at + 2));
        refuse_if(s.len() - at - 4 < len, 1)?;
        let p = &s[at + 4..at + 4 + len];
        at += 4 + len;
        refuse_if(!(1..=8).contains(&kind), 2)?;
        let order = if last == 0 { kind != 1 } else { kind == 1 || kind < last };
        refuse_if(order || kind == 8 && at < s.len(), 3)?;
        let wanted = match kind {
            1 | 6 => 6,
            2 | 7 => 1,
            3 | 4 => 3,
            5 if len >= 7 => 7 + p[6] as usize,
            5 => 7,
            _ => 0,
        };
        refuse_if(len != wanted, 4)?;
        match kind {
            1 => take_head(&mut book, p)?,
            2 => take_node(&mut book, p)?,
            3 => take_segment(&mut book, p)?,
            4 => take_join(&mut book, p)?,
            5 => take_train(&mut book, p)?,
            6 => take_call(&mut book, p)?,
            7 => take_unbreakable(&book, p)?,
            _ => {}
        }
        last = kind;
    }
    refuse_if(book.trains.is_empty() || book.trains.iter().any(|t| t.calls.is_empty()), 10)?;
    let directed = 2 * book.segments.len() as u8;
    let after: Vec<Vec<u8>> =
        (0..directed).map(|d| (0..directed).filter(|&e| book.leads_to(d, e)).collect()).collect();
    for t in &book.trains {
        let mut runs = Vec::new();
        for j in 0..=t.k {
            for d in 0..directed {
                extend(&mut vec![d], t.l + j - 1, &after, &mut runs);
            }
        }
        refuse_if(runs.len() > 256, 11)?;
        book.runs.push(runs);
    }
    Ok(book)
}

fn take_head(book: &mut Book, p: &[u8]) -> Result<(), usize> {
    (book.rs, book.rt, book.intervals) = (two(p, 0), two(p, 2), two(p, 4));
    refuse_if(book.rs < 1 || book.rt < 1 || !(1..=256).contains(&book.intervals), 6)
}

fn take_node(book: &mut Book, p: &[u8]) -> Result<(), usize> {
    refuse_if(book.nodes.len() == 96, 5)?;
    refuse_if(p[0] > EXIT, 6)?;
    book.nodes.push(p[0]);
    Ok(())
}

fn take_segment(book: &mut Book, p: &[u8]) -> Result<(), usize> {
    let n = book.nodes.len();
    refuse_if(book.segments.len() == 64, 5)?;
    refuse_if(p[0] as usize >= n || p[1] as usize >= n || p[0] == p[1] || p[2] > 63, 6)?;
    book.segments.push(Segment { a: p[0], b: p[1], ttd: p[2] });
    Ok(())
}

fn take_join(book: &mut Book, p: &[u8]) -> Result<(), usize> {
    let (node, s, t) = (p[0], p[1], p[2]);
    refuse_if(book.joins.len() == 128, 5)?;
    refuse_if(node as usize >= book.nodes.len(), 6)?;
    refuse_if(s.max(t) as usize >= book.segments.len() || s == t, 6)?;
    refuse_if(!book.touches(s, node) || !book.touches(t, node) || book.joined(node, s, t), 6)?;
    book.joins.push((node, s, t));
    Ok(())
}

fn take_train(book: &mut Book, p: &[u8]) -> Result<(), usize> {
    let (metres, speed, departure, place) = (two(p, 0), two(p, 2), two(p, 4), &p[7..]);
    refuse_if(book.trains.len() == 8, 5)?;
    refuse_if(metres < 1 || departure >= book.intervals, 6)?;
    refuse_if(place.iter().any(|&d| d as usize / 2 >= book.segments.len()), 6)?;
    let l = metres.div_ceil(book.rs);
    // to the nearest, an exact half going down
    let k = (10 * speed * book.rt + 18 * book.rs - 1) / (36 * book.rs);
    refuse_if(!(1..=8).contains(&l) || !(1..=8).contains(&k), 7)?;
    refuse_if(place.len() != l || !book.is_path(place), 8)?;
    book.trains.push(Train { departure, place: place.to_vec(), l, k, calls: Vec::new() });
    Ok(())
}

fn take_call(book: &mut Book, p: &[u8]) -> Result<(), usize> {
    let (train, segment, first, last) = (p[0] as usize, p[1] as usize, two(p, 2), two(p, 4));
    refuse_if(book.trains.get(train).is_some_and(|t| t.calls.len() == 4), 5)?;
    refuse_if(train >= book.trains.len() || segment >= book.segments.len(), 6)?;
    refuse_if(first > last || last > book.intervals, 6)?;
    book.trains[train].calls.push(Call { segment, first, last });
    Ok(())
}

fn take_unbreakable(book: &Book, p: &[u8]) -> Result<(), usize> {
    refuse_if(book.segments.iter().all(|s| s.ttd != p[0]), 6)?;
    for (node, &kind) in book.nodes.iter().enumerate() {
        let there = (0..book.segments.len() as u8)
            .filter(|&s| book.segments[s as usize].ttd == p[0] && book.touches(s, node as u8));
        refuse_if((kind == 1 || kind == 2) && there.count() >= 2, 9)?;
    }
    Ok(())
}

fn extend(path: &mut Vec<u8>, missing: usize, after: &[Vec<u8>], runs: &mut Vec<Vec<u8>>) {
    if runs.len() > 256 {
        return;
    }
    if missing == 0 {
        runs.push(path.clone());
        return;
    }
    for &d in &after[path[path.len() - 1] as usize] {
        if path.iter().all(|&e| e / 2 != d / 2) {
            path.push(d);
            extend(path, missing - 1, after, runs);
            path.pop();
        }
    }
}

// Where words go.
pub trait Sink {
    fn word(&mut self, word: i32);

    fn clause(&mut self, words: &[i32]) {
        for &w in words {
            self.word(w);
        }
        self.close();
    }

    fn close(&mut self);
}

// Counts words and clauses.
#[derive(Default)]
pub struct Count {
    pub words: usize,
    pub clauses: usize,
}

impl Sink for Count {
    fn word(&mut self, _: i32) {
        self.words += 1;
    }

    fn close(&mut self) {
        self.words += 1;
        self.clauses += 1;
    }
}

// Stores words in a slice, by index.
pub struct Store<'a> {
    pub out: &'a mut [i32],
    pub at: usize,
}

impl Sink for Store<'_> {
    fn word(&mut self, word: i32) {
        self.out[self.at] = word;
        self.at += 1;
    }

    fn close(&mut self) {
        self.word(0);
    }
}

// A cap's counter over the nodes of kind 1; nothing is counted where `spare` is 0. Its variables stand behind all others: by j below `most`,
// then k below `spare`, whether more than j of the first j + k + 1 of these nodes are set.
#[derive(Default)]
pub struct Counter {
    nodes: Vec<usize>, // the nodes of kind 1
    pub most: usize,   // the cap
    pub spare: usize,  // how many more nodes there are than that
}

impl Counter {
    // A cap that is not below the count of kind 1 nodes adds nothing.
    pub fn new(kinds: &[u8], cap: Option<usize>) -> Counter {
        let Some(most) = cap else { return Counter::default() };
        let nodes: Vec<usize> = (0..kinds.len()).filter(|&node| kinds[node] == 1).collect();
        let spare = nodes.len().saturating_sub(most);
        if spare == 0 { Counter::default() } else { Counter { nodes, most, spare } }
    }

    pub fn variables(&self) -> usize {
        self.most * self.spare
    }

    // Whether more nodes of kind 1 are set than the cap allows.
    pub fn is_passed(&self, borders: &[u8]) -> bool {
        self.nodes.iter().filter(|&&node| borders[node] == 1).count() > self.most
    }

    // Its clauses; `others` is how many variables stand ahead of its own.
    pub fn walk<S: Sink>(&self, others: usize, out: &mut S) {
        let count = |j: usize, k: usize| (others + j * self.spare + k + 1) as i32;
        for j in 0..=self.most {
            for k in 0..self.spare {
                out.word(-(self.nodes[j + k] as i32 + 1));
                if j > 0 {
                    out.word(-count(j - 1, k));
                }
                if j < self.most {
                    out.word(count(j, k));
                }
                out.close();
                if j < self.most && k > 0 {
                    out.clause(&[-count(j, k - 1), count(j, k)]);
                }
            }
        }
    }

    // The values that borders give to its variables.
    pub fn fill(&self, borders: &[u8], out: &mut [u8]) {
        let mut set = 0;
        let among: Vec<usize> = self.nodes.iter().map(|&node| { set += borders[node] as usize; set }).collect();
        for j in 0..self.most {
            for k in 0..self.spare {
                out[j * self.spare + k] = u8::from(among[j + k] > j);
            }
        }
    }
}

// What the walk looks up, worked out once a book.
pub struct Tables {
    pub first: Vec<i32>,          // by train: its first variable, counted from 1
    pub width: Vec<i32>,          // by train: its variables an interval
    follow: Vec<Vec<Vec<i32>>>, // by train and run: the runs that may follow
    leaves: Vec<Vec<bool>>,    // by train and run: whether the train may be gone after it
    elsewhere: Vec<Vec<i32>>,  // by train: the runs that do not start at its place
    serving: Vec<Vec<Vec<i32>>>, // by train and call: the runs whose end serves it
    pub meets: Vec<(i32, i32, i32)>, // node, first segment, second segment
    counter: Counter,
    pub variables: usize,
}

pub fn holds(place: &[u8], segment: usize) -> bool {
    place.iter().any(|&d| d as usize / 2 == segment)
}

// Whether a train with this goal may be gone from a place: its front ends at an exit.
pub fn may_leave(book: &Book, place: &[u8], goal: usize) -> bool {
    holds(place, goal) && book.nodes[book.end_node(place[place.len() - 1]) as usize] == EXIT
}

// What meets: a node, and two segments of one TTD there.
pub fn meets(book: &Book) -> Vec<(i32, i32, i32)> {
    let n = book.segments.len() as u8;
    let mut found = Vec::new();
    for node in 0..book.nodes.len() as u8 {
        for s in (0..n).filter(|&s| book.touches(s, node)) {
            for u in (0..n).filter(|&u| u != s && book.touches(u, node)) {
                if book.segments[s as usize].ttd == book.segments[u as usize].ttd {
                    found.push((node as i32, s as i32, u as i32));
                }
            }
        }
    }
    found
}

pub fn tables(book: &Book, cap: Option<usize>) -> Tables {
    let mut t = Tables {
        first: Vec::new(),
        width: Vec::new(),
        follow: Vec::new(),
        leaves: Vec::new(),
        elsewhere: Vec::new(),
        serving: Vec::new(),
        meets: meets(book),
        counter: Counter::new(&book.nodes, cap),
        variables: 0,
    };
    let mut next = book.nodes.len() as i32 + 1;
    for (train, runs) in book.trains.iter().zip(&book.runs) {
        let l = train.l;
        let end = |r: &Vec<u8>| r.len() - l;
        let goal = train.calls[train.calls.len() - 1].segment;
        let numbers = |test: &dyn Fn(&Vec<u8>) -> bool| -> Vec<i32> {
            (0..runs.len()).filter(|&q| test(&runs[q])).map(|q| q as i32).collect()
        };
        let width = (runs.len() + 1 + book.segments.len()) as i32;
        t.first.push(next);
        t.width.push(width);
        next += width * book.intervals as i32;
        t.follow.push(runs.iter().map(|r| numbers(&|q| q[..l] == r[end(r)..])).collect());
        t.leaves.push(runs.iter().map(|r| may_leave(book, &r[end(r)..], goal)).collect());
        t.elsewhere.push(numbers(&|r| r[..l] != train.place[..]));
        t.serving.push(
            train.calls.iter().map(|c| numbers(&|r| holds(&r[end(r)..], c.segment))).collect(),
        );
    }
    t.variables = next as usize - 1 + t.counter.variables();
    t
}

// The whole formula, family by family, and the cap's clauses.
pub fn walk<S: Sink>(book: &Book, t: &Tables, out: &mut S) {
    let trains = book.trains.len();
    let intervals = book.intervals;
    let runs = |tr: usize| book.runs[tr].len() as i32;
    let base = |tr: usize, i: usize| t.first[tr] + i as i32 * t.width[tr];
    let claims = |tr: usize, i: usize| base(tr, i) + runs(tr) + 1;
    for (node, &kind) in book.nodes.iter().enumerate() {
        let v = node as i32 + 1;
        match kind {
            0 | EXIT => out.clause(&[-v]),
            2 => out.clause(&[v]),
            _ => {}
        }
    }
    for tr in 0..trains {
        for i in 0..book.trains[tr].departure {
            for k in 0..runs(tr) + 1 {
                out.clause(&[-(base(tr, i) + k)]);
            }
        }
    }
    for tr in 0..trains {
        for i in book.trains[tr].departure..intervals {
            let (from, end) = (base(tr, i), claims(tr, i));
            for v in from..end {
                out.word(v);
            }
            out.close();
            for v in from..end {
                for x in v + 1..end {
                    out.clause(&[-v, -x]);
                }
            }
        }
    }
    for tr in 0..trains {
        let from = base(tr, book.trains[tr].departure);
        for &r in &t.elsewhere[tr] {
            out.clause(&[-(from + r)]);
        }
        out.clause(&[-(from + runs(tr))]);
    }
    for tr in 0..trains {
        for i in book.trains[tr].departure + 1..intervals {
            let (from, to) = (base(tr, i - 1), base(tr, i));
            for (r, follow) in t.follow[tr].iter().enumerate() {
                out.word(-(from + r as i32));
                for &q in follow {
                    out.word(to + q);
                }
                if t.leaves[tr][r] {
                    out.word(to + runs(tr));
                }
                out.close();
            }
            out.clause(&[-(from + runs(tr)), to + runs(tr)]);
        }
    }
    for tr in 0..trains {
        let train = &book.trains[tr];
        let d = train.departure;
        for (c, serving) in train.calls.iter().zip(&t.serving[tr]) {
            if c.first <= d && d <= c.last && holds(&train.place, c.segment) {
                continue;
            }
            for time in c.first.max(d + 1)..c.last + 1 {
                for &r in serving {
                    out.word(base(tr, time - 1) + r);
                }
            }
            out.close();
        }
    }
    for tr in 0..trains {
        for i in 0..intervals {
            for (r, run) in book.runs[tr].iter().enumerate() {
                for &x in run {
                    out.clause(&[-(base(tr, i) + r as i32), claims(tr, i) + x as i32 / 2]);
                }
            }
        }
    }
    for tr in 0..trains {
        for i in 0..intervals {
            let from = claims(tr, i);
            for &(node, s, u) in &t.meets {
                out.clause(&[-(from + s), node + 1, from + u]);
            }
        }
    }
    for i in 0..intervals {
        for x in 0..trains {
            for y in x + 1..trains {
                for s in 0..book.segments.len() as i32 {
                    out.clause(&[-(claims(x, i) + s), -(claims(y, i) + s)]);
                }
            }
        }
    }
    t.counter.walk(t.variables - t.counter.variables(), out);
}

// Variables, clauses and words, with the words written, or a refusal's number and the output as it was.
pub fn write_formula(cap: Option<usize>, s: &[u8], out: &mut [i32]) -> Result<(usize, usize, usize), usize> {
    let book = read_book(s)?;
    let t = tables(&book, cap);
    let mut count = Count::default();
    walk(&book, &t, &mut count);
    refuse_if(out.len() < count.words, 12)?;
    let mut store = Store { out, at: 0 };
    walk(&book, &t, &mut store);
    Ok((t.variables, count.clauses, count.words))
}
