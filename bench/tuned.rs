// Rust of document 01's reader, with times of two bytes, speeds to the nearest segment and exits, that is tuned for speed, to time the proved
// one against; tuned_formula.rs and tuned_checks.rs go on from it. What was done:
//
// - Everything lies in fixed arrays of a space that the caller keeps: nothing is allocated a call, and nothing is cleared that is not used.
// - Joins are bit masks: by directed segment, the segments that may follow it. So a repeated join is a bit, and no join is looked for.
// - A run is a number of 16 bytes, its directed segments, beside the mask of its segments, which tells what may not follow. The runs of
//   each length are those of the length before with one more segment, which is also their dictionary order.
// - Trains of equal l and k have one list of runs (SHARED; without it each train's list is made anew, as the proved reader does).

pub const NODES: usize = 96;
pub const SEGMENTS: usize = 64;
pub const TRAINS: usize = 8;
pub const RUNS: usize = 256;
pub const INTERVALS: usize = 256;
pub const EXIT: u8 = 3; // a node's kind

#[derive(Clone, Copy, Default)]
pub struct Call {
    pub segment: u8,
    pub first: u16,
    pub last: u16,
}

#[derive(Clone, Copy, Default)]
pub struct Train {
    pub departure: usize,
    pub l: usize,
    pub k: usize,
    pub place: u64, // its directed segments, the first in the lowest byte
    pub call_count: usize,
    pub calls: [Call; 4],
    pub list: usize, // which list has its runs
}

impl Train {
    pub fn calls(&self) -> &[Call] {
        &self.calls[..self.call_count]
    }

    pub fn goal(&self) -> u8 {
        self.calls[self.call_count - 1].segment
    }
}

pub struct Book {
    pub rs: usize,
    pub rt: usize,
    pub intervals: usize,
    pub nodes: usize,
    pub segments: usize,
    pub joins: usize,
    pub trains: usize,
    pub kinds: [u8; NODES],
    pub ends: [[u8; 2]; SEGMENTS],
    pub ttds: [u8; SEGMENTS],
    pub train: [Train; TRAINS],
    pub after: [u64; 2 * SEGMENTS], // by directed segment: the segments that may follow it
    pub back: [u64; 2 * SEGMENTS],  // of these, those that are then run through from b to a
    pub touching: [u64; NODES],     // by node: the segments there
    pub of_ttd: [u64; 64],          // by TTD: its segments, where seen_ttds has its bit
    pub seen_ttds: u64,
}

// The runs of trains with one l and k.
pub struct List {
    pub count: usize,
    pub places: usize,            // the first so many runs stand still: they are the places
    pub paths: [u128; RUNS],      // directed segments, the first in the lowest byte
    pub masks: [u64; RUNS],       // the segments on it
    pub sizes: [u8; RUNS],        // how many
    pub start: [u8; RUNS],        // the place where it starts
    pub end: [u8; RUNS],          // the place where it ends; this and the rest are for formula and checks
    pub by_start: [u8; RUNS],     // the runs by the place where they start
    pub first: [u16; RUNS + 1],   // by place: where its runs begin there
    pub ending: [u16; RUNS],      // by place: how many runs end there
    pub goals: [u64; RUNS],       // by place: the segments on it where its front ends at an exit, else none
}

// By train and interval a number.
pub type Table<T> = [[T; INTERVALS]; TRAINS];

pub struct Space {
    pub book: Book,
    pub lists: [List; TRAINS],
    pub list_count: usize,
    pub meets: [[i32; 4]; 2 * SEGMENTS * (SEGMENTS - 1)], // family H without the interval's variables; see tuned_formula.rs
    pub meet_count: usize,
    pub moves: Table<u16>,  // a plan's codes; this and the next are for the checks
    pub claims: Table<u64>, // the segments that are claimed
}

impl Space {
    pub fn new() -> Box<Space> {
        // SAFETY: every field is a number, an array of numbers or a struct of these, for which zero bytes are a value.
        unsafe { Box::<Space>::new_zeroed().assume_init() }
    }
}

// The bits of a mask, rising.
pub fn bits(mut mask: u64) -> impl Iterator<Item = usize> {
    std::iter::from_fn(move || {
        let at = mask.trailing_zeros() as usize;
        (mask != 0).then(|| {
            mask &= mask - 1;
            at
        })
    })
}

fn two(p: &[u8]) -> usize {
    p[0] as usize | (p[1] as usize) << 8
}

// Reads a book into the space, with the list of each train's runs; or a refusal's number.
pub fn read_book<const SHARED: bool>(s: &[u8], space: &mut Space) -> Result<(), usize> {
    let book = &mut space.book;
    (book.nodes, book.segments, book.joins, book.trains, book.seen_ttds) = (0, 0, 0, 0, 0);
    let (mut at, mut last) = (0, 0);
    while last != 8 {
        // both halves of a frame's opening at once
        let Some(opening) = s.get(at..at + 4) else { return Err(1) };
        let opening = u32::from_le_bytes(opening.try_into().unwrap());
        let (len, kind) = (opening as usize & 0xffff, opening >> 16);
        at += 4;
        let Some(p) = s.get(at..at + len) else { return Err(1) };
        at += len;
        if kind.wrapping_sub(1) > 7 {
            return Err(2);
        }
        if kind < last || (kind == 1) != (last == 0) || kind == 8 && at < s.len() {
            return Err(3);
        }
        match kind {
            1 => take_head(book, p)?,
            2 => take_node(book, p)?,
            3 => take_segment(book, p)?,
            4 => take_join(book, p)?,
            5 => take_train(book, p)?,
            6 => take_call(book, p)?,
            7 => take_unbreakable(book, p)?,
            _ if len != 0 => return Err(4),
            _ => {}
        }
        last = kind;
    }
    let trains = book.trains;
    if trains == 0 || book.train[..trains].iter().any(|t| t.call_count == 0) {
        return Err(10);
    }
    space.list_count = 0;
    for i in 0..trains {
        let (l, k) = (space.book.train[i].l, space.book.train[i].k);
        let like = space.book.train[..i].iter().find(|t| t.l == l && t.k == k);
        space.book.train[i].list = match like {
            Some(t) if SHARED => t.list,
            _ => {
                space.list_count += 1;
                list_runs(&space.book, l, k, &mut space.lists[space.list_count - 1]).ok_or(11usize)?;
                space.list_count - 1
            }
        };
    }
    Ok(())
}

fn take_head(book: &mut Book, p: &[u8]) -> Result<(), usize> {
    if p.len() != 6 {
        return Err(4);
    }
    (book.rs, book.rt, book.intervals) = (two(p), two(&p[2..]), two(&p[4..]));
    if book.rs < 1 || book.rt < 1 || !(1..=INTERVALS).contains(&book.intervals) { Err(6) } else { Ok(()) }
}

fn take_node(book: &mut Book, p: &[u8]) -> Result<(), usize> {
    let &[kind] = p else { return Err(4) };
    let at = book.nodes;
    if at == NODES {
        return Err(5);
    }
    if kind > EXIT {
        return Err(6);
    }
    book.kinds[at] = kind;
    book.touching[at] = 0;
    book.nodes = at + 1;
    Ok(())
}

fn take_segment(book: &mut Book, p: &[u8]) -> Result<(), usize> {
    let &[a, b, ttd] = p else { return Err(4) };
    let (at, nodes) = (book.segments, book.nodes);
    if at == SEGMENTS {
        return Err(5);
    }
    if a as usize >= nodes || b as usize >= nodes || a == b || ttd > 63 {
        return Err(6);
    }
    book.ends[at] = [a, b];
    book.ttds[at] = ttd;
    book.after[2 * at..2 * at + 2].fill(0);
    book.back[2 * at..2 * at + 2].fill(0);
    let (bit, seen) = (1 << at, book.seen_ttds >> ttd & 1);
    book.touching[a as usize] |= bit;
    book.touching[b as usize] |= bit;
    book.of_ttd[ttd as usize] = book.of_ttd[ttd as usize] & seen.wrapping_neg() | bit;
    book.seen_ttds |= 1 << ttd;
    book.segments = at + 1;
    Ok(())
}

fn take_join(book: &mut Book, p: &[u8]) -> Result<(), usize> {
    let &[node, s, t] = p else { return Err(4) };
    if book.joins == 128 {
        return Err(5);
    }
    if node as usize >= book.nodes || s.max(t) as usize >= book.segments || s == t {
        return Err(6);
    }
    let here = book.touching[node as usize];
    // by its bit: whether a segment is left at the node when it is run through from b to a
    let (s_back, t_back) = (book.ends[s as usize][0] == node, book.ends[t as usize][0] == node);
    let (from_s, from_t) = (2 * s as usize + s_back as usize, 2 * t as usize + t_back as usize);
    if here >> s & here >> t & 1 == 0 || book.after[from_s] >> t & 1 == 1 {
        return Err(6);
    }
    book.after[from_s] |= 1 << t;
    book.after[from_t] |= 1 << s;
    book.back[from_s] |= (!t_back as u64) << t;
    book.back[from_t] |= (!s_back as u64) << s;
    book.joins += 1;
    Ok(())
}

// The directed segment of segment t that goes on from d.
fn onward(book: &Book, d: usize, t: usize) -> usize {
    2 * t + (book.back[d] >> t & 1) as usize
}

fn take_train(book: &mut Book, p: &[u8]) -> Result<(), usize> {
    if p.len() < 7 || p.len() != 7 + p[6] as usize {
        return Err(4);
    }
    let (metres, speed, departure, place) = (two(p), two(&p[2..]), two(&p[4..]), &p[7..]);
    if book.trains == TRAINS {
        return Err(5);
    }
    if metres < 1 || departure >= book.intervals || place.iter().any(|&d| d as usize >= 2 * book.segments) {
        return Err(6);
    }
    // k is to the nearest, an exact half going down
    let (l, k) = (metres.div_ceil(book.rs), (10 * speed * book.rt + 18 * book.rs - 1) / (36 * book.rs));
    if !(1..=8).contains(&l) || !(1..=8).contains(&k) {
        return Err(7);
    }
    if place.len() != l {
        return Err(8);
    }
    let (mut packed, mut used, mut before) = (0, 0, None);
    for (i, &d) in place.iter().enumerate() {
        let (d, t) = (d as usize, d as usize / 2);
        let linked = before.is_none_or(|b: usize| book.after[b] >> t & 1 == 1 && onward(book, b, t) == d);
        if used >> t & 1 == 1 || !linked {
            return Err(8);
        }
        used |= 1u64 << t;
        packed |= (d as u64) << (8 * i);
        before = Some(d);
    }
    let train = &mut book.train[book.trains];
    (train.departure, train.l, train.k, train.place, train.call_count) = (departure, l, k, packed, 0);
    book.trains += 1;
    Ok(())
}

fn take_call(book: &mut Book, p: &[u8]) -> Result<(), usize> {
    if p.len() != 6 {
        return Err(4);
    }
    let (train, segment, first, last) = (p[0], p[1], two(&p[2..]) as u16, two(&p[4..]) as u16);
    let known = (train as usize) < book.trains;
    if known && book.train[train as usize].call_count == 4 {
        return Err(5);
    }
    if !known || segment as usize >= book.segments || first > last || last as usize > book.intervals {
        return Err(6);
    }
    let train = &mut book.train[train as usize];
    train.calls[train.call_count] = Call { segment, first, last };
    train.call_count += 1;
    Ok(())
}

fn take_unbreakable(book: &Book, p: &[u8]) -> Result<(), usize> {
    let &[ttd] = p else { return Err(4) };
    if ttd > 63 || book.seen_ttds >> ttd & 1 == 0 {
        return Err(6);
    }
    let all = book.of_ttd[ttd as usize];
    let nodes = book.touching[..book.nodes].iter().zip(&book.kinds);
    let divided = nodes.into_iter().any(|(here, &kind)| (kind == 1 || kind == 2) && (here & all).count_ones() >= 2);
    if divided { Err(9) } else { Ok(()) }
}

impl List {
    // Adds a run; None for the 257th.
    #[inline(always)]
    fn push(&mut self, path: u128, mask: u64, size: usize, start: u8) -> Option<()> {
        let at = self.count;
        if at == RUNS {
            return None;
        }
        self.paths[at] = path;
        self.masks[at] = mask;
        self.sizes[at] = size as u8;
        self.start[at] = start;
        self.count = at + 1;
        Some(())
    }

    // The number of a place that is there: they stand in dictionary order. Alone, a directed segment is the place of its number.
    pub fn place(&self, l: usize, place: u64) -> u8 {
        if l == 1 {
            return place as u8;
        }
        let all = &self.paths[..self.places];
        all.partition_point(|&p| (p as u64).swap_bytes() < place.swap_bytes()) as u8
    }

    // The directed segments of a run.
    pub fn directed(&self, r: usize) -> impl Iterator<Item = usize> {
        let path = self.paths[r];
        (0..self.sizes[r] as usize).map(move |i| (path >> (8 * i)) as usize & 0xff)
    }
}

// Lists the paths of l to l + k segments; None where there are more than 256.
fn list_runs(book: &Book, l: usize, k: usize, list: &mut List) -> Option<()> {
    list.count = 0;
    for d in 0..2 * book.segments {
        list_places(book, d as u128, d, 1 << (d / 2), 1, l, list)?;
    }
    list.places = list.count;
    let mut from = 0;
    for size in l + 1..=l + k {
        let to = list.count;
        for r in from..to {
            let (path, used) = (list.paths[r], list.masks[r]);
            let last = (path >> (8 * (size - 2))) as usize & 0xff;
            for t in bits(book.after[last & 127] & !used) {
                let d = onward(book, last & 127, t);
                list.push(path | (d as u128) << (8 * (size - 1)), used | 1 << t, size, list.start[r])?;
            }
        }
        from = to;
    }
    Some(())
}

// Lists the paths of l segments that extend a path of `size`.
fn list_places(book: &Book, path: u128, last: usize, used: u64, size: usize, l: usize, list: &mut List) -> Option<()> {
    if size == l {
        return list.push(path, used, size, list.count as u8);
    }
    for t in bits(book.after[last & 127] & !used) {
        let d = onward(book, last & 127, t);
        list_places(book, path | (d as u128) << (8 * size), d, used | 1 << t, size + 1, l, list)?;
    }
    Some(())
}

// What formula and checks look up besides: where runs end, and the runs by where they start.
pub fn index_runs(book: &Book, lists: &mut [List]) {
    for (n, list) in lists.iter_mut().enumerate() {
        let l = book.train[..book.trains].iter().find(|t| t.list == n).unwrap().l;
        let place_bytes = u64::MAX >> (64 - 8 * l);
        list.first[..=list.places].fill(0);
        list.ending[..list.places].fill(0);
        for p in 0..list.places {
            let front = (list.paths[p] >> (8 * (l - 1))) as usize & 0x7f;
            let exit = book.kinds[book.ends[front / 2][1 - front % 2] as usize] == EXIT;
            list.goals[p] = if exit { list.masks[p] } else { 0 };
        }
        for r in 0..list.count {
            let end = list.place(l, (list.paths[r] >> (8 * (list.sizes[r] as usize - l))) as u64 & place_bytes);
            list.end[r] = end;
            list.ending[end as usize] += 1;
            list.first[list.start[r] as usize + 1] += 1;
        }
        for p in 0..list.places {
            list.first[p + 1] += list.first[p];
        }
        // by_start is filled from the first run of each place on, and first is moved on and back
        for r in 0..list.count {
            let at = &mut list.first[list.start[r] as usize];
            list.by_start[*at as usize] = r as u8;
            *at += 1;
        }
        for p in (0..list.places).rev() {
            list.first[p + 1] = list.first[p];
        }
        list.first[0] = 0;
    }
}
