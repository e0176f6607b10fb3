// Rust of the formula that is tuned for speed, over tuned.rs. What was done:
//
// - Its sizes are computed from counts, family by family, without a walk. The output is measured once; then words are stored by
//   pointer, without a test of each.
// - Pairs are stored four clauses at a time, from three vectors that a constant is added to.
// - E and G are written for a train's first interval; the next ones are that block again with the variables moved on by the interval's
//   width, which is a loop over words without branches. H is a table of four words a clause that two numbers are added to.
// - The runs that follow a run are a stretch of the runs by where they start.
//
// A cap's counter is plain.rs's, but for its sizes: it is a small part of a formula, and nothing was done about it.

use std::arch::x86_64::{__m128i, _mm_add_epi32, _mm_setr_epi32, _mm_storeu_si128};

use crate::plain::{Counter, Store};
use crate::tuned::{bits, index_runs, read_book, Book, Call, List, Space, Train, EXIT};

#[derive(Clone, Copy, Default, PartialEq, Debug)]
pub struct Totals {
    pub variables: usize,
    pub clauses: usize,
    pub words: usize,
}

// How many variables a train has in an interval.
pub fn width(book: &Book, list: &List) -> usize {
    list.count + 1 + book.segments
}

// Whether a call is met at the train's departure.
pub fn met_at_departure(train: &Train, given: u64, c: Call) -> bool {
    (c.first as usize..=c.last as usize).contains(&train.departure) && given >> c.segment & 1 == 1
}

// How many of the runs end at a place whose mask, by place, has the segment.
fn serving(list: &List, masks: &[u64], segment: u8) -> usize {
    (0..list.places).map(|p| list.ending[p] as usize * (masks[p] >> segment & 1) as usize).sum()
}

// Fills the table of family H: the words of each clause with a claim counted from 0; a border is its variable.
fn list_meets(space: &mut Space) {
    let book = &space.book;
    let mut n = 0;
    for node in 0..book.nodes {
        let here = book.touching[node];
        for s in bits(here) {
            for u in bits(here & book.of_ttd[book.ttds[s] as usize] & !(1 << s)) {
                space.meets[n] = [-(s as i32), node as i32 + 1, u as i32, 0];
                n += 1;
            }
        }
    }
    space.meet_count = n;
}

// Clauses of each family, by the book's counts; and all words. `clauses` has those of A, B, .. I; the totals have the cap's too.
pub struct Sizes {
    pub clauses: [usize; 9],
    pub totals: Totals,
    pub counter: Counter,
}

// What a cap adds to the totals.
fn added(counter: &Counter) -> Totals {
    let (c, w) = (counter.most, counter.spare);
    if w == 0 { Totals::default() } else { Totals { variables: c * w, clauses: 2 * c * w + w - c, words: 7 * c * w + 2 * w - 3 * c } }
}

fn measure(space: &Space, cap: Option<usize>) -> Sizes {
    let book = &space.book;
    let (t, m, s) = (book.intervals, book.trains, book.segments);
    let (mut clauses, mut words) = ([0; 9], 0);
    let mut variables = book.nodes;
    clauses[0] = book.kinds[..book.nodes].iter().filter(|&&k| k != 1).count();
    for train in &book.train[..m] {
        let (list, d) = (&space.lists[train.list], train.departure);
        let given = list.place(train.l, train.place) as usize;
        let (r, given_mask) = (list.count, list.masks[given]);
        let elsewhere = r - (list.first[given + 1] - list.first[given]) as usize;
        let follow: usize = (0..list.places).map(|p| list.ending[p] as usize * (list.first[p + 1] - list.first[p]) as usize).sum();
        let segments: usize = list.sizes[..r].iter().map(|&n| n as usize).sum();
        variables += t * width(book, list);
        clauses[1] += d * (r + 1);
        clauses[2] += (t - d) * (1 + r * (r + 1) / 2);
        words += (t - d) * (r + 2 + 3 * (r * (r + 1) / 2));
        clauses[3] += elsewhere + 1;
        clauses[4] += (t - 1 - d) * (r + 1);
        words += (t - 1 - d) * (2 * r + follow + serving(list, &list.goals, train.goal()) + 3);
        for &c in train.calls() {
            if !met_at_departure(train, given_mask, c) {
                clauses[5] += 1;
                words += 1 + (c.last as usize + 1).saturating_sub((c.first as usize).max(d + 1)) * serving(list, &list.masks, c.segment);
            }
        }
        clauses[6] += t * segments;
    }
    clauses[7] = m * t * space.meet_count;
    clauses[8] = t * s * (m * (m - 1) / 2);
    words += 2 * (clauses[0] + clauses[1] + clauses[3]) + 3 * (clauses[6] + clauses[8]) + 4 * clauses[7];
    let counter = Counter::new(&book.kinds[..book.nodes], cap);
    let more = added(&counter);
    let totals =
        Totals { variables: variables + more.variables, clauses: clauses.iter().sum::<usize>() + more.clauses, words: words + more.words };
    Sizes { clauses, totals, counter }
}

// Everything that formula and checks look up, from the bytes of a book.
pub fn prepare(cap: Option<usize>, s: &[u8], space: &mut Space) -> Result<Sizes, usize> {
    read_book::<true>(s, space)?;
    index_runs(&space.book, &mut space.lists[..space.list_count]);
    list_meets(space);
    Ok(measure(space, cap))
}

// Where the next word goes, and the end of the output.
struct Pen {
    at: *mut i32,
    end: *mut i32,
}

// SAFETY, of all functions here: there is room for the words that the function stores. `write` measures them.
impl Pen {
    #[inline(always)]
    unsafe fn put<const N: usize>(&mut self, words: [i32; N]) {
        self.at.cast::<[i32; N]>().write_unaligned(words);
        self.at = self.at.add(N);
    }

    // Clauses of a, b; then a and b with DA and DB added; and so on, n clauses. Four of them are three vectors of SSE2, which every
    // x86-64 has; the next four are these with a constant added.
    #[inline(always)]
    unsafe fn pairs<const DA: i32, const DB: i32>(&mut self, a: i32, b: i32, n: usize) {
        let mut x = _mm_setr_epi32(a, b, 0, a + DA);
        let mut y = _mm_setr_epi32(b + DB, 0, a + 2 * DA, b + 2 * DB);
        let mut z = _mm_setr_epi32(0, a + 3 * DA, b + 3 * DB, 0);
        for _ in 0..n / 4 {
            self.store(x, y, z);
            self.at = self.at.add(12);
            x = _mm_add_epi32(x, _mm_setr_epi32(4 * DA, 4 * DB, 0, 4 * DA));
            y = _mm_add_epi32(y, _mm_setr_epi32(4 * DB, 0, 4 * DA, 4 * DB));
            z = _mm_add_epi32(z, _mm_setr_epi32(0, 4 * DA, 4 * DB, 0));
        }
        let rest = 3 * (n % 4);
        if self.end.offset_from(self.at) >= 12 {
            // what is too much is overwritten by what follows
            self.store(x, y, z);
            self.at = self.at.add(rest);
        } else {
            for k in (n - n % 4) as i32..n as i32 {
                self.put([a + k * DA, b + k * DB, 0]);
            }
        }
    }

    #[inline(always)]
    unsafe fn store(&mut self, x: __m128i, y: __m128i, z: __m128i) {
        _mm_storeu_si128(self.at.cast(), x);
        _mm_storeu_si128(self.at.add(4).cast(), y);
        _mm_storeu_si128(self.at.add(8).cast(), z);
    }

    // Clauses that deny n variables from v on.
    unsafe fn deny_all(&mut self, v: i32, n: usize) {
        for (k, words) in std::slice::from_raw_parts_mut(self.at, 2 * n).chunks_exact_mut(2).enumerate() {
            words[0] = -(v + k as i32);
            words[1] = 0;
        }
        self.at = self.at.add(2 * n);
    }

    // n literals from v on.
    unsafe fn row(&mut self, v: i32, n: usize) {
        for (k, word) in std::slice::from_raw_parts_mut(self.at, n).iter_mut().enumerate() {
            *word = v + k as i32;
        }
        self.at = self.at.add(n);
    }

    // The last n words once more, each variable moved on.
    unsafe fn again(&mut self, n: usize, width: i32) {
        let (from, to) = (std::slice::from_raw_parts(self.at.sub(n), n), std::slice::from_raw_parts_mut(self.at, n));
        for (x, y) in from.iter().zip(to) {
            *y = *x + width * (*x > 0) as i32 - width * (*x < 0) as i32;
        }
        self.at = self.at.add(n);
    }
}

// Writes the formula by a space that is prepared; its words fit.
pub fn write(space: &Space, sizes: &Sizes, out: &mut [i32]) {
    let (out, behind) = out.split_at_mut(sizes.totals.words - added(&sizes.counter).words);
    sizes.counter.walk(sizes.totals.variables - sizes.counter.variables(), &mut Store { out: behind, at: 0 });
    let book = &space.book;
    let (t, segments) = (book.intervals, book.segments);
    let trains = &book.train[..book.trains];
    let mut first = [0i32; 9]; // by train: its first variable, counted from 1
    first[0] = book.nodes as i32 + 1;
    for (i, train) in trains.iter().enumerate() {
        first[i + 1] = first[i] + (t * width(book, &space.lists[train.list])) as i32;
    }
    let range = out.as_mut_ptr_range();
    let mut pen = Pen { at: range.start, end: range.end };
    let each = || trains.iter().enumerate().map(|(i, train)| {
        let list = &space.lists[train.list];
        (train, list, first[i], width(book, list) as i32)
    });
    // SAFETY: `measure` counts what the families store, and the output has room for it.
    unsafe {
        for (node, &kind) in book.kinds[..book.nodes].iter().enumerate() {
            let v = node as i32 + 1;
            match kind {
                0 | EXIT => pen.put([-v, 0]),
                2 => pen.put([v, 0]),
                _ => {}
            }
        }
        for (train, list, first, width) in each() {
            for i in 0..train.departure as i32 {
                pen.deny_all(first + i * width, list.count + 1);
            }
        }
        for (train, list, first, width) in each() {
            for i in train.departure..t {
                let (from, n) = (first + i as i32 * width, list.count + 1);
                pen.row(from, n);
                pen.put([0]);
                for k in 0..n {
                    let v = from + k as i32;
                    pen.pairs::<0, -1>(-v, -v - 1, n - 1 - k);
                }
            }
        }
        for (train, list, first, width) in each() {
            let (from, given) = (first + train.departure as i32 * width, list.place(train.l, train.place));
            for r in 0..list.count {
                if list.start[r] != given {
                    pen.put([-(from + r as i32), 0]);
                }
            }
            pen.put([-(from + list.count as i32), 0]);
        }
        for (train, list, first, width) in each() {
            let goal = train.goal();
            let mut block = 0;
            for i in train.departure + 1..t {
                if block != 0 {
                    pen.again(block, width);
                    continue;
                }
                let (begin, to) = (pen.at, first + i as i32 * width);
                let from = to - width;
                for r in 0..list.count {
                    let end = list.end[r] as usize;
                    pen.put([-(from + r as i32)]);
                    for &q in &list.by_start[list.first[end] as usize..list.first[end + 1] as usize] {
                        pen.put([to + q as i32]);
                    }
                    if list.goals[end] >> goal & 1 == 1 {
                        pen.put([to + list.count as i32]);
                    }
                    pen.put([0]);
                }
                pen.put([-(from + list.count as i32), to + list.count as i32, 0]);
                block = pen.at.offset_from(begin) as usize;
            }
        }
        for (train, list, first, width) in each() {
            let given = list.masks[list.place(train.l, train.place) as usize];
            for &c in train.calls() {
                if met_at_departure(train, given, c) {
                    continue;
                }
                for time in (c.first as usize).max(train.departure + 1)..c.last as usize + 1 {
                    let from = first + (time as i32 - 1) * width;
                    for r in 0..list.count {
                        if list.masks[list.end[r] as usize] >> c.segment & 1 == 1 {
                            pen.put([from + r as i32]);
                        }
                    }
                }
                pen.put([0]);
            }
        }
        for (_, list, first, width) in each() {
            let (begin, claims) = (pen.at, first + list.count as i32 + 1);
            for r in 0..list.count {
                for d in list.directed(r) {
                    pen.put([-(first + r as i32), claims + d as i32 / 2, 0]);
                }
            }
            let block = pen.at.offset_from(begin) as usize;
            for _ in 1..t {
                pen.again(block, width);
            }
        }
        for (_, list, first, width) in each() {
            for i in 0..t as i32 {
                let from = first + i * width + list.count as i32 + 1;
                for [s, border, u, end] in &space.meets[..space.meet_count] {
                    pen.put([s - from, *border, u + from, *end]);
                }
            }
        }
        for i in 0..t as i32 {
            for (x, (_, list, first_x, width)) in each().enumerate() {
                let claim = first_x + i * width + list.count as i32 + 1;
                for (_, list, first_y, width) in each().skip(x + 1) {
                    pen.pairs::<-1, -1>(-claim, -(first_y + i * width + list.count as i32 + 1), segments);
                }
            }
        }
    }
    debug_assert!(pen.at == pen.end);
}

// Variables, clauses and words, with the words written, or a refusal's number and the output as it was.
pub fn write_formula(cap: Option<usize>, s: &[u8], out: &mut [i32], space: &mut Space) -> Result<Totals, usize> {
    let sizes = prepare(cap, s, space)?;
    let Some(out) = out.get_mut(..sizes.totals.words) else { return Err(12) };
    write(space, &sizes, out);
    Ok(sizes.totals)
}
