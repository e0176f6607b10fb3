// Holds the proved functions, the plain ones and the tuned ones together: answers and outputs, on an input, on damaged ones, with outputs that
// are too short, and under caps on the borders. The first difference ends the program.

use std::sync::atomic::{AtomicUsize, Ordering};

use crate::checks::{self, Lent};
use crate::tuned::Space;
use crate::tuned_formula::Totals;
use crate::{plain, proved, tuned, tuned_checks, tuned_formula};

// xorshift
struct Random(u64);

impl Random {
    fn below(&mut self, n: usize) -> usize {
        self.0 ^= self.0 << 13;
        self.0 ^= self.0 >> 7;
        self.0 ^= self.0 << 17;
        (self.0 % n as u64) as usize
    }
}

fn damages() -> usize {
    std::env::var("DAMAGES").ok().and_then(|s| s.parse().ok()).unwrap_or(300)
}

// The bytes with some damage: a byte or two changed a little or much, cut, or with a byte more.
fn damaged(bytes: &[u8], random: &mut Random) -> Vec<u8> {
    let mut other = bytes.to_vec();
    match random.below(12) {
        0 => other.truncate(random.below(bytes.len())),
        1 => other.push(random.below(256) as u8),
        n => {
            for _ in 0..1 + n % 2 {
                let at = random.below(bytes.len());
                other[at] = match random.below(4) {
                    0 => random.below(256) as u8,
                    1 => other[at].wrapping_add(1),
                    2 => other[at].wrapping_sub(1),
                    _ => other[at] ^ 1 << random.below(8),
                };
            }
        }
    }
    other
}

// How many answers had each refusal's number; 0 is accepted.
static ANSWERS: [AtomicUsize; 23] = [const { AtomicUsize::new(0) }; 23];

fn tally<T>(found: &Result<T, (usize, usize)>) {
    ANSWERS[found.as_ref().map_or_else(|refusal| refusal.0, |_| 0)].fetch_add(1, Ordering::Relaxed);
}

// The answers so far: "number: how many".
pub fn tallied() -> String {
    let rows = ANSWERS.iter().map(|n| n.load(Ordering::Relaxed)).enumerate();
    rows.filter(|row| row.1 > 0).map(|(number, n)| format!("{number}: {n}")).collect::<Vec<_>>().join(", ")
}

fn with_detail<T>(found: Result<T, usize>) -> Result<T, (usize, usize)> {
    found.map_err(|number| (number, 0))
}

// Caps to try: none, and around the number of nodes of kind 1.
fn caps(kinds: &[u8]) -> Vec<Option<usize>> {
    let count = kinds.iter().filter(|&&kind| kind == 1).count();
    let numbers = [0, 1, count / 2, count.saturating_sub(1), count, count + 1, usize::MAX];
    std::iter::once(None).chain(numbers.map(Some)).collect()
}

fn one_of<T: Copy>(all: &[T], random: &mut Random) -> T {
    all[random.below(all.len())]
}

// How many variables the formula has under a cap.
fn variables(cap: Option<usize>, book: &[u8], space: &mut Space) -> usize {
    tuned_formula::prepare(cap, book, space).expect("a good book").totals.variables
}

// Values without a cap, with the counter's behind them as their borders have it.
fn counted(cap: Option<usize>, kinds: &[u8], values: &[u8]) -> Vec<u8> {
    let counter = plain::Counter::new(kinds, cap);
    let mut all = values.to_vec();
    all.resize(values.len() + counter.variables(), 0);
    counter.fill(values, &mut all[values.len()..]);
    all
}

// Reading, and writing the formula with all the room and with a word too little.
fn formula(name: &str, cap: Option<usize>, book: &[u8], space: &mut Space) {
    let read = proved::read_book(book);
    tally(&read);
    assert_eq!(read, with_detail(plain::read_book(book).map(|_| ())), "{name}, read, plain");
    assert_eq!(read, with_detail(tuned::read_book::<false>(book, space)), "{name}, read, tuned");
    let Ok(sizes) = tuned_formula::prepare(cap, book, space) else { return assert!(read.is_err(), "{name}, read, tuned") };
    assert!(read.is_ok(), "{name}, read, tuned");
    let words = sizes.totals.words;
    for room in [words + 1, words, words - 1] {
        let [mut one, mut two, mut three] = [(); 3].map(|_| vec![7i32; room]);
        let found = proved::write_formula(cap, book, &mut one);
        tally(&found);
        assert_eq!(found, with_detail(plain::write_formula(cap, book, &mut two)), "{name}, write, plain");
        let totals = tuned_formula::write_formula(cap, book, &mut three, space).map(|t| (t.variables, t.clauses, t.words));
        assert_eq!(found, with_detail(totals), "{name}, write, tuned");
        assert!(one == two && one == three, "{name}: the outputs differ");
    }
}

// The formula under each cap, and damaged books under one of them.
pub fn formulas(name: &str, book: &[u8], space: &mut Space) {
    let caps = plain::read_book(book).map_or(vec![None], |read| caps(&read.nodes));
    let words = tuned_formula::prepare(None, book, space).map_or(1, |s| s.totals.words);
    for &cap in caps.iter().take(1 + 1_000_000_000 / words) {
        formula(name, cap, book, space);
    }
    let mut random = Random(88172645463325252);
    for _ in 0..damages().min(200_000_000 / words) {
        formula(name, one_of(&caps, &mut random), &damaged(book, &mut random), space);
    }
}

// Checks a plan; answers the assignment.
fn plan(name: &str, cap: Option<usize>, book: &[u8], plan: &[u8], room: usize, space: &mut Space) -> Option<Vec<u8>> {
    let [mut one, mut two, mut three] = [(); 3].map(|_| vec![9u8; room]);
    let found = proved::check_plan(cap, book, plan, &mut one);
    tally(&found);
    assert_eq!(found, checks::check_plan(cap, book, plan, &mut two), "{name}, plan, plain");
    assert_eq!(found, tuned_checks::check_plan(cap, book, plan, &mut three, space), "{name}, plan, tuned");
    assert!(one == two && one == three, "{name}: the assignments differ");
    found.ok().map(|n| one[..n].to_vec())
}

// Prints a plan's train graph, with the page's room, a byte more and a byte less.
fn graph(name: &str, book: &[u8], plan: &[u8], room: usize) {
    let [mut one, mut two] = [(); 2].map(|_| vec![9u8; room]);
    let found = proved::print_graph(book, plan, &mut one);
    tally(&found);
    assert_eq!(found, checks::print_graph(book, plan, &mut two), "{name}, graph, plain");
    assert!(one == two, "{name}: the pages differ");
}

// Lists the borders that carry a plan, with the list's room, a byte more and a byte less.
fn carriers(name: &str, book: &[u8], plan: &[u8], room: usize, space: &mut Space) {
    let [mut one, mut two, mut three] = [(); 3].map(|_| vec![9u8; room]);
    let found = proved::list_carriers(book, plan, &mut one);
    tally(&found);
    assert_eq!(found, checks::list_carriers(book, plan, &mut two), "{name}, carriers, plain");
    assert_eq!(found, tuned_checks::list_carriers(book, plan, &mut three, space), "{name}, carriers, tuned");
    assert!(one == two && one == three, "{name}: the lists differ");
}

// The plan with more borders set, where a node may have one and one is wanted: it keeps the rules if the plan does.
pub fn with_borders(book: &plain::Book, plan: &[u8], mut wanted: impl FnMut() -> bool) -> Vec<u8> {
    let mut other = plan.to_vec();
    for (border, _) in other.iter_mut().zip(&book.nodes).filter(|(_, &kind)| kind == 1 && wanted()) {
        *border = 1;
    }
    other
}

// Judges an assignment and unpacks its plan; answers the plan.
fn assignment(name: &str, cap: Option<usize>, book: &[u8], values: &[u8], room: usize, space: &mut Space) -> Option<Vec<u8>> {
    let [mut one, mut two, mut three] = [(); 3].map(|_| vec![9u8; room]);
    let judged = proved::check_assignment(cap, book, values);
    tally(&judged);
    assert_eq!(judged, checks::check_assignment(cap, book, values), "{name}, assignment, plain");
    assert_eq!(judged, tuned_checks::check_assignment(cap, book, values, space), "{name}, assignment, tuned");
    let found = proved::unpack_plan(cap, book, values, &mut one);
    tally(&found);
    assert_eq!(found, checks::unpack_plan(cap, book, values, &mut two), "{name}, unpacking, plain");
    assert_eq!(found, tuned_checks::unpack_plan(cap, book, values, &mut three, space), "{name}, unpacking, tuned");
    assert!(one == two && one == three, "{name}: the plans differ");
    found.ok().map(|n| one[..n].to_vec())
}

// A plan that is within a cap and its assignment, both also damaged, under this cap and others. Answers the assignment.
pub fn judgements(name: &str, cap: Option<usize>, book: &[u8], good: &[u8], space: &mut Space) -> Vec<u8> {
    let [values, capped] = [None, cap].map(|cap| {
        let room = variables(cap, book, space);
        let values = plan(name, cap, book, good, room, space).expect("a good plan");
        assert_eq!(assignment(name, cap, book, &values, good.len(), space).as_deref(), Some(good));
        values
    });
    trials(name, book, good, &values, damages(), space);
    capped
}

// A plan, and values of the formula without a cap that say the same.
fn trials(name: &str, book: &[u8], good: &[u8], values: &[u8], times: usize, space: &mut Space) {
    let mut random = Random(88172645463325252);
    let read = plain::read_book(book).expect("a good book");
    let (page, list) = (81 * read.intervals, 4 * read.nodes.iter().filter(|&&kind| kind == 1).count());
    for k in 0..times {
        let near = damaged(good, &mut random);
        graph(name, book, if k % 8 == 0 { good } else { &near }, page + k % 3 - 1);
        let bordered = with_borders(&read, good, || random.below(4) <= k % 4);
        carriers(name, book, if k % 2 == 0 { &bordered } else { &near }, (list + k % 3).saturating_sub(1), space);
        let cap = one_of(&caps(&read.nodes), &mut random);
        let others = [&bordered[..read.nodes.len()], &values[read.nodes.len()..]].concat();
        let all = counted(cap, &read.nodes, &others);
        let room = all.len() + k % 3 - 1;
        plan(name, cap, book, &near, room, space);
        plan(name, cap, book, &bordered, room, space);
        let (ahead, counter) = all.split_at(others.len());
        let counter = if k % 2 == 0 || counter.is_empty() { counter.to_vec() } else { damaged(counter, &mut random) };
        let ahead = if k % 2 == 0 { damaged(ahead, &mut random) } else { ahead.to_vec() };
        assignment(name, cap, book, &[ahead, counter].concat(), good.len() + k % 3 - 1, space);
    }
}

// Slices for a refutation check.
pub struct Slices {
    pub words: Vec<i32>,
    pub clauses: Vec<usize>,
    pub values: Vec<u8>,
    pub trail: Vec<usize>,
}

impl Slices {
    // For a formula and so many steps, which add so many words.
    pub fn new(formula: Totals, added: usize, steps: usize) -> Slices {
        let [words, clauses, variables] = [formula.words + added, formula.clauses + steps, formula.variables];
        Slices { words: vec![1; words], clauses: vec![1; clauses], values: vec![1; variables], trail: vec![1; variables] }
    }

    // How many bytes they have.
    pub fn bytes(&self) -> usize {
        size_of_val(&self.words[..]) + size_of_val(&self.clauses[..]) + size_of_val(&self.values[..]) + size_of_val(&self.trail[..])
    }

    pub fn lent(&mut self) -> Lent<'_> {
        self.shorter([0; 4])
    }

    // The slices without so many of their last entries.
    fn shorter(&mut self, less: [usize; 4]) -> Lent<'_> {
        let [w, c, v, t] = less;
        let (w, c, v, t) = (self.words.len() - w, self.clauses.len() - c, self.values.len() - v, self.trail.len() - t);
        Lent { words: &mut self.words[..w], clauses: &mut self.clauses[..c], values: &mut self.values[..v], trail: &mut self.trail[..t] }
    }

    fn is_clear(&self, less: [usize; 4]) -> bool {
        let [w, c, v, t] = less.map(|n| n == 0);
        !(w && self.words.iter().any(|&w| w != 0) || c && self.clauses.iter().any(|&n| n != 0)
            || v && self.values.iter().any(|&v| v != 0) || t && self.trail.iter().any(|&n| n != 0))
    }
}

fn refutation(name: &str, cap: Option<usize>, book: &[u8], r: &[u8], less: [usize; 4], all: &mut [Slices; 3], space: &mut Space) -> bool {
    let [one, two, three] = all;
    let found = proved::check_refutation(cap, book, r, &mut one.shorter(less));
    tally(&found);
    assert_eq!(found, checks::check_refutation(cap, book, r, &mut two.shorter(less)), "{name}, refutation, plain");
    assert_eq!(found, tuned_checks::check_refutation(cap, book, r, &mut three.shorter(less), space), "{name}, refutation, tuned");
    assert!(all.iter().all(|slices| slices.is_clear(less)), "{name}: the slices are not zero");
    found.is_ok()
}

// A refutation under a cap, also damaged, some of it under other caps, and with slices that are too short by one.
pub fn refutations(name: &str, cap: Option<usize>, book: &[u8], r: &[u8], all: &mut [Slices; 3], space: &mut Space) {
    assert!(refutation(name, cap, book, r, [0; 4], all, space), "{name}: a good refutation");
    let mut random = Random(88172645463325252);
    let caps = caps(&plain::read_book(book).expect("a good book").nodes);
    // and the first bytes of a long one, which is seldom damaged in its first steps
    let head = &r[..r.len().min(20_000)];
    for k in 0..damages().min(2 + 1_000_000_000 / (r.len() + 50 * all[0].words.len())) {
        let cap = if k % 4 == 3 { one_of(&caps, &mut random) } else { cap };
        refutation(name, cap, book, &damaged(r, &mut random), [0; 4], all, space);
        refutation(name, cap, book, &damaged(head, &mut random), [0; 4], all, space);
    }
    for less in [[1, 0, 0, 0], [0, 1, 0, 0], [0, 0, 1, 0], [0, 0, 0, 1]] {
        assert!(!refutation(name, cap, book, r, less, all, space), "{name}: short slices");
    }
}

// Another book: its formula, damaged too; random plans; and random assignments that keep most clauses.
pub fn all(name: &str, book: &[u8], space: &mut Space) {
    formulas(name, book, space);
    let Ok(sizes) = tuned_formula::prepare(None, book, space) else { return };
    let (variables, length) = (sizes.totals.variables, space.book.nodes + 2 * space.book.trains * space.book.intervals);
    let kinds = space.book.kinds[..space.book.nodes].to_vec();
    let mut random = Random(88172645463325252);
    for _ in 0..damages() {
        let (good, values) = likely(space, variables, length, &mut random);
        let cap = one_of(&caps(&kinds), &mut random);
        let values = counted(cap, &kinds, &values);
        if let Some(written) = plan(name, cap, book, &good, values.len(), space) {
            assignment(name, cap, book, &written, length, space);
            trials(name, book, &good, &written[..variables], 10, space);
        }
        assignment(name, cap, book, &values, length, space);
        tuned_formula::prepare(None, book, space).expect("it was read before");
    }
}

// A plan whose trains go on from run to run for the most part, and an assignment with its moves and the claims of its runs, and more.
fn likely(space: &Space, variables: usize, length: usize, random: &mut Random) -> (Vec<u8>, Vec<u8>) {
    let book = &space.book;
    let (mut plan, mut values) = (vec![0u8; book.nodes], vec![0u8; variables]);
    for node in 0..book.nodes {
        plan[node] = match book.kinds[node] {
            1 => random.below(2) as u8,
            kind => (kind == 2) as u8 ^ (random.below(200) == 0) as u8,
        };
    }
    values[..book.nodes].copy_from_slice(&plan);
    let mut at = book.nodes;
    for train in &book.train[..book.trains] {
        let list = &space.lists[train.list];
        let mut place = list.place(train.l, train.place) as usize;
        let mut gone = false;
        for interval in 0..book.intervals {
            let runs = &list.by_start[list.first[place] as usize..list.first[place + 1] as usize];
            let leaves = interval > train.departure && list.goals[place] >> train.goal() & 1 == 1;
            gone = (gone || leaves && random.below(3) == 0) && random.below(50) != 0;
            let mut code = if random.below(200) == 0 { random.below(list.count) } else { runs[random.below(runs.len())] as usize };
            if interval < train.departure && random.below(200) != 0 {
                code = 65534;
            } else if gone {
                code = 65535;
            } else {
                place = list.end[code] as usize;
                values[at + code] = 1;
                let mask = list.masks[code] | if random.below(3) == 0 { 1 << random.below(book.segments) } else { 0 };
                for s in tuned::bits(mask) {
                    values[at + list.count + 1 + s] = (random.below(200) != 0) as u8;
                }
            }
            values[at + list.count] = (code == 65535) as u8;
            plan.extend((code as u16).to_le_bytes());
            at += list.count + 1 + book.segments;
        }
    }
    assert!(plan.len() == length && at == variables);
    (plan, values)
}
