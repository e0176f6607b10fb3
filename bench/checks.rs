// Plain Rust of the three checks, of the train graph and of the list of carriers, to time the proved ones against, over plain.rs's reader
// and walk, the checks under a cap on the borders or without one. Written from documents 01 and 02; nothing in it is tuned by hand. A refusal
// is its number and its detail.

use std::io::Write;

use crate::plain::{holds, may_leave, meets, read_book, refuse_if, tables, two, walk, Book, Count, Counter, Sink, Store, Tables};

type Verdict<T> = Result<T, (usize, usize)>;

fn plainly<T>(found: Result<T, usize>) -> Verdict<T> {
    found.map_err(|number| (number, 0))
}

// Judges words by an assignment: the number of the first clause that is false, or 0.
pub struct Judge<'a> {
    values: &'a [u8],
    holds: bool,
    clause: usize,
    pub wrong: usize,
}

impl Judge<'_> {
    pub fn new(values: &[u8]) -> Judge<'_> {
        Judge { values, holds: false, clause: 0, wrong: 0 }
    }
}

impl Sink for Judge<'_> {
    fn word(&mut self, word: i32) {
        let value = self.values[word.unsigned_abs() as usize - 1];
        self.holds |= (value == 1) == (word > 0);
    }

    fn close(&mut self) {
        self.clause += 1;
        if !self.holds && self.wrong == 0 {
            self.wrong = self.clause;
        }
        self.holds = false;
    }
}

fn plan_length(book: &Book) -> usize {
    book.nodes.len() + 2 * book.trains.len() * book.intervals
}

// 13, then 14.
fn judge(book: &Book, t: &Tables, values: &[u8]) -> Verdict<()> {
    plainly(refuse_if(values.len() != t.variables || values.iter().any(|&v| v > 1), 13))?;
    let mut judge = Judge::new(values);
    walk(book, t, &mut judge);
    if judge.wrong != 0 { Err((14, judge.wrong)) } else { Ok(()) }
}

// Judges an assignment.
pub fn check_assignment(cap: Option<usize>, s: &[u8], values: &[u8]) -> Verdict<()> {
    let book = plainly(read_book(s))?;
    judge(&book, &tables(&book, cap), values)
}

// Judges an assignment and writes its plan; answers the plan's length.
pub fn unpack_plan(cap: Option<usize>, s: &[u8], values: &[u8], out: &mut [u8]) -> Verdict<usize> {
    let book = plainly(read_book(s))?;
    let t = tables(&book, cap);
    plainly(refuse_if(out.len() < plan_length(&book), 12))?;
    judge(&book, &t, values)?;
    let mut at = book.nodes.len();
    out[..at].copy_from_slice(&values[..at]);
    for tr in 0..book.trains.len() {
        let runs = book.runs[tr].len();
        for i in 0..book.intervals {
            let first = (t.first[tr] + i as i32 * t.width[tr]) as usize - 1;
            let run = (0..runs).find(|&r| values[first + r] == 1);
            let code = run.unwrap_or(if values[first + runs] == 1 { 65535 } else { 65534 });
            out[at..at + 2].copy_from_slice(&(code as u16).to_le_bytes());
            at += 2;
        }
    }
    Ok(at)
}

// A plan's moves: by train and interval its code.
fn moves(book: &Book, plan: &[u8]) -> Vec<Vec<usize>> {
    (0..book.trains.len())
        .map(|tr| (0..book.intervals).map(|i| two(plan, book.nodes.len() + 2 * (tr * book.intervals + i))).collect())
        .collect()
}

// Each segment's section: the least segment that it is together with. What meets is the book's, listed once for many sets of borders.
fn sections(book: &Book, meets: &[(i32, i32, i32)], borders: &[u8]) -> Vec<usize> {
    let mut section: Vec<usize> = (0..book.segments.len()).collect();
    for &(node, s, u) in meets {
        let (x, y) = (section[s as usize], section[u as usize]);
        if borders[node as usize] == 0 && x != y {
            for k in section.iter_mut().filter(|k| **k == x.max(y)) {
                *k = x.min(y);
            }
        }
    }
    section
}

// Rules 2 to 5 of one train: the least that is broken, or 0.
fn broken_by_train(book: &Book, tr: usize, moves: &[usize]) -> usize {
    let (train, runs) = (&book.trains[tr], &book.runs[tr]);
    let (l, d) = (train.l, train.departure);
    let end = |m: usize| &runs[m][runs[m].len() - l..];
    let goal = train.calls[train.calls.len() - 1].segment;
    let absent_rightly = (0..moves.len()).all(|i| (moves[i] == 65534) == (i < d));
    if !absent_rightly || moves[d] >= runs.len() || runs[moves[d]][..l] != train.place[..] {
        return 2;
    }
    for i in d + 1..moves.len() {
        let before = moves[i - 1];
        let may = before == 65535 || may_leave(book, end(before), goal);
        if moves[i] == 65535 && !may || before == 65535 && moves[i] != 65535 {
            return 3;
        }
    }
    let follows = |i: usize| moves[i] >= runs.len() || moves[i - 1] >= runs.len() || runs[moves[i]][..l] == *end(moves[i - 1]);
    if !(d + 1..moves.len()).all(follows) {
        return 4;
    }
    let served = train.calls.iter().all(|c| {
        let at = |time: usize| if time == d { Some(&train.place[..]) } else { runs.get(moves[time - 1]).map(|_| end(moves[time - 1])) };
        (c.first.max(d)..=c.last).any(|time| at(time).is_some_and(|p| holds(p, c.segment)))
    });
    if served { 0 } else { 5 }
}

// The sections that a train's run touches, a bit each.
fn touched(run: Option<&Vec<u8>>, section: &[usize]) -> u64 {
    run.into_iter().flatten().fold(0, |all, &x| all | 1 << section[x as usize / 2])
}

// Rule 6: the first interval in which two trains' runs touch one section.
fn first_meeting(book: &Book, moves: &[Vec<usize>], section: &[usize]) -> Option<usize> {
    (0..book.intervals).find(|&i| {
        let mut taken = 0;
        (0..moves.len()).any(|tr| {
            let mine = touched(book.runs[tr].get(moves[tr][i]), section);
            let met = taken & mine != 0;
            taken |= mine;
            met
        })
    })
}

// A plan that keeps the rules: its moves and its sections.
fn judged(book: &Book, plan: &[u8]) -> Verdict<(Vec<Vec<usize>>, Vec<usize>)> {
    let nodes = book.nodes.len();
    plainly(refuse_if(plan.len() != plan_length(book) || plan[..nodes].iter().any(|&b| b > 1), 15))?;
    let moves = moves(book, plan);
    let fits = |tr: usize| moves[tr].iter().all(|&m| m < book.runs[tr].len() || m >= 65534);
    plainly(refuse_if(!(0..moves.len()).all(fits), 15))?;
    if !(0..nodes).all(|n| book.nodes[n] == 1 || plan[n] == (book.nodes[n] == 2) as u8) {
        return Err((16, 1));
    }
    let broken = (0..moves.len()).map(|tr| broken_by_train(book, tr, &moves[tr])).filter(|&b| b != 0).min();
    if let Some(rule) = broken {
        return Err((16, rule));
    }
    let section = sections(book, &meets(book), plan);
    if first_meeting(book, &moves, &section).is_some() {
        return Err((16, 6));
    }
    Ok((moves, section))
}

// Checks a plan and writes it as an assignment; answers the assignment's length.
pub fn check_plan(cap: Option<usize>, s: &[u8], plan: &[u8], out: &mut [u8]) -> Verdict<usize> {
    let book = plainly(read_book(s))?;
    let nodes = book.nodes.len();
    let counter = Counter::new(&book.nodes, cap);
    let width = |runs: &Vec<Vec<u8>>| runs.len() + 1 + book.segments.len();
    let variables = nodes + book.intervals * book.runs.iter().map(width).sum::<usize>() + counter.variables();
    plainly(refuse_if(out.len() < variables, 12))?;
    let (moves, section) = judged(&book, plan)?;
    plainly(refuse_if(counter.is_passed(plan), 22))?;
    out[..nodes].copy_from_slice(&plan[..nodes]);
    let mut at = nodes;
    for tr in 0..moves.len() {
        for i in 0..book.intervals {
            let marks = touched(book.runs[tr].get(moves[tr][i]), &section);
            for r in 0..book.runs[tr].len() {
                out[at] = u8::from(moves[tr][i] == r);
                at += 1;
            }
            out[at] = u8::from(moves[tr][i] == 65535);
            at += 1;
            for &label in &section {
                out[at] = (marks >> label & 1) as u8;
                at += 1;
            }
        }
    }
    counter.fill(plan, &mut out[at..variables]);
    Ok(variables)
}

// Prints a plan's train graph; answers the page's length.
pub fn print_graph(s: &[u8], plan: &[u8], out: &mut [u8]) -> Verdict<usize> {
    let book = plainly(read_book(s))?;
    let length = 81 * book.intervals;
    plainly(refuse_if(out.len() < length, 12))?;
    let (moves, _) = judged(&book, plan)?;
    for (i, line) in out[..length].chunks_exact_mut(81).enumerate() {
        line.fill(b' ');
        line[80] = b'\n';
        write!(&mut line[..], "{i:3} ").expect("room for it");
        for (tr, cell) in line[4..].chunks_exact_mut(9).take(moves.len()).enumerate() {
            match (moves[tr][i], book.runs[tr].get(moves[tr][i])) {
                (_, Some(run)) => {
                    let (rear, front, moved) = (run[0] / 2, run[run.len() - 1] / 2, run.len() - book.trains[tr].l);
                    write!(&mut cell[1..], "{rear:02}-{front:02} {moved}").expect("room for it");
                }
                (code, None) => cell[1] = if code == 65534 { b'.' } else { b'*' },
            }
        }
    }
    Ok(length)
}

// Lists the borders that carry a plan: each set one of kind 1 whose clearing alone lets trains meet, with the first interval in which they
// do and the first pair of them. Answers the list's length.
pub fn list_carriers(s: &[u8], plan: &[u8], out: &mut [u8]) -> Verdict<usize> {
    let book = plainly(read_book(s))?;
    plainly(refuse_if(out.len() < 4 * book.nodes.iter().filter(|&&kind| kind == 1).count(), 12))?;
    let (moves, _) = judged(&book, plan)?;
    let meets = meets(&book);
    let mut borders = plan[..book.nodes.len()].to_vec();
    let mut entries = out.chunks_exact_mut(4);
    let mut listed = 0;
    for node in (0..borders.len()).filter(|&node| book.nodes[node] == 1 && plan[node] == 1) {
        borders[node] = 0;
        let section = sections(&book, &meets, &borders);
        borders[node] = 1;
        if let Some(i) = first_meeting(&book, &moves, &section) {
            let (lower, higher) = first_pair(&book, &moves, &section, i);
            entries.next().expect("room for it").copy_from_slice(&[node as u8, i as u8, lower as u8, higher as u8]);
            listed += 1;
        }
    }
    Ok(4 * listed)
}

// Of the pairs of trains that meet in an interval, the first by lower and then by higher train.
fn first_pair(book: &Book, moves: &[Vec<usize>], section: &[usize], i: usize) -> (usize, usize) {
    let marks: Vec<u64> = (0..moves.len()).map(|tr| touched(book.runs[tr].get(moves[tr][i]), section)).collect();
    let mut pairs = (0..marks.len()).flat_map(|x| (x + 1..moves.len()).map(move |y| (x, y)));
    pairs.find(|&(x, y)| marks[x] & marks[y] != 0).expect("two trains meet")
}

// The slices that a refutation check works in.
pub struct Lent<'a> {
    pub words: &'a mut [i32],
    pub clauses: &'a mut [usize],
    pub values: &'a mut [u8],
    pub trail: &'a mut [usize],
}

fn four(p: &[u8], at: usize) -> u32 {
    u32::from_le_bytes([p[at], p[at + 1], p[at + 2], p[at + 3]])
}

// Checks a refutation; all slices are zero afterwards.
pub fn check_refutation(cap: Option<usize>, s: &[u8], r: &[u8], lent: &mut Lent) -> Verdict<()> {
    let found = refute(cap, s, r, lent);
    lent.words.fill(0);
    lent.clauses.fill(0);
    lent.values.fill(0);
    lent.trail.fill(0);
    found
}

fn refute(cap: Option<usize>, s: &[u8], r: &[u8], lent: &mut Lent) -> Verdict<()> {
    let book = plainly(read_book(s))?;
    let t = tables(&book, cap);
    let mut count = Count::default();
    walk(&book, &t, &mut count);
    let short = lent.words.len() < count.words || lent.clauses.len() < count.clauses;
    plainly(refuse_if(short || lent.values.len() < t.variables || lent.trail.len() < t.variables, 12))?;
    walk(&book, &t, &mut Store { out: lent.words, at: 0 });
    let (mut first, mut clause) = (0, 0);
    for at in 0..count.words {
        if lent.words[at] == 0 {
            lent.clauses[clause] = first;
            clause += 1;
            first = at + 1;
        }
    }
    lent.values.fill(0);
    let (mut used, mut at, mut number) = (count.words, 0, 1);
    while at < r.len() {
        let left = &r[at..];
        let cut = left.len() < 4 || left.len() - 4 < two(left, 0);
        if cut || two(left, 2) != 20 || two(left, 0) < 2 {
            return Err((17, number));
        }
        let payload = &left[4..4 + two(left, 0)];
        let n = two(payload, 0);
        if payload.len() - 2 < 4 * n || (payload.len() - 2 - 4 * n) % 4 != 0 {
            return Err((17, number));
        }
        let (literals, hints) = payload[2..].split_at(4 * n);
        step(literals, hints, &mut used, &mut clause, t.variables, lent).map_err(|refusal| (refusal, if refusal == 12 { 0 } else { number }))?;
        at += 4 + payload.len();
        if n == 0 {
            return plainly(refuse_if(at != r.len(), 21));
        }
        number += 1;
    }
    Err((21, 0))
}

// 18 to 20 of a step, whose clause is then added.
fn step(literals: &[u8], hints: &[u8], used: &mut usize, count: &mut usize, variables: usize, lent: &mut Lent) -> Result<(), usize> {
    let mut low = 0;
    for row in literals.chunks_exact(4) {
        let v = (four(row, 0) as i32).unsigned_abs();
        refuse_if(v <= low || v as usize > variables, 18)?;
        low = v;
    }
    refuse_if(hints.chunks_exact(4).any(|h| four(h, 0) < 1 || four(h, 0) as usize > *count), 19)?;
    let n = literals.len() / 4;
    refuse_if(lent.words.len() - *used <= n || lent.clauses.len() == *count, 12)?;
    let mut set = 0;
    for row in literals.chunks_exact(4) {
        let l = four(row, 0) as i32;
        let v = l.unsigned_abs() as usize - 1;
        lent.values[v] = if l < 0 { 1 } else { 2 };
        lent.trail[set] = v;
        set += 1;
    }
    let proved = propagate(hints, &mut set, lent);
    for &v in &lent.trail[..set] {
        lent.values[v] = 0;
    }
    refuse_if(!proved, 20)?;
    lent.clauses[*count] = *used;
    for row in literals.chunks_exact(4) {
        lent.words[*used] = four(row, 0) as i32;
        *used += 1;
    }
    lent.words[*used] = 0;
    *used += 1;
    *count += 1;
    Ok(())
}

// Whether the hints prove the step.
fn propagate(hints: &[u8], set: &mut usize, lent: &mut Lent) -> bool {
    let mut rows = hints.chunks_exact(4);
    while let Some(row) = rows.next() {
        let mut at = lent.clauses[four(row, 0) as usize - 1];
        let mut unit = 0;
        while lent.words[at] != 0 {
            let l = lent.words[at];
            let value = lent.values[l.unsigned_abs() as usize - 1];
            if value == 0 {
                if unit != 0 {
                    return false;
                }
                unit = l;
            } else if (value == 1) == (l > 0) {
                return false;
            }
            at += 1;
        }
        if unit == 0 {
            return rows.next().is_none();
        }
        let v = unit.unsigned_abs() as usize - 1;
        lent.values[v] = if unit < 0 { 2 } else { 1 };
        lent.trail[*set] = v;
        *set += 1;
    }
    false
}
