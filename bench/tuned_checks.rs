// Rust of the three checks and of the list of carriers that is tuned for speed, over tuned.rs and tuned_formula.rs. What was done:
//
// - An assignment is not held against every clause: by family C a train has one move an interval, which is looked for eight bytes at a
//   time; the other families are asked of that move, and of the claims as a mask. The number of a false clause is computed.
// - Sections are masks, and so are the claims of a run; a byte each is written eight at a time.
// - No plan is judged again for the list of carriers: a cleared border makes one section of those that meet there, whose trains are looked
//   up by section and interval, sixteen intervals at a time.
// - In a refutation a step allocates and clears nothing; hints are read where they are, and without tests of an index; the clause of a
//   hint eight hints on is fetched ahead; hints are tested, and the beginnings of clauses found, without a branch a number or a word.
//
// A cap's counter is plain.rs's, clause by clause, as in tuned_formula.rs.

use std::arch::x86_64::{_mm_prefetch, _MM_HINT_T0};

use crate::checks::{Judge, Lent};
use crate::tuned::{bits, index_runs, read_book, Book, Call, List, Space, Table, Train, INTERVALS, SEGMENTS, TRAINS};
use crate::tuned_formula::{met_at_departure, prepare, width, write, Sizes};

type Verdict<T> = Result<T, (usize, usize)>;

const ABSENT: u16 = 65534;
const GONE: u16 = 65535;

fn plan_length(space: &Space) -> usize {
    space.book.nodes + 2 * space.book.trains * space.book.intervals
}

// The first byte that is not 0, from a place on, or the length.
fn first_set(bytes: &[u8], from: usize) -> usize {
    let mut at = from;
    while let Some(eight) = bytes.get(at..at + 8) {
        let eight = u64::from_le_bytes(eight.try_into().unwrap());
        if eight != 0 {
            return at + eight.trailing_zeros() as usize / 8;
        }
        at += 8;
    }
    while at < bytes.len() && bytes[at] == 0 {
        at += 1;
    }
    at
}

// Bytes 0 and 1, at most 64, as a mask.
fn mask_of(bytes: &[u8]) -> u64 {
    let eights = bytes.chunks_exact(8);
    let rest = eights.remainder();
    let mut mask = 0;
    for (k, b) in rest.iter().enumerate() {
        mask |= (*b as u64) << (bytes.len() - rest.len() + k);
    }
    for (k, eight) in eights.enumerate() {
        // the product gathers the lowest bits of the bytes in its highest byte
        let gathered = u64::from_le_bytes(eight.try_into().unwrap()).wrapping_mul(0x0102040810204080) >> 56;
        mask |= gathered << (8 * k);
    }
    mask
}

// A mask as bytes 0 and 1.
fn spread(mask: u64, bytes: &mut [u8]) {
    let (eights, rest) = bytes.as_chunks_mut();
    for (k, eight) in eights.iter_mut().enumerate() {
        let one = (mask >> (8 * k) & 0xff).wrapping_mul(0x0101010101010101) & 0x8040201008040201;
        *eight = ((one + 0x7f7f7f7f7f7f7f7f) >> 7 & 0x0101010101010101).to_le_bytes();
    }
    for (k, byte) in rest.iter_mut().enumerate() {
        *byte = (mask >> (8 * eights.len() + k)) as u8 & 1;
    }
}

// The groups of two or more segments of one TTD at a node.
fn groups_at(book: &Book, node: usize) -> impl Iterator<Item = u64> + '_ {
    let mut left = book.touching[node];
    let next = move || {
        (left != 0).then(|| {
            let group = left & book.of_ttd[book.ttds[left.trailing_zeros() as usize] as usize];
            left &= !group;
            group
        })
    };
    std::iter::from_fn(next).filter(|group| group.count_ones() > 1)
}

// The same at all nodes without a border.
fn groups(book: &Book, borders: &[u8]) -> ([u64; SEGMENTS], usize) {
    let (mut found, mut n) = ([0; SEGMENTS], 0);
    for node in (0..book.nodes).filter(|&node| borders[node] == 0) {
        for group in groups_at(book, node) {
            found[n] = group;
            n += 1;
        }
    }
    (found, n)
}

// Finds the moves of an assignment that satisfies the formula; or the number of its first false clause.
fn judge(space: &mut Space, sizes: &Sizes, values: &[u8]) -> Result<(), usize> {
    let Space { book, lists, meets, meet_count, moves, claims, .. } = space;
    let (t, m) = (book.intervals, book.trains);
    let mut before = 0;
    for (&kind, &border) in book.kinds[..book.nodes].iter().zip(values) {
        before += (kind != 1) as usize;
        if kind != 1 && border != (kind == 2) as u8 {
            return Err(before);
        }
    }
    let mut first = [book.nodes; TRAINS + 1];
    for i in 0..m {
        first[i + 1] = first[i] + t * width(book, &lists[book.train[i].list]);
    }
    let each = || book.train[..m].iter().enumerate().map(|(i, train)| (i, train, &lists[train.list]));
    for (i, train, list) in each() {
        for interval in 0..train.departure {
            let from = first[i] + interval * width(book, list);
            let set = first_set(&values[from..from + list.count + 1], 0);
            if set <= list.count {
                return Err(before + set + 1);
            }
            moves[i][interval] = ABSENT;
            before += list.count + 1;
        }
    }
    for (i, train, list) in each() {
        for interval in train.departure..t {
            let from = first[i] + interval * width(book, list);
            let row = &values[from..from + list.count + 1];
            let set = first_set(row, 0);
            if set == row.len() {
                return Err(before + 1);
            }
            let other = first_set(row, set + 1);
            if other < row.len() {
                let rows_above = set * (row.len() - 1) - set * set.saturating_sub(1) / 2;
                return Err(before + 1 + rows_above + other - set);
            }
            moves[i][interval] = if set == list.count { GONE } else { set as u16 };
            before += 1 + list.count * (list.count + 1) / 2;
        }
    }
    for (i, train, list) in each() {
        let (given, r) = (list.place(train.l, train.place), moves[i][train.departure]);
        let elsewhere = |to: usize| list.start[..to].iter().filter(|&&p| p != given).count();
        if r == GONE || list.start[r as usize] != given {
            return Err(before + elsewhere((r as usize).min(list.count)) + 1);
        }
        before += elsewhere(list.count) + 1;
    }
    for (i, train, list) in each() {
        for interval in train.departure + 1..t {
            let (was, is) = (moves[i][interval - 1], moves[i][interval]);
            if !goes_on(list, train.goal(), was, is) {
                return Err(before + (was as usize).min(list.count) + 1);
            }
            before += list.count + 1;
        }
    }
    for (i, train, list) in each() {
        let given = list.masks[list.place(train.l, train.place) as usize];
        for &c in train.calls().iter().filter(|&&c| !met_at_departure(train, given, c)) {
            before += 1;
            if !served(list, &moves[i], train.departure, c) {
                return Err(before);
            }
        }
    }
    for (i, _, list) in each() {
        let all: usize = list.sizes[..list.count].iter().map(|&n| n as usize).sum();
        for interval in 0..t {
            let from = first[i] + interval * width(book, list) + list.count + 1;
            let claimed = mask_of(&values[from..from + book.segments]);
            claims[i][interval] = claimed;
            let r = moves[i][interval] as usize;
            if r < list.count && list.masks[r] & !claimed != 0 {
                let runs_above: usize = list.sizes[..r].iter().map(|&n| n as usize).sum();
                return Err(before + runs_above + list.directed(r).position(|d| claimed >> (d / 2) & 1 == 0).unwrap() + 1);
            }
            before += all;
        }
    }
    let (found, n) = groups(book, values);
    for (i, _, _) in each() {
        for &claimed in &claims[i][..t] {
            if found[..n].iter().any(|g| claimed & g != 0 && !claimed & g != 0) {
                let is_false = |&[s, border, u, _]: &[i32; 4]| claimed >> -s & 1 == 1 && values[border as usize - 1] == 0 && claimed >> u & 1 == 0;
                return Err(before + meets[..*meet_count].iter().position(is_false).unwrap() + 1);
            }
            before += *meet_count;
        }
    }
    for interval in 0..t {
        let mut all = 0;
        for x in 0..m {
            if all & claims[x][interval] != 0 {
                return Err(before + first_shared(claims, interval, m, book.segments));
            }
            all |= claims[x][interval];
        }
        before += sizes.clauses[8] / t;
    }
    let mut counted = Judge::new(values);
    sizes.counter.walk(first[m], &mut counted);
    if counted.wrong != 0 { Err(before + counted.wrong) } else { Ok(()) }
}

// The number, among an interval's clauses of I, of the first false one.
fn first_shared(claims: &Table<u64>, interval: usize, trains: usize, segments: usize) -> usize {
    let mut before = 1;
    for x in 0..trains {
        for y in x + 1..trains {
            let both = claims[x][interval] & claims[y][interval];
            if both != 0 {
                return before + both.trailing_zeros() as usize;
            }
            before += segments;
        }
    }
    unreachable!("two trains claim one segment")
}

// E: whether a move may come after another; neither is absent.
fn goes_on(list: &List, goal: u8, was: u16, is: u16) -> bool {
    match (was, is) {
        (GONE, _) => is == GONE,
        (_, GONE) => list.goals[list.end[was as usize] as usize] >> goal & 1 == 1,
        _ => list.start[is as usize] == list.end[was as usize],
    }
}

// F: whether a call is met after the departure.
fn served(list: &List, moves: &[u16; INTERVALS], departure: usize, c: Call) -> bool {
    let mut times = (c.first as usize).max(departure + 1)..c.last as usize + 1;
    times.any(|time| {
        let r = moves[time - 1] as usize;
        r < list.count && list.masks[list.end[r] as usize] >> c.segment & 1 == 1
    })
}

// 13, then 14; the moves are in the space afterwards.
fn judge_values(space: &mut Space, sizes: &Sizes, values: &[u8]) -> Verdict<()> {
    if values.len() != sizes.totals.variables || values.iter().fold(0, |all, v| all | v) > 1 {
        return Err((13, 0));
    }
    judge(space, sizes, values).map_err(|clause| (14, clause))
}

// Judges an assignment.
pub fn check_assignment(cap: Option<usize>, s: &[u8], values: &[u8], space: &mut Space) -> Verdict<()> {
    let sizes = prepare(cap, s, space).map_err(|n| (n, 0))?;
    judge_values(space, &sizes, values)
}

// Judges an assignment and writes its plan; answers the plan's length.
pub fn unpack_plan(cap: Option<usize>, s: &[u8], values: &[u8], out: &mut [u8], space: &mut Space) -> Verdict<usize> {
    let sizes = prepare(cap, s, space).map_err(|n| (n, 0))?;
    let length = plan_length(space);
    let Some(out) = out.get_mut(..length) else { return Err((12, 0)) };
    judge_values(space, &sizes, values)?;
    let (borders, codes) = out.split_at_mut(space.book.nodes);
    borders.copy_from_slice(&values[..borders.len()]);
    for (row, moves) in codes.chunks_exact_mut(2 * space.book.intervals).zip(&space.moves) {
        for (code, m) in row.chunks_exact_mut(2).zip(moves) {
            code.copy_from_slice(&m.to_le_bytes());
        }
    }
    Ok(length)
}

// Rules 2 to 5 of one train: the least that is broken, or 7.
fn broken_by_train(book: &Book, train: &Train, list: &List, moves: &[u16; INTERVALS]) -> usize {
    let (t, d) = (book.intervals, train.departure);
    let given = list.place(train.l, train.place);
    let at_departure = moves[d] as usize;
    if (0..t).any(|k| (moves[k] == ABSENT) != (k < d)) || at_departure >= list.count || list.start[at_departure] != given {
        return 2;
    }
    let mut least = 7;
    for k in d + 1..t {
        if !goes_on(list, train.goal(), moves[k - 1], moves[k]) {
            least = least.min(if moves[k - 1] == GONE || moves[k] == GONE { 3 } else { 4 });
        }
    }
    let mask = list.masks[given as usize];
    let met = train.calls().iter().all(|&c| met_at_departure(train, mask, c) || served(list, moves, d, c));
    least.min(if met { 7 } else { 5 })
}

// Finds the moves and claims of a plan that keeps the rules; answers by segment the segments of its section.
fn keep_rules(space: &mut Space, plan: &[u8]) -> Verdict<[u64; SEGMENTS]> {
    if plan.len() != plan_length(space) {
        return Err((15, 0));
    }
    let Space { book, lists, moves, claims, .. } = space;
    let (borders, codes) = plan.split_at(book.nodes);
    let mut wrong = borders.iter().any(|&b| b > 1);
    for (i, row) in codes.chunks_exact(2 * book.intervals).enumerate() {
        let count = lists[book.train[i].list].count;
        for (m, code) in moves[i].iter_mut().zip(row.chunks_exact(2)) {
            *m = u16::from_le_bytes([code[0], code[1]]);
            wrong |= *m as usize >= count && *m < ABSENT;
        }
    }
    if wrong {
        return Err((15, 0));
    }
    if book.kinds.iter().zip(borders).any(|(&kind, &border)| kind != 1 && border != (kind == 2) as u8) {
        return Err((16, 1));
    }
    let by_train = book.train[..book.trains].iter().zip(&*moves);
    let broken = by_train.map(|(train, moves)| broken_by_train(book, train, &lists[train.list], moves)).min().unwrap();
    if broken < 7 {
        return Err((16, broken));
    }
    let mut section: [u64; SEGMENTS] = std::array::from_fn(|s| 1 << s);
    let (found, n) = groups(book, borders);
    for &group in &found[..n] {
        let all = bits(group).fold(0, |all, s| all | section[s]);
        bits(all).for_each(|s| section[s] = all);
    }
    let mut taken = [0; INTERVALS];
    for i in 0..book.trains {
        let list = &lists[book.train[i].list];
        for k in 0..book.intervals {
            let r = moves[i][k] as usize;
            let run = if r < list.count { list.masks[r] } else { 0 };
            let touched = bits(run).fold(0, |all, s| all | section[s]);
            if taken[k] & touched != 0 {
                return Err((16, 6));
            }
            taken[k] |= touched;
            claims[i][k] = touched;
        }
    }
    Ok(section)
}

// Checks a plan and writes it as an assignment; answers the assignment's length.
pub fn check_plan(cap: Option<usize>, s: &[u8], plan: &[u8], out: &mut [u8], space: &mut Space) -> Verdict<usize> {
    let sizes = prepare(cap, s, space).map_err(|n| (n, 0))?;
    let variables = sizes.totals.variables;
    let Some(out) = out.get_mut(..variables) else { return Err((12, 0)) };
    keep_rules(space, plan)?;
    if sizes.counter.is_passed(plan) {
        return Err((22, 0));
    }
    let Space { book, lists, moves, claims, .. } = space;
    let (borders, mut rest) = out.split_at_mut(book.nodes);
    borders.copy_from_slice(&plan[..book.nodes]);
    for i in 0..book.trains {
        let count = lists[book.train[i].list].count;
        for k in 0..book.intervals {
            let (runs, behind) = rest.split_at_mut(count + 1);
            let (claimed, behind) = behind.split_at_mut(book.segments);
            runs.fill(0);
            if moves[i][k] != ABSENT {
                runs[(moves[i][k] as usize).min(count)] = 1;
            }
            spread(claims[i][k], claimed);
            rest = behind;
        }
    }
    sizes.counter.fill(plan, rest);
    Ok(variables)
}

// Lists the borders that carry a plan; answers the list's length.
pub fn list_carriers(s: &[u8], plan: &[u8], out: &mut [u8], space: &mut Space) -> Verdict<usize> {
    read_book::<true>(s, space).map_err(|n| (n, 0))?;
    if out.len() < 4 * space.book.kinds[..space.book.nodes].iter().filter(|&&kind| kind == 1).count() {
        return Err((12, 0));
    }
    index_runs(&space.book, &mut space.lists[..space.list_count]);
    let section = keep_rules(space, plan)?;
    let Space { book, lists, moves, .. } = space;
    // by a section's least segment and by interval: the trains there, a bit each
    let mut there = [[0; INTERVALS]; SEGMENTS];
    for (i, train) in book.train[..book.trains].iter().enumerate() {
        let list = &lists[train.list];
        for k in 0..book.intervals {
            let r = moves[i][k] as usize;
            if r < list.count {
                bits(list.masks[r]).for_each(|s| there[section[s].trailing_zeros() as usize][k] |= 1 << i);
            }
        }
    }
    let mut length = 0;
    for node in (0..book.nodes).filter(|&node| book.kinds[node] == 1 && plan[node] == 1) {
        let meetings = groups_at(book, node).filter_map(|group| first_meeting(group, &section, &there));
        if let Some([interval, lower, higher]) = meetings.min() {
            out[length..length + 4].copy_from_slice(&[node as u8, interval, lower, higher]);
            length += 4;
        }
    }
    Ok(length)
}

// The first meeting, if any, where the sections of a group become one: the interval, and the lowest two trains.
fn first_meeting(group: u64, section: &[u64; SEGMENTS], there: &[[u8; INTERVALS]; SEGMENTS]) -> Option<[u8; 3]> {
    let (mut all, mut left) = ([0; INTERVALS], group);
    while left != 0 {
        let one = section[left.trailing_zeros() as usize];
        left &= !one;
        all.iter_mut().zip(&there[one.trailing_zeros() as usize]).for_each(|(all, trains)| *all |= trains);
    }
    let but_lowest = |trains: u8| trains & trains.wrapping_sub(1);
    // first whether there is one, without a branch an interval
    if all.iter().fold(0, |any, &trains| any | but_lowest(trains)) == 0 {
        return None;
    }
    let k = all.iter().position(|&trains| but_lowest(trains) != 0)?;
    Some([k as u8, all[k].trailing_zeros() as u8, but_lowest(all[k]).trailing_zeros() as u8])
}

// Checks a refutation; all slices are zero afterwards.
pub fn check_refutation(cap: Option<usize>, s: &[u8], r: &[u8], lent: &mut Lent, space: &mut Space) -> Verdict<()> {
    let found = refute(cap, s, r, lent, space);
    lent.words.fill(0);
    lent.clauses.fill(0);
    lent.values.fill(0);
    lent.trail.fill(0);
    found
}

// Notes where each clause begins; each word stores the next clause's beginning, and a 0 moves on.
fn index_clauses(words: &[i32], starts: &mut [usize]) {
    let (mut clause, mut first) = (0, 0);
    for (at, &word) in words.iter().enumerate() {
        // SAFETY: there is a start for each clause, which ends at its 0; so clause is below their number at every word.
        unsafe { *starts.get_unchecked_mut(clause) = first };
        let end = word == 0;
        clause += end as usize;
        first = if end { at + 1 } else { first };
    }
}

fn refute(cap: Option<usize>, s: &[u8], r: &[u8], lent: &mut Lent, space: &mut Space) -> Verdict<()> {
    let sizes = prepare(cap, s, space).map_err(|n| (n, 0))?;
    let totals = sizes.totals;
    let short = lent.words.len() < totals.words || lent.clauses.len() < totals.clauses;
    if short || lent.values.len() < totals.variables || lent.trail.len() < totals.variables {
        return Err((12, 0));
    }
    let formula = &mut lent.words[..totals.words];
    write(space, &sizes, formula);
    index_clauses(formula, lent.clauses);
    lent.values[..totals.variables].fill(0);
    let mut kept = Kept { words: totals.words, clauses: totals.clauses, variables: totals.variables };
    let (mut left, mut number) = (r, 1);
    while !left.is_empty() {
        let Some((opening, behind)) = left.split_at_checked(6) else { return Err((17, number)) };
        let field = |at: usize| u16::from_le_bytes([opening[at], opening[at + 1]]) as usize;
        let (len, kind, n) = (field(0), field(2), field(4));
        if kind != 20 || len < 2 + 4 * n || len % 4 != 2 || behind.len() < len - 2 {
            return Err((17, number));
        }
        let (rows, behind) = behind.split_at(len - 2);
        let (literals, hints) = rows.split_at(4 * n);
        kept.step(literals.as_chunks().0, hints.as_chunks().0, lent).map_err(|refusal| (refusal, if refusal == 12 { 0 } else { number }))?;
        if n == 0 {
            return if behind.is_empty() { Ok(()) } else { Err((21, 0)) };
        }
        left = behind;
        number += 1;
    }
    Err((21, 0))
}

// How far the lent slices are filled.
struct Kept {
    words: usize,
    clauses: usize,
    variables: usize,
}

const AHEAD: usize = 8;

impl Kept {
    // 18 to 20 of a step, whose clause is then added.
    fn step(&mut self, literals: &[[u8; 4]], hints: &[[u8; 4]], lent: &mut Lent) -> Result<(), usize> {
        let mut low = 0;
        for &l in literals {
            let v = i32::from_le_bytes(l).unsigned_abs();
            if v <= low || v as usize > self.variables {
                return Err(18);
            }
            low = v;
        }
        // without a branch a hint: 0 becomes the greatest number
        let most = self.clauses.min(u32::MAX as usize) as u32;
        if hints.iter().fold(false, |wrong, &h| wrong | (u32::from_le_bytes(h).wrapping_sub(1) >= most)) {
            return Err(19);
        }
        if lent.words.len() - self.words <= literals.len() || lent.clauses.len() == self.clauses {
            return Err(12);
        }
        // SAFETY: the literals are of variables, and `values` and `trail` have one for each; the hints are of clauses, whose words
        // are literals of variables, and a 0 behind them. A variable is set once.
        let proved = unsafe {
            let mut set = 0;
            for &l in literals {
                let l = i32::from_le_bytes(l);
                let v = l.unsigned_abs() as usize - 1;
                *lent.values.get_unchecked_mut(v) = if l < 0 { 1 } else { -1i8 as u8 };
                *lent.trail.get_unchecked_mut(set) = v;
                set += 1;
            }
            let proved = propagate(hints, &mut set, lent);
            for &v in lent.trail.get_unchecked(..set) {
                *lent.values.get_unchecked_mut(v) = 0;
            }
            proved
        };
        if !proved {
            return Err(20);
        }
        lent.clauses[self.clauses] = self.words;
        let kept = &mut lent.words[self.words..self.words + literals.len() + 1];
        for (word, &l) in kept.iter_mut().zip(literals) {
            *word = i32::from_le_bytes(l);
        }
        kept[literals.len()] = 0;
        self.words += kept.len();
        self.clauses += 1;
        Ok(())
    }
}

// Whether the hints prove the step. A value is 1 true, -1 false, 0 open: a literal is true where its sign is the value's. Branches are
// better here than arithmetic: with them the next hint is looked at before this one's values have come.
unsafe fn propagate(hints: &[[u8; 4]], set: &mut usize, lent: &mut Lent) -> bool {
    let start = |h: &[u8; 4]| *lent.clauses.get_unchecked(u32::from_le_bytes(*h) as usize - 1);
    let words = lent.words.as_ptr();
    for (k, hint) in hints.iter().enumerate() {
        if let Some(later) = hints.get(k + AHEAD) {
            _mm_prefetch::<_MM_HINT_T0>(words.add(start(later)).cast());
        }
        let mut at = words.add(start(hint));
        let mut unit = 0;
        while *at != 0 {
            let l = *at;
            let value = *lent.values.get_unchecked(l.unsigned_abs() as usize - 1) as i8 as i32;
            if value == 0 {
                if unit != 0 {
                    return false;
                }
                unit = l;
            } else if value ^ l >= 0 {
                return false;
            }
            at = at.add(1);
        }
        if unit == 0 {
            return k + 1 == hints.len();
        }
        let v = unit.unsigned_abs() as usize - 1;
        *lent.values.get_unchecked_mut(v) = if unit < 0 { -1i8 as u8 } else { 1 };
        *lent.trail.get_unchecked_mut(*set) = v;
        *set += 1;
    }
    false
}
