// Makes a refutation of a given number of steps, for a formula that has an empty clause: lemmas that unit propagation proves, from
// random decisions on, with their hints, and at the end the empty step, whose hint is the empty clause. One lemma in four is named by
// later hints. The lemmas are looked for in one part of the formula after the other: the clauses whose variables all lie in the part.

use std::ops::Range;

struct Search {
    clauses: Vec<Vec<i32>>,
    numbers: Vec<u32>,
    watches: Vec<Vec<usize>>,
    // by variable: 0 open, 1 true, -1 false; and the clause that set it
    value: Vec<i8>,
    reason: Vec<usize>,
    trail: Vec<i32>,
    // the part's variables, and the literals and places of its single ones
    variables: Vec<usize>,
    units: Vec<(i32, usize)>,
    random: u64,
}

// Ranges of variables.
pub type Part = Vec<Range<usize>>;

const DECIDED: usize = usize::MAX;

// The place of a literal's watchers.
fn place(l: i32) -> usize {
    2 * l.unsigned_abs() as usize + usize::from(l < 0)
}

impl Search {
    // A search in a part of a formula.
    fn new(words: &[i32], variables: usize, part: &Part) -> Search {
        let mut search = Search {
            clauses: Vec::new(),
            numbers: Vec::new(),
            watches: vec![Vec::new(); 2 * variables + 2],
            value: vec![0; variables + 1],
            reason: vec![DECIDED; variables + 1],
            trail: Vec::new(),
            variables: part.iter().cloned().flatten().collect(),
            units: Vec::new(),
            random: 88172645463325252,
        };
        let mut known = vec![false; variables + 1];
        search.variables.iter().for_each(|&v| known[v] = true);
        for (k, clause) in clauses(words).enumerate() {
            if clause.iter().all(|l| known[l.unsigned_abs() as usize]) {
                if clause.len() == 1 {
                    search.units.push((clause[0], search.clauses.len()));
                }
                search.add(clause.to_vec(), k as u32 + 1);
            }
        }
        search
    }

    // xorshift
    fn below(&mut self, n: usize) -> usize {
        self.random ^= self.random << 13;
        self.random ^= self.random >> 7;
        self.random ^= self.random << 17;
        (self.random % n as u64) as usize
    }

    fn truth(&self, l: i32) -> i8 {
        let v = self.value[l.unsigned_abs() as usize];
        if l > 0 { v } else { -v }
    }

    fn set(&mut self, l: i32, reason: usize) {
        self.value[l.unsigned_abs() as usize] = if l > 0 { 1 } else { -1 };
        self.reason[l.unsigned_abs() as usize] = reason;
        self.trail.push(l);
    }

    fn add(&mut self, clause: Vec<i32>, number: u32) {
        let at = self.clauses.len();
        if clause.len() >= 2 {
            self.watches[place(clause[0])].push(at);
            self.watches[place(clause[1])].push(at);
        }
        self.clauses.push(clause);
        self.numbers.push(number);
    }

    // Looks at the trail from a place on; answers the clause that is all false.
    fn propagate(&mut self, mut from: usize) -> Option<usize> {
        while from < self.trail.len() {
            let falsified = -self.trail[from];
            from += 1;
            let mut k = 0;
            while k < self.watches[place(falsified)].len() {
                let at = self.watches[place(falsified)][k];
                if self.clauses[at][0] == falsified {
                    self.clauses[at].swap(0, 1);
                }
                let first = self.clauses[at][0];
                let other = (2..self.clauses[at].len()).find(|&j| self.truth(self.clauses[at][j]) >= 0);
                if self.truth(first) > 0 {
                    k += 1;
                } else if let Some(j) = other {
                    self.clauses[at].swap(1, j);
                    let moved = self.clauses[at][1];
                    self.watches[place(moved)].push(at);
                    self.watches[place(falsified)].swap_remove(k);
                } else if self.truth(first) < 0 {
                    return Some(at);
                } else {
                    self.set(first, at);
                    k += 1;
                }
            }
        }
        None
    }

    // The decisions that a conflict rests on, denied, and the hints.
    fn lemma(&self, conflict: usize) -> (Vec<i32>, Vec<u32>) {
        let mut seen = vec![false; self.value.len()];
        let (mut literals, mut hints) = (Vec::new(), vec![self.numbers[conflict]]);
        for &l in &self.clauses[conflict] {
            seen[l.unsigned_abs() as usize] = true;
        }
        for &l in self.trail.iter().rev() {
            let v = l.unsigned_abs() as usize;
            if seen[v] && self.reason[v] == DECIDED {
                literals.push(-l);
            } else if seen[v] {
                hints.push(self.numbers[self.reason[v]]);
                for &m in &self.clauses[self.reason[v]] {
                    seen[m.unsigned_abs() as usize] = true;
                }
            }
        }
        hints.reverse();
        literals.sort_by_key(|l| l.unsigned_abs());
        (literals, hints)
    }

    // Decides at random until a clause is all false; None where every variable has a value.
    fn decide(&mut self) -> Option<usize> {
        while let Some(l) = self.trail.pop() {
            self.value[l.unsigned_abs() as usize] = 0;
        }
        for k in 0..self.units.len() {
            let (l, at) = self.units[k];
            if self.truth(l) == 0 {
                self.set(l, at);
            }
        }
        let mut conflict = self.propagate(0);
        for _ in 0..4 * self.variables.len() {
            if conflict.is_some() {
                return conflict;
            }
            let at = self.below(self.variables.len());
            let v = self.variables[at];
            if self.value[v] == 0 {
                let l = if self.below(8) == 0 { v as i32 } else { -(v as i32) };
                let from = self.trail.len();
                self.set(l, DECIDED);
                conflict = self.propagate(from);
            }
        }
        conflict
    }
}

fn frame(literals: &[i32], hints: &[u32], out: &mut Vec<u8>) {
    let size = 2 + 4 * literals.len() + 4 * hints.len();
    out.extend((size as u16).to_le_bytes());
    out.extend(20u16.to_le_bytes());
    out.extend((literals.len() as u16).to_le_bytes());
    literals.iter().for_each(|l| out.extend(l.to_le_bytes()));
    hints.iter().for_each(|h| out.extend(h.to_le_bytes()));
}

// The formula's clauses.
fn clauses(words: &[i32]) -> impl Iterator<Item = &[i32]> {
    words.split_inclusive(|&w| w == 0).map(|clause| &clause[..clause.len() - 1])
}

// The refutation's bytes, how many hints it has, and how many words its steps add. `words` is the formula; each part gives about as
// many steps as the others.
pub fn make(words: &[i32], variables: usize, steps: usize, parts: &[Part]) -> (Vec<u8>, usize, usize) {
    let count = words.iter().filter(|&&w| w == 0).count();
    let empty = 1 + clauses(words).position(|clause| clause.is_empty()).expect("the formula has no empty clause");
    let (mut out, mut hinted, mut added, mut made) = (Vec::new(), 0, 0, 0);
    for (k, part) in parts.iter().enumerate() {
        let mut search = Search::new(words, variables, part);
        while made < (steps - 1) * (k + 1) / parts.len() {
            let Some(conflict) = search.decide() else { continue };
            let (literals, hints) = search.lemma(conflict);
            if literals.is_empty() || hints.len() > 2000 {
                continue;
            }
            made += 1;
            frame(&literals, &hints, &mut out);
            hinted += hints.len();
            added += literals.len() + 1;
            if made % 4 == 0 && literals.len() > 1 {
                search.add(literals, (count + made) as u32);
            }
        }
    }
    frame(&[], &[empty as u32], &mut out);
    (out, hinted + 1, added + 1)
}
