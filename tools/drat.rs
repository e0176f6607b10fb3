// From a solver's proof to a refutation: reads a formula as DIMACS text and a proof as textual DRAT (a lemma a line, "d" before a
// clause that is dropped), finds the hints of each lemma by unit propagation, and writes document 01's frames of kind 20.
//
//   drat FORMULA PROOF REFUTATION
//
// A lemma's hints are the clauses that became unit on the way to the conflict, in the order in which they did, and the clause that
// was all false; only those that the conflict rests on. A variable that the clauses fix by themselves gets a unit step of its own, so
// that later hints name that step and not the way to it. Steps that the empty step does not rest on are left out. A lemma that unit
// propagation does not prove is reported, and nothing is written.
//
// Exit status: 0 written, 1 the proof does not end in the empty clause or a lemma does not follow, 2 a file or its text is wrong.

use std::fs;
use std::process::exit;

// A literal as an index: 2 v for variable v, 2 v + 1 for its denial, v from 0.
type Literal = usize;

const NONE: usize = usize::MAX;

fn fail(status: i32, text: &str) -> ! {
    eprintln!("drat: {text}");
    exit(status)
}

fn literal_of(number: i64, variables: usize) -> Literal {
    let v = number.unsigned_abs() as usize;
    if v == 0 || v > variables {
        fail(2, &format!("no such variable: {number}"));
    }
    2 * (v - 1) + usize::from(number < 0)
}

fn signed(l: Literal) -> i32 {
    let v = (l / 2 + 1) as i32;
    if l % 2 == 0 { v } else { -v }
}

struct Clause {
    literals: Vec<Literal>,
    number: u32,
    dropped: bool,
}

// A step to be written.
struct Step {
    literals: Vec<Literal>,
    hints: Vec<u32>,
}

struct Checker {
    clauses: Vec<Clause>,
    watches: Vec<Vec<usize>>,
    // true where the literal is known to be true
    known: Vec<bool>,
    // for each variable the clause that made it known, or NONE where it was assumed
    reason: Vec<usize>,
    trail: Vec<Literal>,
    // how much of the trail is fixed for good, and how much was looked at
    fixed: usize,
    looked: usize,
    // for each variable that is fixed for good, its unit clause
    unit: Vec<usize>,
    seen: Vec<bool>,
    steps: Vec<Step>,
    next: u32,
    // by its sorted literals, where clauses stand, to drop them
    index: std::collections::HashMap<Vec<Literal>, Vec<usize>>,
}

impl Checker {
    fn new(variables: usize) -> Checker {
        Checker {
            clauses: Vec::new(),
            watches: vec![Vec::new(); 2 * variables],
            known: vec![false; 2 * variables],
            reason: vec![NONE; variables],
            trail: Vec::new(),
            fixed: 0,
            looked: 0,
            unit: vec![NONE; variables],
            seen: vec![false; variables],
            steps: Vec::new(),
            next: 1,
            index: std::collections::HashMap::new(),
        }
    }

    fn set(&mut self, l: Literal, reason: usize) {
        self.known[l] = true;
        self.reason[l / 2] = reason;
        self.trail.push(l);
    }

    // Adds a clause without a proof of its own; its literals are sorted and stand once each.
    fn keep(&mut self, literals: Vec<Literal>, number: u32) -> usize {
        let at = self.clauses.len();
        self.index.entry(literals.clone()).or_default().push(at);
        self.clauses.push(Clause { literals, number, dropped: false });
        at
    }

    // Puts two literals that are not false in front, where there are such, and watches them. Answers the number of them.
    fn watch(&mut self, at: usize) -> usize {
        let known = &self.known;
        let literals = &mut self.clauses[at].literals;
        let mut found = 0;
        for k in 0..literals.len() {
            if found < 2 && !known[literals[k] ^ 1] {
                literals.swap(found, k);
                found += 1;
            }
        }
        if literals.len() >= 2 {
            let (a, b) = (literals[0], literals[1]);
            self.watches[a].push(at);
            self.watches[b].push(at);
        }
        found
    }

    // Unit propagation from what was not looked at. Answers the clause that is all false, or NONE.
    fn propagate(&mut self) -> usize {
        while self.looked < self.trail.len() {
            let falsified = self.trail[self.looked] ^ 1;
            self.looked += 1;
            let mut list = std::mem::take(&mut self.watches[falsified]);
            let mut kept = 0;
            let mut conflict = NONE;
            let mut k = 0;
            while k < list.len() {
                let at = list[k];
                k += 1;
                if self.clauses[at].dropped {
                    continue;
                }
                let known = &self.known;
                let literals = &mut self.clauses[at].literals;
                if literals[0] == falsified {
                    literals.swap(0, 1);
                }
                let first = literals[0];
                list[kept] = at;
                kept += 1;
                if known[first] {
                    continue;
                }
                if let Some(j) = (2..literals.len()).find(|&j| !known[literals[j] ^ 1]) {
                    literals.swap(1, j);
                    let moved = literals[1];
                    self.watches[moved].push(at);
                    kept -= 1;
                } else if known[first ^ 1] {
                    conflict = at;
                    break;
                } else {
                    self.set(first, at);
                }
            }
            while k < list.len() {
                list[kept] = list[k];
                kept += 1;
                k += 1;
            }
            list.truncate(kept);
            self.watches[falsified] = list;
            if conflict != NONE {
                return conflict;
            }
        }
        NONE
    }

    // The hints for a clause that is all false: the reasons that it rests on, in the order of the trail, and the clause itself.
    fn hints(&mut self, conflict: usize) -> Vec<u32> {
        for &l in &self.clauses[conflict].literals {
            self.seen[l / 2] = true;
        }
        let mut hints = vec![self.clauses[conflict].number];
        for k in (0..self.trail.len()).rev() {
            let v = self.trail[k] / 2;
            if !self.seen[v] {
                continue;
            }
            self.seen[v] = false;
            if self.reason[v] == NONE {
                continue;
            }
            let at = if k < self.fixed { self.unit[v] } else { self.reason[v] };
            hints.push(self.clauses[at].number);
            for &l in &self.clauses[at].literals {
                if l / 2 != v {
                    self.seen[l / 2] = true;
                }
            }
        }
        hints.reverse();
        hints
    }

    fn step(&mut self, literals: Vec<Literal>, hints: Vec<u32>) -> usize {
        let number = self.next;
        self.next += 1;
        self.steps.push(Step { literals: literals.clone(), hints });
        self.keep(literals, number)
    }

    // Fixes what follows from the clauses alone, each variable by a unit clause. Answers whether a clause is all false; the empty
    // step then stands at the end.
    fn fix(&mut self) -> bool {
        let conflict = self.propagate();
        while self.fixed < self.trail.len() {
            let l = self.trail[self.fixed];
            let at = self.reason[l / 2];
            self.unit[l / 2] = if self.clauses[at].literals.len() == 1 {
                at
            } else {
                let hints = self.hints_of_unit(at, l / 2);
                self.step(vec![l], hints)
            };
            self.fixed += 1;
        }
        if conflict != NONE {
            let hints = self.hints(conflict);
            self.step(Vec::new(), hints);
        }
        conflict != NONE
    }

    // The hints of the unit step of a variable, whose clause has no other literal that is not false for good.
    fn hints_of_unit(&self, at: usize, v: usize) -> Vec<u32> {
        let mut hints: Vec<u32> = self.clauses[at].literals.iter().filter(|&&l| l / 2 != v)
            .map(|&l| self.clauses[self.unit[l / 2]].number).collect();
        hints.push(self.clauses[at].number);
        hints
    }

    // Takes a clause of the formula. Answers whether the formula is refuted.
    fn add(&mut self, literals: Vec<Literal>, number: u32) -> bool {
        let at = self.keep(literals, number);
        self.enter(at)
    }

    // Takes a clause of the formula in which a literal stands twice, here once. As two literals that are not false it would make
    // nothing true, so a step that says the same is named in its place.
    fn add_once(&mut self, literals: Vec<Literal>, number: u32) -> bool {
        let at = self.step(literals, vec![number]);
        self.enter(at)
    }

    // Watches a clause that is kept. Answers whether the clauses are refuted.
    fn enter(&mut self, at: usize) -> bool {
        let found = self.watch(at);
        let first = self.clauses[at].literals.first().copied();
        if found == 0 {
            let hints = self.hints(at);
            if first.is_some() || self.clauses[at].number < self.next {
                self.step(Vec::new(), hints);
            }
            return true;
        }
        if found == 1 && !self.known[first.unwrap()] {
            self.set(first.unwrap(), at);
            return self.fix();
        }
        false
    }

    // Proves a lemma by unit propagation and adds it. Answers whether the clauses are refuted.
    fn lemma(&mut self, literals: Vec<Literal>) -> Result<bool, ()> {
        let from = self.trail.len();
        let mut conflict = NONE;
        let mut assumed = Vec::new();
        for &l in &literals {
            if self.known[l] {
                // fixed for good: its unit clause is all false once the literal is taken false
                conflict = self.unit[l / 2];
                break;
            }
            if !self.known[l ^ 1] {
                self.set(l ^ 1, NONE);
            } else {
                // taken false, so that no hint is needed for it
                assumed.push((l / 2, self.reason[l / 2]));
                self.reason[l / 2] = NONE;
            }
        }
        let hints = if conflict != NONE {
            vec![self.clauses[conflict].number]
        } else {
            conflict = self.propagate();
            if conflict == NONE {
                return Err(());
            }
            self.hints(conflict)
        };
        for (v, reason) in assumed {
            self.reason[v] = reason;
        }
        for k in (from..self.trail.len()).rev() {
            let l = self.trail[k];
            self.known[l] = false;
            self.reason[l / 2] = NONE;
        }
        self.trail.truncate(from);
        self.looked = from;
        if literals.is_empty() {
            self.step(literals, hints);
            return Ok(true);
        }
        let at = self.step(literals, hints);
        Ok(self.enter(at))
    }

    fn drop(&mut self, literals: &[Literal]) {
        // a clause that fixed a variable stays
        if let Some(places) = self.index.get_mut(literals) {
            if let Some(k) = (0..places.len()).find(|&k| {
                let at = places[k];
                let c = &self.clauses[at];
                c.literals.len() > 1 && !c.literals.iter().any(|&l| self.known[l] && self.reason[l / 2] == at)
            }) {
                let at = places.swap_remove(k);
                self.clauses[at].dropped = true;
            }
        }
    }
}

// Sorted, each literal once; None for a clause that has both literals of a variable.
fn tidy(mut literals: Vec<Literal>) -> Option<Vec<Literal>> {
    literals.sort_unstable();
    literals.dedup();
    if literals.windows(2).any(|w| w[0] / 2 == w[1] / 2) { None } else { Some(literals) }
}

// The steps that the empty one rests on, numbered again; the formula has the numbers up to `formula`.
fn needed(steps: &[Step], formula: u32) -> Vec<(Vec<Literal>, Vec<u32>)> {
    let mut wanted = vec![false; steps.len()];
    *wanted.last_mut().unwrap() = true;
    for k in (0..steps.len()).rev() {
        if wanted[k] {
            for &h in &steps[k].hints {
                if h > formula {
                    wanted[(h - formula - 1) as usize] = true;
                }
            }
        }
    }
    let mut new = vec![0u32; steps.len()];
    let mut number = formula;
    let mut out = Vec::new();
    for (k, step) in steps.iter().enumerate() {
        if wanted[k] {
            number += 1;
            new[k] = number;
            let hints = step.hints.iter().map(|&h| if h > formula { new[(h - formula - 1) as usize] } else { h }).collect();
            out.push((step.literals.clone(), hints));
        }
    }
    out
}

fn frame(literals: &[Literal], hints: &[u32], out: &mut Vec<u8>) {
    let size = 2 + 4 * literals.len() + 4 * hints.len();
    if size > 65535 {
        fail(1, "a step is longer than a frame holds");
    }
    out.extend((size as u16).to_le_bytes());
    out.extend(20u16.to_le_bytes());
    out.extend((literals.len() as u16).to_le_bytes());
    for &l in literals {
        out.extend(signed(l).to_le_bytes());
    }
    for &h in hints {
        out.extend(h.to_le_bytes());
    }
}

fn numbers(text: &str) -> Vec<i64> {
    text.split_whitespace().map(|w| w.parse().unwrap_or_else(|_| fail(2, &format!("no number: {w}")))).collect()
}

fn read(name: &str) -> String {
    fs::read_to_string(name).unwrap_or_else(|e| fail(2, &format!("{name}: {e}")))
}

fn main() {
    let names: Vec<String> = std::env::args().skip(1).collect();
    if names.len() != 3 {
        fail(2, "usage: drat FORMULA PROOF REFUTATION");
    }
    let formula = read(&names[0]);
    let mut lines = formula.lines().filter(|l| !l.starts_with('c') && !l.trim().is_empty());
    let header: Vec<&str> = lines.next().unwrap_or("").split_whitespace().collect();
    if header.len() != 4 || header[0] != "p" || header[1] != "cnf" {
        fail(2, "the formula has no header");
    }
    let variables: usize = header[2].parse().unwrap_or_else(|_| fail(2, "the header is wrong"));
    let mut checker = Checker::new(variables);
    let words: Vec<i64> = lines.flat_map(numbers).collect();
    let mut count = 0u32;
    let mut refuted = false;
    let total = words.iter().filter(|&&w| w == 0).count() as u32;
    checker.next = total + 1;
    let mut clause = Vec::new();
    for w in words {
        if w != 0 {
            clause.push(literal_of(w, variables));
            continue;
        }
        count += 1;
        let length = clause.len();
        if let (Some(c), false) = (tidy(std::mem::take(&mut clause)), refuted) {
            refuted = if c.len() < length { checker.add_once(c, count) } else { checker.add(c, count) };
        }
    }
    if !clause.is_empty() || header[3].parse() != Ok(total) {
        fail(2, "the formula has not as many closed clauses as its header says");
    }
    let proof = read(&names[1]);
    for line in proof.lines() {
        if refuted {
            break;
        }
        let text = line.trim();
        if text.is_empty() || text.starts_with('c') || text.starts_with('%') {
            continue;
        }
        let dropped = text.strip_prefix('d');
        let mut row = numbers(dropped.unwrap_or(text));
        if row.pop() != Some(0) {
            fail(2, &format!("a line without its 0: {text}"));
        }
        let Some(c) = tidy(row.into_iter().map(|n| literal_of(n, variables)).collect()) else { continue };
        if dropped.is_some() {
            checker.drop(&c);
        } else {
            match checker.lemma(c) {
                Ok(done) => refuted = done,
                Err(()) => fail(1, &format!("a lemma does not follow by unit propagation: {text}")),
            }
        }
    }
    if !refuted {
        fail(1, "the proof does not reach the empty clause");
    }
    let mut out = Vec::new();
    let kept = needed(&checker.steps, total);
    let hints: usize = kept.iter().map(|(_, h)| h.len()).sum();
    for (literals, hints) in &kept {
        frame(literals, hints, &mut out);
    }
    fs::write(&names[2], &out).unwrap_or_else(|e| fail(2, &format!("{}: {e}", names[2])));
    println!("{} steps, {} hints, {} bytes", kept.len(), hints, out.len());
}
