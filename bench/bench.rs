// Times the proved entry points (proved.rs) against the plain Rust of plain.rs and checks.rs and the tuned Rust of tuned.rs,
// tuned_formula.rs and tuned_checks.rs, on the books that make_books.py wrote. The answers and outputs are compared first, damaged inputs
// among them. Of interleaved runs the smallest time of each is kept; slices are allocated and touched before.
//
//   python3 make_books.py && ./build.sh && ./bench
//
// RUNS=n sets the number of runs (7), ONLY=word leaves out files whose name has it not, DAMAGES=n sets how many damaged inputs of each
// kind and file are compared (300). `./bench same FILE..` only compares, on other books. `./bench call WHAT WHO FILE N` makes N calls of
// one function, for a profiler, under the cap CAP=n if that is set. A time is no test: nothing here fails for being slow.
//
// Figures at the largest sizes, with the peak of memory (scale.rs), each by a command of its own; `./bench scale` gives all of them:
//
//   ./bench scale formula       writing the formula; 3.6 GB for comparing the outputs
//   ./bench scale plan          checking a plan and writing it as an assignment
//   ./bench scale carriers      listing the borders that carry a plan
//   ./bench scale assignment    checking an assignment, and unpacking its plan
//   ./bench scale refutation    checking refutations of 100,000 steps, which are made first; 6 GB and some minutes

mod checks;
mod plain;
mod proved;
mod refutation;
mod same;
mod scale;
mod tuned;
mod tuned_checks;
mod tuned_formula;
mod workers;

use refutation::Part;
use same::Slices;
use std::hint::black_box;
use std::time::Instant;
use tuned::Space;
use tuned_formula::Totals;
use workers::Worker;

// How many runs are asked for.
fn runs() -> usize {
    std::env::var("RUNS").ok().and_then(|s| s.parse().ok()).unwrap_or(7)
}

// Seconds that one of `calls` calls takes.
fn seconds<L>(calls: usize, lent: &mut L, work: &mut dyn FnMut(&mut L)) -> f64 {
    let from = Instant::now();
    for _ in 0..calls {
        work(lent);
    }
    from.elapsed().as_secs_f64() / calls as f64
}

// A time in a unit that fits it.
fn shown(s: f64) -> String {
    if s > 1e-3 { format!("{:.3} ms", s * 1e3) } else { format!("{:.3} us", s * 1e6) }
}

// Lets each worker work in turns, so many runs; `note` gets the worker's place and the seconds of a call.
fn turns<L>(calls: usize, lent: &mut L, workers: &mut [Worker<L>], mut note: impl FnMut(usize, f64)) {
    for _ in 0..runs() {
        for (k, (_, work)) in workers.iter_mut().enumerate() {
            note(k, seconds(calls, lent, work));
        }
    }
}

// Prints the smallest time of the proved function and its ratio to each of the others.
fn compare<L>(what: &str, calls: usize, mut lent: L, mut workers: Vec<Worker<L>>) {
    let mut best = vec![f64::INFINITY; workers.len()];
    turns(calls, &mut lent, &mut workers, |k, seconds| best[k] = best[k].min(seconds));
    print!("  {what:<22} Rattle {:>11}", shown(best[0]));
    for ((name, _), time) in workers.iter().zip(&best).skip(1) {
        print!("   {name} {:>11} ratio {:>6.2}", shown(*time), best[0] / time);
    }
    println!();
}

fn load(name: &str) -> Vec<u8> {
    std::fs::read(name).unwrap_or_else(|e| panic!("{name}: {e}; make_books.py makes it"))
}

// Whether the files of this name are wanted.
fn wanted(name: &str) -> bool {
    std::env::var("ONLY").map_or(true, |word| name.contains(&word))
}

fn sizes(cap: Option<usize>, book: &[u8], space: &mut Space) -> Totals {
    tuned_formula::prepare(cap, book, space).expect("a good book").totals
}

// What is said of a cap behind a book's name.
fn under(cap: Option<usize>) -> String {
    cap.map_or(String::new(), |cap| format!(" under cap {cap}"))
}

// Reading, and writing the formula.
fn formulas(name: &str, space: &mut Space) {
    let book = load(name);
    same::formulas(name, &book, space);
    let totals = sizes(None, &book, space);
    println!("{name}: {} bytes, {} clauses, {} words; outputs are equal", book.len(), totals.clauses, totals.words);
    compare("read", 1000, (), workers::readers(&book, space, &mut Space::new()));
    write(None, &book, space);
}

// Writing the formula, and the time that its words alone take.
fn write(cap: Option<usize>, book: &[u8], space: &mut Space) {
    let words = sizes(cap, book, space).words;
    let mut writers = workers::writers(cap, book, space);
    writers.push(("fill", Box::new(|out| black_box(&mut out[..]).fill(black_box(1)))));
    compare("write the formula", (20_000_000 / words).clamp(1, 10_000), vec![1; words], writers);
}

// Checking a plan and its assignment, so many calls a run.
fn judge(cap: Option<usize>, calls: usize, book: &[u8], plan: &[u8], values: &[u8], space: &mut Space) {
    compare("check the plan", 2 * calls, vec![9; values.len()], workers::plan_checkers(cap, book, plan, space));
    compare("check the assignment", calls, (), workers::assignment_checkers(cap, book, values, space));
    compare("unpack its plan", calls, vec![9; plan.len()], workers::unpackers(cap, book, values, space));
}

// A plan, its assignment, its graph and its carriers.
fn judgements(name: &str, plan_name: &str, space: &mut Space) {
    let (book, plan) = (load(name), load(plan_name));
    let values = same::judgements(name, None, &book, &plan, space);
    println!("{name} with its plan: {} variables; outputs are equal", values.len());
    judge(None, 10, &book, &plan, &values, space);
    compare("print the train graph", 20, vec![9; 20736], workers::graph_printers(&book, &plan));
    // with all the borders that there may be, so that each is cleared
    let bordered = same::with_borders(&plain::read_book(&book).expect("a good book"), &plan, || true);
    compare("list the carriers", 20, vec![9; 384], workers::carrier_listers(&book, &bordered, space));
}

// A book without a cap and under one: its formula, and a plan that is within the cap.
fn caps(name: &str, cap: usize, calls: usize, space: &mut Space) {
    let (book, plan) = (load(&format!("{name}.book")), load(&format!("{name}.plan")));
    same::formulas(name, &book, space);
    for cap in [None, Some(cap)] {
        let values = same::judgements(name, cap, &book, &plan, space);
        let totals = sizes(cap, &book, space);
        let (variables, clauses, words) = (totals.variables, totals.clauses, totals.words);
        println!("{name}{}: {variables} variables, {clauses} clauses, {words} words; outputs are equal", under(cap));
        write(cap, &book, space);
        judge(cap, calls, &book, &plan, &values, space);
    }
}

// A refutation of so many steps, with its hints and the words that it adds.
fn refutation_of(
    cap: Option<usize>, book: &[u8], totals: Totals, steps: usize, parts: &[Part], space: &mut Space) -> (Vec<u8>, usize, usize) {
    let mut formula = vec![0i32; totals.words];
    tuned_formula::write_formula(cap, book, &mut formula, space).expect("room enough");
    refutation::make(&formula, totals.variables, steps, parts)
}

// The same for a small book, and slices for its check: all variables are one part.
fn small_refutation(cap: Option<usize>, book: &[u8], steps: usize, space: &mut Space) -> (Vec<u8>, usize, impl Fn() -> Slices) {
    let totals = sizes(cap, book, space);
    let (r, hints, added) = refutation_of(cap, book, totals, steps, &[vec![1..totals.variables + 1]], space);
    (r, hints, move || Slices::new(totals, added, steps))
}

// Checking refutations of growing length, and one under a cap.
fn refutations(name: &str, space: &mut Space) {
    let book = load(name);
    for (steps, cap) in [(1_000, None), (10_000, None), (100_000, None), (10_000, Some(8))] {
        let (r, hints, slices) = small_refutation(cap, &book, steps, space);
        let mut all = [slices(), slices(), slices()];
        same::refutations(name, cap, &book, &r, &mut all, space);
        let (clauses, words, under) = (all[0].clauses.len(), all[0].words.len(), under(cap));
        println!("{name}{under}: {steps} steps, {hints} hints, {} bytes, {clauses} clauses and {words} words in all; all accept", r.len());
        compare("check the refutation", 1, slices(), workers::refutation_checkers(cap, &book, &r, space));
    }
}

// Prints the time of so many calls of one worker.
fn repeat<L>(who: &str, times: usize, mut lent: L, workers: Vec<Worker<L>>) {
    let (_, mut work) = workers.into_iter().find(|worker| worker.0 == who).expect("proved, plain or tuned");
    println!("{} a call", shown(seconds(times, &mut lent, &mut work)));
}

// Calls of one function, for a profiler: what is done, who does it, a book, and how often.
fn call(what: &str, who: &str, name: &str, times: usize, space: &mut Space) {
    let book = load(name);
    let cap = std::env::var("CAP").ok().map(|s| s.parse().expect("a cap is a number"));
    let totals = sizes(cap, &book, space);
    match what {
        "read" => repeat(who, times, (), workers::readers(&book, space, &mut Space::new())),
        "write" => repeat(who, times, vec![1; totals.words], workers::writers(cap, &book, space)),
        "carriers" => {
            let plan = load(&name.replace(".book", ".plan"));
            repeat(who, times, vec![1; 384], workers::carrier_listers(&book, &plan, space));
        }
        "plan" | "assignment" | "unpacking" => {
            let (plan, mut values) = (load(&name.replace(".book", ".plan")), vec![1; totals.variables]);
            tuned_checks::check_plan(cap, &book, &plan, &mut values, space).expect("a good plan");
            match what {
                "plan" => repeat(who, times, values, workers::plan_checkers(cap, &book, &plan, space)),
                "assignment" => repeat(who, times, (), workers::assignment_checkers(cap, &book, &values, space)),
                _ => repeat(who, times, plan.clone(), workers::unpackers(cap, &book, &values, space)),
            }
        }
        _ => {
            let steps = what.parse().expect("read, write, plan, carriers, assignment, unpacking or a number of steps");
            let (r, _, slices) = small_refutation(cap, &book, steps, space);
            repeat(who, times, slices(), workers::refutation_checkers(cap, &book, &r, space));
        }
    }
}

fn main() {
    let mut space = Space::new();
    let arguments: Vec<String> = std::env::args().skip(1).collect();
    match arguments.iter().map(|s| &s[..]).collect::<Vec<_>>()[..] {
        ["same", ref files @ ..] => files.iter().for_each(|name| same::all(name, &load(name), &mut space)),
        ["scale"] => scale::figures(None, &mut space),
        ["scale", what] => scale::figures(Some(what), &mut space),
        ["call", what, who, name, times] => call(what, who, name, times.parse().expect("a number of calls"), &mut space),
        _ => {
            let rings = ["small_l.book", "ring_8.book", "ring_16.book", "ring_32.book", "big_ring.book"];
            for name in rings.into_iter().chain(["big_star.book", "big_lanes.book"]).filter(|name| wanted(name)) {
                formulas(name, &mut space);
            }
            for name in ["stand_16", "stand_64"].into_iter().filter(|name| wanted(name)) {
                judgements(&format!("{name}.book"), &format!("{name}.plan"), &mut space);
            }
            // the longest counter that there is, alone; and an ordinary book
            for (name, cap, calls) in [("many_nodes", 48, 1000), ("stand_16", 6, 10)].into_iter().filter(|row| wanted(row.0)) {
                caps(name, cap, calls, &mut space);
            }
            if wanted("shut.book") {
                refutations("shut.book", &mut space);
            }
        }
    }
    if arguments.first().is_none_or(|word| word != "call") {
        println!("equal answers and outputs, by the refusal's number: {}", same::tallied());
    }
}
