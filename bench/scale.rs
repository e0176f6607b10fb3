// Figures at the largest sizes that a book may have, without a cap, on the scale books of make_books.py. Answers and outputs are compared
// first, as elsewhere. Of each worker the median time is kept, with the shortest and the longest, and the most memory that the process had
// while it worked: the lent slices, the inputs, and what the function allocates. That is VmHWM of /proc/self/status, set back before each
// turn (Linux, glibc).

use crate::refutation::Part;
use crate::same::{self, Slices};
use crate::tuned::Space;
use crate::tuned_formula::{self, Totals};
use crate::workers::{self, Worker};
use crate::{checks, load, refutation_of, shown, sizes, turns, wanted};

unsafe extern "C" {
    fn malloc_trim(pad: usize) -> i32;
}

// Sets the process's peak of memory back to what it has now.
fn forget_peak() {
    std::fs::write("/proc/self/clear_refs", "5").expect("the peak of memory can be set back");
}

// The process's peak of memory in bytes.
fn peak() -> usize {
    let status = std::fs::read_to_string("/proc/self/status").expect("Linux tells the peak of memory");
    let line = status.lines().find_map(|line| line.strip_prefix("VmHWM:")).expect("a line of the peak");
    1024 * line.trim().trim_end_matches(" kB").parse::<usize>().expect("a number of KiB")
}

// A number of bytes in a unit that fits it.
fn amount(bytes: usize) -> String {
    if bytes < 100_000 { format!("{bytes} bytes") } else { format!("{:.1} MB", bytes as f64 / 1e6) }
}

// Lets the workers work in turns and prints a line for each. The lent slices have so many bytes.
fn measure<L>(what: &str, bytes: usize, mut lent: L, mut workers: Vec<Worker<L>>) {
    let mut rows = vec![(Vec::new(), 0); workers.len()];
    // SAFETY: it only gives freed memory back.
    unsafe { malloc_trim(0) };
    forget_peak();
    turns(1, &mut lent, &mut workers, |k, seconds| {
        rows[k].0.push(seconds);
        rows[k].1 = peak().max(rows[k].1);
        forget_peak();
    });
    rows.iter_mut().for_each(|(times, _)| times.sort_by(f64::total_cmp));
    let median = |k: usize| rows[k].0[rows[k].0.len() / 2];
    println!("  {what}, {} lent", amount(bytes));
    for (k, (name, _)) in workers.iter().enumerate() {
        let (times, most) = &rows[k];
        let range = format!("({} to {})", shown(times[0]), shown(times[times.len() - 1]));
        println!("    {name:<6} {:>10} {range:<26} ratio {:>6.2}   peak {}", shown(median(k)), median(0) / median(k), amount(*most));
    }
}

fn formula(name: &str, book: &[u8], totals: Totals, space: &mut Space) {
    same::formulas(name, book, space);
    measure("write the formula", 4 * totals.words, vec![1; totals.words], workers::writers(None, book, space));
}

fn plan(name: &str, book: &[u8], totals: Totals, space: &mut Space) {
    let plan = load(&format!("{name}.plan"));
    same::judgements(name, None, book, &plan, space);
    measure("check the plan", totals.variables, vec![1; totals.variables], workers::plan_checkers(None, book, &plan, space));
    measure("print the train graph", 20736, vec![1; 20736], workers::graph_printers(book, &plan));
}

// Listing the carriers; the plans have every border set.
fn carriers(name: &str, book: &[u8], _: Totals, space: &mut Space) {
    let plan = load(&format!("{name}.plan"));
    same::judgements(name, None, book, &plan, space);
    let (mut list, set) = (vec![1; 384], plan[..space.book.nodes].iter().filter(|&&border| border == 1).count());
    let entries = checks::list_carriers(book, &plan, &mut list).expect("a good plan") / 4;
    measure(&format!("list the carriers, {entries} of {set}"), list.len(), list, workers::carrier_listers(book, &plan, space));
}

fn assignment(name: &str, book: &[u8], _: Totals, space: &mut Space) {
    let plan = load(&format!("{name}.plan"));
    let values = same::judgements(name, None, book, &plan, space);
    measure("check the assignment", 0, (), workers::assignment_checkers(None, book, &values, space));
    measure("unpack its plan", plan.len(), vec![1; plan.len()], workers::unpackers(None, book, &values, space));
}

// Parts of a refutation: the borders and, of every train, two intervals; 16 such pairs of intervals from the first to the last.
fn parts(space: &Space) -> Vec<Part> {
    let book = &space.book;
    let part = |k: usize| {
        let (mut ranges, mut first) = (vec![1..book.nodes + 1], book.nodes + 1);
        for train in &book.train[..book.trains] {
            let width = tuned_formula::width(book, &space.lists[train.list]);
            let from = first + (book.intervals - 2) * k / 15 * width;
            ranges.push(from..from + 2 * width);
            first += book.intervals * width;
        }
        ranges
    };
    (0..16).map(part).collect()
}

fn refutation(name: &str, book: &[u8], totals: Totals, space: &mut Space) {
    let steps = 100_000;
    let (r, hints, added) = refutation_of(None, book, totals, steps, &parts(space), space);
    println!("  a refutation of {steps} steps, {hints} hints, {}", amount(r.len()));
    let slices = || Slices::new(totals, added, steps);
    same::refutations(name, None, book, &r, &mut [slices(), slices(), slices()], space);
    let lent = slices();
    measure("check the refutation", lent.bytes(), lent, workers::refutation_checkers(None, book, &r, space));
}

type Figure = fn(&str, &[u8], Totals, &mut Space);

// The figures by their names, each with its books.
const FIGURES: [(&str, Figure, &[&str]); 5] = [
    ("formula", formula, &["scale_line", "scale_ring", "scale_tracks", "scale_long"]),
    ("plan", plan, &["scale_ring", "scale_tracks"]),
    ("carriers", carriers, &["scale_apart", "scale_close", "scale_tracks"]),
    ("assignment", assignment, &["scale_ring", "scale_tracks"]),
    ("refutation", refutation, &["scale_shut_ring", "scale_shut_long"]),
];

// One figure by its name, or all of them.
pub fn figures(only: Option<&str>, space: &mut Space) {
    let chosen: Vec<_> = FIGURES.iter().filter(|row| only.is_none_or(|word| word == row.0)).collect();
    assert!(!chosen.is_empty(), "formula, plan, carriers, assignment or refutation");
    for (_, figure, names) in chosen {
        for name in names.iter().filter(|name| wanted(name)) {
            let book = load(&format!("{name}.book"));
            let totals = sizes(None, &book, space);
            println!("{name}: {} variables, {} clauses, {} words", totals.variables, totals.clauses, totals.words);
            figure(name, &book, totals, space);
        }
    }
}
