// Who does each job that is timed: the proved function first, then plain Rust and tuned Rust. They work in the same lent slices, in turns.
// What is about the formula takes a cap on the borders, or none.

use std::fmt::Debug;
use std::hint::black_box;

use crate::same::Slices;
use crate::tuned::{self, Space};
use crate::{checks, plain, proved, tuned_checks, tuned_formula};

// A name, and the work in lent slices.
pub type Worker<'a, L> = (&'static str, Box<dyn FnMut(&mut L) + 'a>);

// A worker that may not refuse.
fn worker<'a, L, T, E: Debug>(name: &'static str, mut work: impl FnMut(&mut L) -> Result<T, E> + 'a) -> Worker<'a, L> {
    (name, Box::new(move |lent| { black_box(work(lent)).unwrap(); }))
}

// Reading; "lists anew" is tuned Rust that lists the runs of each train by themselves.
pub fn readers<'a>(book: &'a [u8], space: &'a mut Space, other: &'a mut Space) -> Vec<Worker<'a, ()>> {
    vec![
        worker("proved", |_| proved::read_book(black_box(book))),
        worker("plain", |_| plain::read_book(black_box(book))),
        worker("tuned", |_| tuned::read_book::<true>(black_box(book), space)),
        worker("lists anew", |_| tuned::read_book::<false>(black_box(book), other)),
    ]
}

pub fn writers<'a>(cap: Option<usize>, book: &'a [u8], space: &'a mut Space) -> Vec<Worker<'a, Vec<i32>>> {
    vec![
        worker("proved", move |out: &mut Vec<i32>| proved::write_formula(cap, black_box(book), out)),
        worker("plain", move |out: &mut Vec<i32>| plain::write_formula(cap, black_box(book), out)),
        worker("tuned", move |out: &mut Vec<i32>| tuned_formula::write_formula(cap, black_box(book), out, space)),
    ]
}

pub fn plan_checkers<'a>(cap: Option<usize>, book: &'a [u8], plan: &'a [u8], space: &'a mut Space) -> Vec<Worker<'a, Vec<u8>>> {
    vec![
        worker("proved", move |out: &mut Vec<u8>| proved::check_plan(cap, black_box(book), plan, out)),
        worker("plain", move |out: &mut Vec<u8>| checks::check_plan(cap, black_box(book), plan, out)),
        worker("tuned", move |out: &mut Vec<u8>| tuned_checks::check_plan(cap, black_box(book), plan, out, space)),
    ]
}

// There is no tuned one: nearly all of the work is reading the book and judging the plan.
pub fn graph_printers<'a>(book: &'a [u8], plan: &'a [u8]) -> Vec<Worker<'a, Vec<u8>>> {
    vec![
        worker("proved", |out: &mut Vec<u8>| proved::print_graph(black_box(book), plan, out)),
        worker("plain", |out: &mut Vec<u8>| checks::print_graph(black_box(book), plan, out)),
    ]
}

pub fn carrier_listers<'a>(book: &'a [u8], plan: &'a [u8], space: &'a mut Space) -> Vec<Worker<'a, Vec<u8>>> {
    vec![
        worker("proved", |out: &mut Vec<u8>| proved::list_carriers(black_box(book), plan, out)),
        worker("plain", |out: &mut Vec<u8>| checks::list_carriers(black_box(book), plan, out)),
        worker("tuned", |out: &mut Vec<u8>| tuned_checks::list_carriers(black_box(book), plan, out, space)),
    ]
}

pub fn assignment_checkers<'a>(cap: Option<usize>, book: &'a [u8], values: &'a [u8], space: &'a mut Space) -> Vec<Worker<'a, ()>> {
    vec![
        worker("proved", move |_| proved::check_assignment(cap, black_box(book), values)),
        worker("plain", move |_| checks::check_assignment(cap, black_box(book), values)),
        worker("tuned", move |_| tuned_checks::check_assignment(cap, black_box(book), values, space)),
    ]
}

pub fn unpackers<'a>(cap: Option<usize>, book: &'a [u8], values: &'a [u8], space: &'a mut Space) -> Vec<Worker<'a, Vec<u8>>> {
    vec![
        worker("proved", move |out: &mut Vec<u8>| proved::unpack_plan(cap, black_box(book), values, out)),
        worker("plain", move |out: &mut Vec<u8>| checks::unpack_plan(cap, black_box(book), values, out)),
        worker("tuned", move |out: &mut Vec<u8>| tuned_checks::unpack_plan(cap, black_box(book), values, out, space)),
    ]
}

pub fn refutation_checkers<'a>(cap: Option<usize>, book: &'a [u8], r: &'a [u8], space: &'a mut Space) -> Vec<Worker<'a, Slices>> {
    vec![
        worker("proved", move |slices: &mut Slices| proved::check_refutation(cap, black_box(book), r, &mut slices.lent())),
        worker("plain", move |slices: &mut Slices| checks::check_refutation(cap, black_box(book), r, &mut slices.lent())),
        worker("tuned", move |slices: &mut Slices| tuned_checks::check_refutation(cap, black_box(book), r, &mut slices.lent(), space)),
    ]
}
