// The proved entry points, through the static library that `bin/archive` makes. Each answers a refusal's number and detail,
// or what was written. What is about the formula takes a cap on the borders, or none.

use crate::checks::Lent;

// The structs of include/gentupag.h, as far as they are looked at.
#[repr(C)]
struct Verdict {
    number: usize,
    detail: usize,
}

#[repr(C)]
struct Output {
    number: usize,
    detail: usize,
    length: usize,
}

#[repr(C)]
struct Totals {
    number: usize,
    detail: usize,
    variables: usize,
    clauses: usize,
    words: usize,
}

#[link(name = "gentupag", kind = "static")]
unsafe extern "C" {
    fn gentupag_read_book(book: *const u8, len: usize) -> Verdict;
    fn gentupag_write_formula_under(capped: usize, cap: usize, book: *const u8, len: usize, out: *mut i32, room: usize) -> Totals;
    fn gentupag_judge_assignment_under(capped: usize, cap: usize, book: *const u8, len: usize, s: *const u8, n: usize) -> Verdict;
    fn gentupag_unpack_plan_under(
        capped: usize, cap: usize, book: *const u8, len: usize, s: *const u8, n: usize, out: *mut u8, room: usize) -> Output;
    fn gentupag_check_plan_under(
        capped: usize, cap: usize, book: *const u8, len: usize, s: *const u8, n: usize, out: *mut u8, room: usize) -> Output;
    fn gentupag_print_graph(book: *const u8, len: usize, s: *const u8, n: usize, out: *mut u8, room: usize) -> Output;
    fn gentupag_list_carriers(book: *const u8, len: usize, s: *const u8, n: usize, out: *mut u8, room: usize) -> Output;
    fn gentupag_check_refutation_under(
        capped: usize, cap: usize, book: *const u8, len: usize, r: *const u8, n: usize, words: *mut i32, w: usize, clauses: *mut usize,
        c: usize, values: *mut u8, v: usize, trail: *mut usize, t: usize) -> Verdict;
}

// The two numbers of a cap; without one the second is not looked at.
fn numbers(cap: Option<usize>) -> (usize, usize) {
    cap.map_or((0, 0), |cap| (1, cap))
}

fn found<T>(number: usize, detail: usize, result: T) -> Result<T, (usize, usize)> {
    if number == 0 { Ok(result) } else { Err((number, detail)) }
}

pub fn read_book(book: &[u8]) -> Result<(), (usize, usize)> {
    let r = unsafe { gentupag_read_book(book.as_ptr(), book.len()) };
    found(r.number, r.detail, ())
}

pub fn write_formula(cap: Option<usize>, book: &[u8], out: &mut [i32]) -> Result<(usize, usize, usize), (usize, usize)> {
    let (capped, cap) = numbers(cap);
    let r = unsafe { gentupag_write_formula_under(capped, cap, book.as_ptr(), book.len(), out.as_mut_ptr(), out.len()) };
    found(r.number, r.detail, (r.variables, r.clauses, r.words))
}

pub fn check_assignment(cap: Option<usize>, book: &[u8], s: &[u8]) -> Result<(), (usize, usize)> {
    let (capped, cap) = numbers(cap);
    let r = unsafe { gentupag_judge_assignment_under(capped, cap, book.as_ptr(), book.len(), s.as_ptr(), s.len()) };
    found(r.number, r.detail, ())
}

pub fn unpack_plan(cap: Option<usize>, book: &[u8], s: &[u8], out: &mut [u8]) -> Result<usize, (usize, usize)> {
    let (capped, cap) = numbers(cap);
    let r = unsafe {
        gentupag_unpack_plan_under(capped, cap, book.as_ptr(), book.len(), s.as_ptr(), s.len(), out.as_mut_ptr(), out.len())
    };
    found(r.number, r.detail, r.length)
}

pub fn print_graph(book: &[u8], s: &[u8], out: &mut [u8]) -> Result<usize, (usize, usize)> {
    let r = unsafe { gentupag_print_graph(book.as_ptr(), book.len(), s.as_ptr(), s.len(), out.as_mut_ptr(), out.len()) };
    found(r.number, r.detail, r.length)
}

pub fn list_carriers(book: &[u8], s: &[u8], out: &mut [u8]) -> Result<usize, (usize, usize)> {
    let r = unsafe { gentupag_list_carriers(book.as_ptr(), book.len(), s.as_ptr(), s.len(), out.as_mut_ptr(), out.len()) };
    found(r.number, r.detail, r.length)
}

pub fn check_plan(cap: Option<usize>, book: &[u8], s: &[u8], out: &mut [u8]) -> Result<usize, (usize, usize)> {
    let (capped, cap) = numbers(cap);
    let r = unsafe {
        gentupag_check_plan_under(capped, cap, book.as_ptr(), book.len(), s.as_ptr(), s.len(), out.as_mut_ptr(), out.len())
    };
    found(r.number, r.detail, r.length)
}

pub fn check_refutation(cap: Option<usize>, book: &[u8], r: &[u8], lent: &mut Lent) -> Result<(), (usize, usize)> {
    let (capped, cap) = numbers(cap);
    let r = unsafe {
        gentupag_check_refutation_under(
            capped, cap, book.as_ptr(), book.len(), r.as_ptr(), r.len(), lent.words.as_mut_ptr(), lent.words.len(),
            lent.clauses.as_mut_ptr(), lent.clauses.len(), lent.values.as_mut_ptr(), lent.values.len(),
            lent.trail.as_mut_ptr(), lent.trail.len())
    };
    found(r.number, r.detail, ())
}
