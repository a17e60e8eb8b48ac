//! The public calls: each takes lent rooms and returns its numbers, the refusal
//! first. A refused call returns its number, with its place if bytes are at fault,
//! and all others 0; it leaves lent memory as it was, and so is unused room after an
//! accepted answer. Follows document 01, section "Refusal numbers", and document 02,
//! No. 1, No. 3, No. 4 and No. 5.

use crate::compare;
use crate::completion;
use crate::cover;
use crate::form::{self, Form};
use crate::index::{self, Record};
use crate::numbers::*;
use crate::primes;
use crate::refusal::{self, Refused};
use crate::report;
use crate::space;
use crate::table;

/// Refusal 7 if an answer is longer than its room.
fn check_room<T>(answer: &[T], room: &[T]) -> Result<(), u8> {
    if answer.len() > room.len() {
        return Err(refusal::SHORT_ROOM);
    }
    Ok(())
}

/// Writes an answer that fits to the front of its room.
fn put<T: Copy>(answer: &[T], room: &mut [T]) {
    room[..answer.len()].copy_from_slice(answer);
}

fn try_read_table(
    bytes: &[u8],
    on_room: &mut [u16],
    free_room: &mut [u16],
) -> Result<TableNumbers, Refused> {
    let (variables, on, free) = table::read_stored(bytes)?;
    check_room(&on, on_room)?;
    check_room(&free, free_room)?;
    put(&on, on_room);
    put(&free, free_room);
    Ok(TableNumbers {
        refusal: refusal::NONE,
        place: 0,
        variables,
        on_count: on.len(),
        free_count: free.len(),
    })
}

/// Reads a stored table into two lists. Refusals 20, 21, 25 and 26 with a place, then
/// 1, 2, 3, 7.
pub fn read_table(bytes: &[u8], on_room: &mut [u16], free_room: &mut [u16]) -> TableNumbers {
    try_read_table(bytes, on_room, free_room).unwrap_or_else(|Refused { refusal, place }| {
        TableNumbers {
            refusal,
            place,
            ..TableNumbers::default()
        }
    })
}

fn try_linear_space(n: usize, on: &[u16]) -> Result<SpaceNumbers, u8> {
    table::check(n, on, &[])?;
    let basis = space::linear_space(n, on);
    Ok(SpaceNumbers {
        refusal: refusal::NONE,
        degree: basis.len(),
        basis: short_list(&basis),
    })
}

/// The linear space of a complete function. Refusals 1, 2, 3.
pub fn linear_space(n: usize, on: &[u16]) -> SpaceNumbers {
    try_linear_space(n, on).unwrap_or_else(|refusal| SpaceNumbers {
        refusal,
        ..SpaceNumbers::default()
    })
}

fn try_complete(
    n: usize,
    on: &[u16],
    free: &[u16],
    room: &mut [u16],
) -> Result<CompletionNumbers, u8> {
    table::check(n, on, free)?;
    let (points, degree, k0, k1) = completion::complete(n, on, free);
    check_room(&points, room)?;
    put(&points, room);
    Ok(CompletionNumbers {
        refusal: refusal::NONE,
        point_count: points.len(),
        degree,
        k0,
        k1,
    })
}

/// Completes a table into its points. Refusals 1, 2, 3, 4, 7.
pub fn complete(n: usize, on: &[u16], free: &[u16], room: &mut [u16]) -> CompletionNumbers {
    try_complete(n, on, free, room).unwrap_or_else(|refusal| CompletionNumbers {
        refusal,
        ..CompletionNumbers::default()
    })
}

fn try_analyse(
    n: usize,
    on: &[u16],
    free: &[u16],
    room: &mut [u16],
) -> Result<AnalysisNumbers, u8> {
    table::check(n, on, free)?;
    let (points, degree, _, _) = completion::complete(n, on, free);
    let basis = space::linear_space(n, &points);
    let restriction = space::restriction(n, &points, &basis);
    check_room(&restriction, room)?;
    put(&restriction, room);
    let canonical = space::canonical_variables(n, &basis);
    let indices: Vec<u16> = canonical.iter().map(|&index| index as u16).collect();
    Ok(AnalysisNumbers {
        refusal: refusal::NONE,
        degree,
        basis: short_list(&basis),
        canonical: short_list(&indices),
        equations: short_list(&space::equations(n, &basis)),
        restriction_count: restriction.len(),
    })
}

/// Analyses the completed function of a table; its restriction goes to the
/// room. Refusals 1, 2, 3, 4, 7.
pub fn analyse(n: usize, on: &[u16], free: &[u16], room: &mut [u16]) -> AnalysisNumbers {
    try_analyse(n, on, free, room).unwrap_or_else(|refusal| AnalysisNumbers {
        refusal,
        ..AnalysisNumbers::default()
    })
}

fn try_affine(n: usize, on: &[u16], room: &mut [u16]) -> Result<AffineNumbers, u8> {
    let (least, basis, projection) = space::affine(n, on)?;
    check_room(&projection, room)?;
    put(&projection, room);
    Ok(AffineNumbers {
        refusal: refusal::NONE,
        least,
        dimension: basis.len(),
        basis: short_list(&basis),
        projection_count: projection.len(),
    })
}

/// The smallest affine space of an on set; the projection goes to the room.
/// Refusals 1, 2, 3, 6, 7.
pub fn affine(n: usize, on: &[u16], room: &mut [u16]) -> AffineNumbers {
    try_affine(n, on, room).unwrap_or_else(|refusal| AffineNumbers {
        refusal,
        ..AffineNumbers::default()
    })
}

/// Lists primes from a place on. Refusals 1, 2, 3, 4, 5, 9.
pub fn list_primes(
    n: usize,
    on: &[u16],
    free: &[u16],
    place: usize,
    allowance: usize,
    room: &mut [u8],
) -> ListingNumbers {
    match primes::list(n, on, free, place, allowance, room) {
        Ok(listing) => ListingNumbers {
            refusal: refusal::NONE,
            next_place: listing.next_place,
            passed: listing.passed,
            records: listing.records,
        },
        Err(refusal) => ListingNumbers {
            refusal,
            ..ListingNumbers::default()
        },
    }
}

/// Compares two stored tables from a first point on. Refusals 20, 21, 25 and 26 with
/// their places in the left table, 1, 2, 3 of it, the same of the right one, 10, 11.
pub fn compare(left: &[u8], right: &[u8], first: usize, room: &mut [u8]) -> ComparisonNumbers {
    match compare::compare(left, right, first, room) {
        Ok(comparison) => ComparisonNumbers {
            refusal: refusal::NONE,
            place: 0,
            records: comparison.records,
            next_point: comparison.next_point,
            total: comparison.total,
        },
        Err(Refused { refusal, place }) => ComparisonNumbers {
            refusal,
            place,
            ..ComparisonNumbers::default()
        },
    }
}

fn try_write_form(n: usize, on: &[u16], free: &[u16], room: &mut [u8]) -> Result<FormNumbers, u8> {
    let form = cover::write_form(n, on, free)?;
    let bytes = form::encode(&form);
    check_room(&bytes, room)?;
    put(&bytes, room);
    Ok(FormNumbers {
        refusal: refusal::NONE,
        length: bytes.len(),
        products: form.products.len(),
    })
}

/// Writes the form of a table. Refusals 1, 2, 3, 4, 5, 7.
pub fn write_form(n: usize, on: &[u16], free: &[u16], room: &mut [u8]) -> FormNumbers {
    try_write_form(n, on, free, room).unwrap_or_else(|refusal| FormNumbers {
        refusal,
        ..FormNumbers::default()
    })
}

fn try_form_points(bytes: &[u8], room: &mut [u16]) -> Result<FormPointsNumbers, Refused> {
    let form = form::read_form(bytes)?;
    let points = form::points(&form);
    check_room(&points, room)?;
    put(&points, room);
    Ok(FormPointsNumbers {
        refusal: refusal::NONE,
        place: 0,
        variables: form.variables,
        point_count: points.len(),
    })
}

/// Reads a form into its points, rising. Refusals 20 to 27 with a place, then 7.
pub fn form_points(bytes: &[u8], room: &mut [u16]) -> FormPointsNumbers {
    try_form_points(bytes, room).unwrap_or_else(|Refused { refusal, place }| FormPointsNumbers {
        refusal,
        place,
        ..FormPointsNumbers::default()
    })
}

fn try_form_rewrite(bytes: &[u8], room: &mut [u8]) -> Result<RewriteNumbers, Refused> {
    let form = form::read_form(bytes)?;
    let written = form::encode(&form);
    check_room(&written, room)?;
    put(&written, room);
    Ok(RewriteNumbers {
        refusal: refusal::NONE,
        place: 0,
        length: written.len(),
    })
}

/// Reads a form and writes what was read. Refusals 20 to 27 with a place, then 7.
pub fn form_rewrite(bytes: &[u8], room: &mut [u8]) -> RewriteNumbers {
    try_form_rewrite(bytes, room).unwrap_or_else(|Refused { refusal, place }| RewriteNumbers {
        refusal,
        place,
        ..RewriteNumbers::default()
    })
}

/// Numbers of an accepted index call, by the form that the list then belongs to.
fn indexed(form: &Form) -> IndexNumbers {
    IndexNumbers {
        refusal: refusal::NONE,
        place: 0,
        variables: form.variables,
        length: form::encode(form).len(),
        products: form.products.len(),
    }
}

/// Numbers of a refused index call.
fn not_indexed(Refused { refusal, place }: Refused) -> IndexNumbers {
    IndexNumbers {
        refusal,
        place,
        ..IndexNumbers::default()
    }
}

/// Builds the index of a form in a list. Refusals 20 to 27 with a place, then 7.
pub fn index_build(form: &[u8], list: &mut [Record]) -> IndexNumbers {
    match index::build(form, list) {
        Ok(form) => {
            put(&index::records(&form), list);
            indexed(&form)
        }
        Err(refused) => not_indexed(refused),
    }
}

/// Writes a changed form to the room, unless refusal 7 applies, and its index to the
/// list.
fn change(form: &Form, list: &mut [Record], room: &mut [u8]) -> Result<IndexNumbers, Refused> {
    let bytes = form::encode(form);
    check_room(&bytes, room)?;
    put(&bytes, room);
    put(&index::records(form), list);
    Ok(indexed(form))
}

/// Appends a product to a form and changes its index in the list; the new form goes
/// to the room. Refusals 20 to 27 with their places in the form, 20, 21, 23 and 24
/// with theirs in the product, 7 for the list, 17, 27 with place 0, 7 for the room.
pub fn index_append(
    form: &[u8],
    product: &[u8],
    list: &mut [Record],
    room: &mut [u8],
) -> IndexNumbers {
    let changed = index::append(form, product, list);
    let answer = changed.and_then(|form| change(&form, list, room));
    answer.unwrap_or_else(not_indexed)
}

/// Takes the last product away from a form and changes its index in the list; the new
/// form goes to the room. Refusals 20 to 27 with a place, 7 for the list, 17, 12, 7
/// for the room.
pub fn index_remove(form: &[u8], list: &mut [Record], room: &mut [u8]) -> IndexNumbers {
    let changed = index::remove(form, list);
    let answer = changed.and_then(|form| change(&form, list, room));
    answer.unwrap_or_else(not_indexed)
}

fn try_report(bytes: &[u8], room: &mut [u8]) -> Result<ReportNumbers, u8> {
    let text = report::report(bytes);
    check_room(text.as_bytes(), room)?;
    put(text.as_bytes(), room);
    Ok(ReportNumbers {
        refusal: refusal::NONE,
        length: text.len(),
    })
}

/// Writes the text that the program prints for a standard input. Refusal 7; a
/// refused table has a text, which isn't a refused call.
pub fn report(bytes: &[u8], room: &mut [u8]) -> ReportNumbers {
    try_report(bytes, room).unwrap_or_else(|refusal| ReportNumbers {
        refusal,
        ..ReportNumbers::default()
    })
}
