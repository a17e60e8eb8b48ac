//! The cases of the folder `vectors/02`: each through the library and through the
//! reference, all numbers and rooms, the place among them. Follows document 02.

use crate::analyse;
use crate::case_files::{self, Case, Fields};
use crate::compare;
use crate::complete;
use crate::form_points;
use crate::form_rewrite;
use crate::index;
use crate::lent_calls;
use crate::list_primes;
use crate::read_table;
use crate::tally::Tally;
use crate::write_form;
use library::settings::some;
use library::{Indexed, PointRecord};
use reference::calls;
use reference::index::Record;
use reference::numbers::ListingNumbers;
use reference::numbers::TableNumbers;
use reference::numbers::{short_list, AnalysisNumbers, CompletionNumbers, FormNumbers};
use reference::numbers::{ComparisonNumbers, FormPointsNumbers, IndexNumbers, RewriteNumbers};

/// The fields of a case must be these, in order of name.
fn assert_fields(case: &Case, call: &str, takes: &[&str], gives: &[&str]) {
    assert_eq!(case.call, call, "{}", case.title);
    assert_eq!(case.takes.names(), takes, "{}", case.title);
    assert_eq!(case.gives.names(), gives, "{}", case.title);
}

/// Each case of files of so many cases; `check` makes its call and hands back the
/// refusal. These refusals must come up.
fn each_case(
    title: &'static str,
    files: &[(&str, usize)],
    refusals: &[u8],
    check: impl Fn(&Case) -> u8,
) {
    let mut tally = Tally::new(title);
    for &(name, count) in files {
        let cases = case_files::read(name);
        assert_eq!(cases.len(), count, "{name}");
        for case in some(&cases) {
            tally.add(check(case));
        }
    }
    tally.finish(refusals);
}

/// Makes the call of a case by a function, and compares numbers and rooms.
fn check_read_table(
    case: &Case,
    call: impl Fn(&[u8], &mut [u16], &mut [u16]) -> TableNumbers,
) -> u8 {
    let Case { takes, gives, .. } = case;
    let expected = TableNumbers {
        refusal: gives.number("refusal"),
        place: gives.number("place"),
        variables: gives.number("n"),
        on_count: gives.number("on_count"),
        free_count: gives.number("free_count"),
    };
    let (mut on, mut free) = (takes.list("on_room"), takes.list("free_room"));
    let found = call(&takes.bytes("data"), &mut on, &mut free);
    assert_eq!(found, expected, "{}", case.title);
    assert_eq!(on, gives.list("on_room"), "{}", case.title);
    assert_eq!(free, gives.list("free_room"), "{}", case.title);
    expected.refusal
}

#[test]
fn read_table() {
    let takes = ["data", "free_room", "on_room"];
    let numbers = ["free_count", "free_room", "n", "on_count", "on_room"];
    let gives = [&numbers[..], &["place", "refusal"]].concat();
    each_case(
        "read table, cases",
        &[("03-read_table", 160)],
        &[0, 1, 2, 3, 7, 20, 21, 25, 26],
        |case| {
            assert_fields(case, "read_table", &takes, &gives);
            check_read_table(case, calls::read_table);
            check_read_table(case, |bytes, on, free| {
                read_table::numbers(&lent_calls::read_table(bytes, on, free))
            })
        },
    );
}

fn check_compare(
    case: &Case,
    call: impl Fn(&[u8], &[u8], usize, &mut [u8]) -> ComparisonNumbers,
) -> u8 {
    let Case { takes, gives, .. } = case;
    let expected = ComparisonNumbers {
        refusal: gives.number("refusal"),
        place: gives.number("place"),
        records: gives.number("records"),
        next_point: gives.number("next"),
        total: gives.number("total"),
    };
    let (left, right) = (takes.bytes("left"), takes.bytes("right"));
    let mut room = takes.bytes("room");
    let found = call(&left, &right, takes.number("first"), &mut room);
    assert_eq!(found, expected, "{}", case.title);
    assert_eq!(room, gives.bytes("room"), "{}", case.title);
    expected.refusal
}

/// The extra case of request No. 1 holds as it stands; the others of its time, some
/// with refusal 8, are replaced by those of No. 3.
#[test]
fn compare() {
    let takes = ["first", "left", "right", "room"];
    let gives = ["next", "place", "records", "refusal", "room", "total"];
    each_case(
        "compare, cases",
        &[
            ("extra/01-compare", 1),
            ("03-compare", 160),
            ("extra/03-compare", 1),
        ],
        &[0, 1, 2, 3, 10, 11, 20, 21, 25, 26],
        |case| {
            assert_fields(case, "compare", &takes, &gives);
            check_compare(case, calls::compare);
            check_compare(case, |left, right, first, room| {
                compare::numbers(&lent_calls::compare(left, right, first, room))
            })
        },
    );
}

fn check_form_points(case: &Case, call: impl Fn(&[u8], &mut [u16]) -> FormPointsNumbers) -> u8 {
    let Case { takes, gives, .. } = case;
    let expected = FormPointsNumbers {
        refusal: gives.number("refusal"),
        place: gives.number("place"),
        variables: gives.number("n"),
        point_count: gives.number("count"),
    };
    let mut room = takes.list("room");
    let found = call(&takes.bytes("data"), &mut room);
    assert_eq!(found, expected, "{}", case.title);
    assert_eq!(room, gives.list("room"), "{}", case.title);
    expected.refusal
}

#[test]
fn form_points() {
    let gives = ["count", "n", "place", "refusal", "room"];
    each_case(
        "form points, cases",
        &[("03-form_points", 160)],
        &[0, 7, 20, 21, 22, 23, 24, 25, 26, 27],
        |case| {
            assert_fields(case, "form_points", &["data", "room"], &gives);
            check_form_points(case, calls::form_points);
            check_form_points(case, |bytes, room| {
                form_points::numbers(&lent_calls::form_points(bytes, room))
            })
        },
    );
}

fn check_form_rewrite(case: &Case, call: impl Fn(&[u8], &mut [u8]) -> RewriteNumbers) -> u8 {
    let Case { takes, gives, .. } = case;
    let expected = RewriteNumbers {
        refusal: gives.number("refusal"),
        place: gives.number("place"),
        length: gives.number("length"),
    };
    let mut room = takes.bytes("room");
    let found = call(&takes.bytes("data"), &mut room);
    assert_eq!(found, expected, "{}", case.title);
    assert_eq!(room, gives.bytes("room"), "{}", case.title);
    expected.refusal
}

#[test]
fn form_rewrite() {
    let gives = ["length", "place", "refusal", "room"];
    each_case(
        "form rewrite, cases",
        &[("03-form_rewrite", 160)],
        &[0, 7, 20, 21, 23, 24, 25, 26, 27],
        |case| {
            assert_fields(case, "form_rewrite", &["data", "room"], &gives);
            check_form_rewrite(case, calls::form_rewrite);
            check_form_rewrite(case, |bytes, room| {
                form_rewrite::numbers(&lent_calls::form_rewrite(bytes, room))
            })
        },
    );
}

/// What a call on lists takes and gives; it has no place.
const LIST_CALL: [&str; 4] = ["free", "n", "on", "room"];

/// A case of a call on lists: its fields must be these, and the place 0.
fn assert_list_call(case: &Case, call: &str, gives: &[&str]) {
    assert_fields(case, call, &LIST_CALL, gives);
    assert_eq!(case.gives.number::<usize>("place"), 0, "{}", case.title);
}

/// A call that takes a table and a room.
type ListCall<E, N> = fn(usize, &[u16], &[u16], &mut [E]) -> N;

/// Makes the call of a case by a function: its numbers, and the room.
fn made<E, N>(case: &Case, mut room: Vec<E>, call: ListCall<E, N>) -> (N, Vec<E>) {
    let (on, free) = (case.takes.list("on"), case.takes.list("free"));
    let found = call(case.takes.number("n"), &on, &free, &mut room);
    (found, room)
}

fn check_complete(case: &Case, call: ListCall<u16, CompletionNumbers>) -> u8 {
    let Case { takes, gives, .. } = case;
    let expected = CompletionNumbers {
        refusal: gives.number("refusal"),
        point_count: gives.number("count"),
        degree: gives.number("degree"),
        k0: gives.number("k0"),
        k1: gives.number("k1"),
    };
    let found = made(case, takes.list("room"), call);
    assert_eq!(found, (expected, gives.list("room")), "{}", case.title);
    expected.refusal
}

#[test]
fn complete() {
    let gives = ["count", "degree", "k0", "k1", "place", "refusal", "room"];
    each_case(
        "complete, cases",
        &[("04-complete", 160), ("extra/04-complete", 8)],
        &[0, 1, 2, 3, 4, 7],
        |case| {
            assert_list_call(case, "complete", &gives);
            check_complete(case, calls::complete);
            check_complete(case, |n, on, free, room| {
                complete::numbers(&lent_calls::complete(n, on, free, room))
            })
        },
    );
}

fn check_analyse(case: &Case, call: ListCall<u16, AnalysisNumbers>) -> u8 {
    let Case { takes, gives, .. } = case;
    let expected = AnalysisNumbers {
        refusal: gives.number("refusal"),
        degree: gives.number("degree"),
        basis: short_list(&gives.list("basis")),
        canonical: short_list(&gives.list("canonical")),
        equations: short_list(&gives.list("equations")),
        restriction_count: gives.number("count"),
    };
    let found = made(case, takes.list("room"), call);
    assert_eq!(found, (expected, gives.list("room")), "{}", case.title);
    expected.refusal
}

#[test]
fn analyse() {
    let numbers = ["basis", "canonical", "count", "degree", "equations"];
    let gives = [&numbers[..], &["place", "refusal", "room"]].concat();
    each_case(
        "analyse, cases",
        &[("04-analyse", 160), ("extra/04-analyse", 8)],
        &[0, 1, 2, 3, 4, 7],
        |case| {
            assert_list_call(case, "analyse", &gives);
            check_analyse(case, calls::analyse);
            check_analyse(case, |n, on, free, room| {
                analyse::numbers(&lent_calls::analyse(n, on, free, room))
            })
        },
    );
}

fn check_write_form(case: &Case, call: ListCall<u8, FormNumbers>) -> u8 {
    let Case { takes, gives, .. } = case;
    let expected = FormNumbers {
        refusal: gives.number("refusal"),
        length: gives.number("length"),
        products: gives.number("products"),
    };
    let found = made(case, takes.bytes("room"), call);
    assert_eq!(found, (expected, gives.bytes("room")), "{}", case.title);
    expected.refusal
}

#[test]
fn write_form() {
    let gives = ["length", "place", "products", "refusal", "room"];
    each_case(
        "write form, cases",
        &[("04-form", 160), ("extra/04-form", 5)],
        &[0, 1, 2, 3, 4, 5, 7],
        |case| {
            assert_list_call(case, "form", &gives);
            check_write_form(case, calls::write_form);
            check_write_form(case, |n, on, free, room| {
                write_form::numbers(&lent_calls::write_form(n, on, free, room))
            })
        },
    );
}

/// A listing call: its table, place, allowance and room.
type ListingCall = fn(usize, &[u16], &[u16], usize, usize, &mut [u8]) -> ListingNumbers;

fn check_list_primes(case: &Case, call: ListingCall) -> u8 {
    let Case { takes, gives, .. } = case;
    let expected = ListingNumbers {
        refusal: gives.number("refusal"),
        next_place: gives.number("next"),
        passed: gives.number("passed"),
        records: gives.number("records"),
    };
    let (on, free) = (takes.list("on"), takes.list("free"));
    let (place, allowance) = (takes.number("place"), takes.number("allowance"));
    let mut room = takes.bytes("room");
    let found = call(takes.number("n"), &on, &free, place, allowance, &mut room);
    assert_eq!(
        (found, room),
        (expected, gives.bytes("room")),
        "{}",
        case.title
    );
    expected.refusal
}

#[test]
fn list_primes() {
    let takes = ["allowance", "free", "n", "on", "place", "room"];
    let gives = ["next", "passed", "place", "records", "refusal", "room"];
    each_case(
        "list primes, cases",
        &[("06-list", 200), ("extra/06-list", 5)],
        &[0, 1, 2, 3, 4, 5, 9],
        |case| {
            assert_fields(case, "list", &takes, &gives);
            assert_eq!(case.gives.number::<usize>("place"), 0, "{}", case.title);
            check_list_primes(case, calls::list_primes);
            check_list_primes(case, |n, on, free, place, allowance, room| {
                let (place, allowance) = (place as u64, allowance as u64);
                let found = lent_calls::list_primes(n, on, free, place, allowance, room);
                list_primes::numbers(&found)
            })
        },
    );
}

/// A call that builds or changes an index: of a form, a list and a room.
type IndexCall<'a, E, N> = &'a dyn Fn(&[u8], &mut [E], &mut [u8]) -> N;

/// The records of a field.
fn records_of(pairs: Vec<(u16, u16)>) -> Vec<Record> {
    let record = |(count, first)| Record { count, first };
    pairs.into_iter().map(record).collect()
}

/// Whether a case is one of the call that has no room and tells n, not the length.
fn is_build(case: &Case) -> bool {
    case.call == "index_build"
}

/// The numbers of a case. Of n and the length it tells one; the other is that of the
/// form.
fn index_numbers(case: &Case) -> IndexNumbers {
    let Case { takes, gives, .. } = case;
    let form = takes.bytes("data");
    let refusal = gives.number("refusal");
    let (variables, length) = match is_build(case) {
        _ if refusal != 0 => (0, 0),
        true => (gives.number("n"), form.len()),
        false => (form[1].into(), gives.number("length")),
    };
    IndexNumbers {
        refusal,
        place: gives.number("place"),
        variables,
        length,
        products: gives.number("products"),
    }
}

/// Makes the call of a case by the reference and by the library, and compares numbers,
/// list and room.
fn check_index(
    case: &Case,
    by_reference: IndexCall<Record, IndexNumbers>,
    by_library: IndexCall<PointRecord, Indexed>,
) -> u8 {
    let Case { takes, gives, .. } = case;
    let expected = index_numbers(case);
    let room_of = |fields: &Fields| match is_build(case) {
        true => Vec::new(),
        false => fields.bytes("room"),
    };
    let after = (records_of(gives.pairs("records")), room_of(gives));
    let form = takes.bytes("data");
    let (mut list, mut room) = (records_of(takes.pairs("records")), room_of(takes));
    let mut records = index::from_reference(&list);
    let mut other_room = room.clone();
    let found = by_reference(&form, &mut list, &mut room);
    assert_eq!(found, expected, "{}", case.title);
    assert_eq!((list, room), after, "{}", case.title);
    let found = by_library(&form, &mut records, &mut other_room);
    assert_eq!(index::numbers(&found), expected, "{}", case.title);
    let left = (index::to_reference(&records), other_room);
    assert_eq!(left, after, "{}", case.title);
    expected.refusal
}

#[test]
fn index_build() {
    let gives = ["n", "place", "products", "records", "refusal"];
    each_case(
        "index build, cases",
        &[("05-index_build", 160), ("extra/05-index_build", 9)],
        &[0, 7, 20, 21, 22, 23, 24, 25, 26, 27],
        |case| {
            assert_fields(case, "index_build", &["data", "records"], &gives);
            check_index(
                case,
                &|form, list, _| calls::index_build(form, list),
                &|form, list, _| lent_calls::index_build(form, list),
            )
        },
    );
}

/// What a change of an index gives.
const INDEX_CHANGE: [&str; 6] = ["length", "place", "products", "records", "refusal", "room"];

#[test]
fn index_append() {
    let takes = ["data", "product", "records", "room"];
    each_case(
        "index append, cases",
        &[("05-index_append", 160), ("extra/05-index_append", 25)],
        &[0, 7, 17, 20, 21, 22, 23, 24, 26, 27],
        |case| {
            assert_fields(case, "index_append", &takes, &INDEX_CHANGE);
            let product = case.takes.bytes("product");
            check_index(
                case,
                &|form, list, room| calls::index_append(form, &product, list, room),
                &|form, list, room| lent_calls::index_append(form, &product, list, room),
            )
        },
    );
}

#[test]
fn index_remove() {
    let takes = ["data", "records", "room"];
    each_case(
        "index remove, cases",
        &[("05-index_remove", 160), ("extra/05-index_remove", 12)],
        &[0, 7, 12, 17, 20, 21, 22, 23, 24, 25, 26, 27],
        |case| {
            assert_fields(case, "index_remove", &takes, &INDEX_CHANGE);
            check_index(case, &calls::index_remove, &lent_calls::index_remove)
        },
    );
}
