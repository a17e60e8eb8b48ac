//! Runs of appends and removals on one list, with refused ones among them: each call
//! is given the form and the list that the one before it left. After every call the
//! form has the products that were appended and not taken away, in order, the index
//! equals one built afresh, records of points outside the product touched are as
//! before, records past 2^n as at the start, and the counts add up to the sum of the
//! products' sizes. Follows document 02, No. 5.

use crate::index::{compare, product_bytes, records_of, Call};
use crate::lent::Entry;
use crate::tally::Tally;
use glospruma::{FORM_ROOM, MAX_VARIABLES};
use library::settings::{some, taken};
use library::PointRecord;
use reference::form::{self, Form, Product, MOST_PRODUCTS};
use reference::generate::{self, Generator};
use reference::numbers::IndexNumbers;

/// Records of the list past 2^n.
const PAST: usize = 3;

/// Where a run stands: the products so far, and what the last call left.
struct Run {
    generator: Generator,
    tally: Tally,
    products: Vec<Product>,
    variables: usize,
    form: Vec<u8>,
    list: Vec<PointRecord>,
}

/// A step of a run. Damages are made to what the call is given.
#[derive(Clone, Copy, Debug, PartialEq)]
enum Damage {
    None,
    Form,
    Product,
    ShortList,
    Record,
    ShortRoom,
}

const DAMAGES: [Damage; 5] = [
    Damage::Form,
    Damage::Product,
    Damage::ShortList,
    Damage::Record,
    Damage::ShortRoom,
];

impl Run {
    /// Begins a run with a form of no product, whose index is built.
    fn new(title: &'static str, seed: u64) -> Run {
        Run {
            generator: Generator::new(seed),
            tally: Tally::new(title),
            products: Vec::new(),
            variables: 0,
            form: Vec::new(),
            list: Vec::new(),
        }
    }

    /// Starts again with a form of so many variables and of these products.
    fn restart(&mut self, variables: usize, products: Vec<Product>) {
        (self.variables, self.products) = (variables, products);
        self.form = form::encode(&self.model());
        let lent = &PointRecord::pattern()[..(1 << variables) + PAST];
        let (found, list, _) = compare(&mut self.tally, &self.form, Call::Build, lent, 0);
        assert_eq!(found.refusal, 0);
        self.list = list;
        self.check();
    }

    /// The form of the products so far.
    fn model(&self) -> Form {
        Form {
            variables: self.variables,
            products: self.products.clone(),
        }
    }

    /// What must hold after every call.
    fn check(&self) {
        let (model, size) = (self.model(), 1 << self.variables);
        assert_eq!(self.form, form::encode(&model));
        assert_eq!(self.list[..size], records_of(&model));
        assert_eq!(
            self.list[size..],
            PointRecord::pattern()[size..size + PAST],
            "records past 2^n"
        );
        let counts = self.list[..size].iter();
        let sum: usize = counts.map(|record| usize::from(record.count)).sum();
        let sizes = self.products.iter();
        let sizes = sizes.map(|product| 1 << (self.variables - product.len()));
        assert_eq!(sum, sizes.sum::<usize>());
    }

    /// Makes a call on what the last one left, or on that damaged; hands back its
    /// numbers. An accepted call must leave the records of points outside the product.
    fn call(&mut self, call: Call, touched: &Product, damage: Damage) -> IndexNumbers {
        let (mut form, mut list) = (self.form.clone(), self.list.clone());
        let mut room = FORM_ROOM - self.generator.below(2);
        match damage {
            Damage::Form => form.truncate(self.generator.below(form.len())),
            Damage::ShortList => list.truncate((1 << self.variables) - 1),
            Damage::Record => {
                let place = self.generator.below(1 << self.variables);
                list[place].count ^= 1 << self.generator.below(16);
            }
            Damage::ShortRoom => room = self.generator.below(5),
            Damage::None | Damage::Product => {}
        }
        let (found, list, form) = compare(&mut self.tally, &form, call, &list, room);
        if found.refusal == 0 {
            for (point, (before, after)) in (0..).zip(self.list.iter().zip(&list)) {
                let is_held = form::product_holds(touched, point);
                assert!(is_held || before == after, "point {point}");
            }
            (self.form, self.list) = (form, list);
        }
        found
    }

    /// Appends a random product, sometimes one that is there already.
    fn append(&mut self, damage: Damage) {
        let again = self.generator.chance(10) && !self.products.is_empty();
        let product = match again {
            true => self.products[self.generator.below(self.products.len())].clone(),
            false => generate::random_product(&mut self.generator, self.variables),
        };
        let mut bytes = product_bytes(self.variables, &product);
        if damage == Damage::Product {
            bytes.push(generate::telling_byte(&mut self.generator));
        }
        let found = self.call(Call::Append(&bytes), &product, damage);
        let is_full = self.products.len() == MOST_PRODUCTS;
        assert_eq!(found.refusal != 0, damage != Damage::None || is_full);
        if found.refusal == 0 {
            self.products.push(product);
        }
        self.check();
    }

    /// Takes the last product away.
    fn remove(&mut self, damage: Damage) {
        let touched = self.products.last().cloned().unwrap_or_default();
        let found = self.call(Call::Remove, &touched, damage);
        let is_damaged = !matches!(damage, Damage::None | Damage::Product);
        assert_eq!(found.refusal != 0, is_damaged || self.products.is_empty());
        if found.refusal == 0 {
            self.products.pop();
        }
        self.check();
    }

    /// A step: appends with so many of a hundred chances, damaged in one case of four.
    fn step(&mut self, appends: usize) {
        let damage = match self.generator.chance(25) {
            true => DAMAGES[self.generator.below(DAMAGES.len())],
            false => Damage::None,
        };
        match self.generator.chance(appends) {
            true => self.append(damage),
            false => self.remove(damage),
        }
    }
}

/// Runs that go up and down between no product and a few.
#[test]
fn few_products() {
    let mut run = Run::new("index, runs of few products", 260);
    for n in some((0..20).flat_map(|_| 1..=6)) {
        run.restart(n, Vec::new());
        for step in 0..120 {
            run.step(if step % 40 < 20 { 70 } else { 30 });
        }
    }
    run.tally.finish(&[0, 7, 12, 17, 20, 21]);
}

/// Runs about 64 products, which begin with 60 of them.
#[test]
fn most_products() {
    let mut run = Run::new("index, runs about 64 products", 261);
    for n in some((0..4).flat_map(|_| 1..=6)) {
        let form = generate::random_form(&mut run.generator, n, MOST_PRODUCTS - 4);
        run.restart(n, form.products);
        for _ in 0..60 {
            run.step(70);
        }
    }
    run.tally.finish(&[0, 7, 17, 20, 21, 27]);
}

/// Runs of more variables, from a form of some products on.
#[test]
fn many_variables() {
    let mut run = Run::new("index, runs of many variables", 262);
    for n in some(7..=MAX_VARIABLES) {
        let form = generate::random_form(&mut run.generator, n, 5);
        run.restart(n, form.products);
        for _ in 0..taken(60) {
            run.step(60);
        }
    }
    run.tally.finish(&[0, 7, 17, 20, 21]);
}

/// As many removals as appends lead back to the bytes and the list of the start.
#[test]
fn there_and_back() {
    let mut run = Run::new("index, there and back", 263);
    for n in some(1..=MAX_VARIABLES) {
        let form = generate::random_form(&mut run.generator, n, 2);
        run.restart(n, form.products);
        let (form, list) = (run.form.clone(), run.list.clone());
        let count = if n > 8 { 6 } else { MOST_PRODUCTS - 2 };
        (0..count).for_each(|_| run.append(Damage::None));
        (0..count).for_each(|_| run.remove(Damage::None));
        assert_eq!((&run.form, &run.list), (&form, &list));
    }
    run.tally.finish(&[0]);
}
