//! Carries out a call with guard bytes about every buffer and holds what came of it to what document 01 wants.

use crate::call::{Call, Name, Written};
use crate::guard::Guarded;
use crate::library::{self, Job};
use crate::meaning::{done, refusals};
use crate::random::Random;
use crate::refusals::{text, Refusal};

pub struct Trial {
    /// Every test that holds; the first is the answer.
    pub refusals: Vec<Refusal>,
    pub left: Written,
    /// What was wrong, if anything was.
    pub wrong: Vec<String>,
}

pub fn carry_out(random: &mut Random, call: &Call) -> Trial {
    let refusals = refusals(call);
    let wanted = refusals.first().map_or(0, Refusal::word);
    let left = if wanted == 0 {
        done(call)
    } else {
        Written { record: call.record.clone(), table: call.table.clone(), product: call.product.clone() }
    };
    let mut record = Guarded::new(random, &call.record);
    let mut a = Guarded::new(random, &call.a);
    let mut b = Guarded::new(random, &call.b);
    let mut table = Guarded::new(random, &call.table);
    let mut product = Guarded::new(random, &call.product);
    let got = {
        let a: &[u8] = a.part();
        let b: &[u8] = if call.shared { a } else { b.part() };
        let (x, y) = (call.a_size, call.b_size);
        match call.name {
            Name::Check => library::check(x, a),
            Name::Combination => library::combination(x, y, call.digit, a, b, product.part()),
            Name::Negation => library::negation(x, a, product.part()),
            Name::Product => library::product(x, y, a, b, product.part()),
            Name::Width => library::width(x, call.width, product.part()),
            Name::Quote => library::quote(x, call.width, product.part()),
            Name::Open | Name::Turn => {
                let job = Job { record: record.part(), table: table.part(), product: product.part() };
                if call.name == Name::Open {
                    library::open(x, y, call.width, a, b, job)
                } else {
                    library::turn(a, b, job, call.budget)
                }
            }
        }
    };
    let mut wrong = Vec::new();
    if got != wanted {
        wrong.push(format!("word: expected {}, got {}", text(wanted), text(got)));
    }
    wrong.extend(record.complaint("record", &left.record));
    wrong.extend(a.complaint("A", &call.a));
    wrong.extend(b.complaint("B", &call.b));
    wrong.extend(table.complaint("table", &left.table));
    wrong.extend(product.complaint("product", &left.product));
    Trial { refusals, left, wrong }
}
