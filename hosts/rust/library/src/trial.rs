//! Carries out a call with guard words about every buffer and holds what came of it to what document 01 wants.

use crate::call::{Call, Name, Written};
use crate::doing::{done, refused};
use crate::guard::Guarded;
use crate::linked::{self, Factors, Made};
use crate::meaning::refusals;
use crate::random::Random;
use crate::refusals::{text, Refusal};
use std::convert::TryInto;

pub struct Trial {
    /// Every test that holds; the first is the answer.
    pub refusals: Vec<Refusal>,
    pub left: Written,
    /// What was wrong, if anything was.
    pub wrong: Vec<String>,
}

/// The call's buffers in the midst of guards.
struct Room {
    given: Guarded<u64>,
    cells: Guarded<u8>,
    a: Guarded<u64>,
    b: Guarded<u64>,
    table: Guarded<u64>,
    result: Guarded<u64>,
}

/// What comes back beside the answer, as the array that it is.
fn array<const N: usize>(given: &mut Guarded<u64>) -> &mut [u64; N] {
    given.part().try_into().expect("as many words as the request gives back")
}

impl Room {
    fn new(random: &mut Random, call: &Call) -> Room {
        Room {
            given: Guarded::new(random, &call.given),
            cells: Guarded::new(random, &call.cells),
            a: Guarded::new(random, &call.a),
            b: Guarded::new(random, &call.b),
            table: Guarded::new(random, &call.table),
            result: Guarded::new(random, &call.result),
        }
    }

    fn asked(&mut self, call: &Call) -> u64 {
        let a: &[u64] = self.a.part();
        let b: &[u64] = if call.shared { a } else { self.b.part() };
        let (x, y) = (call.a_size, call.b_size);
        let given = &mut self.given;
        let result = self.result.part();
        match call.name {
            Name::Check => linked::check(x, a),
            Name::Pack => linked::pack(x, self.cells.part(), result),
            Name::Unpack => linked::unpack(x, a, self.cells.part()),
            Name::Combination => linked::combination(x, y, call.digit, a, b, result),
            Name::Negation => linked::negation(x, a, result),
            Name::Scaling => linked::scaling(x, call.digit, a, result),
            Name::Transpose => linked::transpose(x, a, result),
            Name::Tally => linked::tally(x.1, a, array(given)),
            Name::Width => linked::width(x, call.width, &mut array::<1>(given)[0]),
            Name::Quote => linked::quote(x, call.width, &mut array::<1>(given)[0]),
            Name::Total => linked::total(x, call.width, a, &mut array::<1>(given)[0]),
            Name::Opening | Name::Turn | Name::Product => {
                let (factors, made) = (Factors { a, b }, Made { table: self.table.part(), product: result });
                match call.name {
                    Name::Opening => linked::opening(x, y, call.width, factors, made, array(given)),
                    Name::Turn => linked::turn(array(given), factors, made, call.budget),
                    _ => linked::product(x, y, call.width, factors, made),
                }
            }
        }
    }

    /// All that differs from what is wanted.
    fn complaints(&self, call: &Call, left: &Written) -> Vec<String> {
        let all = [
            self.given.complaint("given back", &left.given),
            self.cells.complaint("cells", &left.cells),
            self.a.complaint("A", &call.a),
            self.b.complaint("B", &call.b),
            self.table.complaint("table", &left.table),
            self.result.complaint("result", &left.result),
        ];
        all.into_iter().flatten().collect()
    }
}

pub fn carry_out(random: &mut Random, call: &Call) -> Trial {
    let refusals = refusals(call);
    let wanted = refusals.first().map_or(0, Refusal::word);
    let left = if wanted == 0 { done(call) } else { refused(call) };
    let mut room = Room::new(random, call);
    let got = room.asked(call);
    let mut wrong = room.complaints(call, &left);
    if got != wanted {
        wrong.insert(0, format!("word: expected {}, got {}", text(wanted), text(got)));
    }
    Trial { refusals, left, wrong }
}
