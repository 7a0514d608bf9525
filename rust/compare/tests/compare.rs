//! The comparison finds what it is there to find, without the library linked.

use compare::{Call, Keeper, Reference, compare, expected};
use generate::coverage::may_give;
use reference::{ATTRIBUTES, CLOSURE, LENGTHS, Stores};

/// So many inputs `rust/run` makes at random, from seed 1.
const COUNT: usize = 20_000;

/// At least so often every number is met that a plain or a quick change may
/// give.
const OFTEN: u64 = 20;

/// At least so many quick changes are made, and so many of them to stores in
/// shape that are not in order.
const QUICK: u64 = 100_000;
const DISORDERED: usize = 30_000;

/// At least so many of these were refused with 22 before document 02's wish 7,
/// and so many of those are done.
const ASTRAY: usize = 100;
const ASTRAY_DONE: usize = 50;

#[test]
fn the_reference_does_not_differ_from_itself_and_every_number_is_reached() {
    let report = compare(&Reference, &Reference, 1, COUNT);
    println!("{}", report.coverage);
    assert_eq!(report.differences, Vec::<String>::new());
    assert_eq!(report.inputs, expected(COUNT));
    let quick: u64 = (0..=60)
        .map(|number| report.coverage.count("quick", number))
        .sum();
    println!("{quick} quick changes, {} on disorder", report.disordered);
    assert!(quick >= QUICK && report.disordered >= DISORDERED);
    println!("below a chain astray, by number: {:?}", report.astray);
    let (all, done) = (report.astray.values().sum::<usize>(), report.astray.get(&0));
    assert!(all >= ASTRAY && done >= Some(&ASTRAY_DONE));
    for call in ["load", "write", "audit", "plain", "quick", "depth"] {
        let is_change = matches!(call, "plain" | "quick");
        let least = if is_change { OFTEN } else { 1 };
        for number in 0..=60 {
            let count = report.coverage.count(call, number);
            let expected = may_give(call, number);
            assert_eq!(count > 0, expected, "{call} {number}");
            assert!(!expected || count >= least, "{call} {number}: {count}");
        }
    }
}

/// A keeper that is wrong in one thing.
#[derive(Clone, Copy, Debug)]
enum Wrong {
    /// Empties a byte past the attribute store at each load.
    PastTheEnd,
    /// Tells table and place though there is room for one number only.
    ShortDetail,
    /// Says 0 where the audit says 3.
    ClosurePassed,
    /// Writes one byte more than the sheet.
    OneByteMore,
    /// Counts one step too few.
    OneStepLess,
    /// Refuses every change.
    AllRefused,
    /// Answers a change with 0 and writes nothing.
    NothingWritten,
    /// Makes a change without its closure.
    ClosureLeft,
    /// Leaves a trace of a change that breaks a rule.
    NotTakenBack,
    /// Names the row of a change that is refused.
    RowOfRefusal,
    /// Tells which rule stores out of order break.
    RuleForThree,
}

impl Wrong {
    /// What this keeper makes of a plain change that it should answer so.
    fn plain_number(&self, right: u64) -> u64 {
        match (self, right) {
            (Wrong::AllRefused, 0) => 30,
            (Wrong::RuleForThree, 3) => 12,
            _ => right,
        }
    }
}

impl Wrong {
    fn load(&self, call: &Call, stores: &mut Stores, detail: &mut [u64]) -> u64 {
        let past = stores.0[ATTRIBUTES].get_mut(LENGTHS[ATTRIBUTES]);
        if let (Wrong::PastTheEnd, Some(past)) = (self, past) {
            *past = 0;
        }
        if let (Wrong::ShortDetail, [told]) = (self, &mut *detail) {
            *told = 0;
        }
        Reference.make(call, stores, &mut [], detail)
    }

    fn plain(&self, call: &Call, stores: &mut Stores, detail: &mut [u64]) -> u64 {
        let before = stores.clone();
        let number = Reference.make(call, stores, &mut [], detail);
        match (self, number, &mut *detail) {
            (Wrong::NotTakenBack, 12.., _) => stores.0[ATTRIBUTES][3] ^= 1,
            (Wrong::RowOfRefusal, 12.., [table, _]) => *table = 1,
            (Wrong::ClosureLeft, ..) => stores.0[CLOSURE] = before.0[CLOSURE].clone(),
            (Wrong::AllRefused | Wrong::NothingWritten, ..) => *stores = before,
            _ => {}
        }
        self.plain_number(number)
    }
}

impl Keeper for Wrong {
    fn make(&self, call: &Call, stores: &mut Stores, out: &mut [u8], detail: &mut [u64]) -> u64 {
        match call {
            Call::Load(_) => return self.load(call, stores, detail),
            Call::Plain(_) => return self.plain(call, stores, detail),
            _ => {}
        }
        let number = Reference.make(call, stores, out, detail);
        let place = detail.get_mut(1);
        match (self, call, number, place) {
            (Wrong::OneByteMore, Call::Write(_), 0, Some(length)) => {
                if let Some(more) = out.get_mut(*length as usize) {
                    *more = 0;
                }
            }
            (Wrong::OneStepLess, Call::Depth(_), _, Some(place)) => {
                *place = place.saturating_sub(1);
            }
            (Wrong::ClosurePassed, Call::Audit, 3, _) => return 0,
            _ => {}
        }
        number
    }
}

#[test]
fn a_wrong_keeper_differs() {
    let wrong = [
        Wrong::PastTheEnd,
        Wrong::ShortDetail,
        Wrong::ClosurePassed,
        Wrong::OneByteMore,
        Wrong::OneStepLess,
        Wrong::AllRefused,
        Wrong::NothingWritten,
        Wrong::ClosureLeft,
        Wrong::NotTakenBack,
        Wrong::RowOfRefusal,
        Wrong::RuleForThree,
    ];
    for keeper in wrong {
        let report = compare(&keeper, &Reference, 1, 3000);
        assert!(!report.differences.is_empty(), "{keeper:?}");
    }
}
