//! Calls, plans and errors by the safe crate. Expected values are worked out by hand.

use mhlink::{Desk, Limits, Machine, OldHits, Outcome, Throw, Value, sys};
use std::thread;

/// `f` returns 100 for 1 and n + 1 for other n while `a` is valid, and then -n. `quotient` divides,
/// and `twice` joins a text to itself.
const DEFINITION: &str = r#"{"version": 2,
  "points": [{"name": "a", "cost": 5}],
  "sites": [
    {"name": "f", "type": "(int)int", "key": 0,
     "target": ["point", "a",
       ["guard", ["insert", ["op", "ieq"], 1, [1]], ["drop", ["const", "int", 100], 0, ["int"]],
                 ["insert", ["op", "iadd"], 1, [1]]],
       ["op", "ineg"]],
     "links": [{"when": 1, "weight": 3, "needs": ["a"]}]},
    {"name": "quotient", "type": "(int,int)int", "target": ["op", "idiv"], "links": []},
    {"name": "twice", "type": "(String)String",
     "target": ["permute", ["op", "concat"], "(String)String", [0, 0]], "links": []}]}"#;

fn machine() -> Machine {
    Machine::open(DEFINITION, 1, Limits::default()).expect("the definition is right")
}

fn int(number: i32) -> Outcome {
    Outcome::Value(Value::Int(number))
}

#[test]
fn a_site_returns_throws_and_falls_back() {
    let mut machine = machine();
    let f = machine.site("f").unwrap();
    let quotient = machine.site("quotient").unwrap();
    assert_eq!(machine.call(0, f, &[1.into()]).unwrap().outcome, int(100));
    assert_eq!(machine.call(0, f, &[2.into()]).unwrap().outcome, int(3));
    let thrown = machine
        .call(0, quotient, &[7.into(), 0.into()])
        .unwrap()
        .outcome;
    assert_eq!(thrown, Outcome::Thrown(Throw::ArithmeticException));
    let a = machine.point("a").unwrap();
    machine.invalidate(&[a]).unwrap();
    assert_eq!(machine.call(0, f, &[2.into()]).unwrap().outcome, int(-2));
}

#[test]
fn texts_cross_the_boundary() {
    let mut machine = machine();
    let twice = machine.site("twice").unwrap();
    let reply = machine.call(0, twice, &["ab".into()]).unwrap();
    assert_eq!(reply.outcome, Outcome::Value("abab".into()));
    let empty = machine.call(0, twice, &["".into()]).unwrap();
    assert_eq!(empty.outcome, Outcome::Value("".into()));
}

#[test]
fn a_plan_is_installed_and_a_history_renewed() {
    let mut machine = machine();
    let f = machine.site("f").unwrap();
    let link = machine.link(f, &1.into()).unwrap();
    for _ in 0..2 {
        machine.call(0, f, &[1.into()]).unwrap();
    }
    assert_eq!(machine.hits(0, link).unwrap(), 2);
    machine.flush(0).unwrap();
    assert_eq!(
        (machine.hits(0, link).unwrap(), machine.total(link).unwrap()),
        (0, 2)
    );
    // Two hits of weight 3 gain 6, more than the cost 5.
    let snapshot = machine.snapshot().unwrap();
    let plan = machine.plan(snapshot).unwrap();
    assert_eq!(machine.install(plan).unwrap(), 1);
    assert_eq!(machine.linked(f).unwrap(), 1);
    assert_eq!(machine.call(0, f, &[1.into()]).unwrap().outcome, int(100));
    machine.renew(&[], OldHits::Drop).unwrap();
    assert_eq!(
        (machine.linked(f).unwrap(), machine.total(link).unwrap()),
        (0, 0)
    );
}

#[test]
fn errors_have_their_statuses() {
    let mut machine = machine();
    let f = machine.site("f").unwrap();
    let wrong = machine.call(0, f, &[true.into()]).unwrap_err();
    assert_eq!(wrong.status(), sys::MHLINK_WRONG_TYPE);
    assert_eq!(machine.site("g").unwrap_err().status(), sys::MHLINK_UNKNOWN);
    let many = vec![Value::Int(0); 17];
    assert_eq!(
        machine.call(0, f, &many).unwrap_err().status(),
        sys::MHLINK_WRONG_TYPE
    );
    let fault = Machine::open("{", 1, Limits::default()).unwrap_err();
    assert_eq!(fault.status(), sys::MHLINK_NOT_JSON);
    assert_eq!(fault.to_string(), "fault 3 NotJson (status 103)");
}

#[test]
fn threads_call_by_their_own_callers() {
    let (mut desk, callers) = Desk::open(DEFINITION, 2, Limits::default()).unwrap();
    let (f, a) = (desk.site("f").unwrap(), desk.point("a").unwrap());
    let mut callers: Vec<_> = callers
        .into_iter()
        .map(|mut caller| {
            thread::spawn(move || {
                for _ in 0..1000 {
                    assert_eq!(caller.call(f, &[1.into()]).unwrap().outcome, int(100));
                }
                caller
            })
        })
        .map(|it| it.join().unwrap())
        .collect();
    desk.invalidate(&[a]).unwrap();
    desk.show().unwrap();
    let first = &mut callers[0];
    assert_eq!(first.call(f, &[2.into()]).unwrap().outcome, int(3));
    first.look(&mut desk).unwrap();
    assert_eq!(first.call(f, &[2.into()]).unwrap().outcome, int(-2));
    for caller in &mut callers {
        desk.flush(caller).unwrap();
    }
    desk.renew(&mut callers, &[a], OldHits::Keep).unwrap();
}
