//! Work and squeezes in parts: whatever the budgets are, the steps and the bytes are those of one call.

use compare::build::sound;
use compare::chains::squeeze_steps;
use compare::random::Random;
use compare::side::Reply;
use compare::spoil::spoil;
use compare::stores::{copying, copying_one_code, half_empty, shaped, thin, wanting};
use compare::twin::{wiped, Twin};
use ordinary::bare;

const MOST: u32 = 65_535;

/// Work, or a squeeze of bucket 0, with a budget.
type Steps = fn(&mut Twin, u32) -> Reply;

const WORK: Steps = Twin::work;
const SQUEEZE: Steps = |twin, budget| twin.squeeze(0, budget);

/// The bytes that steps leave when nothing else is called, and what the call answers.
fn whole(twin: &Twin, call: Steps) -> (Reply, Vec<u8>) {
    let mut twin = twin.clone();
    let reply = call(&mut twin, MOST);
    (reply, twin.bytes().to_vec())
}

/// Every budget, up to one more than the steps to the end, and then the rest.
fn every_budget(twin: &Twin, call: Steps, all: u32) {
    let (reply, end) = whole(twin, call);
    assert_eq!(reply, Reply::worked(all, 9), "{}", twin.label);
    for budget in 0..=all + 1 {
        let mut twin = twin.clone();
        twin.label += &format!(", budget {budget}");
        let mut left = all;
        for budget in [budget, 3, MOST] {
            let steps = left.min(budget);
            let stop = if steps == budget { 0 } else { 9 };
            assert_eq!(call(&mut twin, budget), Reply::worked(steps, stop), "{}", twin.label);
            assert!(twin.verify().done(), "{}", twin.label);
            left -= steps;
        }
        assert!(twin.bytes() == end, "{}: other bytes", twin.label);
    }
}

#[test]
fn every_budget_of_work() {
    every_budget(&Twin::new(wanting(16), "wanting"), WORK, 163);
}

#[test]
fn every_budget_of_a_squeeze() {
    let shapes = [&[5, 1][..], &[0, 40], &[39, 40, 38, 20, 3], &[0, 7, 40, 3, 39, 1, 1, 20, 40, 2, 5, 1, 9]];
    for lengths in shapes {
        let twin = Twin::new(shaped(16, lengths), format!("{lengths:?}"));
        every_budget(&twin, SQUEEZE, squeeze_steps(twin.bytes(), 0));
    }
}

#[test]
fn random_budgets() {
    let work = [("copying", copying(128), WORK), ("one code", copying_one_code(128), WORK)];
    let squeezes = [("thin", thin(128, 125), SQUEEZE), ("half empty", half_empty(128, 125), SQUEEZE)];
    for (name, store, call) in work.into_iter().chain(squeezes) {
        let twin = Twin::new(store, name);
        let (reply, end) = whole(&twin, call);
        for seed in 0..6 {
            let mut random = Random::new(10_000 + seed);
            let mut twin = twin.clone();
            twin.label = format!("{name}, budgets {seed}");
            let mut steps = 0;
            let stop = loop {
                let budget = [0, 1, 2, random.below(40), random.below(300), random.below(1500)];
                let reply = call(&mut twin, random.pick(&budget));
                assert!(reply.done() && twin.verify().done(), "{}, after {steps}: {reply:?}", twin.label);
                steps += reply.steps;
                if reply.stop != 0 {
                    break reply.stop;
                }
            };
            assert_eq!(Reply::worked(steps, stop), reply, "{}", twin.label);
            assert!(twin.bytes() == end, "{}: other bytes", twin.label);
        }
    }
}

/// Steps by `first` and then by `second` are those by both together.
fn twice(twin: &Twin, call: Steps, first: u32, second: u32) {
    let (mut parted, mut once) = (twin.clone(), twin.clone());
    let (a, b) = (call(&mut parted, first), call(&mut parted, second));
    let together = call(&mut once, first + second);
    let label = format!("{}, {first} and {second}", twin.label);
    // A budget of 0 stops with 0 whatever came before it.
    let stop = if second == 0 { a.stop } else { b.stop };
    assert_eq!(Reply { steps: a.steps + b.steps, stop, ..b }, together, "{label}");
    assert!(parted.bytes() == once.bytes() && parted.journal() == once.journal(), "{label}: other bytes");
}

#[test]
fn two_calls_as_one() {
    let work = [copying(128), copying_one_code(128), copying_one_code(108), wanting(64), wanting(128)];
    let squeezes = [thin(128, 125), half_empty(128, 125), thin(1024, 1021), half_empty(1024, 1021)];
    let mut random = Random::new(11_000);
    let long = work.map(|store| (store, WORK)).into_iter().chain(squeezes.map(|store| (store, SQUEEZE)));
    for (number, (store, call)) in long.enumerate() {
        let twin = Twin::new(store, format!("long {number}"));
        let (reply, _) = whole(&twin, call);
        for _ in 0..12 {
            let both = random.below(reply.steps + 50);
            let first = random.below(both + 1);
            twice(&twin, call, first, both - first);
        }
    }
    for seed in 0..200 {
        let blocks = random.within(4, 24);
        let twin = Twin::new(sound(&mut random, blocks, seed % 3, 90), format!("built {seed}"));
        twice(&twin, WORK, random.below(30), random.below(60));
        twice(&twin, SQUEEZE, random.below(30), random.below(60));
    }
}

#[test]
fn sealed_once() {
    let mut random = Random::new(13_000);
    let same = |store: Vec<u8>, budget, label| {
        let (mut each, mut once, mut unjournalled) = (store.clone(), store.clone(), store);
        let answer = ordinary::work(&mut each, &mut wiped(), budget);
        let (other, bare) = (bare::work_sealed_once(&mut once, budget), bare::work(&mut unjournalled, budget));
        assert!(answer == other && each == once, "{label}, work {budget}: {answer:?} and {other:?}");
        assert!(answer == bare && each == unjournalled, "{label}, work {budget}: {answer:?} and {bare:?}");
    };
    for (number, store) in [copying(128), copying_one_code(128), copying_one_code(108), wanting(16)].iter().enumerate()
    {
        for budget in [0, 1, 2, 5, 40, 479, 480, 481, 900, 1_400, MOST, MOST + 1] {
            same(store.clone(), budget, format!("long {number}"));
        }
    }
    for seed in 0..300 {
        let blocks = random.within(4, 24);
        let mut store = sound(&mut random, blocks, seed % 3, 90);
        if random.once_in(8) {
            spoil(&mut random, &mut store);
        }
        same(store, random.below(60), format!("built {seed}"));
    }
}
