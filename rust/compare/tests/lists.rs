//! Random lists of calls on both sides: answers, stores, journals and outputs are the same.

use compare::journals::barred;
use compare::lists::{Call, Maker, Seen};
use compare::random::Random;
use compare::spoil::damage;
use compare::twin::Twin;

/// Makes a call on a copy of the store, sound or damaged, with a journal that no change takes.
fn bar(random: &mut Random, twin: &Twin, call: Call, seen: &mut Seen) {
    let (mut store, damaged) = (twin.bytes().to_vec(), random.once_in(2));
    if damaged {
        damage(random, &mut store);
    }
    let journal = barred(random, &store);
    let mut other = Twin::beside(store, journal, format!("{}: a journal that no change takes", twin.label));
    let (wanted, reply) = (call.barred(other.journal()), call.make(&mut other));
    if let Some(number) = wanted {
        assert_eq!(reply.number, number, "{}: {call:?}", other.label);
        *seen.barred.entry((number, damaged)).or_default() += 1;
    }
}

fn run(seed: u64, blocks: usize, fill: u32, calls: u32, maker: &mut Maker, seen: &mut Seen) {
    let mut twin = Twin::new(vec![0x5A; blocks * 512], format!("seed {seed}, N {blocks}, fill {fill}"));
    let mut random = Random::new(seed);
    // Formatted again in the end, over what stands there, and under another number.
    for (calls, overwrite) in [(calls, 0), (30, 1)] {
        let format = Call::Format(fill, maker.random.store_number(), overwrite);
        let reply = format.make(&mut twin);
        assert!(reply.done(), "{}: {format:?}", twin.label);
        maker.note(format, reply);
        for _ in 0..calls {
            let call = maker.call();
            bar(&mut random, &twin, call, seen);
            let reply = call.make(&mut twin);
            maker.note(call, reply);
            seen.note(call, reply, &twin);
        }
        assert!(twin.verify().done(), "{}: not sound", twin.label);
    }
}

/// Journals that no change takes, beside sound stores and damaged ones: 13, 2 before 14, and 14 before 3.
fn journals_reached(seen: &Seen) {
    let numbers = [13, 2, 14].into_iter().flat_map(|number| [(number, false), (number, true)]);
    assert!(numbers.clone().all(|wanted| seen.barred.contains_key(&wanted)), "{seen:?}");
}

/// Formats that were kept off, that overwrote, and with other numbers.
fn formats_reached(seen: &Seen) {
    for wanted in [(0, 12), (1, 0), (2, 2), (u32::MAX, 2)] {
        assert!(seen.formats.contains_key(&wanted), "{wanted:?}: {seen:?}");
    }
}

/// Squeezes that were refused with 2 and 11, that spent their budget and that came to an end, and steps of theirs.
fn squeezes_reached(seen: &Seen) {
    for wanted in [(2, 0), (11, 0), (0, 0), (0, 9)] {
        assert!(seen.squeezes.contains_key(&wanted), "{wanted:?}: {seen:?}");
    }
    assert!(seen.squeezed > 0, "{seen:?}");
}

#[test]
fn few_codes_in_small_stores() {
    let mut seen = Seen::default();
    for seed in 0..10 {
        let mut maker = Maker::new(seed, 2 + seed as u32 % 3, 150, true);
        run(seed, 4 + seed as usize, 1 + seed as u32 * 13 % 40, 800, &mut maker, &mut seen);
    }
    seen.reached(&[0, 2, 5, 6, 7, 8, 12], &[0, 7, 9], &[0, 1, 2]);
    formats_reached(&seen);
    squeezes_reached(&seen);
    journals_reached(&seen);
    assert!(seen.longest_chain >= 4 && seen.most_free_pages >= 1, "{seen:?}");
}

#[test]
fn many_codes_in_middle_stores() {
    let mut seen = Seen::default();
    for seed in 100..106 {
        let mut maker = Maker::new(seed, 150, 4, seed % 2 == 0);
        run(seed, 14 + 7 * (seed as usize - 100), 4 + (seed as u32 - 100) * 6, 620, &mut maker, &mut seen);
    }
    seen.reached(&[0, 2, 5, 6, 8, 12], &[0, 7, 9], &[0, 1, 2]);
    formats_reached(&seen);
    squeezes_reached(&seen);
    journals_reached(&seen);
    assert!(seen.most_buckets >= 12 && seen.most_free_pages >= 1, "{seen:?}");
}

#[test]
fn many_codes_in_128_blocks() {
    let mut seen = Seen::default();
    let mut maker = Maker::new(200, 1000, 2, false);
    maker.budget = 40;
    run(200, 128, 2, 400, &mut maker, &mut seen);
    seen.reached(&[0, 2, 5, 12], &[0, 7, 9], &[0, 1, 2]);
    assert!(seen.most_buckets >= 48, "{seen:?}");
}

#[test]
fn few_codes_in_128_blocks() {
    let mut seen = Seen::default();
    let mut maker = Maker::new(300, 2, 500, true);
    run(300, 128, 8, 500, &mut maker, &mut seen);
    seen.reached(&[0, 12], &[0], &[0]);
    assert!(seen.longest_chain >= 3, "{seen:?}");
}
