//! Stores of up to 1,024 blocks at the ends of points: begins that need a new point, with room for it and without, and
//! lists of calls from there on.

use compare::book::Book;
use compare::brink::brink;
use compare::build::{found, Layout, IN_ALL};
use compare::chains::changed;
use compare::lists::{Maker, Seen};
use compare::random::Random;
use compare::side::Reply;
use compare::twin::Twin;

/// A store that wants the begin of the first bucket after a point.
fn at_brink(seed: u64, blocks: u32, point: u32, bits: u32, fill: u32) -> Twin {
    let store = brink(&mut Random::new(seed), blocks, point, bits, fill);
    let twin = Twin::new(store, format!("N {blocks}, point {point}, {bits} bits, fill {fill}"));
    let (reply, state) = twin.standing();
    let wanted = (Reply::default(), IN_ALL[point as usize], -1, 0);
    assert_eq!((reply, state.buckets, state.slack, state.phase), wanted, "{}", twin.label);
    twin
}

/// The begin takes the next point, and changes three blocks: meta, old and new bucket. Then the split goes to its end.
fn begins(mut twin: Twin, point: u32, bits: u32) {
    let bytes = twin.bytes().to_vec();
    let mut wanted = Layout::of(&bytes);
    let new = IN_ALL[point as usize];
    assert_eq!(twin.work(1), Reply::worked(1, 0), "{}", twin.label);
    let now = Layout::of(twin.bytes());
    wanted.spares[point as usize + 1] = bits;
    assert_eq!((now.max, now.point, now.spares), (new, point + 1, wanted.spares), "{}", twin.label);
    let old_block = now.bucket_block(new ^ (1 << new.ilog2()));
    let mut blocks = [0, old_block, new + bits + 1];
    blocks.sort_unstable();
    assert_eq!(changed(twin.bytes(), &bytes), blocks, "{}", twin.label);
    assert_eq!((twin.work(65_535).stop, twin.standing().1.slack >= 0), (9, true), "{}", twin.label);
    assert!(twin.verify().done(), "{}", twin.label);
}

/// The begin finds no room, and changes nothing.
fn stops(mut twin: Twin) {
    let bytes = twin.bytes().to_vec();
    assert_eq!((twin.work(1), twin.work(65_535)), (Reply::worked(0, 7), Reply::worked(0, 7)), "{}", twin.label);
    assert!(bytes == twin.bytes(), "{}: changed", twin.label);
}

/// A begin needs room for the coming point, and for no more.
#[test]
fn room_for_the_coming_point_alone() {
    for point in 5..12 {
        let next = IN_ALL[point as usize + 1];
        let sizes = [next + 2, next + 3, 700, 900, 1023, 1024];
        for blocks in sizes.into_iter().filter(|&blocks| blocks >= next + 2) {
            let bits = blocks - next - 1;
            let seed = u64::from(blocks * point);
            begins(at_brink(seed, blocks, point, bits, 1 + point % 3), point, bits);
            stops(at_brink(seed, blocks, point, bits + 1, 1 + point % 3));
        }
    }
    for bits in [1, 64, 127] {
        stops(at_brink(7, 1024, 12, bits, 1));
    }
}

/// Bucket 512 and each 128th after it need a point of their own, of 128 buckets; 1,024 blocks have room for three. Here
/// nothing but inserts and work is called since the format.
#[test]
fn begins_at_points_of_128_buckets() {
    let mut twin = Twin::new(vec![0; 1024 * 512], "grown");
    assert!(twin.format(1, 26, 0).done());
    let mut hashes = 0..;
    for point in [9, 10, 11, 12] {
        let buckets = IN_ALL[point as usize];
        let more = buckets - twin.standing().1.count;
        assert!(hashes.by_ref().take(more as usize).all(|hash| twin.insert(hash, 9, 1).done()), "point {point}");
        assert_eq!((twin.work(65_535).stop, twin.standing().1.buckets), (9, buckets), "point {point}");
        assert!(twin.insert(hashes.next().unwrap_or(0), 9, 1).done(), "point {point}");
        let layout = Layout::of(twin.bytes());
        assert_eq!(layout.point, point);
        if point < 12 {
            begins(twin.clone(), point, layout.bits());
        }
    }
    stops(twin);
}

/// Calls from a store on that wants such a begin. Gives the most buckets that there were.
fn list(seed: u64, blocks: u32, point: u32, bits: u32, seen: &mut Seen) -> u32 {
    let mut twin = at_brink(seed, blocks, point, bits, 1);
    let mut maker = Maker::new(seed, 20, 30, seed.is_multiple_of(2));
    maker.know(found(twin.bytes()).map(|entry| entry.pair));
    maker.budget = 12;
    seen.most_buckets = 0;
    for _ in 0..60 {
        let call = maker.call();
        let reply = call.make(&mut twin);
        maker.note(call, reply);
        seen.note(call, reply, &twin);
    }
    assert!(twin.verify().done(), "{}: not sound", twin.label);
    seen.most_buckets
}

#[test]
fn lists_with_room() {
    let mut seen = Seen::default();
    let lists = [(129, 5), (512, 7), (640, 8), (700, 9), (900, 10), (900, 11), (1023, 9), (1023, 11)];
    for (seed, (blocks, point)) in (20_000..).zip(lists.into_iter().chain([(1024, 9), (1024, 10), (1024, 11)])) {
        let most = blocks - IN_ALL[point as usize + 1] - 1;
        let buckets = list(seed, blocks, point, Random::new(seed).within(1, most), &mut seen);
        assert!(buckets > IN_ALL[point as usize] + 1, "N {blocks}, point {point}: {buckets} buckets");
    }
    seen.reached(&[0, 2, 5, 8, 12], &[0, 9], &[0, 1, 2]);
}

#[test]
fn lists_without_room() {
    let mut seen = Seen::default();
    for (seed, (blocks, point)) in (20_100..).zip([(129, 6), (512, 8), (513, 8), (640, 9), (1024, 12)]) {
        let most = blocks - IN_ALL[point as usize] - 1;
        let buckets = list(seed, blocks, point, Random::new(seed).within(1, most), &mut seen);
        assert_eq!(buckets, IN_ALL[point as usize], "N {blocks}, point {point}");
        assert!(seen.stops.remove(&7).is_some(), "N {blocks}, point {point}: {seen:?}");
    }
}

/// The book beside such a list, after every call and every single step, with lookups of what moves.
#[test]
fn the_book_past_the_ends_of_points() {
    for (seed, (blocks, point)) in (20_200..).zip([(700, 9), (900, 10), (1024, 11)]) {
        let mut random = Random::new(seed);
        let mut twin = at_brink(seed, blocks, point, 3, 4);
        let mut book = Book::of(twin.bytes());
        let mut maker = Maker::new(seed, 4, 30, false);
        maker.know(found(twin.bytes()).map(|entry| entry.pair));
        book.check(&twin, &mut random);
        for _ in 0..30 {
            let call = maker.call();
            let reply = book.call(&mut twin, call, &mut random);
            maker.note(call, reply);
        }
        let buckets = twin.standing().1.buckets;
        assert!(buckets > IN_ALL[point as usize], "{}: {buckets} buckets", twin.label);
        assert!(book.tally.counted + book.tally.disturbed > 0, "{}: {:?}", twin.label, book.tally);
        assert!(book.tally.moved >= 5, "{}: few codes were looked up while moving: {:?}", twin.label, book.tally);
    }
}
