//! Lengths, numbers and outputs at and past their ends; what squeezes are refused with.

use compare::brink::stuffed;
use compare::build::{sound, sound_at};
use compare::random::Random;
use compare::seal::seal_all;
use compare::side::Reply;
use compare::twin::Twin;

fn filled(pairs: u32) -> Twin {
    let mut twin = Twin::new(vec![0; 12 * 512], "edges");
    assert!(twin.format(40, 12, 0).done());
    for i in 0..pairs {
        assert!(twin.insert(77, i, 1 + i).done());
    }
    twin
}

#[test]
fn lengths() {
    let whole = sound(&mut Random::new(1), 1024, 1, 40);
    let mut lengths = vec![0, 1, 27, 28, 511, 512, 513, 3 * 512, 4 * 512 - 1, 4 * 512 + 1, 127 * 512 + 511];
    lengths.extend([128 * 512 - 512 + 1, 100 * 512 + 256, 1023 * 512 + 1, 1024 * 512 - 1]);
    let mut stores: Vec<Vec<u8>> = lengths.iter().map(|&len| whole[..len].to_vec()).collect();
    stores.push([whole.clone(), vec![0]].concat());
    stores.push([whole.clone(), vec![0; 512]].concat());
    stores.push([whole.clone(), whole.clone()].concat());
    assert!(Twin::new(whole.clone(), "all blocks").verify().done());
    for store in stores {
        let mut twin = Twin::new(store.clone(), format!("{} bytes", store.len()));
        let length = Reply::refused(1, 0);
        assert_eq!(twin.verify(), length);
        assert_eq!((twin.standing().0, twin.in_use(), twin.gauge()), (length, length, (length, [0, 0])));
        assert_eq!(twin.lookup(1, 600).0, length);
        // A wrong length comes before a wrong number.
        for (good, bad) in [(1, 0), (40, 41), (7, u32::MAX)] {
            assert_eq!((twin.format(good, bad, 0), twin.format(bad, good, 1)), (length, length));
            assert_eq!((twin.format(good, bad, 2), twin.format(bad, good, bad)), (length, length));
            assert_eq!((twin.insert(1, 1, good), twin.insert(1, 1, bad)), (length, length));
            assert_eq!((twin.remove(1, 1, good), twin.remove(1, u32::MAX, bad)), (length, length));
            assert_eq!((twin.work(good), twin.work(u32::MAX)), (length, length));
            assert_eq!((twin.squeeze(0, good), twin.squeeze(bad, u32::MAX)), (length, length));
        }
    }
}

#[test]
fn a_prefix_of_whole_blocks_is_no_index() {
    let whole = sound(&mut Random::new(2), 24, 0, 40);
    for blocks in 4..24 {
        let twin = Twin::new(whole[..blocks * 512].to_vec(), format!("first {blocks} blocks"));
        assert_eq!(twin.verify(), Reply::refused(4, 1));
    }
}

#[test]
fn numbers() {
    let mut twin = filled(3);
    let number = Reply::refused(2, 0);
    for offset in [0, 65_536, 65_537, 131_073, u32::MAX] {
        assert_eq!((twin.insert(77, 0, offset), twin.remove(77, 0, offset)), (number, number));
    }
    assert_eq!((twin.insert(77, u32::MAX, 1), twin.remove(77, u32::MAX, 1)), (number, number));
    for fill in [0, 41, 65_536 + 7, u32::MAX] {
        assert_eq!((twin.format(fill, 0, 0), twin.format(fill, u32::MAX, 1)), (number, number));
    }
    for overwrite in [2, 3, 256, 65_536, 1 << 31, u32::MAX] {
        assert_eq!(twin.format(40, 0, overwrite), number);
    }
    for budget in [65_536, 65_537, u32::MAX] {
        assert_eq!(twin.work(budget), number);
        assert_eq!((twin.squeeze(0, budget), twin.squeeze(2, budget)), (number, number));
    }
    for bucket in [2, 3, 65_536, 1 << 31, u32::MAX] {
        assert_eq!([0, 1, 65_535].map(|budget| twin.squeeze(bucket, budget)), [number; 3]);
    }
    for hash in [0, 77, u32::MAX] {
        assert!(twin.insert(hash, u32::MAX - 1, 65_535).done());
        assert_eq!(twin.insert(hash, u32::MAX - 1, 65_535).number, 5);
        assert!(twin.remove(hash, u32::MAX - 1, 65_535).done());
        assert_eq!(twin.remove(hash, u32::MAX - 1, 65_535).number, 6);
    }
    assert_eq!(twin.work(65_535), Reply::worked(0, 9));
    assert_eq!(twin.work(0), Reply::default());
    for bucket in [0, 1] {
        assert_eq!(twin.squeeze(bucket, 65_535), Reply::worked(0, 9));
        assert_eq!(twin.squeeze(bucket, 0), Reply::default());
    }
}

/// A squeeze's refusals: 2 for the budget, 3 or 4, 2 for the bucket, 11, whatever else is wrong, and whatever budget.
#[test]
fn the_order_of_a_squeeze() {
    let (number, busy) = (Reply::refused(2, 0), Reply::refused(11, 0));
    for (seed, blocks) in (0..).zip([5, 5, 5, 12, 12, 40, 40, 128, 700, 1024]) {
        for phase in 0..3 {
            let store = sound(&mut Random::new(26_000 + seed), blocks, phase, 60);
            let mut damaged = store.clone();
            damaged[512 * 3 + 8] ^= 4;
            let mut broken = damaged.clone();
            seal_all(&mut broken);
            let mut twin = Twin::new(store, format!("seed {seed}, phase {phase}"));
            let (_, state) = twin.standing();
            let job = |bucket| phase > 0 && [state.old, state.new].contains(&bucket);
            let buckets = [0, 1, state.old, state.new, state.buckets - 1, state.buckets, 1 << 31, u32::MAX];
            for bucket in buckets {
                for budget in [65_536, 1 << 31, u32::MAX] {
                    let stores = [&damaged, &broken].map(|bytes| Twin::new(bytes.clone(), "wrong"));
                    assert_eq!(stores.map(|mut wrong| wrong.squeeze(bucket, budget)), [number; 2], "{}", twin.label);
                    assert_eq!(twin.squeeze(bucket, budget), number, "{}", twin.label);
                }
                for budget in [0, 1, 65_535] {
                    let answer = |bytes: &[u8]| Twin::new(bytes.to_vec(), "wrong").squeeze(bucket, budget);
                    let wanted = [Reply::refused(3, 3), Reply::refused(4, 6)];
                    assert_eq!([answer(&damaged), answer(&broken)], wanted, "{}", twin.label);
                    let reply = twin.clone().squeeze(bucket, budget);
                    match bucket {
                        bucket if bucket >= state.buckets => assert_eq!(reply, number, "{}", twin.label),
                        bucket if job(bucket) => assert_eq!(reply, busy, "{}", twin.label),
                        _ if budget == 0 => assert_eq!(reply, Reply::default(), "{}", twin.label),
                        _ => assert!(reply.done() && [0, 9].contains(&reply.stop), "{}: {reply:?}", twin.label),
                    }
                }
            }
        }
    }
}

/// A job with max bucket 1, which no split has: buckets 0 and 1 are busy, and there is no other.
#[test]
fn busy_with_two_buckets() {
    let mut random = Random::new(27_600);
    let mut stores = vec![(1, stuffed(128)), (1, stuffed(1024))];
    for (phase, blocks) in [(1, 4), (2, 4), (1, 9), (2, 9), (1, 128), (2, 128), (1, 1024), (2, 1024)] {
        stores.push((phase, sound_at(&mut random, blocks, 1, phase, 300)));
    }
    for (phase, store) in stores {
        let mut twin = Twin::new(store, format!("phase {phase}"));
        let (_, state) = twin.standing();
        assert_eq!((state.buckets, state.phase, state.old, state.new), (2, phase, 0, 1), "{}", twin.label);
        for budget in [0, 1, 40, 65_535] {
            let answers = [0, 1, 2, u32::MAX].map(|bucket| twin.squeeze(bucket, budget).number);
            assert_eq!(answers, [11, 11, 2, 2], "{}, budget {budget}", twin.label);
        }
        assert_eq!([0, 1, 2].map(|bucket| twin.squeeze(bucket, 65_536).number), [2; 3], "{}", twin.label);
    }
}

#[test]
fn outputs() {
    let twin = filled(50);
    for room in [0, 1, 5, 6, 7, 294, 299] {
        assert_eq!(twin.lookup(77, room).0, Reply::refused(8, 50));
    }
    let places: Vec<(u32, u16)> = (0..50).map(|i| (i, 1 + i as u16)).collect();
    for room in [300, 301, 305, 306, 30_000] {
        assert_eq!(twin.lookup(77, room).1, places);
    }
    for room in [0, 1, 6] {
        assert_eq!(twin.lookup(78, room), (Reply::default(), Vec::new()));
    }
}
