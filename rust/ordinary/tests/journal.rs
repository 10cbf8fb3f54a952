//! The journal (request 2026-05), by hand: the block stores of a change, what a cut leaves, and what is refused.

use ordinary::journal::plan::{list, PLAN};
use ordinary::journal::{recovery, BlockStore, Place, WIPED};
use ordinary::{do_store, format, insert, look, plan_insert, plan_remove, plan_squeeze, plan_work, recover, remove};
use ordinary::{squeeze, wipe, wiped, work, Refusal, Stop};

const JOURNAL: usize = 16 * 512;

/// A formatted store of so many blocks, with fill 1 and number 26, and a wiped journal whose other bytes are 0xC3.
fn made(blocks: usize, hashes: &[u32]) -> (Vec<u8>, Vec<u8>) {
    let (mut store, mut journal) = (vec![0; blocks * 512], vec![0xC3; JOURNAL]);
    format(&mut store, 1, 26, 0).expect("format");
    wipe(&mut journal).expect("wipe");
    for &hash in hashes {
        insert(&mut store, &mut journal, hash, 9, 1).expect("insert");
    }
    (store, journal)
}

fn places(list: &[BlockStore]) -> Vec<Place> {
    list.iter().map(|each| each.place).collect()
}

/// Does the first block stores of a plan.
fn first(stores: u32, plan: &[u8], store: &mut [u8], journal: &mut [u8]) {
    (0..stores).for_each(|n| assert!(do_store(store, journal, plan, n).is_ok(), "block store {n}"));
}

fn block(bytes: &[u8], at: usize) -> &[u8] {
    &bytes[512 * at..][..512]
}

/// An insert alters the meta block and a page: two images, head, end, the two blocks, the wiped head.
#[test]
fn an_insert() {
    use Place::{Journal, Store};
    let (store, journal) = made(6, &[]);
    let mut plan = vec![0x77; PLAN + 9];
    assert_eq!(plan_insert(&store, &journal, 5, 7, 1, &mut plan), Ok(7));
    let wanted = [Journal(1), Journal(2), Journal(0), Journal(15), Store(0), Store(2), Journal(0)];
    assert_eq!(places(&list(&plan)), wanted);
    assert_eq!(plan[..20], [26, 0, 0, 0, 2, 0, 0, 0, 0, 0, 0, 0, 2, 0, 0, 0, 0, 0, 0, 0]);
    assert!(plan[20..508].iter().all(|&byte| byte == 0) && plan[..508] == plan[512..1020]);
    assert!(plan[508..512] != plan[1020..1024] && plan[1024..1536] == WIPED);
    assert!(plan[5 * 512..].iter().all(|&byte| byte == 0x77), "the rest stays");
    let (mut after, mut passed) = (store.clone(), journal.clone());
    insert(&mut after, &mut passed, 5, 7, 1).expect("insert");
    for (image, at) in [(3, 0), (4, 2)] {
        assert!(block(&plan, image) == block(&after, at) && block(&passed, image - 2) == block(&after, at));
    }
    assert!(passed[..512] == WIPED && block(&passed, 15) == block(&plan, 1));
    assert!(passed[3 * 512..15 * 512] == journal[3 * 512..15 * 512], "other blocks of the journal stay");
    let (mut done, mut done_journal) = (store, journal);
    for (n, place) in (0..).zip(wanted) {
        assert_eq!(do_store(&mut done, &mut done_journal, &plan, n), Ok(place));
    }
    assert!((done, done_journal) == (after, passed));
}

/// Cut after each block store of a removal, and recovered: before it up to the head, after it from the end on.
#[test]
fn cuts_of_a_removal() {
    let (store, mut journal) = made(6, &[0, 2, 4]);
    // Not the end of an insert of the same pages, which would fit.
    journal[15 * 512..].fill(0xC3);
    let mut plan = vec![0; PLAN];
    let stores = plan_remove(&store, &journal, 2, 9, 1, &mut plan).expect("a plan") as u32;
    let mut after = store.clone();
    remove(&mut after, &mut journal.clone(), 2, 9, 1).expect("remove");
    for done in 0..=stores {
        let (mut cut, mut left) = (store.clone(), journal.clone());
        first(done, &plan, &mut cut, &mut left);
        let pending = (3..stores).contains(&done);
        assert_eq!(wiped(&left), if pending { Err(Refusal::Pending) } else { Ok(()) }, "{done} done");
        let seen = (0..6).map(|at| match look(&cut, &left, at).expect("a place") {
            Place::Store(at) => block(&cut, at).to_vec(),
            Place::Journal(at) => block(&left, at).to_vec(),
        });
        let seen = seen.collect::<Vec<_>>().concat();
        let list = recovery(&cut, &left).expect("a list");
        assert_eq!(list.len(), if done >= 4 && pending { 3 } else { 1 }, "{done} done");
        recover(&mut cut, &mut left).expect("recover");
        assert!(cut == if done >= 4 { &after } else { &store }[..], "{done} done");
        assert!(cut == seen && left[..512] == WIPED, "{done} done");
    }
}

/// Between head and end the journal may be whole already, by the end of an earlier change of the same blocks.
#[test]
fn an_old_end_that_fits() {
    let (store, mut journal) = made(6, &[0, 2]);
    let mut plan = vec![0; PLAN];
    assert_eq!(plan_insert(&store, &journal, 4, 9, 1, &mut plan), Ok(7));
    let mut cut = store.clone();
    first(3, &plan, &mut cut, &mut journal);
    recover(&mut cut, &mut journal).expect("recover");
    let mut after = store.clone();
    insert(&mut after, &mut journal, 4, 9, 1).expect("insert");
    assert!(cut == after);
}

/// Each step of a split has a list of its own, and where there is no step nothing is written.
#[test]
fn steps_and_stops() {
    let (mut store, mut journal) = made(6, &[0, 2, 4]);
    let mut plan = vec![0; PLAN];
    // The begin alters meta, old and new; then a copy, the end of the copying, the clearing and its end.
    for stores in [9, 5, 7, 5, 5] {
        assert_eq!(plan_work(&store, &journal, &mut plan), Ok(Ok(stores)));
        let before = (store.clone(), journal.clone());
        assert_eq!(work(&mut store, &mut journal, 1).map(|did| did.steps), Ok(1));
        let (mut done, mut left) = before;
        first(stores as u32, &plan, &mut done, &mut left);
        assert!((done, left) == (store.clone(), journal.clone()));
    }
    let (before, kept) = ((store.clone(), journal.clone()), plan.clone());
    assert_eq!(plan_work(&store, &journal, &mut plan), Ok(Err(Stop::Idle)));
    assert_eq!(plan_squeeze(&store, &journal, 0, &mut plan), Ok(Err(Stop::Idle)));
    assert_eq!(plan_squeeze(&store, &journal, 3, &mut plan), Err(Refusal::Number));
    let (full, _) = made(5, &[0, 2, 4]);
    assert_eq!(plan_work(&full, &journal, &mut plan), Ok(Err(Stop::NoRoom)));
    for budget in [0, 9] {
        assert_eq!(work(&mut store, &mut journal, budget).map(|did| did.steps), Ok(0));
        assert_eq!(squeeze(&mut store, &mut journal, 0, budget).map(|did| did.steps), Ok(0));
    }
    assert!(before == (store, journal) && plan == kept, "stops write nothing");
}

/// A store, a journal and a number, which is a budget or stands for a place.
type Change = fn(&mut [u8], &mut [u8], u32) -> Option<Refusal>;

const CHANGES: [Change; 4] = [
    |store, journal, number| insert(store, journal, 0, place(number), 1).err(),
    |store, journal, number| remove(store, journal, 0, place(number), 1).err(),
    |store, journal, number| work(store, journal, number).err(),
    |store, journal, number| squeeze(store, journal, 0, number).err(),
];

/// A place out of range for a number that is out of a budget's.
fn place(number: u32) -> u32 {
    if number > 65_535 {
        u32::MAX
    } else {
        8
    }
}

/// What each change is refused with. None of them writes anything.
fn refusals(store: &[u8], journal: &[u8], number: u32) -> [Option<Refusal>; 4] {
    CHANGES.map(|change| {
        let (mut after, mut left) = (store.to_vec(), journal.to_vec());
        let refusal = change(&mut after, &mut left, number);
        assert!(after == store && left == journal, "{refusal:?}");
        refusal
    })
}

#[test]
fn refusals_in_order() {
    let (store, journal) = made(6, &[0, 2]);
    let (mut damaged, mut pending) = (store.clone(), journal.clone());
    (damaged[2 * 512 + 9], pending[300]) = (0xFF, 1);
    let long = [&pending[..], &[0; 512]].concat();
    let all = |refusal| [Some(refusal); 4];
    assert_eq!(refusals(&damaged[..3000], &pending[1..], 65_536), all(Refusal::Length));
    assert_eq!(refusals(&damaged, &pending[1..], 65_536), all(Refusal::JournalLength));
    assert_eq!(refusals(&damaged, &long, 65_536), all(Refusal::JournalLength));
    assert_eq!(refusals(&damaged, &pending, 65_536), all(Refusal::Number));
    assert_eq!(refusals(&damaged, &pending, 0), all(Refusal::Pending));
    assert_eq!(refusals(&damaged, &journal, 0), all(Refusal::Damaged(2)));
    assert_eq!([Refusal::JournalLength, Refusal::Pending].map(Refusal::number), [13, 14]);
}

#[test]
fn other_refusals() {
    let (store, journal) = made(6, &[0, 2]);
    let plan = vec![0; PLAN];
    let store_of = |plan: &[u8], store: &[u8], journal: &[u8]| {
        let refusal = do_store(&mut store.to_vec(), &mut journal.to_vec(), plan, 0).expect_err("a refusal");
        (refusal.number(), refusal.gives())
    };
    assert_eq!(store_of(&plan[1..], &store[1..], &journal[1..]), (255, 5_632));
    assert_eq!(store_of(&plan, &store[1..], &journal[1..]), (1, 0));
    assert_eq!(store_of(&plan, &store, &journal[1..]), (13, 0));
    assert_eq!(store_of(&plan, &store, &journal), (2, 0));
    let recovery = |store: &[u8], journal: &[u8]| recover(&mut store.to_vec(), &mut journal.to_vec());
    assert_eq!(recovery(&store[1..], &journal[1..]), Err(Refusal::Length));
    assert_eq!(recovery(&store, &journal[1..]), Err(Refusal::JournalLength));
    assert_eq!(wipe(&mut journal[1..].to_vec()), Err(Refusal::JournalLength));
    assert_eq!((wiped(&journal[1..]), wiped(&journal)), (Err(Refusal::JournalLength), Ok(())));
    assert_eq!(look(&store[1..], &journal[1..], 9), Err(Refusal::Length));
    assert_eq!(look(&store, &journal[1..], 9), Err(Refusal::JournalLength));
    assert_eq!((look(&store, &journal, 6), look(&store, &journal, 5)), (Err(Refusal::Number), Ok(Place::Store(5))));
}
