//! The methods of a store with a journal: cuts, recovery, and changes in two halves beside the same in one piece.

use amiqsovik::{wipe, Part, Place, Plan, Planned, Reading, Refusal, Stop, Store, Worked, BLOCK_SIZE, JOURNAL_SIZE};

const BYTES: usize = 8 * BLOCK_SIZE;
const READING: Reading = Reading::new(7, 1);

/// A store of three pages of one hash code, the second thinned out, and its journal.
fn made() -> (Vec<u8>, Vec<u8>) {
    let (mut bytes, mut journal) = (vec![0; BYTES], vec![0; JOURNAL_SIZE]);
    wipe(&mut journal).expect("a journal");
    let mut store = Store::formatted(&mut bytes, &mut journal, 40, 7).expect("a store");
    (0..90).for_each(|block| store.insert(2, Reading::new(block, 2)).expect("room"));
    (50..80).for_each(|block| store.remove(2, Reading::new(block, 2)).expect("a pair"));
    (bytes, journal)
}

/// All block stores of a plan.
fn make(store: &mut Store, plan: &Plan) {
    for n in 0..plan.stores() {
        store.do_store(plan, n).expect("a block store");
    }
}

#[test]
fn formats_of_a_pending_journal() {
    let (mut bytes, mut journal) = ([0; BYTES], [0; JOURNAL_SIZE]);
    assert_eq!(Store::formatted(&mut bytes, &mut journal[1..], 0, 7).err(), Some(Refusal::JournalLength));
    assert_eq!(Store::formatted(&mut bytes, &mut journal, 0, 7).err(), Some(Refusal::Pending));
    assert_eq!(Store::formatted_over(&mut bytes, &mut journal, 0, 7).err(), Some(Refusal::Pending));
    wipe(&mut journal).expect("a journal");
    assert_eq!(Store::formatted(&mut bytes, &mut journal, 0, 7).err(), Some(Refusal::Number));
    assert_eq!(Store::formatted_over(&mut bytes, &mut journal, 0, 7).err(), Some(Refusal::Number));
    assert_eq!(bytes, [0; BYTES]);
}

/// An insert cut after each block store. Look shows what recovery makes of it. From head to wiped head the insert is
/// refused with 14; at any other cut, made again, it is accepted or held already.
#[test]
fn cuts_of_an_insert() {
    let (before, journal_before) = made();
    let mut plan = Plan::new();
    let places = [1, 2, 0, 15].map(|block| Place { part: Part::Journal, block });
    for cut in 0..=7 {
        let (mut bytes, mut journal) = (before.clone(), journal_before.clone());
        // The end of an earlier change, spoilt, does not do for this one.
        journal[15 * BLOCK_SIZE] ^= 1;
        let mut store = Store::new(&mut bytes, &mut journal);
        assert_eq!(store.plan_insert(2, READING, &mut plan), Ok(7));
        for n in 0..cut {
            let place = store.do_store(&plan, n).expect("a block store");
            assert_eq!(Some(&place).filter(|_| n < 4), places.get(n as usize));
        }
        assert_eq!(store.is_wiped(), Ok(!(3..7).contains(&cut)));
        assert_eq!(store.insert(2, READING).err() == Some(Refusal::Pending), (3..7).contains(&cut));
        let look = |store: &Store| (0..8).flat_map(|block| store.look(block).expect("a block").to_vec()).collect();
        let looked: Vec<u8> = look(&store);
        store.recover().expect("a store and a journal");
        assert_eq!((store.is_wiped(), store.as_bytes()), (Ok(true), &looked[..]));
        assert_eq!(store.standing().expect("a sound store").count, if cut == 3 { 60 } else { 61 });
        assert_eq!(Store::opened(&mut bytes, &mut journal).map(|store| store.in_use()).ok(), Some(Ok(true)));
    }
}

/// A removal and the steps of a squeeze, in one piece and in two halves.
#[test]
fn halves_and_whole() {
    let ((mut bytes, mut journal), (mut other, mut beside)) = (made(), made());
    let (mut whole, mut halves) = (Store::new(&mut bytes, &mut journal), Store::new(&mut other, &mut beside));
    let mut plan = Plan::new();
    whole.remove(2, Reading::new(3, 2)).expect("a pair");
    assert_eq!(halves.plan_remove(2, Reading::new(3, 2), &mut plan), Ok(7));
    assert_eq!(halves.standing().expect("a sound store").count, 60);
    make(&mut halves, &plan);
    assert_eq!(whole.squeeze(0, 99), Ok(Worked { steps: 10, stop: Stop::Idle }));
    for _ in 0..10 {
        assert!(matches!(halves.plan_squeeze(0, &mut plan), Ok(Planned::Stores(stores)) if stores == plan.stores()));
        make(&mut halves, &plan);
    }
    assert_eq!(halves.plan_squeeze(0, &mut plan), Ok(Planned::Stopped(Stop::Idle)));
    assert_eq!(halves.plan_squeeze(2, &mut plan), Err(Refusal::Number));
    assert_eq!(halves.plan_work(&mut plan), Ok(Planned::Stopped(Stop::Idle)));
    assert_eq!(halves.do_store(&plan, plan.stores()), Err(Refusal::Number));
    assert_eq!((whole.as_bytes(), whole.journal()), (halves.as_bytes(), halves.journal()));
}
