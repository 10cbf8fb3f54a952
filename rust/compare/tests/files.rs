//! `two_files`, the example of package `amiqsovik` that keeps a store and its journal in two files, as a process that
//! is killed at random moments. What it wrote to a file outlives a killed process, synced or not: these tests show that
//! it makes, reports and recovers changes in the right order, and not that it syncs. Cuts at and in each block store
//! are tested in cuts.rs.

use amiqsovik::{do_store, is_wiped, lookup, plan_insert, recover, standing, verify, Plan};
use compare::random::Random;
use compare::word::places;
use std::collections::BTreeSet;
use std::os::unix::process::ExitStatusExt;
use std::path::{Path, PathBuf};
use std::process::{Command, Output, Stdio};
use std::time::Duration;
use std::{fs, process, thread};

const KILL: i32 = 9;

/// The pairs that a store holds, by hash code and place.
type Pairs = BTreeSet<[u32; 3]>;

/// Cargo's folder for what tests write.
fn disk() -> &'static Path {
    Path::new(env!("CARGO_TARGET_TMPDIR"))
}

/// A folder of its own, gone at the end.
struct Folder(PathBuf);

impl Folder {
    fn new(within: &Path, name: &str) -> Self {
        let path = within.join(format!("two_files-{}-{name}", process::id()));
        fs::create_dir(&path).expect("a new folder");
        Folder(path)
    }

    fn read(&self, name: &str) -> Vec<u8> {
        fs::read(self.0.join(name)).expect(name)
    }

    fn write(&self, name: &str, bytes: &[u8]) {
        fs::write(self.0.join(name), bytes).expect(name);
    }

    fn command(&self, words: &str) -> Command {
        let mut command = Command::new(env!("CARGO_BIN_EXE_two_files"));
        command.arg(&self.0).args(words.split(' ')).stdout(Stdio::piped()).stderr(Stdio::piped());
        command
    }

    /// What a command wrote that was done.
    fn done(&self, words: &str) -> String {
        let Output { status, stdout, stderr } = self.command(words).output().expect("the program");
        assert!(status.success() && stderr.is_empty(), "{words}: {}", String::from_utf8_lossy(&stderr));
        String::from_utf8(stdout).expect("text")
    }

    /// Why a command was not done.
    fn refused(&self, words: &str) -> String {
        let Output { status, stdout, stderr } = self.command(words).output().expect("the program");
        assert!(status.code() == Some(1) && stdout.is_empty(), "{words}");
        String::from_utf8(stderr).expect("text")
    }

    /// Starts a storm and kills it after a while: the changes that it reported as done, and the one in flight.
    fn cut_storm(&self, seed: u32, after: Duration) -> (Vec<String>, Option<String>) {
        let mut child = self.command(&format!("storm 1000000 {seed}")).spawn().expect("the program");
        thread::sleep(after);
        child.kill().expect("a kill");
        let Output { status, stdout, stderr } = child.wait_with_output().expect("its output");
        assert_eq!((status.signal(), String::from_utf8_lossy(&stderr).as_ref()), (Some(KILL), ""));
        let text = String::from_utf8(stdout).expect("text");
        let (mut done, mut flight) = (Vec::new(), None);
        for line in text.lines() {
            match line {
                "done" => done.extend(flight.take()),
                change => assert_eq!(flight.replace(change.to_string()), None, "{text}"),
            }
        }
        (done, flight)
    }

    /// The pairs of the store in the files, recovered, and whether the head was pending; none if there is no store yet.
    fn held(&self) -> Option<(Pairs, bool)> {
        self.0.join("store").exists().then(|| {
            let (mut store, mut journal) = (self.read("store"), self.read("journal"));
            let pending = !is_wiped(&journal).expect("a journal");
            recover(&mut store, &mut journal).expect("two files of the right lengths");
            (pairs(&store), pending)
        })
    }
}

impl Drop for Folder {
    fn drop(&mut self) {
        fs::remove_dir_all(&self.0).expect("a folder");
    }
}

/// All pairs of a sound store, whose hash codes are below 64.
fn pairs(store: &[u8]) -> Pairs {
    verify(store).expect("a sound store");
    let count = standing(store).expect("a sound store").count;
    let mut output = vec![0; 6 * count as usize];
    let mut pairs = Pairs::new();
    for hash in 0..64 {
        let found = lookup(store, hash, &mut output).expect("a sound store");
        pairs.extend(places(found.as_bytes()).map(|(block, offset)| [hash, block, offset.into()]));
    }
    assert_eq!(pairs.len(), count as usize);
    pairs
}

/// Makes a change, in the words of its command, that fits the pairs held.
fn apply(pairs: &mut Pairs, change: &str) {
    let mut words = change.split(' ');
    let command = words.next().expect("a command");
    let pair = [(); 3].map(|()| words.next().and_then(|word| word.parse().ok()).expect("a number"));
    let fits = match command {
        "insert" => pairs.insert(pair),
        "remove" => pairs.remove(&pair),
        _ => false,
    };
    assert!(fits, "{change}");
}

/// What the kills met.
#[derive(Debug, Default)]
struct Met {
    no_store: u32,
    pending: u32,
    before: u32,
    after: u32,
    done: usize,
}

/// A store from its first start on, through a number of kills, at most so long after each start.
fn life(within: &Path, random: &mut Random, kills: u32, longest: Duration, met: &mut Met) {
    let folder = Folder::new(within, &format!("life{}", random.number()));
    let mut book = Pairs::new();
    for _ in 0..kills {
        let (done, flight) = folder.cut_storm(random.number(), longest.mul_f64(f64::from(random.below(1000)) / 1000.0));
        done.iter().for_each(|change| apply(&mut book, change));
        met.done += done.len();
        let Some((held, pending)) = folder.held() else {
            assert!(book.is_empty() && flight.is_none());
            met.no_store += 1;
            continue;
        };
        met.pending += u32::from(pending);
        let Some(change) = flight else {
            assert_eq!(held, book);
            continue;
        };
        if held == book {
            met.before += 1;
        } else {
            apply(&mut book, &change);
            assert_eq!(held, book, "{change}");
            met.after += 1;
        }
    }
}

/// Every change that was reported is there after a kill, and at most the one in flight besides. On a disk most kills
/// meet block stores, since each waits for it, or the making of the files; in memory, where there is such a folder,
/// more is done between kills. A round has 114 kills, and three rounds are enough unless both are quick.
#[test]
fn killed_at_random_moments() {
    let (mut random, mut met, memory) = (Random::new(5), Met::default(), Path::new("/dev/shm"));
    for round in 1.. {
        life(disk(), &mut random, 50, Duration::from_millis(50), &mut met);
        for _ in 0..7 {
            life(disk(), &mut random, 2, Duration::from_millis(20), &mut met);
        }
        life(if memory.is_dir() { memory } else { disk() }, &mut random, 50, Duration::from_millis(20), &mut met);
        if round >= 3 && met.pending >= 10 && met.before >= 5 && met.after >= 5 {
            break;
        }
        assert!(round < 30, "{met:?}");
    }
    println!("{met:?}");
}

/// An insert that was cut after each of its block stores, found so in the files: the next start mends it there.
#[test]
fn recovered_in_the_files() {
    let (folder, mut plan) = (Folder::new(disk(), "cut"), Plan::new());
    assert_eq!(folder.done("insert 5 7 1"), "");
    let (before, journal_before) = (folder.read("store"), folder.read("journal"));
    let stores = plan_insert(&before, &journal_before, 5, 8, 1, &mut plan).expect("a plan");
    assert_eq!(stores, 7);
    for cut in 0..=stores {
        let (mut store, mut journal) = (before.clone(), journal_before.clone());
        for n in 0..cut {
            do_store(&mut store, &mut journal, &plan, n).expect("a block store");
        }
        folder.write("store", &store);
        folder.write("journal", &journal);
        recover(&mut store, &mut journal).expect("a store and a journal");
        // The end of the insert before will do for this one too.
        let wanted = if cut < 3 { "7 1\n" } else { "7 1\n8 1\n" };
        assert_eq!(folder.done("lookup 5"), wanted, "{cut}");
        assert!(folder.read("store") == store && folder.read("journal") == journal, "{cut}");
    }
}

/// The making of new files, cut: what it may leave behind is made anew, and is not taken for a store.
#[test]
fn made_after_a_cut() {
    let (junk, old) = (vec![0xA5; 700], vec![0; 8192]);
    let left: [&[(&str, &[u8])]; 5] = [
        &[],
        &[("journal", &junk)],
        &[("journal", &old)],
        &[("journal", &old), ("store.new", &[])],
        &[("journal", &old), ("store.new", &junk)],
    ];
    for (i, files) in left.iter().enumerate() {
        let folder = Folder::new(disk(), &format!("left{i}"));
        files.iter().for_each(|(name, bytes)| folder.write(name, bytes));
        assert_eq!(folder.done("insert 5 7 1"), "");
        assert_eq!(folder.held(), Some((Pairs::from([[5, 7, 1]]), false)));
        assert!(!folder.0.join("store.new").exists());
    }
}

#[test]
fn commands() {
    let folder = Folder::new(disk(), "commands");
    let (done, refused) = (|words: &str| folder.done(words), |words: &str| folder.refused(words));
    assert_eq!(done("standing"), "Standing { count: 0, buckets: 2, phase: None, slack: 40 }\n");
    for block in 0..41 {
        assert_eq!(done(&format!("insert 2 {block} 1")), "");
    }
    assert_eq!(refused("insert 2 0 1"), "the pair is held already\n");
    assert_eq!(done("remove 2 0 1"), "");
    assert_eq!(refused("remove 2 0 1"), "the pair is not held\n");
    assert_eq!(done("squeeze 0 9"), "Worked { steps: 1, stop: Idle }\n");
    assert_eq!(done("insert 2 0 1"), "");
    assert_eq!(done("work 1"), "Worked { steps: 1, stop: Spent }\n");
    assert_eq!(refused("squeeze 0 9"), "the bucket is busy: it is one of a pending job\n");
    assert!(done("work 1000").ends_with("stop: Idle }\n"));
    assert_eq!(done("lookup 2").lines().count(), 41);
    assert_eq!(refused("lookup two"), "invalid digit found in string\n");
    fs::remove_file(folder.0.join("journal")).expect("the journal");
    refused("lookup 2");
    assert!(!folder.0.join("journal").exists());
}
