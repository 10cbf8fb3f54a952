//! A store and its journal in two files: a model for a host. What it has reported as done is on the disk, and a power
//! cut in the midst of a change, or of anything else, is mended at the next start.
//!
//! `two_files FOLDER COMMAND` keeps the files `store` and `journal` in an existing folder, for one process at a time:
//!
//! | Command | What it does |
//! |---|---|
//! | `insert HASH BLOCK OFFSET` | puts a reading in |
//! | `remove HASH BLOCK OFFSET` | takes a reading out |
//! | `lookup HASH` | lists the readings under a hash code, a line each |
//! | `work BUDGET` | makes steps of splits |
//! | `squeeze BUCKET BUDGET` | makes steps of a squeeze |
//! | `standing` | says how the store stands |
//! | `storm COUNT SEED` | random inserts and removals, two steps of work after each; see `storm` |
//!
//! How it is done:
//!
//! - Folder and files are synced first: what a killed process wrote is there to be read, but may not be on the disk,
//!   and what follows must not get there before it. Then both files are read whole into memory. Calls are made there,
//!   and every block that they write goes to its file.
//! - A change is planned, and then its block stores are made one after the other: in memory, to the file, and down to
//!   the disk (`sync_data`, which is fdatasync) before the next. Without the last, or in another order, a cut may cost
//!   the whole store.
//! - At each start a pending change is recovered, in memory. The blocks of the store that recovery wrote go down to the
//!   disk first, and only then the wiped head.
//! - A new journal goes down to the disk first, and then the new store, under another name; renamed, it is there whole,
//!   and so is its journal. A store without its journal is not opened: a new journal would drop a change that was cut.
//! - When a file fails, the program ends: what is in memory is then ahead of what is on the disk, and of no more use.
//!   After a failed sync this may be so of what is read from the files, too, until the disk is mounted anew.

use amiqsovik::{do_store, format, is_wiped, lookup, plan_insert, plan_remove, plan_squeeze, plan_work, standing};
use amiqsovik::{recover, verify, wipe, Part, Place, Plan, Planned, Reading, Refusal, Stop, Worked};
use amiqsovik::{BLOCK_SIZE, JOURNAL_SIZE, MATCH_SIZE};
use std::env;
use std::error::Error;
use std::fs::{self, File};
use std::io::{self, Read, Write};
use std::os::unix::fs::FileExt;
use std::path::Path;
use std::process::ExitCode;
use std::time::SystemTime;

/// The blocks of a new store, and how many readings a bucket is to hold on average.
const BLOCKS: usize = 64;
const FILL: u32 = 20;

type Outcome<T> = Result<T, Box<dyn Error>>;

/// The two files, their bytes in memory, and room for a plan.
struct TwoFiles {
    store: Vec<u8>,
    journal: Vec<u8>,
    store_file: File,
    journal_file: File,
    plan: Plan,
}

impl TwoFiles {
    /// Opens the files of a folder, or makes new ones, and mends what a cut has left.
    fn open(folder: &Path) -> Outcome<Self> {
        if !folder.join("store").exists() {
            create(folder)?;
        }
        sync_folder(folder)?;
        let (store, store_file) = read(&folder.join("store"))?;
        let (journal, journal_file) = read(&folder.join("journal"))?;
        let mut files = TwoFiles { store, journal, store_file, journal_file, plan: Plan::new() };
        if !is_wiped(&files.journal)? {
            files.recover()?;
        }
        verify(&files.store)?;
        Ok(files)
    }

    /// Finishes or forgets a pending change. Cut in here, it is done again at the next start.
    fn recover(&mut self) -> Outcome<()> {
        let before = self.store.clone();
        recover(&mut self.store, &mut self.journal)?;
        let blocks = before.chunks(BLOCK_SIZE).zip(self.store.chunks(BLOCK_SIZE));
        for (block, _) in (0..).zip(blocks).filter(|(_, (before, after))| before != after) {
            self.write(Place { part: Part::Store, block })?;
        }
        self.write(Place { part: Part::Journal, block: 0 })
    }

    /// Writes a block of the memory to its file, down to the disk.
    fn write(&self, place: Place) -> Outcome<()> {
        let (file, bytes) = match place.part {
            Part::Store => (&self.store_file, &self.store),
            Part::Journal => (&self.journal_file, &self.journal),
            Part::Unknown { number } => return Err(format!("there is no part {number}").into()),
        };
        let at = place.bytes();
        file.write_all_at(&bytes[at.clone()], at.start as u64)?;
        Ok(file.sync_data()?)
    }

    /// Makes the planned change.
    fn make(&mut self) -> Outcome<()> {
        for n in 0..self.plan.stores() {
            let place = do_store(&mut self.store, &mut self.journal, &self.plan, n)?;
            self.write(place)?;
        }
        Ok(())
    }

    fn insert(&mut self, [hash, block, offset]: [u32; 3]) -> Outcome<()> {
        plan_insert(&self.store, &self.journal, hash, block, offset, &mut self.plan)?;
        self.make()
    }

    fn remove(&mut self, [hash, block, offset]: [u32; 3]) -> Outcome<()> {
        plan_remove(&self.store, &self.journal, hash, block, offset, &mut self.plan)?;
        self.make()
    }

    fn work(&mut self, budget: u32) -> Outcome<Worked> {
        self.steps(budget, |files| plan_work(&files.store, &files.journal, &mut files.plan))
    }

    fn squeeze(&mut self, bucket: u32, budget: u32) -> Outcome<Worked> {
        self.steps(budget, |files| plan_squeeze(&files.store, &files.journal, bucket, &mut files.plan))
    }

    /// Makes steps, each planned anew, until there is none or the budget is spent.
    fn steps(&mut self, budget: u32, plan: impl Fn(&mut Self) -> Result<Planned, Refusal>) -> Outcome<Worked> {
        for steps in 0..budget {
            match plan(self)? {
                Planned::Stores(_) => self.make()?,
                Planned::Stopped(stop) => return Ok(Worked { steps, stop }),
            }
        }
        Ok(Worked { steps: budget, stop: Stop::Spent })
    }

    fn lookup(&self, hash: u32) -> Outcome<Vec<Reading>> {
        let mut output = vec![0; standing(&self.store)?.count as usize * MATCH_SIZE];
        Ok(lookup(&self.store, hash, &mut output)?.collect())
    }
}

/// Makes the two files. Wherever it is cut, there is no store, and both are made again at the next start, or both are
/// there.
fn create(folder: &Path) -> Outcome<()> {
    let (mut store, mut journal) = (vec![0; BLOCKS * BLOCK_SIZE], vec![0; JOURNAL_SIZE]);
    wipe(&mut journal)?;
    format(&mut store, FILL, new_number()?)?;
    write_whole(&folder.join("journal"), &journal)?;
    sync_folder(folder)?;
    write_whole(&folder.join("store.new"), &store)?;
    Ok(fs::rename(folder.join("store.new"), folder.join("store"))?)
}

/// A number that no other store is likely to have.
fn new_number() -> Outcome<u32> {
    let now = SystemTime::now().duration_since(SystemTime::UNIX_EPOCH)?;
    Ok(now.as_secs() as u32 ^ now.subsec_nanos())
}

fn write_whole(path: &Path, bytes: &[u8]) -> io::Result<()> {
    let mut file = File::create(path)?;
    file.write_all(bytes)?;
    file.sync_all()
}

/// Puts the names of files down to the disk.
fn sync_folder(folder: &Path) -> io::Result<()> {
    File::open(folder)?.sync_all()
}

/// The bytes of a file, which are on the disk, and the file to write to.
fn read(path: &Path) -> Outcome<(Vec<u8>, File)> {
    let (mut bytes, mut file) = (Vec::new(), File::options().read(true).write(true).open(path)?);
    file.sync_data()?;
    file.read_to_end(&mut bytes)?;
    Ok((bytes, file))
}

/// Makes `count` random changes, each an insert or the removal of one of 2,048 readings, as it is held or not, and two
/// steps of work after each. It writes the change before it is made, as the command for it, and "done" after it.
fn storm(files: &mut TwoFiles, count: u32, seed: u32) -> Outcome<()> {
    let mut state = u64::from(seed);
    for _ in 0..count {
        let (hash, block) = (random(&mut state) % 64, random(&mut state) % 32);
        let reading = Reading::new(block, 1);
        let held = files.lookup(hash)?.contains(&reading);
        writeln!(io::stdout(), "{} {hash} {block} 1", if held { "remove" } else { "insert" })?;
        match held {
            true => files.remove([hash, block, 1])?,
            false => files.insert([hash, block, 1])?,
        }
        writeln!(io::stdout(), "done")?;
        files.work(2)?;
    }
    Ok(())
}

/// SplitMix64.
fn random(state: &mut u64) -> u32 {
    *state = state.wrapping_add(0x9E37_79B9_7F4A_7C15);
    let z = (*state ^ (*state >> 30)).wrapping_mul(0xBF58_476D_1CE4_E5B9);
    ((z ^ (z >> 27)).wrapping_mul(0x94D0_49BB_1331_11EB) >> 33) as u32
}

/// Does a command and says what came of it.
fn run(files: &mut TwoFiles, command: &str, numbers: &[u32]) -> Outcome<()> {
    let mut out = io::stdout();
    match (command, numbers) {
        ("insert", &[hash, block, offset]) => files.insert([hash, block, offset]),
        ("remove", &[hash, block, offset]) => files.remove([hash, block, offset]),
        ("lookup", &[hash]) => {
            let found = files.lookup(hash)?;
            Ok(found.iter().try_for_each(|place| writeln!(out, "{} {}", place.block, place.offset))?)
        }
        ("work", &[budget]) => Ok(writeln!(out, "{:?}", files.work(budget)?)?),
        ("squeeze", &[bucket, budget]) => Ok(writeln!(out, "{:?}", files.squeeze(bucket, budget)?)?),
        ("standing", []) => Ok(writeln!(out, "{:?}", standing(&files.store)?)?),
        ("storm", &[count, seed]) => storm(files, count, seed),
        _ => Err("the commands are in the first lines of two_files.rs".into()),
    }
}

fn main() -> ExitCode {
    let outcome = || {
        let words: Vec<String> = env::args().skip(1).collect();
        let [folder, command, numbers @ ..] = &words[..] else {
            return Err("usage: two_files FOLDER COMMAND NUMBERS".into());
        };
        let numbers: Vec<u32> = numbers.iter().map(|word| word.parse()).collect::<Result<_, _>>()?;
        run(&mut TwoFiles::open(Path::new(folder))?, command, &numbers)
    };
    match outcome() {
        Ok(()) => ExitCode::SUCCESS,
        Err(error) => {
            eprintln!("{error}");
            ExitCode::FAILURE
        }
    }
}
