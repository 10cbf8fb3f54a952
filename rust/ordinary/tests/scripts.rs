//! Every script of tests/scripts, to the byte, and a few lines that cannot be read.

use ordinary::script::run;
use std::{fs, path::Path};

#[test]
fn scripts_of_the_repository() {
    let folder = Path::new(env!("CARGO_MANIFEST_DIR")).join("../../tests/scripts");
    let mut seen = 0;
    for file in fs::read_dir(folder).expect("tests/scripts") {
        let input = file.expect("an entry").path();
        if input.extension().is_some_and(|extension| extension == "in") {
            let written = run(&fs::read(&input).expect("a script"));
            let wanted = fs::read(input.with_extension("out")).expect("what it writes");
            assert_eq!(written, String::from_utf8(wanted).expect("text"), "{}", input.display());
            seen += 1;
        }
    }
    assert!(seen >= 62, "only {seen} scripts");
}

#[test]
fn whole_case_of_the_document() {
    let input = b"f 16 10 0 0\n+ 5 7 1\n+ 5 3 2\n+ 0,5 7 1\n? 5\n- 5 7 1\n? 5\nw 4\n";
    let written = "store 16 fill 10\nok\nok\nline 4: refused 10\n2: 3/2 7/1\nok\n1: 3/2\nsteps 0 stop 9\n";
    assert_eq!(run(input), written);
}

/// What a script writes does not show the store's number.
#[test]
fn any_store_number() {
    for number in [0, 1, 7, 0x8000_0000, u32::MAX] {
        let input = format!("f 6 1 {number} 0\n+ 0 9 1\n+ 2 9 1\n+ 4 9 1\nw 9\n? 2\n");
        assert_eq!(run(input.as_bytes()), "store 6 fill 1\nok\nok\nok\nsteps 5 stop 9\n1: 9/1\n", "{number}");
    }
}

#[test]
fn ends_of_input() {
    assert_eq!(run(b""), "");
    assert_eq!(run(b"\n"), "line 1: refused 10\n");
    assert_eq!(run(b"\n\n"), "line 1: refused 10\nline 2: refused 10\n");
    assert_eq!(run(b"? 1"), "line 1: refused 1\n");
    assert_eq!(run(b"f 4 1 0 0\n? 1"), "store 4 fill 1\n0:\n");
}

#[test]
fn refusals_of_lines() {
    let numbers = ["f 4", "f 4 1", "f 4 1 0", "f 4 1 0 ", "f 4 1 0 0 0", "f 4 1 0 0 "];
    let forms = [" f 4 1 0 0", "f  4 1 0 0", "f 04 1 0 0", "f 4 1 00 0", "f 4 1 0 00", "f 4 1 0 0\r"];
    let others = ["f 4 1 4294967296 0", "f 4 1 0 4294967296", "? 4294967296", "? ", "?", "? 00", "x 1"];
    for line in numbers.into_iter().chain(forms).chain(others) {
        assert_eq!(run(line.as_bytes()), "line 1: refused 10\n", "{line:?}");
    }
    assert_eq!(run(&[b'1'; 1000]), "line 1: refused 10\n");
    assert_eq!(run(b"f 3 0 0 2"), "line 1: refused 1\n");
    assert_eq!(run(b"f 4294967295 1 0 0"), "line 1: refused 1\n");
    // A script's store has at most 128 blocks, whatever the library takes.
    assert_eq!(
        run(b"f 128 1 0 0\nf 129 1 0 0\nf 1024 0 0 2"),
        "store 128 fill 1\nline 2: refused 1\nline 3: refused 1\n"
    );
    assert_eq!(run(b"f 4 0 5 0\n+ 1 1 0"), "line 1: refused 2\nline 2: refused 1\n");
}

/// The store tested is the one that stands, with its own N; the line's numbers come first.
#[test]
fn formats_over_a_store_in_use() {
    let stand = "f 8 2 7 0\n+ 5 7 1\n";
    for line in ["f 8 2 7 0", "f 4 1 0 0", "f 128 40 4294967295 0"] {
        let input = format!("{stand}{line}\n? 5\n- 5 7 1\n{line}\n");
        let written = run(input.as_bytes());
        let (kept, formatted) = written.rsplit_once("ok\n").expect("a removal");
        assert_eq!(kept, "store 8 fill 2\nok\nline 3: refused 12\n1: 7/1\n", "{line}");
        assert!(formatted.starts_with("store "), "{line}: {formatted}");
    }
    for (line, refusal) in [("f 3 0 0 2", 1), ("f 129 2 0 0", 1), ("f 8 0 0 0", 2), ("f 8 2 0 2", 2)] {
        let written = format!("store 8 fill 2\nok\nline 3: refused {refusal}\n1: 7/1\n");
        assert_eq!(run(format!("{stand}{line}\n? 5\n").as_bytes()), written, "{line}");
    }
    let over = run(format!("{stand}f 4 1 0 1\n? 5\n").as_bytes());
    assert_eq!(over, "store 8 fill 2\nok\nstore 4 fill 1\n0:\n");
}
