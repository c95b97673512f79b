//! Scripts: what the model of runscript prints, and that the program in plain C and the proved program print the same.
//!
//! The programs are run with the feature `archive`: the one in C where there is a C compiler, the proved one where it is
//! built (by `rt run` in crates/runscript, or `rt ci`).

mod common;

use cellpool_compare::generate;
use cellpool_compare::guard::Guarded;
use cellpool_compare::model::Model;
use cellpool_compare::random::{rounds, seed, Random};
use cellpool_compare::script::{replies, run};
use common::implementations;
use std::collections::BTreeMap;

fn random(stream: u64) -> Random {
    Random::new(seed().wrapping_mul(1_000).wrapping_add(200 + stream))
}

/// The document's script, and its replies.
const DOCUMENT: (&str, &str) = (
    "f 2\nn 0 0 0 7\nn 1 0 0 8\nn 2 1 1 9\nz 0\nz 1\nn 2 1 1 9\nv 2\ng\n",
    "ok\nok\nok\nno 5\nok\nok\nok\nok 9\nok 1 3\n",
);

/// Scripts and replies by hand, line ends written as `/`.
const BY_HAND: [(&[u8], &str); 47] = [
    (b"", ""),
    (b"/", "bad/"),
    (b"//f 1//g//", "bad/bad/ok/bad/ok 0 0/bad/"),
    // Before an accepted f.
    (
        b"g/v 0/n 0 0 0 0/z 99/c 0 0/l 0 0/r 0 0/L 0 0/R 0 0/V 0 0/s 0 0/p 99 0 0 0/e 0/o 0/",
        "no 1/no 1/no 1/no 1/no 1/no 1/no 1/no 1/no 1/no 1/no 1/no 1/no 1/no 1/",
    ),
    (b"q/g /f 0/f 4001/f 4294967295/f 4294967296/g/f 4000/g", "bad/bad/no 1/no 1/no 1/bad/no 1/ok/ok 0 0/"),
    // A refused f keeps the pool, an accepted one does not.
    (b"f 1/n 0 0 0 7/f 0/v 0/f 4001/v 0/f/v 0/f 1/v 0", "ok/ok/no 1/ok 7/no 1/ok 7/bad/ok 7/ok/no 4/"),
    // The end of the input ends a line.
    (b"f 1/g", "ok/ok 0 0/"),
    (b"f 1/g/", "ok/ok 0 0/"),
    (b"f 1/g//", "ok/ok 0 0/bad/"),
    (b"f 1/v ", "ok/bad/"),
    (b"f 1/v", "ok/bad/"),
    (b"f", "bad/"),
    (b"f ", "bad/"),
    (b" ", "bad/"),
    // Leading zeros, and the largest number.
    (b"f 0002/n 00 000000000000000000000000000000 0 0004294967295/v 000/V 0 00/v 0", "ok/ok/ok 4294967295/ok/ok 0/"),
    (b"f 1/n 0 0 0 4294967296/n 0 0 0 00004294967296/n 0 0 0 42949672950/g", "ok/bad/bad/bad/ok 0 0/"),
    (b"f 1/n 0 0 0 18446744073709551617/n 18446744073709551616 0 0 1/g", "ok/bad/bad/ok 0 0/"),
    // Spaces.
    (b"f 1/ g/g /v  0/v 0 /  v 0/v 0  /n 0 0  0 1", "ok/bad/bad/bad/bad/bad/bad/bad/"),
    // Other bytes.
    (b"f 1\r/g\r/\r/g\t/\0/g\0/\0g/v\t0/v 0\0/v \xA00/\xFF", "bad/bad/bad/bad/bad/bad/bad/bad/bad/bad/bad/"),
    (b"f 1/v +0/v -0/v 0x0/v 0./v a/v 0a/v :/v 0:/V 0 1,0", "ok/bad/bad/bad/bad/bad/bad/bad/bad/bad/"),
    // Letters.
    (
        b"f 1/F 1/G/N 0 0 0 1/Z 0/C 0 0/S 0 0/gg/g g/vv 0/0/0 0/a 0/x 0/y 0",
        "ok/bad/bad/bad/bad/bad/bad/bad/bad/bad/bad/bad/bad/bad/bad/",
    ),
    (b"f 1/P 0 1 2 3/E 0/O 0/pp 0 1 2 3/p 0 1 2 3/e 0/o 0/v 0", "ok/bad/bad/bad/bad/ok/ok 2/ok 3/ok 1/"),
    // How many numbers.
    (b"f 1/f/f 1 1/g 0/v/v 0 0/z/z 0 0", "ok/bad/bad/bad/bad/bad/bad/bad/"),
    (b"f 1/c/c 0/c 0 0 0/l 0/l 0 0 0/r 0/r 0 0 0/s 0/s 0 0 0", "ok/bad/bad/bad/bad/bad/bad/bad/bad/bad/"),
    (b"f 1/L 0/L 0 0 0/R 0/R 0 0 0/V 0/V 0 0 0", "ok/bad/bad/bad/bad/bad/bad/"),
    (b"f 1/n/n 0/n 0 0/n 0 0 0/n 0 0 0 1 0/n 0 0 0 1 0 0/g", "ok/bad/bad/bad/bad/bad/bad/ok 0 0/"),
    (b"f 1/p/p 0/p 0 0/p 0 0 0/p 0 0 0 0 0/g/e/e 0 0/o/o 0 0", "ok/bad/bad/bad/bad/bad/ok 0 0/bad/bad/bad/bad/"),
    // Register numbers.
    (b"f 1/n 16 0 0 1/n 0 16 0 1/n 0 0 16 1/n 0 0 0 1/v 0", "ok/no 2/no 2/no 2/ok/ok 1/"),
    (b"f 1/c 16 0/c 0 16/z 16/l 16 0/l 0 16/r 16 0/r 0 16/v 16", "ok/no 2/no 2/no 2/no 2/no 2/no 2/no 2/no 2/"),
    (
        b"f 1/L 16 0/L 0 16/R 16 0/R 0 16/V 16 0/s 16 0/s 0 16/z 4294967295",
        "ok/no 2/no 2/no 2/no 2/no 2/no 2/no 2/no 2/",
    ),
    // Of a point only the first number is that of a register.
    (
        b"f 1/p 16 0 0 0/e 16/o 16/p 15 16 17 4294967295/v 15/e 15/o 15",
        "ok/no 2/no 2/no 2/ok/ok 16/ok 17/ok 4294967295/",
    ),
    (b"f 1/p 0 0 0 4294967296/p 0 0 4294967296 0/g", "ok/bad/bad/ok 0 0/"),
    // Nil where a cell is needed.
    (b"f 1/e 0/o 0/p 0 1 2 3/e 0/o 1/e 1", "ok/no 4/no 4/ok/ok 2/no 4/no 4/"),
    // A cell of the other kind.
    (
        b"f 2/p 0 1 2 3/n 1 0 0 4/l 2 0/r 2 0/L 0 1/R 0 1/e 1/o 1/V 0 5/v 0/l 2 1/s 0 2/g",
        "ok/ok/ok/no 13/no 13/no 13/no 13/no 13/no 13/ok/ok 5/ok/ok 1/ok 2 4/",
    ),
    (b"f 1/l 0 0/r 0 0/v 0/L 0 0/R 0 0/V 0 1/s 0 1/c 0 1", "ok/no 4/no 4/no 4/no 4/no 4/no 4/ok 1/ok/"),
    // Every call.
    (b"f 3/n 0 15 15 7/n 1 0 15 8/l 2 1/s 2 0/r 2 1/s 2 15", "ok/ok/ok/ok/ok 1/ok/ok 1/"),
    (b"f 3/n 0 15 15 7/n 1 15 0 8/r 2 1/s 2 0/l 2 1/s 2 15", "ok/ok/ok/ok/ok 1/ok/ok 1/"),
    (b"f 3/n 0 15 15 7/n 1 15 15 8/L 1 0/l 2 1/v 2/r 2 1/v 2", "ok/ok/ok/ok/ok/ok 7/ok/no 4/"),
    (b"f 3/n 0 15 15 7/n 1 15 15 8/R 1 0/r 2 1/v 2/l 2 1/v 2", "ok/ok/ok/ok/ok/ok 7/ok/no 4/"),
    (b"f 3/n 0 15 15 7/c 9 0/V 9 12/v 0/s 0 9/z 0/s 0 9/v 9", "ok/ok/ok/ok/ok 12/ok 1/ok/ok 0/ok 12/"),
    // Points: the visits of one that collects are not printed; g counts three for a pair and one for a point.
    (b"f 2/p 0 7 1 2/p 0 8 3 4/p 0 9 5 6/v 0/e 0/o 0/g/n 1 0 0 1/g", "ok/ok/ok/ok/ok 9/ok 5/ok 6/ok 1 1/ok/ok 2 4/"),
    (b"f 2/p 0 7 2 2/p 1 8 1 1/p 2 9 0 0/z 0/p 2 9 0 0/g/e 1/o 2", "ok/ok/ok/no 5/ok/ok/ok 2 2/ok 1/ok 0/"),
    // A strip with a turn point: the cell that register 0 gave up is found through the pair.
    (
        b"f 3/p 0 150 1200 3400/n 1 0 15 900/z 0/l 2 1/e 2/o 2/v 2/p 2 160 1 1/L 1 2/g/e 2/z 1/g",
        "ok/ok/ok/ok/ok/ok 1200/ok 3400/ok 150/ok/ok/ok 2 4/ok 1/ok/ok 1 1/",
    ),
    // The visits of new are not printed; r may be a or b.
    (b"f 2/n 0 1 1 1/n 0 0 0 2/n 0 0 0 3/z 1/v 0", "ok/ok/ok/no 5/ok/ok 2/"),
    (b"f 2/n 0 1 1 1/n 0 1 1 2/n 0 0 0 3/v 0/l 0 0/v 0/g", "ok/ok/ok/ok/ok 3/ok/ok 2/ok 1 3/"),
    (b"f 2/n 0 1 1 1/n 1 0 0 2/z 0/g/z 1/g/g 1", "ok/ok/ok/ok/ok 2 6/ok/ok 0 0/bad/"),
    (b"f 1/n 0 0 0 1/L 0 0/R 0 0/n 1 0 0 1/g/z 0/n 1 0 0 1/g", "ok/ok/ok/ok/no 5/ok 1 3/ok/ok/ok 1 3/"),
];

fn by_hand() -> Vec<(Vec<u8>, String)> {
    let mut list: Vec<(Vec<u8>, String)> = BY_HAND
        .iter()
        .map(|(script, replies)| {
            let script = script.iter().map(|&byte| if byte == b'/' { b'\n' } else { byte }).collect();
            (script, replies.replace('/', "\n"))
        })
        .collect();
    list.push((DOCUMENT.0.into(), DOCUMENT.1.into()));
    list.push((DOCUMENT.0.trim_end().into(), DOCUMENT.1.into()));
    list
}

#[test]
fn the_model_on_scripts_by_hand() {
    for (script, expected) in by_hand() {
        assert_eq!(replies(&Model, &script), expected, "{}", script.escape_ascii());
    }
}

#[test]
fn random_scripts_reach_every_reply() {
    let mut random = random(0);
    let mut found: BTreeMap<String, usize> = BTreeMap::new();
    for _ in 0..200 {
        let script = generate::script(&mut random, 80);
        for line in replies(&Model, &script).lines() {
            let words: Vec<&str> = line.split(' ').collect();
            let kind = if words[0] == "ok" { format!("ok and {}", words.len() - 1) } else { line.into() };
            *found.entry(kind).or_default() += 1;
        }
    }
    // The pools of a script are never malformed: no 3.
    let kinds = ["bad", "no 1", "no 13", "no 2", "no 4", "no 5", "ok and 0", "ok and 1", "ok and 2"];
    assert_eq!(found.keys().map(String::as_str).collect::<Vec<_>>(), kinds);
    assert!(found.values().all(|&count| count >= 20), "{found:?}");
}

/// On pools with words left over the replies are the same as without, and these words stay.
#[test]
fn words_left_over_make_no_difference() {
    let mut random = random(4);
    let scripts = by_hand().into_iter().map(|(script, _)| script);
    let more: Vec<Vec<u8>> = (0..rounds(200)).map(|_| generate::script(&mut random, 60)).collect();
    let mut pools = [0; 4];
    for script in scripts.chain(more) {
        let expected = replies(&Model, &script);
        for leftover in [&[][..], &[7], &[0, 1], &[4, 0, 9]] {
            let pool = Guarded::new(implementations());
            let (found, words) = run(&pool, &script, leftover);
            assert_eq!((&found, pool.odd()), (&expected, None), "{leftover:?}: {}", script.escape_ascii());
            assert!(words.is_empty() || words.ends_with(leftover), "{}", script.escape_ascii());
            pools[leftover.len()] += usize::from(words.len() % 4 == (18 + leftover.len()) % 4 && !words.is_empty());
        }
    }
    assert!(pools.iter().all(|&count| count > 100), "{pools:?}");
}

#[cfg(feature = "archive")]
mod programs {
    use super::*;
    use cellpool_compare::baseline::PlainRust;
    use cellpool_compare::script::program;
    use std::fs::File;
    use std::io::{Read, Write};
    use std::path::{Path, PathBuf};
    use std::process::{Command, Stdio};

    /// The programs that are there.
    fn programs() -> Vec<PathBuf> {
        let mut list: Vec<PathBuf> = program().into_iter().collect();
        if list.is_empty() {
            println!("no proved program: `rt run` in crates/runscript builds it");
        }
        #[cfg(c_baseline)]
        list.push(env!("PLAIN_RUNSCRIPT").into());
        list
    }

    /// Run on a script that stands in a file of its own; answers what the program printed.
    fn printed(program: &Path, file: &str, script: &[u8]) -> String {
        let path = Path::new(env!("CARGO_TARGET_TMPDIR")).join(file);
        std::fs::write(&path, script).expect("the script is written");
        let input = File::open(&path).expect("the script is there");
        let output = Command::new(program).stdin(input).output().expect("the program starts");
        assert!(output.status.success() && output.stderr.is_empty(), "{output:?}");
        String::from_utf8(output.stdout).expect("the replies are text")
    }

    /// The programs print what the model prints; the text names the first line that differs.
    fn compare(file: &str, script: &[u8], expected: &str) {
        for program in programs() {
            let found = printed(&program, file, script);
            if found != expected {
                let place = found.lines().zip(expected.lines()).take_while(|(a, b)| a == b).count();
                let shown = script.split(|&byte| byte == b'\n').nth(place).unwrap_or_default();
                panic!(
                    "{}, {file}: line {} `{}` prints {:?}, expected {:?}",
                    program.display(),
                    place + 1,
                    shown[..shown.len().min(200)].escape_ascii(),
                    found.lines().nth(place),
                    expected.lines().nth(place)
                );
            }
        }
    }

    #[test]
    fn on_scripts_by_hand() {
        for (script, expected) in by_hand() {
            compare("by_hand.txt", &script, &expected);
        }
    }

    #[test]
    fn on_random_scripts() {
        let mut random = random(1);
        for _ in 0..rounds(300) {
            let count = random.pick(&[0, 1, 2, 20, 100, 300]);
            let script = generate::script(&mut random, count);
            compare("random.txt", &script, &replies(&Model, &script));
        }
    }

    /// A line that stands across the end of a buffer of 65,536 bytes, at each of its places.
    #[test]
    fn on_lines_in_two_reads() {
        for line in [
            "n 2 0 1 4294967295\nv 2\n",
            "p 2 7 4294967295 12\no 2\n",
            "g\ng\n",
            "n 1 0 0 18446744073709551616\nv 0 \nq\n",
        ] {
            for before in 0..=line.len() {
                let filler = "x".repeat(65_536 - "f 3\nn 0 0 0 12\n".len() - 1 - before);
                let script = format!("f 3\nn 0 0 0 12\n{filler}\n{line}");
                for script in [script.as_bytes(), script.trim_end_matches('\n').as_bytes()] {
                    compare("two_reads.txt", script, &replies(&Model, script));
                }
            }
        }
    }

    /// Scripts, lines and replies that fill buffers many times.
    #[test]
    fn on_long_scripts() {
        let mut random = random(2);
        for _ in 0..rounds(3) {
            let script = generate::script(&mut random, 20_000);
            compare("long.txt", &script, &replies(&Model, &script));
        }
        let zeros = "0".repeat(150_000);
        let long =
            format!("f {zeros}1\nn 0 {zeros}0 0 {zeros}7\nv 0{zeros}\nv {zeros}16\nv 0 {zeros}\n{zeros}\nv {zeros}");
        compare("zeros.txt", long.as_bytes(), "ok\nok\nok 7\nno 2\nbad\nbad\nok 7\n");
        let chain = (0..1_000).map(|v| format!("n 0 0 15 {v}\n")).collect::<String>();
        let script = format!("f 1000\n{chain}n 0 0 0 0\n{}", "g\n".repeat(20_000));
        let replies = format!("ok\n{}no 5\n{}", "ok\n".repeat(1_000), "ok 1000 3000\n".repeat(20_000));
        compare("replies.txt", script.as_bytes(), &replies);
        // The same with a point to the right of each cell of a chain: 3 * 500 + 500 visits.
        let chain = (0..500).map(|v| format!("p 1 {v} 1 2\nn 0 0 1 {v}\n")).collect::<String>();
        let script = format!("f 1000\n{chain}p 2 0 0 0\n{}", "g\no 1\n".repeat(1_000));
        let replies = format!("ok\n{}no 5\n{}", "ok\n".repeat(1_000), "ok 1000 2000\nok 2\n".repeat(1_000));
        compare("points.txt", script.as_bytes(), &replies);
    }

    #[test]
    fn on_pools_of_every_size() {
        let lines = (0..=4_003)
            .map(|n| format!("f {n}\nn 0 1 1 {n}\nn 1 0 0 7\nv 0\nl 2 1\ns 0 2\ng\np 3 {n} 1 2\ne 3\no 3\ng\n"));
        let script = lines.collect::<String>();
        compare("sizes.txt", script.as_bytes(), &replies(&PlainRust, script.as_bytes()));
    }

    #[test]
    fn on_scripts_of_the_benchmark() {
        let mut random = random(3);
        for script in [generate::mixed_script, generate::new_script] {
            let script = script(&mut random, 50_000, 4_000);
            assert_eq!(script.lines().count(), 50_000);
            compare("benchmark.txt", script.as_bytes(), &replies(&PlainRust, script.as_bytes()));
        }
    }

    /// The replies to what is read are written before more is read.
    #[test]
    fn on_a_script_in_parts() {
        for program in programs() {
            let mut child =
                Command::new(program).stdin(Stdio::piped()).stdout(Stdio::piped()).spawn().expect("the program starts");
            let mut input = child.stdin.take().expect("the input is piped");
            let mut output = child.stdout.take().expect("the output is piped");
            for (part, expected) in
                [("f 2\nn 0 0", "ok\n"), (" 0 1", ""), ("2\nv 0\nv", "ok\nok 12\n"), (" 1\n", "no 4\n")]
            {
                input.write_all(part.as_bytes()).expect("the program reads");
                let mut found = vec![0; expected.len()];
                output.read_exact(&mut found).expect("the program answers");
                assert_eq!(found.escape_ascii().to_string(), expected.escape_default().to_string());
            }
            input.write_all(b"g").expect("the program reads");
            drop(input);
            let mut rest = String::new();
            output.read_to_string(&mut rest).expect("the program ends");
            assert_eq!(rest, "ok 1 3\n");
            assert!(child.wait().expect("the program ends").success());
        }
    }

    /// An output that takes nothing and an input that gives nothing end the proved program with one line on standard error
    /// and status 0; with an argument it says how it is used, and reads nothing.
    #[cfg(target_os = "linux")]
    #[test]
    fn on_input_and_output_that_fail() {
        let Some(program) = program() else { return };
        let path = Path::new(env!("CARGO_TARGET_TMPDIR")).join("short.txt");
        std::fs::write(&path, "f 1\ng\n").expect("the script is written");
        let open = |name: &Path| File::open(name).expect("the file opens");
        let full = File::options().write(true).open("/dev/full").expect("the file opens");
        let full = Command::new(&program).stdin(open(&path)).stdout(full).output().expect("the program starts");
        assert_eq!((full.stderr.as_slice(), full.status.code()), (&b"runscript: cannot write\n"[..], Some(0)));
        let folder = Command::new(&program).stdin(open(Path::new("/"))).output().expect("the program starts");
        assert_eq!((folder.stdout.len(), folder.status.code()), (0, Some(0)));
        assert_eq!(folder.stderr, b"runscript: cannot read\n");
        let named =
            Command::new(&program).args(["--help", "x"]).stdin(open(&path)).output().expect("the program starts");
        assert_eq!((named.stdout.len(), named.status.code()), (0, Some(0)));
        assert!(named.stderr.starts_with(b"usage: runscript < SCRIPT\n"));
    }
}
