//! The library as a board's build takes it: installed into an empty folder, the examples built there through pkg-config by
//! every compiler at hand, and run.
#![cfg(all(feature = "archive", c_baseline))]

mod common;

use cellpool_compare::baseline::PlainRust;
use cellpool_compare::generate;
use cellpool_compare::model::{groups, parse, Pool};
use cellpool_compare::random::{rounds, Random};
use cellpool_compare::{is_used, script, MOST_CELLS, POINT};
use common::c::{archive, cc, file, made};
use std::fs::{self, File};
use std::io::Write;
use std::path::{Path, PathBuf};
use std::process::{Command, Output, Stdio};
use std::time::{Duration, SystemTime};

/// An empty folder for a test.
fn empty(name: &str) -> PathBuf {
    let folder = made(name);
    let _ = fs::remove_dir_all(&folder);
    fs::create_dir_all(&folder).expect("the folder is made");
    folder.canonicalize().expect("the folder is there")
}

fn text(bytes: &[u8]) -> String {
    String::from_utf8_lossy(bytes).into_owned()
}

/// Run the script `install` of this repository or of a copy.
fn install(script: &Path, library: &Path, arguments: &[&str]) -> Output {
    let library = library.canonicalize().unwrap_or_else(|_| library.to_path_buf());
    Command::new("sh").arg(script).args(arguments).env("CELLPOOL_LIB_DIR", library).output().expect("sh starts")
}

/// The folder of the archive.
fn library() -> PathBuf {
    archive().parent().expect("the archive is in a folder").to_path_buf()
}

/// A copy of what is installed, with an archive that is newer than all of it.
fn copy_of_the_sources(name: &str) -> PathBuf {
    let copy = empty(name);
    for folder in ["include", "examples", "crates", "lib"] {
        fs::create_dir_all(copy.join(folder)).expect("a folder is made");
    }
    let copied = |from: PathBuf, to: PathBuf| fs::copy(from, to).expect("a file is copied");
    copied(file("../install"), copy.join("install"));
    for folder in ["include", "examples"] {
        for entry in fs::read_dir(file("..").join(folder)).expect("the folder is there") {
            let entry = entry.expect("the folder can be read");
            copied(entry.path(), copy.join(folder).join(entry.file_name()));
        }
    }
    copied(archive(), copy.join("lib/libcellpool.a"));
    fs::write(copy.join("crates/source"), "").expect("a source is written");
    let later = SystemTime::now() + Duration::from_secs(10);
    let archive = File::options().write(true).open(copy.join("lib/libcellpool.a")).expect("the copy opens");
    archive.set_modified(later).expect("the time is set");
    copy
}

/// Every file below a folder, by its path from there.
fn files(folder: &Path) -> Vec<String> {
    let mut list = Vec::new();
    for entry in fs::read_dir(folder).into_iter().flatten() {
        let path = entry.expect("the folder can be read").path();
        let name = path.file_name().expect("a file has a name").to_string_lossy().into_owned();
        if path.is_dir() {
            list.extend(files(&path).into_iter().map(|inner| format!("{name}/{inner}")));
        } else {
            list.push(name);
        }
    }
    list.sort();
    list
}

/// What pkg-config says; without it, what the file says with its variables put in.
fn flags(prefix: &Path) -> Vec<String> {
    let folder = prefix.join("lib/pkgconfig");
    let asked =
        Command::new("pkg-config").args(["--cflags", "--libs", "cellpool"]).env("PKG_CONFIG_PATH", &folder).output();
    let told = match asked {
        Ok(told) => {
            assert!(told.status.success(), "{}", text(&told.stderr));
            text(&told.stdout)
        }
        Err(_) => {
            let file = fs::read_to_string(folder.join("cellpool.pc")).expect("the file is there");
            let field = |name: &str| {
                let found = file.lines().find_map(|line| line.strip_prefix(name)).expect("the field is there");
                found.trim().to_string()
            };
            let (include, lib) = (field("includedir="), field("libdir="));
            let all = format!("{} {}", field("Cflags:"), field("Libs:"));
            let all = all.replace("${includedir}", &include).replace("${libdir}", &lib);
            all.replace("${prefix}", &field("prefix="))
        }
    };
    told.split_whitespace().map(str::to_string).collect()
}

/// Compilers that are there, each with a language and its standards.
fn compilers() -> Vec<(String, &'static str, &'static [&'static str])> {
    let c: &[&str] = &["-std=c99", "-std=c11"];
    let cpp: &[&str] = &["-std=c++17"];
    let known = [
        (cc(), "c", c),
        ("gcc".into(), "c", c),
        ("clang".into(), "c", c),
        ("g++".into(), "c++", cpp),
        ("clang++".into(), "c++", cpp),
    ];
    let there = |name: &str| matches!(Command::new(name).arg("--version").output(), Ok(told) if told.status.success());
    known.into_iter().filter(|(name, _, _)| there(name)).collect()
}

fn build(
    folder: &Path,
    sources: &[&str],
    compiler: &(String, &str, &[&str]),
    standard: &str,
    flags: &[String],
) -> PathBuf {
    let result = folder.join(sources[0]).with_extension("out");
    let built = Command::new(&compiler.0)
        .current_dir(folder)
        .args(["-O2", "-Wall", "-Wextra", "-Wpedantic", "-Werror", standard, "-x", compiler.1])
        .args(sources)
        .args(["-x", "none"])
        .args(flags)
        .arg("-o")
        .arg(&result)
        .output()
        .expect("the compiler starts");
    assert!(built.status.success(), "{} {standard} {sources:?}: {}", compiler.0, text(&built.stderr));
    result
}

/// Run a program on an input.
fn fed(program: &Path, input: &[u8]) -> Output {
    let mut child = Command::new(program)
        .stdin(Stdio::piped())
        .stdout(Stdio::piped())
        .stderr(Stdio::piped())
        .spawn()
        .expect("the program starts");
    let mut pipe = child.stdin.take().expect("its input is a pipe");
    let bytes = input.to_vec();
    let writer = std::thread::spawn(move || drop(pipe.write_all(&bytes)));
    let output = child.wait_with_output().expect("the program ends");
    writer.join().expect("the input is written");
    output
}

/// The graph that examples/draw.c has to write for a pool, cells by their numbers in the image.
fn graph(pool: &Pool, kept: u32) -> String {
    let mut all = String::from("digraph pool {\n  node [shape=record, fontname=\"sans-serif\", fontsize=11];\n");
    for (register, link) in pool.registers.iter().enumerate().filter(|(_, link)| **link != 0) {
        all += &format!("  r{register} [shape=plaintext];\n  r{register} -> c{link};\n");
    }
    for i in 1..=kept {
        let cell = pool.cell(i);
        if cell.state == POINT {
            let fields = format!("{{cell {i}|{}|{{{}|{}}}}}", cell.value, cell.left, cell.right);
            all += &format!("  c{i} [shape=Mrecord, label=\"{fields}\"];\n");
            continue;
        }
        let field = |link: u32| if link == 0 { "/" } else { "" };
        let (left, right) = (field(cell.left), field(cell.right));
        all += &format!("  c{i} [label=\"{{cell {i}|{}|{{<l>{left}|<r>{right}}}}}\"];\n", cell.value);
        for (side, link, style) in [("l", cell.left, ""), ("r", cell.right, " [style=dashed]")] {
            if link != 0 {
                all += &format!("  c{i}:{side} -> c{link}{style};\n");
            }
        }
    }
    all + "}\n"
}

/// What examples/survey.txt is replied, worked out by hand: two strips with their turns, 3 + 3 + 1 + 1 visits; a strip is no point,
/// and a point has no left link; at the end three strips with a turn each, 9 + 3 visits.
const REPLIES: &str = "ok\nok\nok\nok 1200\nok 3400\nok 150\nok\nok\nok 4 8\nok\nok 1\nno 13\nno 13\n\
    ok\nok\nok\nok\nok\nok\nok\nok\nok\nok\nok\nok\nok 6 12\n";

/// The pool that it leaves: the strips 920, 910 and 900 in a chain over right links, each with its turn on its left.
const SURVEY: &str = r#"digraph pool {
  node [shape=record, fontname="sans-serif", fontsize=11];
  r5 [shape=plaintext];
  r5 -> c1;
  c1 [label="{cell 1|920|{<l>|<r>}}"];
  c1:l -> c2;
  c1:r -> c3 [style=dashed];
  c2 [shape=Mrecord, label="{cell 2|170|{1400|3800}}"];
  c3 [label="{cell 3|910|{<l>|<r>}}"];
  c3:l -> c4;
  c3:r -> c5 [style=dashed];
  c4 [shape=Mrecord, label="{cell 4|160|{1400|3600}}"];
  c5 [label="{cell 5|900|{<l>|<r>/}}"];
  c5:l -> c6;
  c6 [shape=Mrecord, label="{cell 6|150|{1200|3400}}"];
}
"#;

/// What examples/stack.c has to write: for n cells (n - 1) / 2 words, rounded down, and 3 * n visits. Ten words are full after ten
/// pushes, after twenty and so on up to 1,990, each time with one more to come.
const LARGEST: &str = "4000 cells, words of stack at most: 1999\n\
    with a stack of 1999: enough, checks: 0\n\
    with a stack of 10: enough, checks: 199\n\
    by link reversal: 12000 visits\n";

/// The same of boards with other numbers: two cells need no stack word, three need one, 23 push eleven times, and 24 as often.
const OTHERS: [(&[&str], &str); 5] = [
    (
        &["-DCELLS=2"],
        "2 cells, words of stack at most: 0\n\
         with a stack of 0: enough, checks: 0\n\
         with a stack of 10: enough, checks: 0\n\
         by link reversal: 6 visits\n",
    ),
    (
        &["-DCELLS=3", "-DLENT=0"],
        "3 cells, words of stack at most: 1\n\
         with a stack of 1: enough, checks: 0\n\
         with a stack of 0: too short, link reversal did the work, checks: 1\n\
         by link reversal: 9 visits\n",
    ),
    (
        &["-DCELLS=23"],
        "23 cells, words of stack at most: 11\n\
         with a stack of 11: enough, checks: 0\n\
         with a stack of 10: enough, checks: 1\n\
         by link reversal: 69 visits\n",
    ),
    // Five words: a check for the sixth push, and one for the eleventh.
    (
        &["-DCELLS=24", "-DLENT=5"],
        "24 cells, words of stack at most: 11\n\
         with a stack of 11: enough, checks: 0\n\
         with a stack of 5: enough, checks: 2\n\
         by link reversal: 72 visits\n",
    ),
    // One word: a check for each push but the first.
    (
        &["-DCELLS=24", "-DLENT=1"],
        "24 cells, words of stack at most: 11\n\
         with a stack of 11: enough, checks: 0\n\
         with a stack of 1: enough, checks: 10\n\
         by link reversal: 72 visits\n",
    ),
];

/// Images of random pools, some damaged: the program draws what the model reads, or tells the refusal.
fn draws(program: &Path, count: usize) {
    let mut random = Random::new(11);
    let (mut drawn, mut refused) = (0, 0);
    while drawn < count || refused < count {
        let n = generate::cells(&mut random);
        let image = generate::image(&mut random, n);
        let output = fed(program, &image);
        match parse(&image, MOST_CELLS) {
            Ok((pool, rest)) => {
                let kept = pool.cells.iter().take_while(|cell| is_used(cell.state)).count();
                assert_eq!(text(&output.stdout), graph(&pool, kept as u32));
                assert_eq!(output.stderr.is_empty(), rest == image.len());
                assert_eq!(output.status.code(), Some(0));
                drawn += 1;
            }
            Err(cause) => {
                let told = format!("draw: refused with {}: ", u32::from(cause));
                assert!(text(&output.stderr).starts_with(&told), "{told}{}", text(&output.stderr));
                assert_eq!((output.stdout.len(), output.status.code()), (0, Some(1)));
                refused += 1;
            }
        }
    }
}

#[test]
fn installed_into_an_empty_folder_the_examples_build_and_run() {
    let prefix = empty("installed").join("new");
    let copy = copy_of_the_sources("sources");
    let output = install(&copy.join("install"), &copy.join("lib"), &[prefix.to_str().expect("a plain path")]);
    assert_eq!((text(&output.stderr), output.status.code()), (String::new(), Some(0)));
    let mut expected =
        vec!["include/cellpool.h".to_string(), "lib/libcellpool.a".into(), "lib/pkgconfig/cellpool.pc".into()];
    expected.extend(files(&file("../examples")).into_iter().map(|name| format!("share/doc/cellpool/examples/{name}")));
    assert_eq!(files(&prefix), expected);
    let header = fs::read_to_string(prefix.join("include/cellpool.h")).expect("the header is there");
    let part = |name: &str| {
        let line = header.lines().find_map(|line| line.strip_prefix(&format!("#define CELLPOOL_VERSION_{name} ")));
        line.expect("the header has a version").to_string()
    };
    let version = format!("\nVersion: {}.{}.{}\n", part("MAJOR"), part("MINOR"), part("PATCH"));
    let pc = fs::read_to_string(prefix.join("lib/pkgconfig/cellpool.pc")).expect("the file is there");
    assert!(pc.contains(&version), "{pc}");

    let flags = flags(&prefix);
    let folder = prefix.join("share/doc/cellpool/examples");
    let survey = fs::read(folder.join("survey.txt")).expect("the script is there");
    let (replies, words) = script::run(&PlainRust, &survey, &[]);
    assert_eq!(replies, REPLIES);
    let image = Pool::decode(&words).expect("the script makes a pool").image();
    let mut built = 0;
    for compiler in compilers() {
        for standard in compiler.2 {
            let firmware = build(&folder, &["firmware.c", "firmware_main.c"], &compiler, standard, &flags);
            let output = fed(&firmware, b"");
            assert_eq!(text(&output.stdout).lines().last(), Some("all as expected"), "{}", text(&output.stdout));
            assert!(output.status.success());
            let draw = build(&folder, &["draw.c"], &compiler, standard, &flags);
            let output = fed(&draw, &image);
            assert_eq!(
                (text(&output.stdout).as_str(), output.stderr.len(), output.status.code()),
                (SURVEY, 0, Some(0))
            );
            let program = build(&folder, &["stack.c"], &compiler, standard, &flags);
            assert_eq!(text(&fed(&program, b"").stdout), LARGEST);
            built += 1;
        }
    }
    assert!(built >= 2, "no compiler");
    for (numbers, told) in OTHERS {
        let flags = [flags.clone(), numbers.iter().map(|number| number.to_string()).collect()].concat();
        let compiler = &compilers()[0];
        let output = fed(&build(&folder, &["stack.c"], compiler, compiler.2[0], &flags), b"");
        assert_eq!((text(&output.stdout).as_str(), output.status.code()), (told, Some(0)));
    }
    draws(&folder.join("draw.out"), rounds(40));
    // The longest image: as many points as there can be, K and registers of two bytes, numbers of five; and the longest of pairs,
    // with links of two.
    let all = MOST_CELLS as u32;
    let longest_of = |cell: fn(u32) -> [u32; 4]| -> Vec<u8> {
        let numbers = [all].into_iter().chain([128; 16]).chain((1..=all).flat_map(cell));
        numbers.flat_map(groups).collect()
    };
    let pairs = longest_of(|i| [0, MOST_CELLS as u32 - i / 2, MOST_CELLS as u32, u32::MAX - i]);
    assert_eq!(pairs.len(), 34 + 10 * MOST_CELLS);
    let output = fed(&folder.join("draw.out"), &pairs);
    let (pool, _) = parse(&pairs, MOST_CELLS).expect("the model reads it");
    assert_eq!((text(&output.stdout), output.stderr.len()), (graph(&pool, all), 0));
    let mut longest = longest_of(|i| [1, u32::MAX, u32::MAX - i, 1 << 28]);
    assert_eq!(longest.len(), 34 + 16 * MOST_CELLS);
    let output = fed(&folder.join("draw.out"), &longest);
    let (pool, _) = parse(&longest, MOST_CELLS).expect("the model reads it");
    assert_eq!(text(&output.stdout), graph(&pool, all));
    assert!(output.stderr.is_empty() && output.status.success());
    for behind in [1, 100_000] {
        longest.resize(34 + 16 * MOST_CELLS + behind, 0);
        let output = fed(&folder.join("draw.out"), &longest);
        assert_eq!(text(&output.stdout), graph(&pool, all));
        assert_eq!(text(&output.stderr), "draw: there are bytes behind the image\n");
        assert!(output.status.success());
    }
    let kind = [[1].as_slice(), &[0; 16], &[2]].concat();
    let refused: [(&[u8], &str); 3] = [
        (&[], "draw: refused with 6: the image is cut off\n"),
        (&[0x85, 0x00], "draw: refused with 12: a number of the image is padded\n"),
        (&kind, "draw: refused with 14: a kind of the image is unknown\n"),
    ];
    for (bytes, told) in refused {
        let output = fed(&folder.join("draw.out"), bytes);
        assert_eq!((text(&output.stderr).as_str(), output.stdout.len(), output.status.code()), (told, 0, Some(1)));
    }
}

#[test]
fn an_archive_that_is_older_or_missing_is_not_installed() {
    let copy = copy_of_the_sources("older_sources");
    let prefix = copy.join("prefix");
    let run =
        |library: &str| install(&copy.join("install"), &copy.join(library), &[prefix.to_str().expect("a plain path")]);
    for source in ["crates/source", "include/cellpool.h"] {
        let opened = File::options().write(true).open(copy.join(source)).expect("the source opens");
        let before = opened.metadata().and_then(|data| data.modified()).expect("it has a time");
        opened.set_modified(SystemTime::now() + Duration::from_secs(20)).expect("the time is set");
        let output = run("lib");
        assert_eq!(output.status.code(), Some(4));
        let told = text(&output.stderr);
        assert!(told.contains(&format!("is older than {source}")) && told.contains("rt lib --cpu=x86-64"), "{told}");
        opened.set_modified(before).expect("the time is set");
    }
    let output = run("none");
    assert_eq!(output.status.code(), Some(3));
    assert!(text(&output.stderr).contains("is missing: make it with"), "{}", text(&output.stderr));
    assert!(!prefix.exists());
    assert_eq!(run("lib").status.code(), Some(0));
    assert!(prefix.join("lib/libcellpool.a").is_file());
}

#[test]
fn wrong_arguments_of_install_are_refused() {
    let script = file("../install");
    for arguments in [&[][..], &[""], &["--unknown"], &["one", "two"], &["two words"]] {
        let output = install(&script, &library(), arguments);
        assert_eq!((output.status.code(), output.stdout.len()), (Some(2), 0), "{arguments:?}");
        assert!(!output.stderr.is_empty());
    }
    let output = install(&script, &library(), &["--help"]);
    assert_eq!((output.status.code(), output.stderr.len()), (Some(0), 0));
    assert!(text(&output.stdout).starts_with("usage: ./install PREFIX\n"));
}
