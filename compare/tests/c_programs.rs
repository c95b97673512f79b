//! The header from C and C++ and what it states of the archive, the fuzz target with pseudo-random inputs,
//! and which lent memory is touched.
#![cfg(all(feature = "archive", c_baseline))]

mod common;

use cellpool_compare::random::{rounds, seed};
use cellpool_compare::refusal;
use common::c::{archive, cc, compile, file, made, run};
#[cfg(target_arch = "x86_64")]
use std::collections::{BTreeMap, BTreeSet};

#[test]
fn the_fuzz_target_finds_no_fault() {
    let sources = [file("fuzz/fuzz.c"), file("baseline/baseline.c"), archive()];
    let program = compile("fuzz", &cc(), &["-std=c99", "-O2", "-DSTANDALONE"], &sources);
    let inputs = rounds(200_000);
    let text = run(&program, &[&inputs.to_string(), &seed().to_string()]);
    assert_eq!(text, format!("{inputs} inputs, no fault\n"));
}

/// A part of the program `lent`, with the library.
fn lent(part: &str) {
    let program = compile(&format!("lent_{part}"), &cc(), &["-std=c99", "-O2"], &[file("lent/lent.c"), archive()]);
    assert_eq!(run(&program, &[part]), "0 differences\n");
}

#[test]
fn lengths_of_2_to_the_32_and_more() {
    lent("lengths");
}

#[test]
fn refused_calls_do_not_touch_their_results() {
    lent("results");
}

#[test]
fn the_plain_c_version_touches_no_other_memory() {
    let options = ["-std=c99", "-O2", "-DBASELINE_AS_CELLPOOL"];
    let program = compile("lent_plain", &cc(), &options, &[file("lent/lent.c"), file("baseline/baseline.c")]);
    for part in ["lengths", "results"] {
        assert_eq!(run(&program, &[part]), "0 differences\n");
    }
}

/// The functions in the header's table of costs, each with its bytes of stack.
#[cfg(target_arch = "x86_64")]
fn stated_stack() -> BTreeMap<String, usize> {
    let header = std::fs::read_to_string(file("../include/cellpool.h")).expect("the header is there");
    let rows = header.lines().filter_map(|line| line.strip_prefix(" *   cellpool_"));
    rows.map(|row| {
        let (first, last) = (row.split(' ').next(), row.split(' ').next_back());
        let bytes = last.and_then(|text| text.parse().ok()).expect("a row ends in bytes");
        (format!("cellpool_{}", first.expect("a row begins with a name")), bytes)
    })
    .collect()
}

#[cfg(target_arch = "x86_64")]
#[test]
fn no_function_takes_more_stack_than_the_header_states() {
    let program = compile("stack", &cc(), &["-std=c99", "-O2"], &[file("stack/stack.c"), archive()]);
    let measured: BTreeMap<String, usize> = run(&program, &[])
        .lines()
        .map(|line| line.split_once(' ').expect("a name and a number"))
        .map(|(name, bytes)| (name.to_string(), bytes.parse().expect("a number")))
        .collect();
    let stated = stated_stack();
    assert_eq!(measured.len(), 23);
    assert!(measured.keys().eq(stated.keys()), "{measured:?} {stated:?}");
    for (name, bytes) in measured {
        assert!(bytes >= 8 && bytes <= stated[&name], "{name} takes {bytes}, stated are {}", stated[&name]);
    }
}

#[cfg(target_arch = "x86_64")]
#[test]
fn the_archive_has_the_instructions_that_the_header_states() {
    let listed =
        std::process::Command::new("objdump").arg("-dr").arg(archive()).output().expect("objdump is beside ar");
    let text = String::from_utf8_lossy(&listed.stdout);
    assert!(text.contains("<cellpool_collect>:"), "objdump lists the functions");
    for register in ["%ymm", "%zmm", "%mm", "%st"] {
        assert!(!text.contains(register), "the archive uses {register}");
    }
    // The functions with registers of SSE, and those that use memory below the stack pointer.
    let (mut function, mut sse, mut below) = ("", BTreeSet::new(), BTreeSet::new());
    for line in text.lines() {
        if let Some((_, name)) = line.strip_suffix(">:").and_then(|line| line.split_once('<')) {
            function = name;
        }
        if line.contains("%xmm") {
            sse.insert(function);
        }
        if line.split([' ', '\t', ',']).any(|word| word.starts_with("-0x") && word.contains("(%rsp")) {
            below.insert(function);
        }
    }
    assert_eq!(sse, ["cellpool_worst_case"].into());
    assert_eq!(below, [].into());
    let needed = std::process::Command::new("nm").arg("-u").arg(archive()).output().expect("nm is beside ar");
    let needed = String::from_utf8_lossy(&needed.stdout).into_owned();
    let needed: Vec<&str> = needed.lines().filter_map(|line| line.trim().strip_prefix("U ")).collect();
    assert_eq!(needed, ["memset"]);
}

/// The example of a board calls the library and nothing else.
#[test]
fn the_firmware_needs_no_standard_library() {
    let options = ["-std=c99", "-O2", "-ffreestanding", "-c"];
    let object = compile("firmware.o", &cc(), &options, &[file("../examples/firmware.c")]);
    let needed = std::process::Command::new("nm").arg("-u").arg(object).output().expect("nm is beside ar");
    let needed = String::from_utf8_lossy(&needed.stdout).into_owned();
    let needed: Vec<&str> = needed.lines().filter_map(|line| line.trim().strip_prefix("U ")).collect();
    assert!(needed.len() > 5 && needed.iter().all(|name| name.starts_with("cellpool_")), "{needed:?}");
}

#[test]
fn every_answer_has_a_text_of_its_own() {
    let text = "#include \"cellpool.h\"\n\
        #include <stdio.h>\n\
        int main(void) {\n\
            uint32_t answer;\n\
            for (answer = 0; answer <= CELLPOOL_REFUSED_KIND_NUMBER + 1; answer++) puts(cellpool_refusal_text(answer));\n\
            return 0;\n\
        }\n";
    std::fs::write(made("texts.c"), text).expect("the source is written");
    let told = run(&compile("texts", &cc(), &["-std=c99", "-O2"], &[made("texts.c")]), &[]);
    let texts: Vec<&str> = told.lines().collect();
    assert_eq!(texts.len(), 16);
    assert_eq!((texts[0], texts[refusal::FULL as usize]), ("done", "no cell is free"));
    assert_eq!(texts[refusal::PADDED as usize], "a number of the image is padded");
    assert_eq!(texts[refusal::KIND as usize], "the cell is of the other kind");
    assert_eq!(texts[refusal::KIND_NUMBER as usize], "a kind of the image is unknown");
    assert_eq!(texts[15], "no answer of this library");
    assert_eq!(texts.iter().collect::<std::collections::BTreeSet<_>>().len(), 16, "{told}");
    assert!(texts.iter().all(|text| (4..=50).contains(&text.len())), "{told}");
}

#[test]
fn the_words_of_stack_and_the_checks_that_the_header_states_are_those_of_the_worst_case() {
    let text = "#include \"cellpool.h\"\n\
        #include <stdio.h>\n\
        #if CELLPOOL_STACK(0) != 0 || CELLPOOL_STACK(4000) != 1999\n\
        #error a constant of the preprocessor is another\n\
        #endif\n\
        static uint32_t words[CELLPOOL_WORDS(4000)], stack[CELLPOOL_STACK(4000)];\n\
        static void collect(uint32_t n, size_t length) {\n\
            uint32_t kept = 7777, enough = 7777, checks = 7777, answer;\n\
            answer = cellpool_collect_stack(words, CELLPOOL_WORDS(n), stack, length, &kept, &enough, &checks);\n\
            printf(\" %d %d %d %d\", (int)answer, (int)kept, (int)enough, (int)checks);\n\
        }\n\
        int main(void) {\n\
            uint32_t n, entries, answer;\n\
            for (n = 0; n <= 4000; n++) {\n\
                entries = 7777;\n\
                answer = cellpool_worst_case(words, CELLPOOL_WORDS(n), &entries);\n\
                printf(\"%d %d %d\", (int)CELLPOOL_STACK(n), (int)answer, (int)entries);\n\
                collect(n, CELLPOOL_STACK(n));\n\
                collect(n, 10);\n\
                printf(\"\\n\");\n\
            }\n\
            return 0;\n\
        }\n";
    std::fs::write(made("stack_words.c"), text).expect("the source is written");
    let told = run(&compile("stack_words", &cc(), &["-std=c99", "-O2"], &[made("stack_words.c"), archive()]), &[]);
    // With that many words no check; with ten as many as they are full, with one more to come.
    let line = |n: u32| {
        let entries = (n - 1) / 2;
        format!("{entries} 0 {entries} 0 {n} 1 0 0 {n} 1 {}\n", if entries > 10 { (entries - 1) / 10 } else { 0 })
    };
    let refused = "0 1 7777 1 7777 7777 7777 1 7777 7777 7777\n".to_string();
    assert_eq!(told, refused + &(1..=4000).map(line).collect::<String>());
}

#[test]
fn the_cells_that_the_header_states_for_a_length_are_those_of_fresh() {
    let text = "#include \"cellpool.h\"\n\
        #include <stdio.h>\n\
        #if CELLPOOL_CELLS(21) != 0 || CELLPOOL_CELLS(22) != 1 || CELLPOOL_CELLS(25) != 1 || CELLPOOL_CELLS(26) != 2\n\
        #error a constant of the preprocessor is another\n\
        #endif\n\
        #if CELLPOOL_CELLS(16018) != 4000 || CELLPOOL_CELLS(16021) != 4000 || CELLPOOL_CELLS(16022) != 0\n\
        #error a constant of the preprocessor is another\n\
        #endif\n\
        static uint32_t words[16030], scratch[CELLPOOL_SCRATCH(CELLPOOL_CELLS(16021))];\n\
        int main(void) {\n\
            size_t len;\n\
            for (len = 0; len <= 16030; len++) {\n\
                uint32_t cells = 7777, leftover = 7777, answer = cellpool_fresh(words, len, &cells, &leftover);\n\
                printf(\"%d %d %d %d\\n\", (int)CELLPOOL_CELLS(len), (int)answer, (int)cells, (int)leftover);\n\
            }\n\
            return sizeof scratch == 4 * 8000 ? 0 : 1;\n\
        }\n";
    std::fs::write(made("cells.c"), text).expect("the source is written");
    let told = run(&compile("cells", &cc(), &["-std=c99", "-O2"], &[made("cells.c"), archive()]), &[]);
    // Four lengths in a row for each number of cells, one more word left over each time.
    let accepted = (1..=4000).flat_map(|n| (0..4).map(move |e| format!("{n} 0 {n} {e}\n")));
    let refused = |count: usize| std::iter::repeat_n("0 1 7777 7777\n".to_string(), count);
    assert_eq!(told, refused(22).chain(accepted).chain(refused(9)).collect::<String>());
}

#[test]
fn an_answer_that_is_not_looked_at_is_a_warning() {
    let text = "#include \"cellpool.h\"\n\
        int main(void) {\n\
            uint32_t words[CELLPOOL_WORDS(1)], cells, leftover;\n\
            cellpool_fresh(words, CELLPOOL_WORDS(1), &cells, &leftover);\n\
            return 0;\n\
        }\n";
    std::fs::write(made("careless.c"), text).expect("the source is written");
    let compiled = std::process::Command::new(cc())
        .args(["-std=c99", "-c", "-I"])
        .args([file("../include"), made("careless.c"), "-o".into(), made("careless.o")])
        .output()
        .expect("the compiler starts");
    let told = String::from_utf8_lossy(&compiled.stderr);
    assert!(compiled.status.success() && told.contains("cellpool_fresh"), "{told}");
}

#[cfg(cpp_compiler)]
#[test]
fn the_header_serves_cpp() {
    let compiler = std::env::var("CXX").unwrap_or_else(|_| "c++".into());
    let text = "#include \"cellpool.h\"\n\
        int main() {\n\
            uint32_t words[29], cells = 0, leftover = 0;\n\
            if (cellpool_fresh(words, 29, &cells, &leftover) != CELLPOOL_OK) return 1;\n\
            return cells == 2 && leftover == 3 && CELLPOOL_CELLS(29) == 2 ? 0 : 1;\n\
        }\n";
    std::fs::write(made("header.cpp"), text).expect("the source is written");
    let program = compile("header", &compiler, &["-std=c++11", "-O2"], &[made("header.cpp"), archive()]);
    assert_eq!(run(&program, &[]), "");
}
