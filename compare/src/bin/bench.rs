//! Times of the library beside the same algorithms in plain Rust and plain C, on the same words in one run; and of the
//! program runscript beside the same program in plain C.
//!
//! Each figure is the median of several samples of processor time. The samples of the implementations take turns, and a
//! ratio is the median of the ratios of one turn. BENCH_SAMPLES sets the number of samples. The arguments name the
//! sections to run; without any, all are run.

use cellpool_compare::baseline::PlainRust;
use cellpool_compare::generate::{comb_and_chain, leaves_as_points, Comb, Shape, SHAPES};
use cellpool_compare::pool::Archive;
use cellpool_compare::random::Random;
use cellpool_compare::{words_for, Interface};
use std::hint::black_box;
use std::time::Duration;

/// Processor time of one sample: long beside the clock's resolution.
const SAMPLE: Duration = Duration::from_millis(1);

/// Processor time of this thread, so that other work on the machine counts little.
#[cfg(target_os = "linux")]
fn now() -> Duration {
    #[repr(C)]
    struct Timespec {
        seconds: std::ffi::c_long,
        nanoseconds: std::ffi::c_long,
    }
    extern "C" {
        fn clock_gettime(clock: std::ffi::c_int, time: *mut Timespec) -> std::ffi::c_int;
    }
    const THREAD_CPU_TIME: std::ffi::c_int = 3;
    let mut time = Timespec { seconds: 0, nanoseconds: 0 };
    // SAFETY: the pointer is to a local structure of the layout that the function writes.
    let answer = unsafe { clock_gettime(THREAD_CPU_TIME, &mut time) };
    assert_eq!(answer, 0, "the clock is there");
    Duration::new(time.seconds as u64, time.nanoseconds as u32)
}

#[cfg(not(target_os = "linux"))]
fn now() -> Duration {
    use std::sync::OnceLock;
    use std::time::Instant;
    static START: OnceLock<Instant> = OnceLock::new();
    START.get_or_init(Instant::now).elapsed()
}

/// Cells of the pools, but for the growth with their number.
const CELLS: usize = 4000;

/// Random graphs that take turns: a processor's branch prediction learns one that comes again and again by heart.
const RANDOM_GRAPHS: usize = 16;

struct Bench {
    pools: Vec<(&'static str, &'static dyn Interface)>,
    samples: usize,
}

/// What becomes of collections with a stack: whether it is enough on every graph, or on which share, and the checks.
struct Outcome {
    enough: String,
    checks: String,
}

impl Outcome {
    /// By the library, with this stack.
    fn of(graphs: &mut [Vec<u32>], stack: &mut [u32]) -> Outcome {
        let answers: Vec<(u32, u32, u32)> = graphs
            .iter_mut()
            .map(|words| Archive.collect_stack(words, stack).expect("the pool is well-formed"))
            .collect();
        let enough = answers.iter().filter(|(_, enough, _)| *enough == 1).count();
        let enough = match answers.len() {
            all if enough == all => "yes".to_string(),
            _ if enough == 0 => "no".to_string(),
            all => format!("{enough} of {all}"),
        };
        let (least, most) = (answers.iter().map(|answer| answer.2).min(), answers.iter().map(|answer| answer.2).max());
        let (least, most) = (least.expect("there is a graph"), most.expect("there is a graph"));
        let checks = if least == most { least.to_string() } else { format!("{least} to {most}") };
        Outcome { enough, checks }
    }
}

/// Nanoseconds of one run of the library, and its time over that of each other implementation.
struct Figures {
    library: f64,
    ratios: Vec<f64>,
}

impl Figures {
    fn ratios(&self) -> String {
        self.ratios.iter().map(|ratio| format!(" {ratio:.2} |")).collect()
    }
}

fn median(mut list: Vec<f64>) -> f64 {
    list.sort_by(f64::total_cmp);
    list[list.len() / 2]
}

impl Bench {
    fn new() -> Bench {
        let samples = std::env::var("BENCH_SAMPLES").ok().map_or(25, |text| text.parse().expect("BENCH_SAMPLES"));
        let pools: Vec<(&'static str, &'static dyn Interface)> = vec![
            ("library", &Archive),
            ("plain Rust", &PlainRust),
            #[cfg(c_baseline)]
            ("plain C", &cellpool_compare::pool::PlainC),
            #[cfg(before)]
            ("before", &cellpool_compare::pool::Before),
        ];
        Bench { pools, samples }
    }

    /// Without an earlier version that has no points.
    fn with_points(&self) -> Bench {
        let has_points = |name: &str| cfg!(before_has_points) || name != "before";
        let pools = self.pools.iter().copied().filter(|(name, _)| has_points(name)).collect();
        Bench { pools, samples: self.samples }
    }

    /// The cells of a table's row for these figures, of fewer implementations maybe.
    fn ratios(&self, figures: &Figures) -> String {
        figures.ratios() + &" |".repeat(self.pools.len() - 1 - figures.ratios.len())
    }

    fn others(&self) -> String {
        self.pools[1..].iter().map(|(name, _)| format!(" library / {name} |")).collect()
    }

    /// The line under a table's heads: columns of text, then of numbers.
    fn rule(&self, text: usize, numbers: usize) {
        println!("|{}{}", "---|".repeat(text), "---:|".repeat(numbers + self.pools.len() - 1));
    }

    /// `run` works so many times and answers how long that took.
    fn measure(&self, mut run: impl FnMut(&dyn Interface, usize) -> Duration) -> Figures {
        self.take_turns(self.pools.len(), |which, repeats| run(self.pools[which].1, repeats))
    }

    /// So many ways of doing the same, of which `run` takes one: the first is the library's.
    fn take_turns(&self, ways: usize, mut run: impl FnMut(usize, usize) -> Duration) -> Figures {
        // Warm up, and find how many runs make a sample long enough.
        let mut repeats = 1;
        for way in 0..ways {
            run(way, 1);
            let once = run(way, 4).max(Duration::from_nanos(4)) / 4;
            repeats = repeats.max((SAMPLE.as_nanos() / once.as_nanos().max(1)) as usize);
        }
        let rounds: Vec<Vec<f64>> = (0..self.samples)
            .map(|_| (0..ways).map(|way| run(way, repeats).as_nanos() as f64 / repeats as f64).collect())
            .collect();
        Figures {
            library: median(rounds.iter().map(|times| times[0]).collect()),
            ratios: (1..ways)
                .map(|other| median(rounds.iter().map(|times| times[0] / times[other]).collect()))
                .collect(),
        }
    }

    /// Repeat `run` on one item after the other, each of which it must leave as it needs it to run again.
    fn repeat<T>(&self, items: &mut [T], mut run: impl FnMut(&dyn Interface, &mut T)) -> Figures {
        let count = items.len();
        self.measure(|pool, repeats| {
            let start = now();
            (0..repeats).for_each(|place| run(pool, &mut items[place % count]));
            now() - start
        })
    }

    /// A collection leaves the words of a collected pool as they are.
    fn collect(&self, graphs: &mut [Vec<u32>]) -> Figures {
        let mut items: Vec<_> = graphs.iter_mut().map(|words| (PlainRust.collect(&mut words.clone()), words)).collect();
        self.repeat(&mut items, |pool, (expected, words)| assert_eq!(pool.collect(black_box(words)), *expected))
    }

    fn stack(&self, graphs: &mut [Vec<u32>], length: usize) -> (Figures, Outcome) {
        let mut stack = vec![0; length];
        let outcome = Outcome::of(graphs, &mut stack);
        let figures = self.repeat(graphs, |pool, words| {
            assert!(pool.collect_stack(black_box(words), &mut stack).is_ok());
        });
        (figures, outcome)
    }

    /// The figures of save, and the images of each implementation: an earlier version may have another form.
    fn save(&self, graphs: &mut [Vec<u32>]) -> (Figures, Vec<Vec<Vec<u8>>>) {
        let n = graphs[0][0] as usize;
        let (mut scratch, mut out) = (vec![0; 2 * n], vec![0; 34 + 16 * n]);
        let figures = self.repeat(graphs, |pool, words| {
            pool.save(black_box(words), &mut scratch, &mut out).expect("the output is long enough");
        });
        let mut image = |pool: &dyn Interface, words: &mut Vec<u32>| {
            let bytes = pool.save(words, &mut scratch, &mut out).expect("the output is long enough");
            out[..bytes].to_vec()
        };
        let mut images = Vec::new();
        for (_, pool) in &self.pools {
            images.push(graphs.iter_mut().map(|words| image(*pool, words)).collect());
        }
        (figures, images)
    }

    /// Repeat `run` with each implementation on one of its images after the other.
    fn read(&self, images: &[Vec<Vec<u8>>], mut run: impl FnMut(&dyn Interface, &[u8])) -> Figures {
        self.take_turns(self.pools.len(), |which, repeats| {
            let (pool, images) = (self.pools[which].1, &images[which]);
            let start = now();
            (0..repeats).for_each(|place| run(pool, black_box(&images[place % images.len()])));
            now() - start
        })
    }

    fn load(&self, n: usize, images: &[Vec<Vec<u8>>]) -> Figures {
        let mut words = vec![0; words_for(n)];
        self.read(images, |pool, image| assert_eq!(pool.load(&mut words, image), (Ok(()), image.len())))
    }

    fn check(&self, n: usize, images: &[Vec<Vec<u8>>]) -> Figures {
        self.read(images, |pool, image| assert_eq!(pool.check_image(image, n as u32), Ok(())))
    }

    /// One of `count` calls that are timed together; `prepare` is not timed.
    fn calls(
        &self,
        count: usize,
        prepare: impl Fn(&mut [u32]),
        call: impl Fn(&dyn Interface, &mut [u32], u32) -> bool,
        words: &mut [u32],
    ) -> Figures {
        let figures = self.measure(|pool, repeats| {
            let once = |_| {
                prepare(words);
                let start = now();
                let done = (0..count as u32).all(|place| call(pool, black_box(words), place));
                let time = now() - start;
                assert!(done);
                time
            };
            (0..repeats).map(once).sum()
        });
        Figures { library: figures.library / count as f64, ..figures }
    }
}

/// Pools that have been collected, to be worked on in turn.
fn graphs(shape: Shape, n: usize, random: &mut Random) -> Vec<Vec<u32>> {
    let graph = |_| {
        let mut words = shape.words(n, random);
        PlainRust.collect(&mut words).expect("the pool is well-formed");
        words
    };
    (0..if shape == Shape::Random { RANDOM_GRAPHS } else { 1 }).map(graph).collect()
}

/// Graphs of one kind, to be worked on in turn.
struct Graphs {
    name: String,
    has_points: bool,
    words: Vec<Vec<u32>>,
}

impl Graphs {
    /// The implementations that take them.
    fn bench(&self, bench: &Bench) -> Bench {
        if self.has_points {
            bench.with_points()
        } else {
            Bench { pools: bench.pools.clone(), samples: bench.samples }
        }
    }
}

/// Graphs of these shapes, and with points for the leaves of those where that is half the cells.
fn all_graphs(shapes: &[Shape], n: usize, random: &mut Random) -> Vec<Graphs> {
    let mut list: Vec<Graphs> = Vec::new();
    for &shape in shapes {
        list.push(Graphs { name: shape.name().into(), has_points: false, words: graphs(shape, n, random) });
    }
    for shape in [Shape::Balanced, Shape::LeftComb] {
        if shapes.contains(&shape) {
            let words = graphs(shape, n, random).into_iter().map(|words| leaves_as_points(random, words)).collect();
            list.push(Graphs { name: format!("{}, leaves are points", shape.name()), has_points: true, words });
        }
    }
    list
}

fn collect(bench: &Bench, random: &mut Random) {
    let n = CELLS;
    println!("### Collect by link reversal, {n} cells\n");
    println!("| graph | library, µs |{}", bench.others());
    bench.rule(1, 1);
    for mut graphs in all_graphs(&SHAPES, n, random) {
        let figures = graphs.bench(bench).collect(&mut graphs.words);
        println!("| {} | {:.1} |{}", graphs.name, figures.library / 1e3, bench.ratios(&figures));
    }
}

fn stack(bench: &Bench, random: &mut Random) {
    let n = CELLS;
    println!("### Collect with a lent stack, {n} cells\n");
    println!("| graph | stack words | enough | checks | library, µs | library's reversal / stack |{}", bench.others());
    bench.rule(3, 3);
    for mut graphs in all_graphs(&SHAPES, n, random) {
        let of = graphs.bench(bench);
        let reversal = of.collect(&mut graphs.words);
        for length in [n, 16] {
            let (figures, Outcome { enough, checks }) = of.stack(&mut graphs.words, length);
            println!(
                "| {} | {length} | {enough} | {checks} | {:.1} | {:.2} |{}",
                graphs.name,
                figures.library / 1e3,
                reversal.library / figures.library,
                bench.ratios(&figures)
            );
        }
    }
}

/// The stack of the smaller board.
const FEW_WORDS: usize = 10;

/// The library's stack marker with few words, which checks a full stack, beside its reversal, beside giving up where the stack is
/// full, and beside plain code that checks.
fn checks(bench: &Bench, random: &mut Random) {
    type Way = fn(&mut [u32], &mut [u32]) -> Result<u32, u32>;
    let ways: &[(&str, Way)] = &[
        ("library", |words, stack| Archive.collect_stack(words, stack).map(|(kept, _, _)| kept)),
        ("library's reversal", |words, _| Archive.collect(words).map(|(kept, _)| kept)),
        #[cfg(c_baseline)]
        ("plain C without checks", |words, stack| {
            cellpool_compare::pool::PlainC::collect_stack_unchecked(words, stack).map(|(kept, _)| kept)
        }),
        ("plain Rust without checks", |words, stack| {
            PlainRust::collect_stack_unchecked(words, stack).map(|(kept, _)| kept)
        }),
        #[cfg(c_baseline)]
        ("plain C", |words, stack| cellpool_compare::pool::PlainC.collect_stack(words, stack).map(|(kept, _, _)| kept)),
        ("plain Rust", |words, stack| PlainRust.collect_stack(words, stack).map(|(kept, _, _)| kept)),
    ];
    let n = CELLS;
    println!("### Checks of a stack of {FEW_WORDS} words, {n} cells\n");
    let others: String = ways[1..].iter().map(|(name, _)| format!(" library / {name} |")).collect();
    println!("| graph | stack words | enough | checks | library, µs |{others}");
    println!("|---|---:|---|---:|---:|{}", "---:|".repeat(ways.len() - 1));
    // A comb whose entries are all needed, since all lead to the last two cells, and one where that is so of all held but one.
    let mut pools = all_graphs(&SHAPES, n, random);
    let entries = (n - 4) / 2;
    for (name, forks) in [("comb of forks", entries), ("comb, the first nine forks", FEW_WORDS - 1)] {
        let words = vec![comb_and_chain(random, Comb { entries, forks, points: 0, used: n }, n)];
        pools.push(Graphs { name: name.into(), has_points: false, words });
    }
    for Graphs { name, words: mut graphs, .. } in pools {
        let mut stack = [0; FEW_WORDS];
        let Outcome { enough, checks } = Outcome::of(&mut graphs, &mut stack);
        let count = graphs.len();
        let figures = bench.take_turns(ways.len(), |which, repeats| {
            let (_, way) = ways[which];
            let start = now();
            for place in 0..repeats {
                assert!(way(black_box(&mut graphs[place % count]), &mut stack).is_ok());
            }
            now() - start
        });
        let time = figures.library / 1e3;
        println!("| {name} | {FEW_WORDS} | {enough} | {checks} | {time:.1} |{}", figures.ratios());
    }
}

fn calls(bench: &Bench, random: &mut Random) {
    let n = CELLS;
    println!("### Calls, {n} cells\n");
    println!("| call | library, ns |{}", bench.others());
    bench.rule(1, 1);
    let mut words = vec![0; words_for(n)];
    let fresh = |words: &mut [u32]| {
        PlainRust.fresh(words).expect("the size is right");
    };
    let figures = bench.calls(n, fresh, |pool, words, v| pool.new_cell(words, 0, 0, 1, v).is_ok(), &mut words);
    println!("| new, a cell is free | {:.1} |{}", figures.library, figures.ratios());
    let figures = bench.calls(8 * n, fresh, |pool, words, v| pool.new_cell(words, 0, 1, 1, v).is_ok(), &mut words);
    println!("| new, its collections shared out, one cell live | {:.1} |{}", figures.library, figures.ratios());
    let points = bench.with_points();
    let figures = points.calls(n, fresh, |pool, words, v| pool.point(words, 0, v, v, 1).is_ok(), &mut words);
    println!("| point, a cell is free | {:.1} |{}", figures.library, bench.ratios(&figures));
    let figures = points.calls(8 * n, fresh, |pool, words, v| pool.point(words, 0, v, v, 1).is_ok(), &mut words);
    println!("| point, its collections shared out, one cell live | {:.1} |{}", figures.library, bench.ratios(&figures));
    let chain = Shape::LeftChain.words(n, random);
    let restart = |words: &mut [u32]| words.copy_from_slice(&chain);
    let figures = bench.calls(n - 1, restart, |pool, words, _| pool.left(words, 0, 0).is_ok(), &mut words);
    println!("| left, down a chain | {:.1} |{}", figures.library, figures.ratios());
    let figures = bench.calls(n, restart, |pool, words, v| pool.setright(words, 0, v & 1).is_ok(), &mut words);
    println!("| setright | {:.1} |{}", figures.library, figures.ratios());
    let figures = bench.calls(n, restart, |pool, words, _| pool.value(words, 0).is_ok(), &mut words);
    println!("| value | {:.1} |{}", figures.library, figures.ratios());
    let point = |words: &mut [u32]| {
        PlainRust.fresh(words).expect("the size is right");
        PlainRust.point(words, 0, 1, 2, 3).expect("a cell is free");
    };
    let figures = points.calls(n, point, |pool, words, _| pool.east(words, 0).is_ok(), &mut words);
    println!("| east | {:.1} |{}", figures.library, bench.ratios(&figures));
    let figures = points.calls(n, point, |pool, words, _| pool.north(words, 0).is_ok(), &mut words);
    println!("| north | {:.1} |{}", figures.library, bench.ratios(&figures));
    let figures = bench.calls(n, |_| (), |pool, _, v| pool.occupancy(black_box(v), n as u32).is_ok(), &mut words);
    println!("| occupancy | {:.1} |{}", figures.library, figures.ratios());
}

fn build(bench: &Bench, _: &mut Random) {
    let n = CELLS;
    println!("### Pools that are built, {n} cells\n");
    println!("| pool | library, µs |{}", bench.others());
    bench.rule(1, 1);
    type Builder = fn(&dyn Interface, &mut [u32]) -> Result<u32, u32>;
    let builders: [(&str, Builder, usize); 2] = [
        ("fresh", |pool, words| pool.fresh(words).map(|(cells, _)| cells), n),
        ("worst case for the stack", |pool, words| pool.worst_case(words), (n - 1) / 2),
    ];
    for (name, builder, number) in builders {
        let figures = bench.repeat(&mut [vec![0; words_for(n)]], |pool, words| {
            assert_eq!(builder(pool, black_box(words)), Ok(number as u32));
        });
        println!("| {name} | {:.1} |{}", figures.library / 1e3, figures.ratios());
    }
}

fn images(bench: &Bench, random: &mut Random) {
    let n = CELLS;
    println!("### Images, {n} cells\n");
    println!("| graph | function | library, ns a cell |{}", bench.others());
    bench.rule(2, 1);
    for mut graphs in all_graphs(&[Shape::Balanced, Shape::LeftChain, Shape::Random], n, random) {
        let of = graphs.bench(bench);
        let (save, images) = of.save(&mut graphs.words);
        let (load, check) = (of.load(n, &images), of.check(n, &images));
        for (name, figures) in [("save", save), ("load", load), ("check", check)] {
            println!("| {} | {name} | {:.1} |{}", graphs.name, figures.library / n as f64, bench.ratios(&figures));
        }
    }
}

fn growth(bench: &Bench, random: &mut Random) {
    println!("### Growth with the number of cells: the library's ns a cell (library / plain Rust)\n");
    let sizes = [500, 1000, 2000, 4000];
    println!("| graph | function |{}", sizes.map(|n| format!(" N = {n} |")).concat());
    println!("|---|---|{}", "---:|".repeat(sizes.len()));
    for shape in [Shape::Balanced, Shape::LeftChain, Shape::Ladder, Shape::Random] {
        let mut rows = ["collect", "collect with a stack", "save", "load"].map(|name| (name, String::new()));
        for n in sizes {
            let mut graphs = graphs(shape, n, random);
            let (save, images) = bench.save(&mut graphs);
            let load = bench.load(n, &images);
            let collect = bench.collect(&mut graphs);
            let (stack, _) = bench.stack(&mut graphs, n);
            for (row, figures) in rows.iter_mut().zip([collect, stack, save, load]) {
                row.1 += &format!(" {:.1} ({:.2}) |", figures.library / n as f64, figures.ratios[0]);
            }
        }
        for (name, cells) in rows {
            println!("| {} | {name} |{cells}", shape.name());
        }
    }
}

/// Processor time, of the user and of the system, of the children that have ended.
#[cfg(all(c_baseline, target_os = "linux"))]
fn children() -> Duration {
    use std::ffi::{c_int, c_long};
    #[repr(C)]
    struct Timeval {
        seconds: c_long,
        microseconds: c_long,
    }
    #[repr(C)]
    struct Usage {
        user: Timeval,
        system: Timeval,
        others: [c_long; 14],
    }
    extern "C" {
        fn getrusage(who: c_int, usage: *mut Usage) -> c_int;
    }
    const CHILDREN: c_int = -1;
    let zero = || Timeval { seconds: 0, microseconds: 0 };
    let mut usage = Usage { user: zero(), system: zero(), others: [0; 14] };
    // SAFETY: the pointer is to a local structure of the layout that the function writes.
    let answer = unsafe { getrusage(CHILDREN, &mut usage) };
    assert_eq!(answer, 0, "the usage is there");
    [usage.user, usage.system]
        .iter()
        .map(|time| Duration::from_secs(time.seconds as u64) + Duration::from_micros(time.microseconds as u64))
        .sum()
}

/// The program runscript and the same program in plain C, each on a file and into nothing.
#[cfg(all(c_baseline, target_os = "linux"))]
fn scripts(bench: &Bench, random: &mut Random) {
    use cellpool_compare::{generate, script};
    use std::fs::{self, File};
    use std::path::Path;
    use std::process::{Command, Stdio};

    type Maker = fn(&mut Random, usize, usize) -> String;
    const LINES: usize = 1_000_000;
    println!("### Scripts, {LINES} lines, {CELLS} cells\n");
    let Some(program) = script::program() else {
        println!("`rt run` in crates/runscript builds the program; or set CELLPOOL_RUNSCRIPT to its path.");
        return;
    };
    let plain = Path::new(env!("PLAIN_RUNSCRIPT"));
    println!("| script | MB | replies, MB | runscript, ns a line | plain C, ns a line | runscript / plain C |");
    println!("|---|{}", "---:|".repeat(5));
    let path = std::env::temp_dir().join(format!("cellpool-bench-{}.txt", std::process::id()));
    let makers: [(&str, Maker); 2] =
        [("calls of every kind", generate::mixed_script), ("`new`, at most 15 cells live", generate::new_script)];
    for (name, maker) in makers {
        let text = maker(random, LINES, CELLS);
        fs::write(&path, &text).expect("the script is written");
        let command = |program: &Path| {
            let mut command = Command::new(program);
            command.stdin(File::open(&path).expect("the script is there"));
            command
        };
        let expected = script::replies(&PlainRust, text.as_bytes());
        for program in [&program, plain] {
            let output = command(program).output().expect("the program starts");
            assert!(output.stdout == expected.as_bytes(), "{}: other replies", program.display());
        }
        let time = |program: &Path| {
            let start = children();
            let status = command(program).stdout(Stdio::null()).status().expect("the program starts");
            assert!(status.success());
            (children() - start).as_nanos() as f64 / LINES as f64
        };
        let rounds: Vec<(f64, f64)> = (0..bench.samples).map(|_| (time(&program), time(plain))).collect();
        println!(
            "| {name} | {:.1} | {:.1} | {:.1} | {:.1} | {:.2} |",
            text.len() as f64 / 1e6,
            expected.len() as f64 / 1e6,
            median(rounds.iter().map(|times| times.0).collect()),
            median(rounds.iter().map(|times| times.1).collect()),
            median(rounds.iter().map(|times| times.0 / times.1).collect())
        );
    }
    fs::remove_file(&path).expect("the script is removed");
}

#[cfg(not(all(c_baseline, target_os = "linux")))]
fn scripts(_: &Bench, _: &mut Random) {
    println!("### Scripts\n\nThis section needs a C compiler and Linux.");
}

type Section = fn(&Bench, &mut Random);

const SECTIONS: [(&str, Section); 8] = [
    ("collect", collect),
    ("stack", stack),
    ("checks", checks),
    ("calls", calls),
    ("build", build),
    ("images", images),
    ("growth", growth),
    ("scripts", scripts),
];

fn main() {
    let wanted: Vec<String> = std::env::args().skip(1).collect();
    for name in &wanted {
        let names = SECTIONS.map(|(name, _)| name);
        assert!(names.contains(&name.as_str()), "no section `{name}`; the sections are {}", names.join(", "));
    }
    let bench = Bench::new();
    println!(
        "Median of {} samples; every cell of a graph is reached, except in random ones, of which {RANDOM_GRAPHS} take turns.",
        bench.samples
    );
    for (name, section) in SECTIONS {
        if wanted.is_empty() || wanted.iter().any(|other| other == name) {
            println!();
            section(&bench, &mut Random::new(7));
        }
    }
}
