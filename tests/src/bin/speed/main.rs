//! The proved library beside the second interpreter, for docs/SPEED.md: how long it takes to read, judge and run a
//! file, and how that grows with bytes, steps and entries. `tests/speed` links it to the proved code. Before a file is
//! timed, both sides have to answer the same.

mod constructs;
mod kinds;
mod ladder;
mod lessons;
mod parsers;
mod report;
mod sides;
mod tables;
mod timing;
mod works;

use kinds::KINDS;
use ladder::Work;
use report::{tenths, whole, Report};
use second::answer::judged;
use second::generate::bench_file;
use second::run::WORKING_SLOTS;
use sides::{Library, Operation, Times};
use std::ops::RangeInclusive;
use tables::{Applied, Keys, MOST_ENTRIES};

/// The most steps of a run.
const MILLION: u64 = 1_000_000;

/// The sizes and the steps between which growth is measured.
const SIZES: [usize; 5] = [256, 512, 1024, 2048, 4096];
const STEPS: [u64; 4] = [1_000, 10_000, 100_000, MILLION];

/// Generated files: their seed, how many there are, and of how many bytes.
const SEED: u64 = 9;
const GENERATED: usize = 100;
const BYTES: RangeInclusive<usize> = 140..=160;

/// How often everything is measured, so that what slows the machine for a while spoils no figure.
const SWEEPS: usize = 6;

fn main() {
    let mut library = Library::new();
    let reports = (0..SWEEPS).map(|_| measured(&mut library));
    print!("{}", reports.last().expect("there are sweeps").text);
}

/// All tables, with the shortest times so far.
fn measured(library: &mut Library) -> Report {
    let mut report = Report::default();
    small_and_large(library, &mut report);
    million_steps(library, &mut report);
    ifs(library, &mut report);
    look_ups(library, &mut report);
    growth_with_bytes(library, &mut report);
    growth_with_steps(library, &mut report);
    report
}

fn small_and_large(library: &mut Library, report: &mut Report) {
    report.table(
        "Small and large files: nanoseconds a file",
        &["file", "bytes", "steps", "", "library", "second", "library, a byte", "ratio"],
    );
    let sets = [
        ("small", vec![lessons::small()]),
        ("generated", generated()),
        ("large", vec![lessons::large()]),
        ("parser", vec![parsers::sixteen_states()]),
    ];
    for (name, files) in sets {
        let count = files.len();
        let bytes = files.iter().map(Vec::len).sum::<usize>() / count;
        let steps = files.iter().map(|bytes| library.agreed(name, bytes).expect(name)).sum::<u64>() / count as u64;
        for operation in [Operation::Read, Operation::Judge, Operation::Run] {
            let times = library.times(operation, &files);
            let file = [name.to_string(), whole(bytes as f64), whole(steps as f64), operation.name().to_string()];
            let both = [whole(times.library), whole(times.second)];
            report.row(&[&file[..], &both, &[tenths(times.over(bytes).library), tenths(times.ratio())]].concat());
        }
    }
    let zeroing = whole(library.zeroing());
    report.line(&format!("\nA run of the library sets {WORKING_SLOTS} working slots to 0. That alone: {zeroing} ns"));
}

/// Generated files that are accepted.
fn generated() -> Vec<Vec<u8>> {
    let files = (0..).map(|number| bench_file(SEED, number, *BYTES.end()));
    files.filter(|bytes| BYTES.contains(&bytes.len()) && judged(bytes).is_ok()).take(GENERATED).collect()
}

fn million_steps(library: &mut Library, report: &mut Report) {
    step_table(report, "A million steps: nanoseconds a step of a run");
    step_row(library, report, "expressions", works::expressions().file(MILLION));
    step_row(library, report, "calls", works::calls().file(MILLION));
    step_row(library, report, "calls for a value", works::values().file(MILLION));
    step_row(library, report, "tables", tables::many_steps(MILLION));
}

fn ifs(library: &mut Library, report: &mut Report) {
    step_table(report, "Ifs: nanoseconds a step of a run");
    let [short, long] = [works::short_branch(), works::long_branch()];
    let mut compare = |name: &str, ifs: fn(&[u64]) -> Work| {
        let ordinary = step_row(library, report, &format!("{name}, the other short"), ifs(&short).file(MILLION));
        let worst = step_row(library, report, &format!("{name}, the other long"), ifs(&long).file(MILLION));
        worst.library / ordinary.library
    };
    let first = compare("first branch", works::first_branches);
    let second = compare("second branch", works::second_branches);
    report.line(&format!("\nA long other branch: {first:.2} and {second:.2} times the time of a short one"));
}

fn step_table(report: &mut Report, heading: &str) {
    report.table(heading, &["run", "bytes", "steps", "library, a step", "second, a step", "ratio"]);
}

/// Tells the times of a step, and answers them.
fn step_row(library: &mut Library, report: &mut Report, name: &str, bytes: Vec<u8>) -> Times {
    let length = bytes.len();
    let steps = library.agreed(name, &bytes).expect(name);
    let times = library.times(Operation::Run, &[bytes]).over(steps as usize);
    let run = [name.to_string(), whole(length as f64), whole(steps as f64)];
    report.row(&[&run[..], &[tenths(times.library), tenths(times.second), tenths(times.ratio())]].concat());
    times
}

fn look_ups(library: &mut Library, report: &mut Report) {
    report.table(
        "Applies that find no entry: nanoseconds an apply, without the judge's time",
        &["keys", "entries", "in the file", "library, an apply", "second", "ratio", "library, an entry more"],
    );
    let kinds = [
        ("exact", Keys::Exact, &[8, 16, 32, MOST_ENTRIES][..]),
        ("lpm", Keys::Lpm, &[MOST_ENTRIES]),
        ("ternary", Keys::Ternary, &[MOST_ENTRIES]),
        ("four ternary", Keys::FourTernary, &[MOST_ENTRIES]),
    ];
    for (name, keys, counts) in kinds {
        let single = apply_row(library, report, name, tables::one_table(keys, 1, 1), None);
        for &count in counts {
            apply_row(library, report, name, tables::one_table(keys, count, count), Some(single));
        }
        apply_row(library, report, name, tables::one_table(keys, 1, MOST_ENTRIES), None);
        let worst = tables::eight_tables(keys);
        let name = format!("{name}, eight tables applied {} times", whole(worst.applies as f64));
        apply_row(library, report, &name, worst, None);
    }
}

/// Tells the times of an apply, and answers them; beside them what an entry more takes, from the times with one.
fn apply_row(library: &mut Library, report: &mut Report, name: &str, applied: Applied, single: Option<Times>) -> Times {
    let Applied { own, all, applies, bytes } = applied;
    library.agreed(name, &bytes).expect(name);
    let files = [bytes];
    let judging = library.times(Operation::Judge, &files);
    let times = library.times(Operation::Run, &files).less(judging).over(applies);
    let more = single.map_or(String::new(), |single| tenths(times.less(single).over(own - 1).library));
    let both = [whole(times.library), whole(times.second), tenths(times.ratio()), more];
    report.row(&[&[name.to_string(), own.to_string(), all.to_string()], &both[..]].concat());
    times
}

fn growth_with_bytes(library: &mut Library, report: &mut Report) {
    let sizes = SIZES.map(|size| whole(size as f64));
    let columns: Vec<&str> = ["file"].into_iter().chain(sizes.iter().map(String::as_str)).collect();
    report.table("Growth with bytes: nanoseconds a byte of the library's judge, and the ratio", &columns);
    for (name, file) in KINDS {
        let cells = SIZES.map(|size| {
            let bytes = file(size);
            let length = bytes.len();
            library.agreed(name, &bytes);
            let times = library.times(Operation::Judge, &[bytes]);
            format!("{} ({})", tenths(times.over(length).library), tenths(times.ratio()))
        });
        report.row(&[&[name.to_string()], &cells[..]].concat());
    }
}

fn growth_with_steps(library: &mut Library, report: &mut Report) {
    step_table(report, "Growth with steps: nanoseconds a step of a run");
    for (name, work) in [("expressions", works::expressions()), ("calls", works::calls())] {
        for steps in STEPS {
            step_row(library, report, name, work.file(steps));
        }
    }
}
