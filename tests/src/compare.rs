//! Drawn cases, run by every implementation and compared byte for byte: the result and the whole output buffer. The misses,
//! which are asked for in the same way, are compared likewise.

use std::fmt::Write;
use std::sync::atomic::{AtomicU64, Ordering};

use crate::cases::{self, Case};
use crate::coverage::Coverage;
use crate::fast::{self, Cells, NextDue};
use crate::guard::{self, GuardedRun, Run, Side};
use crate::{plain, shrink};

/// An implementation of the run, or of the misses.
#[derive(Clone, Copy)]
pub struct Implementation {
    pub name: &'static str,
    pub run: Run,
    /// Its memory is guarded, on both sides in turn: C could reach outside.
    pub guarded: bool,
}

/// What all others are compared with.
pub const FAST: Implementation = Implementation { name: "fast", run: fast::run::<NextDue>, guarded: false };

pub const CELLS: Implementation = Implementation { name: "fast with cells", run: fast::run::<Cells>, guarded: false };

pub const PLAIN: Implementation = Implementation { name: "plain scheduler", run: plain::run, guarded: false };

#[cfg(feature = "linked")]
pub const SUBJECT: Implementation = Implementation { name: "osek_run", run: crate::subject::run, guarded: true };

/// Every implementation but [`FAST`].
pub fn others() -> Vec<Implementation> {
    vec![
        #[cfg(feature = "linked")]
        SUBJECT,
        CELLS,
        PLAIN,
    ]
}

/// The misses that all others are compared with.
pub const FAST_MISSES: Implementation =
    Implementation { name: "misses of fast", run: fast::misses::<NextDue>, guarded: false };

#[cfg(feature = "linked")]
pub const SUBJECT_MISSES: Implementation =
    Implementation { name: "osek_misses", run: crate::subject::misses, guarded: true };

/// The misses of every other implementation.
pub fn other_misses() -> Vec<Implementation> {
    vec![
        #[cfg(feature = "linked")]
        SUBJECT_MISSES,
        Implementation { name: "misses of fast with cells", run: fast::misses::<Cells>, guarded: false },
        Implementation { name: "misses of the plain scheduler", run: plain::misses, guarded: false },
    ]
}

/// A result and the output buffer after the run.
pub type Outcome = (u64, Vec<u8>);

pub fn outcome(implementation: Implementation, case: &Case) -> Outcome {
    let mut out = case.prefilled();
    let result = (implementation.run)(&case.config, &case.trace, &mut out);
    (result, out)
}

/// The outcomes of an implementation: one, or, guarded, one for each side.
fn outcomes(implementation: Implementation, case: &Case, memory: &mut GuardedRun) -> Vec<Outcome> {
    if implementation.guarded {
        [Side::Before, Side::After].map(|side| memory.run(implementation.run, case, side)).into()
    } else {
        vec![outcome(implementation, case)]
    }
}

/// Compares runs of a case; a difference is told in full, with the shortest trace that still shows it.
pub fn check(case: &Case, implementations: &[Implementation], memory: &mut GuardedRun) -> Result<Outcome, String> {
    check_with(FAST, case, implementations, memory)
}

/// Compares the misses of a case, whose output is the list.
pub fn check_misses(case: &Case, memory: &mut GuardedRun) -> Result<Outcome, String> {
    check_with(FAST_MISSES, case, &other_misses(), memory)
}

fn check_with(
    first: Implementation,
    case: &Case,
    implementations: &[Implementation],
    memory: &mut GuardedRun,
) -> Result<Outcome, String> {
    let expected = outcome(first, case);
    for implementation in implementations {
        if outcomes(*implementation, case, memory).iter().any(|outcome| *outcome != expected) {
            return Err(describe(first, case, *implementation));
        }
    }
    Ok(expected)
}

fn describe(first: Implementation, case: &Case, implementation: Implementation) -> String {
    let first_difference = |case: &Case| {
        let expected = outcome(first, case);
        let differing = outcomes(implementation, case, &mut GuardedRun::default()).into_iter().find(|o| *o != expected);
        differing.map(|outcome| (expected, outcome))
    };
    let shrunk = shrink::shrink(case, |case| first_difference(case).is_some());
    let mut text = format!("{} differs from {}\n", implementation.name, first.name);
    let _ = writeln!(text, "configuration  {}", hex(&shrunk.config));
    let _ = writeln!(text, "trace          {}", hex(&shrunk.trace));
    let _ = writeln!(
        text,
        "               ({} bytes, shrunk from {}; output {} bytes, fill {})",
        shrunk.trace.len(),
        case.trace.len(),
        shrunk.out_len,
        shrunk.fill
    );
    let Some((expected, got)) = first_difference(&shrunk) else {
        return text + "the difference does not show a second time\n";
    };
    for (name, (result, out)) in [(first.name, &expected), (implementation.name, &got)] {
        let _ = writeln!(text, "{name}: {}", result_words(*result));
        let shown = out.len().min(4 * shrunk.trace.len() + 64);
        let _ = writeln!(text, "  {}", hex(&out[..shown]));
    }
    match expected.1.iter().zip(&got.1).position(|(a, b)| a != b) {
        Some(at) => _ = writeln!(text, "first byte that differs: {at}"),
        None => _ = writeln!(text, "only the results differ"),
    }
    text
}

fn result_words(result: u64) -> String {
    match result >> 32 {
        0 => format!("result {result}"),
        refusal => format!("refused {refusal} {}", result & 0xffff_ffff),
    }
}

pub fn hex(bytes: &[u8]) -> String {
    bytes.iter().map(|byte| format!("{byte:02X}")).collect::<Vec<_>>().join(" ")
}

/// Compares the runs of the cases `numbers` of a seed with `threads` threads. Returns what they covered, or the difference of
/// the lowest case that has one.
pub fn compare(
    seed: u64,
    numbers: std::ops::Range<u64>,
    threads: u64,
    implementations: &[Implementation],
) -> Result<Coverage, String> {
    let parts = each_case(seed, numbers, threads, |case, memory, coverage: &mut Coverage| {
        let (result, out) = check(&case, implementations, memory)?;
        coverage.add(&case, result, &out);
        Ok(())
    })?;
    let mut coverage = Coverage::default();
    parts.iter().for_each(|part| coverage.merge(part));
    Ok(coverage)
}

/// Compares the misses of the cases in the same way. Returns how many were counted.
pub fn compare_misses(seed: u64, numbers: std::ops::Range<u64>, threads: u64) -> Result<u64, String> {
    let parts = each_case(seed, numbers, threads, |case, memory, misses: &mut u64| {
        let (result, _) = check_misses(&cases::with_list(case), memory)?;
        *misses += if result >> 32 == 0 { result } else { 0 };
        Ok(())
    })?;
    Ok(parts.iter().sum())
}

/// Does `look` with every case, in each thread with memory and findings of its own. Returns the findings, or the difference of
/// the lowest case that has one.
fn each_case<T: Default + Send>(
    seed: u64,
    numbers: std::ops::Range<u64>,
    threads: u64,
    look: impl Fn(Case, &mut GuardedRun, &mut T) -> Result<(), String> + Sync,
) -> Result<Vec<T>, String> {
    guard::report_faults();
    let lowest = AtomicU64::new(u64::MAX);
    let work = |thread: u64| {
        let mut found = T::default();
        let mut memory = GuardedRun::default();
        for number in numbers.clone().skip(thread as usize).step_by(threads as usize) {
            if number > lowest.load(Ordering::Relaxed) {
                break;
            }
            guard::announce(seed, number);
            if let Err(difference) = look(cases::case(seed, number), &mut memory, &mut found) {
                lowest.fetch_min(number, Ordering::Relaxed);
                return Err((number, format!("seed {seed} case {number}: {difference}")));
            }
        }
        Ok(found)
    };
    let work = &work;
    std::thread::scope(|scope| {
        let workers: Vec<_> = (0..threads).map(|thread| scope.spawn(move || work(thread))).collect();
        let mut all = Vec::new();
        let mut differences = Vec::new();
        for worker in workers {
            match worker.join() {
                Ok(Ok(found)) => all.push(found),
                Ok(Err(difference)) => differences.push(difference),
                Err(panic) => std::panic::resume_unwind(panic),
            }
        }
        match differences.into_iter().min() {
            None => Ok(all),
            Some((_, text)) => Err(text),
        }
    })
}
