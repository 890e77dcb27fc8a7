//! Times a scenario on both, in turns, and takes the best and the median.

use std::time::{Duration, Instant};

use crate::{
    agree::agree,
    library::{self, Library, Times},
    rust::Rust,
    scenario::{Operation, Scenario},
};

/// Repetitions: those of the warm-up aren't counted, then as many as fit into the
/// time, but never fewer or more than so many.
const WARM_UP: usize = 2;
const FEWEST: usize = 7;
const MOST: usize = 2_000;
const TIME: Duration = Duration::from_secs(8);

/// Nanoseconds per packet.
#[derive(Clone, Copy)]
pub struct Figures {
    pub rust: f64,
    pub library: f64,
    /// What `reports` took beside each call: the check of the books, and almost
    /// nothing else.
    pub check: f64,
}

impl Figures {
    /// A difference, not a measurement.
    pub fn without(&self) -> f64 {
        self.library - self.check
    }
}

pub struct Measured {
    pub operation: Operation,
    pub packets: u32,
    /// Calls that were timed in one repetition.
    pub calls: usize,
    pub units: u32,
    pub repetitions: usize,
    pub best: Figures,
    pub median: Figures,
}

/// What reading the clock twice takes.
pub fn clock() -> Duration {
    let once = |_| Instant::now().elapsed();
    middle(&mut (0..10_001).map(once).collect::<Vec<_>>())
}

fn middle(times: &mut [Duration]) -> Duration {
    times.sort_unstable();
    times[times.len() / 2]
}

fn best(times: &mut [Duration]) -> Duration {
    *times.iter().min().expect("some repetitions")
}

/// Each call's time picked of its repetitions, and their sum.
fn sum(repetitions: &[Vec<Duration>], pick: fn(&mut [Duration]) -> Duration) -> Duration {
    let of = |call: usize| {
        pick(
            &mut repetitions
                .iter()
                .map(|times| times[call])
                .collect::<Vec<_>>(),
        )
    };
    (0..repetitions[0].len()).map(of).sum()
}

/// Of all repetitions, the times of each call.
#[derive(Default)]
struct Repetitions {
    rust: Vec<Vec<Duration>>,
    library: Vec<Vec<Duration>>,
    checks: Vec<Vec<Duration>>,
}

/// One repetition of the Rust, which begins anew each time.
fn time_rust(scenario: &Scenario, library: &Library) -> Vec<Duration> {
    let mut rust = Rust::new(&scenario.settings);
    rust.lead_up(&scenario.before);
    let calls = scenario
        .timed
        .iter()
        .map(|call| rust.prepare(call))
        .collect();
    let times = rust.time(calls);
    assert_eq!(rust.reports(), library.reports(), "the two end differently");
    times
}

/// Both in turns, so that what disturbs one disturbs the other.
fn repeat(scenario: &Scenario, mut library: Library) -> Repetitions {
    let calls: Vec<_> = scenario.timed.iter().map(library::prepare).collect();
    let mut all = Repetitions::default();
    let begun = Instant::now();
    for done in 0..WARM_UP + MOST {
        if done >= WARM_UP + FEWEST && begun.elapsed() > TIME {
            break;
        }
        let Times { calls, checks } = library.time(&calls);
        let rust = time_rust(scenario, &library);
        if done >= WARM_UP {
            all.library.push(calls);
            all.checks.push(checks);
            all.rust.push(rust);
        }
    }
    all
}

pub fn measure(scenario: &Scenario, clock: Duration) -> Result<Measured, String> {
    let all = repeat(scenario, agree(scenario)?);
    let calls = scenario.timed.len();
    let per = |time: Duration| {
        let net = time.saturating_sub(clock * calls as u32);
        net.as_nanos() as f64 / f64::from(scenario.units)
    };
    let figures = |pick: fn(&mut [Duration]) -> Duration| Figures {
        rust: per(sum(&all.rust, pick)),
        library: per(sum(&all.library, pick)),
        check: per(sum(&all.checks, pick)),
    };
    Ok(Measured {
        operation: scenario.operation,
        packets: scenario.packets,
        calls,
        units: scenario.units,
        repetitions: all.rust.len(),
        best: figures(best),
        median: figures(middle),
    })
}
