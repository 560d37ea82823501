//! Contenders over the same input, timed by turns.
use std::any::Any;
use std::hint::black_box;
use std::time::{Duration, Instant};

/// Fewest and most rounds of a race, whatever its time allows.
const ROUNDS: (usize, usize) = (5, 2000);

/// One pass over the input: its checksum, and what it leaves behind, which is freed after the clock has stopped.
pub struct Pass {
    pub sum: u64,
    left: Option<Box<dyn Any>>,
}

impl Pass {
    pub fn leaving(sum: u64, left: impl Any) -> Self {
        Self {
            sum,
            left: Some(Box::new(left)),
        }
    }
}

impl From<u64> for Pass {
    fn from(sum: u64) -> Self {
        Self { sum, left: None }
    }
}

pub type Contender<'a> = Box<dyn FnMut() -> Pass + 'a>;

/// A contender of which nothing is left behind.
pub fn plain<'a>(mut run: impl FnMut() -> u64 + 'a) -> Contender<'a> {
    Box::new(move || run().into())
}

/// Seconds a pass.
#[derive(Clone, Copy, Default)]
pub struct Times {
    pub least: f64,
    pub median: f64,
}

impl Times {
    fn of(mut passes: Vec<f64>) -> Self {
        passes.sort_by(f64::total_cmp);
        Self {
            least: passes[0],
            median: passes[passes.len() / 2],
        }
    }
}

/// Ends the run: an answer was wrong, so no time counts.
pub fn wrong(what: &str) -> ! {
    eprintln!("bench: WRONG ANSWER: {what}");
    std::process::exit(1)
}

/// Seconds that this thread has run. The standard library does not tell them.
fn thread_time() -> f64 {
    const CLOCK_THREAD_CPUTIME_ID: i32 = 3;
    unsafe extern "C" {
        fn clock_gettime(clock: i32, time: *mut [i64; 2]) -> i32;
    }
    let mut time = [0; 2];
    unsafe { clock_gettime(CLOCK_THREAD_CPUTIME_ID, &mut time) };
    time[0] as f64 + time[1] as f64 * 1e-9
}

/// A pass, and how long it took: the time that went by or, where other programs took the core meanwhile, the time that the
/// thread ran. On some virtual machines the thread's clock stands still now and then: what is far too little is not taken.
/// Every pass of every contender must have the same checksum.
fn pass(what: &str, run: &mut Contender, sum: Option<u64>) -> (u64, f64) {
    let ran = thread_time();
    let began = Instant::now();
    let pass = black_box(run());
    let went_by = began.elapsed().as_secs_f64();
    let ran = thread_time() - ran;
    let took = if ran < went_by / 10.0 {
        went_by
    } else {
        went_by.min(ran)
    };
    drop(pass.left);
    if sum.is_some_and(|sum| sum != pass.sum) {
        wrong(&format!("{what}: checksums differ"));
    }
    (pass.sum, took)
}

/// Runs the contenders by turns, A, B, A, B .., so that what disturbs the machine disturbs all alike.
pub fn race(allowed: Duration, what: &str, mut runs: Vec<Contender>) -> Vec<Times> {
    let mut sum = None;
    let mut one_round = 0.0;
    for run in &mut runs {
        let (s, took) = pass(what, run, sum);
        sum = Some(s);
        one_round += took;
    }
    let rounds = (allowed.as_secs_f64() / one_round) as usize;
    let mut passes = vec![Vec::new(); runs.len()];
    for _ in 0..rounds.clamp(ROUNDS.0, ROUNDS.1) {
        for (run, mine) in runs.iter_mut().zip(&mut passes) {
            mine.push(pass(what, run, sum).1);
        }
    }
    passes.into_iter().map(Times::of).collect()
}
