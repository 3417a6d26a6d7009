//! Both sides of a row, turn about, and what came of it.

use std::hint::black_box;

/// How long a sample of the Rust is, in nanoseconds: short, so that some samples are left alone by whatever else runs.
const SAMPLE: f64 = 400_000.0;

/// A row: what is called on either side, what its cost is told per, and the bar.
pub struct Row {
    pub name: String,
    /// The most that proved / Rust may come to; none where nothing is asked.
    pub bar: Option<f64>,
    pub unit: &'static str,
    pub units: f64,
    pub proved: Box<dyn FnMut() -> u64>,
    pub rust: Box<dyn FnMut() -> u64>,
}

/// What a row came to: the best of either side in nanoseconds per unit, and the quarters of the ratios run by run.
pub struct Times {
    pub proved: f64,
    pub rust: f64,
    pub quarters: (f64, f64),
}

impl Times {
    pub fn ratio(&self) -> f64 {
        self.proved / self.rust
    }
}

/// The processor time of this thread, in nanoseconds: other work on the machine is not counted.
fn now() -> u64 {
    #[repr(C)]
    struct Time(i64, i64);
    unsafe extern "C" {
        fn clock_gettime(clock: i32, time: *mut Time) -> i32;
    }
    let mut time = Time(0, 0);
    assert_eq!(unsafe { clock_gettime(3, &mut time) }, 0); // CLOCK_THREAD_CPUTIME_ID
    time.0 as u64 * 1_000_000_000 + time.1 as u64
}

/// The time of one call out of `repeat`, behind one that is not counted.
fn once(call: &mut dyn FnMut() -> u64, repeat: u32) -> f64 {
    black_box(call());
    let start = now();
    for _ in 0..repeat {
        black_box(call());
    }
    (now() - start) as f64 / repeat as f64
}

/// Runs all rows, one behind the other, `runs` times: a row's samples are spread over the whole time, and in each run its two
/// sides stand side by side. Both sides must give one answer.
pub fn run(rows: &mut [Row], runs: u32) -> Vec<Times> {
    let mut repeats = vec![];
    for row in rows.iter_mut() {
        assert_eq!((row.proved)(), (row.rust)(), "{}: two answers", row.name);
        repeats.push((SAMPLE / once(&mut row.rust, 3)).ceil() as u32);
    }
    let mut samples = vec![vec![]; rows.len()];
    for _ in 0..runs {
        for (k, row) in rows.iter_mut().enumerate() {
            let proved = once(&mut row.proved, repeats[k]);
            samples[k].push((proved, once(&mut row.rust, repeats[k])));
        }
    }
    rows.iter()
        .zip(samples)
        .map(|(row, samples)| times(row.units, &samples))
        .collect()
}

/// The best of either side, and the quarters.
fn times(units: f64, samples: &[(f64, f64)]) -> Times {
    let best = |side: fn(&(f64, f64)) -> f64| samples.iter().map(side).fold(f64::MAX, f64::min);
    let mut ratios: Vec<f64> = samples.iter().map(|(proved, rust)| proved / rust).collect();
    ratios.sort_by(f64::total_cmp);
    Times {
        proved: best(|sample| sample.0) / units,
        rust: best(|sample| sample.1) / units,
        quarters: (ratios[ratios.len() / 4], ratios[ratios.len() * 3 / 4]),
    }
}
