//! Times of runs, their median and spread, and the list of everything measured.
use std::fmt::Write;
use std::time::Instant;

/// The middle and the spread of some runs.
#[derive(Clone, Copy)]
pub struct Spread {
    pub median: f64,
    pub min: f64,
    pub max: f64,
}

impl Spread {
    pub fn of(runs: &[f64]) -> Spread {
        let mut sorted = runs.to_vec();
        sorted.sort_by(f64::total_cmp);
        let middle = sorted.len() / 2;
        let median = if sorted.len() % 2 == 1 { sorted[middle] } else { (sorted[middle - 1] + sorted[middle]) / 2.0 };
        Spread { median, min: sorted[0], max: sorted[sorted.len() - 1] }
    }

    /// A count, which has no spread.
    pub fn exact(value: f64) -> Spread {
        Spread { median: value, min: value, max: value }
    }
}

/// Nanoseconds that a piece of work takes, by the monotonic clock, and what it gives.
pub fn timed<T>(work: impl FnOnce() -> T) -> (f64, T) {
    let start = Instant::now();
    let given = work();
    (start.elapsed().as_nanos() as f64, given)
}

extern "C" {
    fn clock_gettime(clock: i32, time: *mut [i64; 2]) -> i32;
}

/// The clock of the processor time that this thread has taken, on Linux.
const THREAD_TIME: i32 = 3;

fn thread_time() -> f64 {
    let mut time = [0; 2];
    assert_eq!(unsafe { clock_gettime(THREAD_TIME, &mut time) }, 0, "no clock of the thread");
    time[0] as f64 * 1e9 + time[1] as f64
}

/// As `timed`, in processor time of this thread: other work on the machine does not count. Reading it takes some tenths of a microsecond.
pub fn spent<T>(work: impl FnOnce() -> T) -> (f64, T) {
    let start = thread_time();
    let given = work();
    (thread_time() - start, given)
}

/// One measured figure: the part of the benchmark, what, at which size, and its unit.
pub struct Figure {
    pub part: &'static str,
    pub what: String,
    pub size: usize,
    pub unit: &'static str,
    pub spread: Spread,
}

#[derive(Default)]
pub struct Results(Vec<Figure>);

impl Results {
    pub fn add(&mut self, part: &'static str, what: &str, size: usize, unit: &'static str, spread: Spread) {
        self.0.push(Figure { part, what: what.to_string(), size, unit, spread });
    }

    pub fn get(&self, part: &str, what: &str, size: usize) -> Option<Spread> {
        self.0.iter().find(|f| f.part == part && f.what == what && f.size == size).map(|f| f.spread)
    }

    /// The median, unless a run gave nothing above 0: a difference lost in the spread of what it is taken from.
    pub fn median(&self, part: &str, what: &str, size: usize) -> Option<f64> {
        self.get(part, what, size).filter(|s| s.min > 0.0).map(|s| s.median)
    }

    /// The sizes at which a part has this figure, in the order measured.
    pub fn sizes(&self, part: &str, what: &str) -> Vec<usize> {
        self.0.iter().filter(|f| f.part == part && f.what == what).map(|f| f.size).collect()
    }

    pub fn tsv(&self) -> String {
        let mut out = String::from("part\twhat\tsize\tunit\tmedian\tmin\tmax\n");
        for f in &self.0 {
            let s = f.spread;
            let _ = writeln!(out, "{}\t{}\t{}\t{}\t{:.3}\t{:.3}\t{:.3}", f.part, f.what, f.size, f.unit, s.median, s.min, s.max);
        }
        out
    }
}
