//! How long things take, measured in turn.

/// How often each is measured, all in turn, and for how many nanoseconds at least.
const ROUNDS: usize = 15;
const LEAST: f64 = 4e6;

/// Nanoseconds of a run.
#[derive(Clone, Copy)]
pub struct Times {
    pub least: f64,
    pub median: f64,
}

impl Times {
    /// The same of one of so many that a run has.
    pub fn over(self, runs: f64) -> Self {
        Self { least: self.least / runs, median: self.median / runs }
    }
}

/// Runs things in turn, and says how long a run of each takes.
pub fn measured<const N: usize>(mut runs: [&mut dyn FnMut(); N]) -> [Times; N] {
    let repeats = runs.each_mut().map(|run| repeats(run));
    let mut times = [(); N].map(|()| Vec::new());
    for _ in 0..ROUNDS {
        for ((run, times), repeats) in runs.iter_mut().zip(&mut times).zip(repeats) {
            let start = processor_time();
            for _ in 0..repeats {
                run();
            }
            times.push((processor_time() - start) / f64::from(repeats));
        }
    }
    times.map(|mut times| {
        times.sort_by(f64::total_cmp);
        Times { least: times[0], median: times[ROUNDS / 2] }
    })
}

/// How many runs take long enough to be measured.
fn repeats(run: &mut dyn FnMut()) -> u32 {
    let start = processor_time();
    let mut repeats = 0;
    while processor_time() - start < LEAST {
        run();
        repeats += 1;
    }
    repeats
}

/// Nanoseconds that this thread has run, without those in which others did.
fn processor_time() -> f64 {
    const THREAD: i32 = 3;
    unsafe extern "C" {
        fn clock_gettime(clock: i32, time: *mut [i64; 2]) -> i32;
    }
    let mut time = [0; 2];
    // SAFETY: on 64-bit Linux a timespec is two words, seconds and nanoseconds.
    assert_eq!(unsafe { clock_gettime(THREAD, &raw mut time) }, 0, "there is a clock for threads");
    time[0] as f64 * 1e9 + time[1] as f64
}
