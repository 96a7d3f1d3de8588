//! Processor times of work that is repeated, and their ratios.

#[repr(C)]
struct Timespec {
    seconds: i64,
    nanoseconds: i64,
}

extern "C" {
    fn clock_gettime(clock: i32, time: *mut Timespec) -> i32;
}

/// CLOCK_PROCESS_CPUTIME_ID, as Linux numbers it.
const PROCESS_CPU_TIME: i32 = 2;

/// How long the processors have worked for this process, in seconds: what other
/// processes take does not count.
fn cpu_seconds() -> f64 {
    let mut time = Timespec { seconds: 0, nanoseconds: 0 };
    let failed = unsafe { clock_gettime(PROCESS_CPU_TIME, &mut time) };
    assert_eq!(failed, 0, "the process has a clock");
    time.seconds as f64 + 1e-9 * time.nanoseconds as f64
}

/// The seconds of the repetitions of one measurement.
#[derive(Default)]
pub struct Times(Vec<f64>);

impl Times {
    pub fn run(&mut self, work: impl FnOnce()) {
        let start = cpu_seconds();
        work();
        self.0.push(cpu_seconds() - start);
    }

    /// The seconds of the last repetition.
    pub fn last(&self) -> f64 {
        self.0.last().copied().unwrap_or(f64::NAN)
    }

    pub fn best(&self) -> f64 {
        self.0.iter().copied().fold(f64::INFINITY, f64::min)
    }

    pub fn median(&self) -> f64 {
        let mut times = self.0.clone();
        times.sort_by(f64::total_cmp);
        times[times.len() / 2]
    }
}

pub fn print_ratio(name: &str, times: &Times, base: &Times, of: &str) {
    let (best, median) = (times.best() / base.best(), times.median() / base.median());
    println!("{name:<52}{:8.2} ms  best {best:5.2}, median {median:5.2} of {of}", 1e3 * times.best());
}
