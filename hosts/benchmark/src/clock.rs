//! Time used by the processor, so that what else the machine does counts little.

#[repr(C)]
struct Timespec {
    seconds: i64,
    nanoseconds: i64,
}

/// The start of C's `struct rusage` is two pairs of seconds and microseconds: in the program and in the system. What follows is not used.
#[repr(C)]
struct Usage {
    times: [i64; 4],
    rest: [i64; 14],
}

const CLOCK_THREAD_CPUTIME_ID: i32 = 3;
const RUSAGE_CHILDREN: i32 = -1;

extern "C" {
    fn clock_gettime(clock: i32, now: *mut Timespec) -> i32;
    fn getrusage(who: i32, usage: *mut Usage) -> i32;
}

/// Nanoseconds that this thread has used.
fn thread() -> f64 {
    let mut now = Timespec {
        seconds: 0,
        nanoseconds: 0,
    };
    let status = unsafe { clock_gettime(CLOCK_THREAD_CPUTIME_ID, &mut now) };
    assert_eq!(status, 0, "the thread's clock");
    now.seconds as f64 * 1e9 + now.nanoseconds as f64
}

/// Nanoseconds that programs started here have used, those that have ended.
fn children() -> f64 {
    let mut usage = Usage {
        times: [0; 4],
        rest: [0; 14],
    };
    let status = unsafe { getrusage(RUSAGE_CHILDREN, &mut usage) };
    assert_eq!(status, 0, "the programs' clock");
    (usage.times[0] + usage.times[2]) as f64 * 1e9 + (usage.times[1] + usage.times[3]) as f64 * 1e3
}

/// What the work gives, and the nanoseconds that this thread used for it.
pub fn time<T>(work: impl FnOnce() -> T) -> (T, f64) {
    let start = thread();
    let result = work();
    (result, thread() - start)
}

/// The same with the time of the programs that the work starts and waits for.
pub fn time_of_programs<T>(work: impl FnOnce() -> T) -> (T, f64) {
    let start = children();
    let result = work();
    (result, children() - start)
}

pub fn minimum(times: &[f64]) -> f64 {
    times.iter().copied().fold(f64::INFINITY, f64::min)
}

pub fn median(times: &[f64]) -> f64 {
    let mut sorted = times.to_vec();
    sorted.sort_by(|a, b| a.partial_cmp(b).expect("a time is a number"));
    sorted[sorted.len() / 2]
}

#[cfg(test)]
mod tests {
    use super::*;

    #[test]
    fn least_and_middle() {
        assert_eq!(minimum(&[3.0, 1.0, 2.0]), 1.0);
        assert_eq!(median(&[9.0, 1.0, 4.0]), 4.0);
    }
}
