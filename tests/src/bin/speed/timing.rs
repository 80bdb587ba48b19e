//! The times of several sides, taken in turn. They are the thread's processor time, so that other work on the machine
//! counts little.

/// In nanoseconds: how long a side's round lasts at least, and how long all rounds go on.
const ROUND: f64 = 200e3;
const ALL_ROUNDS: f64 = 100e6;
/// How many rounds there are at least.
const ROUNDS: usize = 8;

/// The clock of a thread's processor time, as Linux numbers it.
const THREAD_TIME: i32 = 3;

#[repr(C)]
struct Time {
    seconds: i64,
    nanoseconds: i64,
}

extern "C" {
    fn clock_gettime(clock: i32, time: *mut Time) -> i32;
}

/// The nanoseconds that the thread has used.
fn used() -> f64 {
    let mut time = Time { seconds: 0, nanoseconds: 0 };
    let status = unsafe { clock_gettime(THREAD_TIME, &mut time) };
    assert_eq!(status, 0, "there is no clock of the thread's time");
    time.seconds as f64 * 1e9 + time.nanoseconds as f64
}

/// The nanoseconds of one call of each side, in its shortest round.
pub fn shortest<const SIDES: usize>(mut sides: [&mut dyn FnMut(); SIDES]) -> [f64; SIDES] {
    let calls: Vec<u32> = sides.iter_mut().map(|side| calls_of(side)).collect();
    let mut least = [f64::INFINITY; SIDES];
    let start = used();
    let mut rounds = 0;
    while rounds < ROUNDS || used() - start < ALL_ROUNDS {
        for (index, side) in sides.iter_mut().enumerate() {
            least[index] = least[index].min(round(calls[index], side));
        }
        rounds += 1;
    }
    least
}

/// How many calls a round has.
fn calls_of(side: &mut dyn FnMut()) -> u32 {
    let mut calls = 1;
    while round(calls, side) * f64::from(calls) < ROUND {
        calls *= 2;
    }
    calls
}

/// The nanoseconds of a call in a round of so many.
fn round(calls: u32, side: &mut dyn FnMut()) -> f64 {
    let start = used();
    (0..calls).for_each(|_| side());
    (used() - start) / f64::from(calls)
}
