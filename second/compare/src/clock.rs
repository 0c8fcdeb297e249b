//! Three programs at the same work, taking turns: the library, the second
//! program, the quick program. Time is what the thread has of a processor, so
//! that other work on the machine hardly counts.

use std::time::Duration;

/// How long each program is timed, and how many rounds it has at least.
const EACH: Duration = Duration::from_millis(150);
const FEWEST: usize = 3;
/// A round of a short call is made of so many calls that it takes this long.
const ROUND: Duration = Duration::from_micros(20);

/// The same work, done by each of the three.
pub struct Work<'a> {
    pub library: Box<dyn FnMut() + 'a>,
    pub second: Box<dyn FnMut() + 'a>,
    pub quick: Box<dyn FnMut() + 'a>,
}

/// Microseconds of each: the median of its rounds.
#[derive(Clone, Copy)]
pub struct Times {
    pub library: f64,
    pub second: f64,
    pub quick: f64,
}

impl Work<'_> {
    /// Nothing is cleared between rounds.
    pub fn times(self) -> Times {
        let mut programs = [self.library, self.second, self.quick].map(Timed::new);
        while programs.iter().any(|program| !program.is_done()) {
            for program in &mut programs {
                if !program.is_done() {
                    program.round();
                }
            }
        }
        let [library, second, quick] = programs.map(Timed::median);
        Times {
            library,
            second,
            quick,
        }
    }
}

struct Timed<'a> {
    call: Box<dyn FnMut() + 'a>,
    calls: u32,
    spent: Duration,
    rounds: Vec<f64>,
}

impl<'a> Timed<'a> {
    fn new(mut call: Box<dyn FnMut() + 'a>) -> Timed<'a> {
        let first = time(&mut call, 1);
        let calls = ROUND.as_nanos() / first.as_nanos().max(1);
        Timed {
            call,
            calls: calls.clamp(1, 100) as u32,
            spent: Duration::ZERO,
            rounds: Vec::new(),
        }
    }

    fn is_done(&self) -> bool {
        self.spent >= EACH && self.rounds.len() >= FEWEST
    }

    fn round(&mut self) {
        let spent = time(&mut self.call, self.calls);
        self.spent += spent;
        self.rounds
            .push(spent.as_secs_f64() * 1e6 / f64::from(self.calls));
    }

    fn median(mut self) -> f64 {
        self.rounds.sort_by(f64::total_cmp);
        self.rounds[self.rounds.len() / 2]
    }
}

fn time(call: &mut dyn FnMut(), calls: u32) -> Duration {
    let began = thread_time();
    for _ in 0..calls {
        call();
    }
    thread_time() - began
}

/// The time that this thread has had a processor.
fn thread_time() -> Duration {
    extern "C" {
        fn clock_gettime(clock: i32, time: &mut [i64; 2]) -> i32;
    }
    const CLOCK_THREAD_CPUTIME_ID: i32 = 3;
    let mut time = [0; 2];
    // SAFETY: on a 64-bit Linux the call fills two numbers of 64 bits, which are
    // lent for it alone.
    let code = unsafe { clock_gettime(CLOCK_THREAD_CPUTIME_ID, &mut time) };
    assert_eq!(code, 0, "no clock for this thread");
    Duration::new(time[0] as u64, time[1] as u32)
}
