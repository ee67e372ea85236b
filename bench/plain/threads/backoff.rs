//! How a thread waits for another: it spins for longer and longer, and then yields its processor.

use std::hint;
use std::thread;

const LAST_SPIN: u32 = 6;

pub struct Backoff(u32);

impl Backoff {
    pub fn new() -> Backoff {
        Backoff(0)
    }

    pub fn reset(&mut self) {
        self.0 = 0;
    }

    pub fn snooze(&mut self) {
        if self.0 > LAST_SPIN {
            thread::yield_now();
            return;
        }
        for _ in 0..1 << self.0 {
            hint::spin_loop();
        }
        self.0 += 1;
    }
}
