//! The clock of a recorder.

/// The recording starts five seconds after the power was switched on.
const FIRST_TIME: u64 = 5_000_000_000;

pub struct Clock {
    /// In nanoseconds.
    now: u64,
    /// Nanoseconds in a tick of the trace.
    tick: u64,
    /// The time scale of the trace.
    pub scale: &'static str,
}

impl Clock {
    /// Times have ten digits and more.
    pub fn in_ns() -> Clock {
        Clock { now: FIRST_TIME, tick: 1, scale: "ns" }
    }

    /// Times begin at 0 and stay short, since many lines go by in one tick.
    pub fn in_ms() -> Clock {
        Clock { now: 0, tick: 1_000_000, scale: "ms" }
    }

    pub fn pass(&mut self, ns: u64) {
        self.now += ns;
    }

    /// In ticks of the trace.
    pub fn time(&self) -> u64 {
        self.now / self.tick
    }
}
