//! A clock that is set, in place of `std::time::Instant`: the original then does the port's work and no system call.
use std::sync::atomic::{AtomicU64, Ordering::Relaxed};
use std::time::Duration;

pub static NOW: AtomicU64 = AtomicU64::new(0);

#[derive(Clone, Copy)]
pub struct Instant(u64);

impl Instant {
    #[inline]
    pub fn now() -> Instant {
        Instant(NOW.load(Relaxed))
    }
    #[inline]
    pub fn duration_since(&self, earlier: Instant) -> Duration {
        Duration::from_nanos(self.0.saturating_sub(earlier.0))
    }
    #[inline]
    pub fn elapsed(&self) -> Duration {
        Instant::now().duration_since(*self)
    }
}
