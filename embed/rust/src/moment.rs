//! Moments of the clock that a session is told.

use std::ops::Add;
use std::time::{Duration, Instant};

use crate::ffi::system;

/// A moment of a clock that does not go back, in whole milliseconds from a start that the program
/// chooses. It has to count while the machine sleeps, as [`Moment::now`] does: else answers are
/// used for longer than they were received for.
#[derive(Clone, Copy, Debug, Default, PartialEq, Eq, PartialOrd, Ord, Hash)]
pub struct Moment(u64);

impl Moment {
    /// The moment by the system's clock since it was started (`CLOCK_BOOTTIME`), rounded down.
    pub fn now() -> Moment {
        Moment(u64::try_from(system::time().as_millis()).unwrap_or(u64::MAX))
    }

    /// The first moment at which so long has passed from now on. It is rounded up, so that what
    /// ends then had all of its time.
    pub(crate) fn after(limit: Duration) -> Moment {
        Moment(rounded_up(system::time().saturating_add(limit)))
    }

    /// So many milliseconds from the start.
    pub const fn from_millis(milliseconds: u64) -> Moment {
        Moment(milliseconds)
    }

    /// The milliseconds from the start.
    pub const fn as_millis(self) -> u64 {
        self.0
    }

    /// The end of a second, counted from the start.
    pub(crate) fn end_of_second(second: u64) -> Moment {
        Moment(second.saturating_mul(1000).saturating_add(999))
    }

    /// How long it is from an earlier moment to this one; nothing where it is none.
    pub fn saturating_duration_since(self, earlier: Moment) -> Duration {
        Duration::from_millis(self.0.saturating_sub(earlier.0))
    }

    /// The `Instant` of it, as of a moment that is now.
    pub(crate) fn instant(self, now: Moment) -> Instant {
        let (start, left) = (Instant::now(), self.saturating_duration_since(now));
        start.checked_add(left).unwrap_or(start)
    }
}

/// The first moment at which so long has passed; the last one where there is no such.
impl Add<Duration> for Moment {
    type Output = Moment;

    fn add(self, duration: Duration) -> Moment {
        Moment(self.0.saturating_add(rounded_up(duration)))
    }
}

/// Milliseconds, of which one that has begun counts whole.
fn rounded_up(duration: Duration) -> u64 {
    u64::try_from(duration.as_nanos().div_ceil(1_000_000)).unwrap_or(u64::MAX)
}

#[cfg(test)]
mod tests {
    use super::*;

    #[test]
    fn what_ends_later_is_rounded_up() {
        let start = Moment::from_millis(7);
        for (nanoseconds, wanted) in [(0, 7), (1, 8), (1_000_000, 8), (1_000_001, 9)] {
            assert_eq!(
                (start + Duration::from_nanos(nanoseconds)).as_millis(),
                wanted
            );
        }
        assert_eq!((start + Duration::MAX).as_millis(), u64::MAX);
    }

    #[test]
    fn all_of_a_limit_has_passed() {
        let limit = Duration::from_micros(1_500);
        for _ in 0..20 {
            let start = Instant::now();
            let ends = Moment::after(limit);
            while Moment::now() < ends {}
            assert!(start.elapsed() >= limit, "{:?}", start.elapsed());
        }
        assert_eq!(Moment::after(Duration::MAX).as_millis(), u64::MAX);
    }
}
