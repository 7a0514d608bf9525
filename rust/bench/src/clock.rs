//! The processor time that this thread has had, as the kernel counts it.

use std::fs::File;
use std::io;
use std::os::unix::fs::FileExt;
use std::time::Duration;

/// So many times something is measured.
pub const CALLS: usize = 60;

/// The kernel's count, and what reading it takes.
pub struct Clock {
    file: File,
    own: Duration,
}

/// The least and the median of many times.
#[derive(Clone, Copy)]
pub struct Times {
    /// The least.
    pub least: Duration,
    /// The median.
    pub median: Duration,
}

impl Clock {
    /// The count of this thread, where the kernel has one.
    pub fn new() -> Result<Clock, String> {
        let path = "/proc/thread-self/schedstat";
        let cannot = |error: io::Error| format!("no processor time can be had: {path}: {error}");
        let mut clock = Clock {
            file: File::open(path).map_err(cannot)?,
            own: Duration::ZERO,
        };
        clock.own = clock.times(|| (), |_| Ok(()))?.least;
        Ok(clock)
    }

    /// The count so far. It is brought up to date when the kernel schedules.
    fn now(&self) -> Option<Duration> {
        std::thread::yield_now();
        let mut bytes = [0; 64];
        let length = self.file.read_at(&mut bytes, 0).ok()?;
        let text = std::str::from_utf8(&bytes[..length]).ok()?;
        let nanoseconds = text.split_whitespace().next()?.parse().ok()?;
        Some(Duration::from_nanos(nanoseconds))
    }

    /// The times of something, without those of what is made ready for it and of
    /// reading the count.
    pub fn times<T>(
        &self,
        ready: impl Fn() -> T,
        act: impl Fn(&mut T) -> Result<(), String>,
    ) -> Result<Times, String> {
        let unread = || "the processor time cannot be read".to_owned();
        let mut times = Vec::new();
        for _ in 0..CALLS {
            let mut made = ready();
            let start = self.now().ok_or_else(unread)?;
            let acted = act(&mut made);
            let end = self.now().ok_or_else(unread)?;
            acted?;
            times.push(end.saturating_sub(start).saturating_sub(self.own));
        }
        times.sort();
        Ok(Times {
            least: times[0],
            median: times[times.len() / 2],
        })
    }
}
