//! The greatest age of a map, by a clock. The arithmetic is `gog_least_of_age` of the C library.
use crate::{raw, Client, Refused};
use std::time::{Duration, SystemTime, UNIX_EPOCH};

/// A greatest age, and the clock by which it is measured.
#[derive(Clone, Copy, Debug)]
pub(crate) struct Age {
    greatest: Duration,
    clock: fn() -> SystemTime,
}

impl Age {
    /// Returns the seconds since 1970-01-01 UTC. An earlier clock gives 0, which counts as wrong too.
    fn now(&self) -> u64 {
        (self.clock)().duration_since(UNIX_EPOCH).map_or(0, |since| since.as_secs())
    }

    /// Returns the greatest age in whole seconds; a fraction of a second does not count.
    fn seconds(&self) -> u64 {
        self.greatest.as_secs()
    }
}

impl Client {
    /// Makes the client accept no map that is older by the clock, or dated more than a day ahead of it, if the owner's
    /// versions are dates. `SystemTime::now` is this machine's clock. A fraction of a second does not count.
    ///
    /// ```
    /// # use std::time::{Duration, SystemTime};
    /// let client = gogbetiku::Client::new(&[0; 56], &[]).with_max_age(Duration::from_secs(2 * 86_400), SystemTime::now);
    /// assert_eq!(client.none_young().map(|why| why.to_string()).as_deref(), Some("No map younger than 2 days is here."));
    /// ```
    pub fn with_max_age(mut self, age: Duration, clock: fn() -> SystemTime) -> Client {
        self.age = Some(Age { greatest: age, clock });
        self
    }

    /// Returns the version to request from a gateway as `least`, if no version below `floor` is accepted. The age is
    /// rounded up to the minute, so that requests repeat.
    ///
    /// # Errors
    /// `Refused` with `Kind::WrongClock`.
    pub fn least_to_ask(&self, floor: u64) -> Result<u64, Refused> {
        Ok(self.leasts(floor)?.1)
    }

    /// Returns what a gateway's status 503 on `least_to_ask` means if its problem type says that no map is as new, or
    /// `None` if the client accepts maps of any age.
    pub fn none_young(&self) -> Option<Refused> {
        self.age.map(|age| raw::refused(raw::NONE_YOUNG, &raw::Verdict::of(age.seconds())))
    }

    /// Returns the least version to check with, and the one to request.
    pub(crate) fn leasts(&self, floor: u64) -> Result<(u64, u64), Refused> {
        self.age.map_or(Ok((floor, floor)), |age| {
            let now = age.now();
            raw::least_of_age(floor, now, age.seconds()).ok_or_else(|| raw::refused(raw::WRONG_CLOCK, &raw::Verdict::of(now)))
        })
    }

    /// Returns an accepted verdict, unless its version is ahead of the clock.
    pub(crate) fn not_ahead(&self, mut verdict: raw::Verdict) -> Result<raw::Verdict, Refused> {
        match self.age.map(|age| raw::refuse_ahead(&mut verdict, age.now())) {
            Some(raw::AHEAD) => Err(raw::refused(raw::AHEAD, &verdict)),
            _ => Ok(verdict),
        }
    }
}
