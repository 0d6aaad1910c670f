//! Times, each of a type that says its unit.

/// How many milliseconds a second has.
const SECOND: u64 = 1000;

/// A number of seconds: a moment, counted from 1970 on, or a length of time.
///
/// The library takes the clock of a submission in seconds, and that of a request in milliseconds. Each time here has the type
/// of its unit, and neither becomes the other but by [`Seconds::to_milliseconds`] and [`Milliseconds::to_seconds_rounded_down`].
///
/// This is accepted:
///
/// ```
/// use cap::{Milliseconds, Request, Seconds};
///
/// fn set_times(request: &mut Request) {
///     request.now = Milliseconds(1_767_225_600_000);
///     request.session_length = Seconds(3_600);
/// }
/// ```
///
/// This is not, since the clock of a request is in milliseconds:
///
/// ```compile_fail,E0308
/// use cap::{Milliseconds, Request, Seconds};
///
/// fn set_times(request: &mut Request) {
///     request.now = Seconds(1_767_225_600);
///     request.session_length = Seconds(3_600);
/// }
/// ```
///
/// Nor is this, since a session's length is in seconds:
///
/// ```compile_fail,E0308
/// use cap::{Milliseconds, Request, Seconds};
///
/// fn set_times(request: &mut Request) {
///     request.now = Milliseconds(1_767_225_600_000);
///     request.session_length = Milliseconds(3_600_000);
/// }
/// ```
#[derive(Clone, Copy, Debug, Default, PartialEq, Eq, PartialOrd, Ord, Hash)]
#[repr(transparent)]
pub struct Seconds(pub u64);

/// A number of milliseconds: a moment, counted from 1970 on, or a length of time.
#[derive(Clone, Copy, Debug, Default, PartialEq, Eq, PartialOrd, Ord, Hash)]
#[repr(transparent)]
pub struct Milliseconds(pub u64);

/// How many milliseconds are left of a lease: 0 at the last one at which it is active, and negative when it is stale.
#[derive(Clone, Copy, Debug, Default, PartialEq, Eq, PartialOrd, Ord, Hash)]
#[repr(transparent)]
pub struct Margin(pub i64);

impl Seconds {
    /// The same time in milliseconds, 1,000 for each second; none where they exceed 2^64 - 1.
    pub const fn to_milliseconds(self) -> Option<Milliseconds> {
        match self.0.checked_mul(SECOND) {
            Some(milliseconds) => Some(Milliseconds(milliseconds)),
            None => None,
        }
    }
}

impl Milliseconds {
    /// The whole seconds of this time, one for each 1,000 milliseconds, rounded down. So the library makes the clock of a
    /// request into seconds.
    pub const fn to_seconds_rounded_down(self) -> Seconds {
        Seconds(self.0 / SECOND)
    }
}
