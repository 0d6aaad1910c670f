//! A request to the library, by the arguments of one to the ordinary implementation.

use cap::numbers::Decision;
use cap::{Milliseconds, Seconds};
use reference::Request;

/// What the library answers.
pub fn ask(image: &mut [u8], with: &Request) -> Decision {
    cap::numbers::request(
        image,
        with.id,
        with.fay,
        with.terminal,
        with.resource,
        with.mode,
        Milliseconds(with.now_ms),
        Seconds(with.session_length),
        with.revoked,
        with.leases,
        with.verdict,
        Seconds(with.valid_from),
        with.has_valid_until,
        Seconds(with.valid_until),
    )
}
