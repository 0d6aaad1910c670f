//! The two implementations under one set of calls.

use cap::Seconds;
use reference::{Request, Submission};

use super::ask::ask;

/// An implementation of the gate; each call answers with all its numbers in the order of `include/cap.h`.
pub trait Gate {
    fn item_read(&self, bytes: &[u8], place: u64) -> Vec<u64>;
    fn descriptor_read(&self, bytes: &[u8]) -> Vec<u64>;
    fn grant_at(&self, bytes: &[u8], index: u64) -> Vec<u64>;
    fn matching(&self, pattern: &[u8], resource: &[u8]) -> Vec<u64>;
    fn image_new(&self, image: &mut [u8]) -> Vec<u64>;
    fn image_find(&self, image: &[u8], id: &[u8]) -> Vec<u64>;
    fn submit(&self, image: &mut [u8], descriptor: &[u8], with: &Submission) -> Vec<u64>;
    fn image_upgrade(&self, old: &[u8], image: &mut [u8]) -> Vec<u64>;
    fn request(&self, image: &mut [u8], with: &Request) -> Vec<u64>;
    fn narrow(&self, parent: &[u8], child: &[u8]) -> Vec<u64>;
}

/// The proved library.
pub struct Library;
/// The ordinary implementation.
pub struct Ordinary;
/// The ordinary implementation, with requests decided by the one that is written for speed.
pub struct Tuned;

/// A number of an answer, whatever its unit.
trait Number {
    /// Its bits, which of a margin are those of a signed number.
    fn bits(self) -> u64;
}

impl Number for u64 {
    fn bits(self) -> u64 {
        self
    }
}

impl Number for i64 {
    fn bits(self) -> u64 {
        self as u64
    }
}

impl Number for cap::Seconds {
    fn bits(self) -> u64 {
        self.0
    }
}

impl Number for cap::Margin {
    fn bits(self) -> u64 {
        self.0.bits()
    }
}

/// The named fields of a struct as a list.
macro_rules! list {
    ($from:expr; $($field:ident)*) => {{
        let from = $from;
        vec![$(from.$field.bits()),*]
    }};
}

/// The calls that both implementations spell alike.
macro_rules! shared_calls {
    ($of:path) => {
        fn item_read(&self, bytes: &[u8], place: u64) -> Vec<u64> {
            use $of as of;
            list!(of::item_read(bytes, place); answer kind number content_at content_len next)
        }

        fn descriptor_read(&self, bytes: &[u8]) -> Vec<u64> {
            use $of as of;
            list!(of::descriptor_read(bytes); answer payload_at payload_len issued_at not_before not_after id_at issuer_at
                issuer_len grantor_at grantor_len fay_at terminal_at grants metadata_at metadata_pairs constraint_pairs mask
                key_id_at key_id_len algorithm signature_at signature_len)
        }

        fn grant_at(&self, bytes: &[u8], index: u64) -> Vec<u64> {
            use $of as of;
            list!(of::grant_at(bytes, index); found pattern_at pattern_len mask modes_at constraints_at constraint_pairs)
        }

        fn matching(&self, pattern: &[u8], resource: &[u8]) -> Vec<u64> {
            use $of as of;
            list!(of::matching(pattern, resource); answer yes names)
        }

        fn image_new(&self, image: &mut [u8]) -> Vec<u64> {
            use $of as of;
            vec![of::image_new(image)]
        }

        fn image_find(&self, image: &[u8], id: &[u8]) -> Vec<u64> {
            use $of as of;
            list!(of::image_find(image, id); answer body_at body_len)
        }

        fn image_upgrade(&self, old: &[u8], image: &mut [u8]) -> Vec<u64> {
            use $of as of;
            list!(of::image_upgrade(old, image); answer len)
        }

        fn narrow(&self, parent: &[u8], child: &[u8]) -> Vec<u64> {
            use $of as of;
            list!(of::narrow(parent, child); answer grant mode levels)
        }
    };
}

impl Gate for Library {
    shared_calls!(cap::numbers);

    fn submit(&self, image: &mut [u8], descriptor: &[u8], with: &Submission) -> Vec<u64> {
        let Submission {
            now,
            verdict,
            valid_from,
            has_valid_until,
            valid_until,
        } = *with;
        vec![cap::numbers::submit(
            image,
            descriptor,
            Seconds(now),
            verdict,
            Seconds(valid_from),
            has_valid_until,
            Seconds(valid_until),
        )]
    }

    fn request(&self, image: &mut [u8], with: &Request) -> Vec<u64> {
        list!(ask(image, with); answer grant mask session_end margin)
    }
}

/// The calls of the ordinary implementation, with requests decided by one of two crates.
macro_rules! ordinary_calls {
    ($requests:path) => {
        shared_calls!(reference);

        fn submit(&self, image: &mut [u8], descriptor: &[u8], with: &Submission) -> Vec<u64> {
            vec![reference::submit(image, descriptor, with)]
        }

        fn request(&self, image: &mut [u8], with: &Request) -> Vec<u64> {
            use $requests as of;
            list!(of::request(image, with); answer grant mask session_end margin)
        }
    };
}

impl Gate for Ordinary {
    ordinary_calls!(reference);
}

impl Gate for Tuned {
    ordinary_calls!(tuned);
}
