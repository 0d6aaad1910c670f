//! A group of slips, each of which is named once.

/// Makes an enum of slips, and a list of all of them.
macro_rules! slips {
    ($(#[$about:meta])* enum $name:ident, all in $list:ident { $($(#[$means:meta])* $slip:ident,)* }) => {
        $(#[$about])*
        #[derive(Clone, Copy, Debug, PartialEq, Eq)]
        pub enum $name {
            $($(#[$means])* $slip,)*
        }

        /// All slips, in the order in which they are named.
        pub const $list: &[$name] = &[$($name::$slip,)*];
    };
}

pub(crate) use slips;
