//! Readings of a question, the right one and wrong ones, that a script must tell apart.
#![allow(unused_macros, unused_imports)]

/// An enum of the right reading and all wrong ones, and each list of these by its name and length.
macro_rules! readings {
    ($($list:ident: $count:literal [$($wrong:ident)*])*) => {
        #[derive(Clone, Copy, Debug, PartialEq, Eq)]
        enum Reading {
            Right,
            $($($wrong,)*)*
        }

        $(const $list: [Reading; $count] = [$(Reading::$wrong),*];)*
    };
}

pub(crate) use readings;
