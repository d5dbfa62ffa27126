//! Stands in for the crate `log` with no logger set: a message is checked and never made.

#[macro_export]
macro_rules! info {
    ($($arg:tt)+) => {
        if false {
            let _ = ::std::format_args!($($arg)+);
        }
    };
}

#[macro_export]
macro_rules! warn {
    ($($arg:tt)+) => {
        if false {
            let _ = ::std::format_args!($($arg)+);
        }
    };
}
