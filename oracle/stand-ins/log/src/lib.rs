//! Stand-in for the crate log with logging off: the arguments are checked by the compiler and, as
//! in the crate below its level, not evaluated (the Rust has sums in them that could overflow).

#[macro_export]
macro_rules! debug {
    ($($arg:tt)+) => { if false { let _ = ::std::format_args!($($arg)+); } };
}

#[macro_export]
macro_rules! info {
    ($($arg:tt)+) => { if false { let _ = ::std::format_args!($($arg)+); } };
}

#[macro_export]
macro_rules! trace {
    ($($arg:tt)+) => { if false { let _ = ::std::format_args!($($arg)+); } };
}

#[macro_export]
macro_rules! warn {
    ($($arg:tt)+) => { if false { let _ = ::std::format_args!($($arg)+); } };
}
