//! Stands in for the crate `log`: its macros check their arguments and write nothing.

macro_rules! silent {
    ($($arg:tt)*) => {
        if false {
            let _ = format!($($arg)*);
        }
    };
}

pub(crate) use silent as debug;
pub(crate) use silent as trace;
