//! Stand-ins for the logging macros: arguments are checked, nothing is logged.

macro_rules! pf_log {
    ($($arg:tt)*) => {
        if false {
            let _ = format_args!($($arg)*);
        }
    };
}
macro_rules! pf_trace { ($($arg:tt)*) => { pf_log!($($arg)*) }; }
macro_rules! pf_debug { ($($arg:tt)*) => { pf_log!($($arg)*) }; }
macro_rules! pf_info { ($($arg:tt)*) => { pf_log!($($arg)*) }; }

macro_rules! logged_err {
    ($($arg:tt)*) => {
        Err(SummersetError::msg(format!($($arg)*)))
    };
}
