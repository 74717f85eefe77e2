// Miralis's text, in this program itself as the package `oracle` has it: only so can it be inlined here. A program includes this file at
// its top. It calls the text in one loop for each reading, since what has two callers is not inlined.

extern crate self as log;

include!(concat!(env!("OUT_DIR"), "/miralis.rs"));

macro_rules! dropped {
    ($($message:tt)*) => {{
        let _ = format_args!($($message)*);
    }};
}
pub(crate) use dropped as warn;

pub mod logger {
    pub(crate) use dropped as debug;
}

#[path = "../../oracle/src/platform.rs"]
pub mod platform;

#[path = "../../oracle/src/host.rs"]
pub mod host;
