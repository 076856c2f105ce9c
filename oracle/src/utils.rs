//! Of the original's `utils`: `Bitmap` and the key ranges are the original
//! files; the error type and the timer are stand-ins.

use std::{fmt, num};

use crate::time::Duration;

include!(concat!(env!("OUT_DIR"), "/utils.rs"));

pub(crate) use bitmap::Bitmap;
pub(crate) use keyrange::{ConfNum, RespondersConf};

/// Holds of every type: nothing is encoded.
pub trait Codec {}
impl<T> Codec for T {}

#[derive(Debug, PartialEq, Eq, Clone)]
pub struct SummersetError(String);

impl SummersetError {
    #[allow(clippy::needless_pass_by_value)]
    pub fn msg(msg: impl ToString) -> Self {
        SummersetError(msg.to_string())
    }
}

impl fmt::Display for SummersetError {
    fn fmt(&self, f: &mut fmt::Formatter) -> fmt::Result {
        f.write_str(&self.0)
    }
}

impl From<num::ParseIntError> for SummersetError {
    fn from(e: num::ParseIntError) -> Self {
        SummersetError(e.to_string())
    }
}

/// Timers are left out by document 01.
#[derive(Clone)]
pub(crate) struct Timer;

impl Timer {
    #[allow(clippy::unnecessary_wraps, clippy::unused_self)]
    pub(crate) fn cancel(&self) -> Result<(), SummersetError> {
        Ok(())
    }

    #[allow(clippy::unnecessary_wraps, clippy::unused_self)]
    pub(crate) fn kickoff(&self, _: Duration) -> Result<(), SummersetError> {
        Ok(())
    }
}
