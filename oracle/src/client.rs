//! Of the original's `client` only the client's number.

pub(crate) type ClientId = u64;
