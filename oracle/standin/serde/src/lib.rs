//! Stand-in for `serde`: the traits hold of every type and do nothing.

pub use derives::{Deserialize, Serialize};

pub trait Serialize {}
impl<T: ?Sized> Serialize for T {}

pub trait Deserialize<'de> {}
impl<T> Deserialize<'_> for T {}

pub mod de {
    pub trait DeserializeOwned {}
    impl<T> DeserializeOwned for T {}
}
