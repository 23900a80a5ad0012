//! Stand-in for serde: the names that the panel's sources import, with no behaviour.

pub use serde_derive::{Deserialize, Serialize};

/// Stands for serde's trait of the same name; every type has it.
pub trait Serialize {}

impl<T: ?Sized> Serialize for T {}

/// Stands for serde's trait of the same name; every type has it.
pub trait Deserialize {}

impl<T> Deserialize for T {}

pub mod de {
    /// Stands for serde's trait of the same name; every type has it.
    pub trait DeserializeOwned {}

    impl<T> DeserializeOwned for T {}
}
