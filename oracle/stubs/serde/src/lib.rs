//! Stand-in for serde: the traits that the supplied text names, without any
//! serialization behind them. Nothing in the oracle serializes.

pub use derive::{Deserialize, Serialize};

pub trait Serializer: Sized {
    type Ok;
    type Error;
}

pub trait Deserializer<'de>: Sized {
    type Error;
}

pub trait Serialize {
    fn serialize<S: Serializer>(&self, to: S) -> Result<S::Ok, S::Error>;
}

pub trait Deserialize<'de>: Sized {
    fn deserialize<D: Deserializer<'de>>(from: D) -> Result<Self, D::Error>;
}
