//! Stand-in for thiserror: its derive shows an error by its `Debug` form.

pub use derive::Error;
