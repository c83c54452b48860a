//! The original Rust as the judge of every answer, unchanged; and what comparison, benchmark and example put to both sides. Without a checkout
//! nothing of the original is here, and [`if_original`] says so.
#[cfg(original)]
pub mod bus;
#[cfg(original)]
pub mod made;
#[cfg(original)]
mod original;
pub mod random;

#[cfg(original)]
pub use original::*;

// block.rs names the hash map by its crate.
#[cfg(original)]
extern crate self as rustc_hash;

/// The first items where the original is at hand, and the second where it is not.
#[cfg(original)]
#[macro_export]
macro_rules! if_original {
    ({ $($here:item)* } else { $($not:item)* }) => { $($here)* };
}

/// The first items where the original is at hand, and the second where it is not.
#[cfg(not(original))]
#[macro_export]
macro_rules! if_original {
    ({ $($here:item)* } else { $($not:item)* }) => { $($not)* };
}
