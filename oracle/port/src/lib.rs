//! The port's functions, linked from its static library.

/// Calls an exported function with the tables as it takes them.
macro_rules! call {
    ($function:ident($first:expr, $tables:ident $(, $last:expr)*)) => {
        // SAFETY: the crate of the port that exports the function defines it with these types, and proves that it is safe on any tables. Where the last are a
        // slice's address and length, these are its own.
        unsafe {
            $function(
                $first,
                $tables.kids.as_mut_ptr(),
                $tables.kids.len(),
                $tables.facts.as_mut_ptr(),
                $tables.facts.len(),
                $tables.find.as_mut_ptr(),
                $tables.find.len(),
                $($last),*
            )
        }
    };
}

pub mod arena;
pub mod compare;
mod ids_and_paths;
pub mod model;
pub mod readings;

pub use ids_and_paths::*;
