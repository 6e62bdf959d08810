//! Our stand-in for the files that are not given: the two crate roots as one, and the macro `enum_string!`.

// the given sources name their types by this crate
extern crate self as corewars_core;

// An enum whose cases print as the strings beside them.
macro_rules! enum_string {
    ($(#[$attribute:meta])* pub enum $name:ident { $($case:ident => $text:expr,)* }) => {
        $(#[$attribute])*
        pub enum $name {
            $($case,)*
        }

        impl std::fmt::Display for $name {
            fn fmt(&self, f: &mut std::fmt::Formatter) -> std::fmt::Result {
                f.pad(match self {
                    $(Self::$case => $text,)*
                })
            }
        }
    };
}

pub mod core;
pub mod load_file;

pub use load_file::Warrior;
