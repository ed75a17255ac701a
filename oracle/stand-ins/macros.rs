//! Stand-ins for two macros of xarxa's: a number some of whose values have names, and an index under a name.
macro_rules! open_enum {
    ($(#[$outer:meta])* pub enum $name:ident($number:ty) { $($(#[$inner:meta])* $case:ident = $value:expr),* $(,)? }) => {
        $(#[$outer])*
        #[derive(Clone, Copy, PartialEq, Eq, PartialOrd, Ord, Hash)]
        pub struct $name(pub $number);

        #[allow(non_upper_case_globals)]
        impl $name {
            $($(#[$inner])* pub const $case: $name = $name($value);)*
        }

        impl From<$number> for $name {
            fn from(value: $number) -> Self {
                $name(value)
            }
        }

        impl From<$name> for $number {
            fn from(value: $name) -> Self {
                value.0
            }
        }

        impl core::fmt::Debug for $name {
            fn fmt(&self, f: &mut core::fmt::Formatter<'_>) -> core::fmt::Result {
                match *self {
                    $($name::$case => f.write_str(stringify!($case)),)*
                    _ => write!(f, "{}", self.0),
                }
            }
        }

        impl core::fmt::Display for $name {
            fn fmt(&self, f: &mut core::fmt::Formatter<'_>) -> core::fmt::Result {
                write!(f, "{self:?}")
            }
        }
    };
}

macro_rules! define_handle {
    ($(#[$outer:meta])* $name:ident($index:ty)) => {
        $(#[$outer])*
        #[derive(Debug, Clone, Copy, PartialEq, Eq)]
        pub struct $name($index);

        impl $name {
            pub(crate) fn new(index: usize) -> Self {
                $name(index as $index)
            }
        }
    };
}
