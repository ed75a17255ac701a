//! Stand-in for the crate bitflags: a number whose bits have names.
#[macro_export]
macro_rules! bitflags {
    ($(#[$outer:meta])* pub struct $name:ident: $bits:ty { $($(#[$inner:meta])* const $flag:ident = $value:expr;)* }) => {
        $(#[$outer])*
        pub struct $name($bits);

        impl $name {
            $($(#[$inner])* pub const $flag: Self = Self($value);)*

            pub const fn empty() -> Self {
                Self(0)
            }
            pub const fn bits(&self) -> $bits {
                self.0
            }
            pub const fn from_bits_truncate(bits: $bits) -> Self {
                Self(bits & (0 $(| $value)*))
            }
        }
    };
}
