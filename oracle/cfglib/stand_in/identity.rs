//! Stand-in for the macro that defines a number type of its own.

macro_rules! define_dense_id {
    (
        $(#[$meta:meta])*
        $vis:vis struct $name:ident($inner:vis u32);
        display = $display:literal;
        $(#[$index_meta:meta])*
        from_index = $message:literal;
    ) => {
        $(#[$meta])*
        #[derive(Debug, Clone, Copy, PartialEq, Eq, PartialOrd, Ord, Hash)]
        $vis struct $name($inner u32);

        impl $name {
            pub const fn from_raw(number: u32) -> Self {
                Self(number)
            }

            $(#[$index_meta])*
            pub fn from_index(index: usize) -> Self {
                Self(u32::try_from(index).expect($message))
            }

            pub const fn index(self) -> usize {
                self.0 as usize
            }
        }

        impl core::fmt::Display for $name {
            fn fmt(&self, formatter: &mut core::fmt::Formatter<'_>) -> core::fmt::Result {
                write!(formatter, "{}{}", $display, self.0)
            }
        }
    };
}

pub(crate) use define_dense_id;
