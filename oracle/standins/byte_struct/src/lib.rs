//! Stands in for the byte layout crate: structs packed in field order, little-endian, and `bitfields!` with the first field in the lowest bits.

pub use byte_struct_derive::ByteStruct;

pub trait ByteStruct {
    const BYTE_LEN: usize;
    fn write_bytes(&self, bytes: &mut [u8]);
    fn read_bytes(bytes: &[u8]) -> Self;
}

/// What a field can be, little-endian.
pub trait LittleEndian: Sized {
    const LEN: usize;
    fn put(&self, bytes: &mut [u8]);
    fn get(bytes: &[u8]) -> Self;
}

macro_rules! numbers {
    ($($type:ty)*) => {$(
        impl LittleEndian for $type {
            const LEN: usize = std::mem::size_of::<$type>();
            #[inline]
            fn put(&self, bytes: &mut [u8]) {
                bytes[..Self::LEN].copy_from_slice(&self.to_le_bytes());
            }
            #[inline]
            fn get(bytes: &[u8]) -> Self {
                <$type>::from_le_bytes(bytes[..Self::LEN].try_into().unwrap())
            }
        }
    )*};
}

numbers!(u8 u16 u32 u64);

impl<const N: usize> LittleEndian for [u8; N] {
    const LEN: usize = N;
    #[inline]
    fn put(&self, bytes: &mut [u8]) {
        bytes[..N].copy_from_slice(self);
    }
    #[inline]
    fn get(bytes: &[u8]) -> Self {
        bytes[..N].try_into().unwrap()
    }
}

#[macro_export]
macro_rules! bitfields {
    ($(#[$attr:meta])* $name:ident : $base:ty { $($field:ident : $bits:expr),* $(,)? }) => {
        $(#[$attr])*
        struct $name {
            $($field: $base,)*
        }

        impl $crate::LittleEndian for $name {
            const LEN: usize = <$base as $crate::LittleEndian>::LEN;
            #[inline]
            fn put(&self, bytes: &mut [u8]) {
                let mut raw: $base = 0;
                let mut at = 0u32;
                $(
                    let mask = <$base>::MAX >> (<$base>::BITS - $bits);
                    raw |= (self.$field & mask) << at;
                    at += $bits;
                )*
                let _ = at;
                $crate::LittleEndian::put(&raw, bytes);
            }
            #[inline]
            fn get(bytes: &[u8]) -> Self {
                let raw: $base = $crate::LittleEndian::get(bytes);
                let mut at = 0u32;
                $(
                    let mask = <$base>::MAX >> (<$base>::BITS - $bits);
                    let $field = (raw >> at) & mask;
                    at += $bits;
                )*
                let _ = at;
                $name { $($field,)* }
            }
        }
    };
}
