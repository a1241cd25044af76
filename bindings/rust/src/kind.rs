//! The ten kinds of values, the Rust types that go with them, and a value of any kind.

use std::fmt;

/// The kind of a column's values.
#[derive(Clone, Copy, Debug, PartialEq, Eq, Hash)]
#[repr(u8)]
pub enum Kind {
    /// `i8`
    Int8 = 0,
    /// `i16`
    Int16 = 1,
    /// `i32`
    Int32 = 2,
    /// `i64`
    Int64 = 3,
    /// `u8`
    UInt8 = 4,
    /// `u16`
    UInt16 = 5,
    /// `u32`
    UInt32 = 6,
    /// `u64`
    UInt64 = 7,
    /// `f32`
    Float32 = 8,
    /// `f64`
    Float64 = 9,
}

impl Kind {
    /// All kinds, each at its number.
    pub const ALL: [Kind; 10] = [
        Kind::Int8,
        Kind::Int16,
        Kind::Int32,
        Kind::Int64,
        Kind::UInt8,
        Kind::UInt16,
        Kind::UInt32,
        Kind::UInt64,
        Kind::Float32,
        Kind::Float64,
    ];

    /// The number that stands for the kind at the C boundary.
    pub fn number(self) -> u8 {
        self as u8
    }

    /// The kind that the library answered.
    pub(crate) fn answered(number: u8) -> Kind {
        Kind::ALL[usize::from(number)]
    }
}

impl fmt::Display for Kind {
    fn fmt(&self, f: &mut fmt::Formatter<'_>) -> fmt::Result {
        f.pad(match self {
            Kind::Int8 => "Int8",
            Kind::Int16 => "Int16",
            Kind::Int32 => "Int32",
            Kind::Int64 => "Int64",
            Kind::UInt8 => "UInt8",
            Kind::UInt16 => "UInt16",
            Kind::UInt32 => "UInt32",
            Kind::UInt64 => "UInt64",
            Kind::Float32 => "Float32",
            Kind::Float64 => "Float64",
        })
    }
}

mod sealed {
    pub trait Sealed {}
}

/// A Rust type that goes with a kind. The ten of them are all there are.
pub trait Native: sealed::Sealed + Copy + Into<Value> {
    /// Its kind.
    const KIND: Kind;

    /// The value in the low bits of a word, zeros above. The bits of a float are not altered.
    fn to_word(self) -> u64;

    /// The value in the low bits of a word; bits above are not looked at.
    fn from_word(word: u64) -> Self;
}

/// A value of one of the kinds, or a null of one.
#[derive(Clone, Copy, Debug, PartialEq)]
pub enum Value {
    /// A value of kind Int8.
    Int8(i8),
    /// A value of kind Int16.
    Int16(i16),
    /// A value of kind Int32.
    Int32(i32),
    /// A value of kind Int64.
    Int64(i64),
    /// A value of kind UInt8.
    UInt8(u8),
    /// A value of kind UInt16.
    UInt16(u16),
    /// A value of kind UInt32.
    UInt32(u32),
    /// A value of kind UInt64.
    UInt64(u64),
    /// A value of kind Float32.
    Float32(f32),
    /// A value of kind Float64.
    Float64(f64),
    /// Missing, in a column of this kind.
    Null(Kind),
}

/// Ties a Rust type to its kind; the middle type has its bits.
macro_rules! native {
    ($($kind:ident: $type:ty, $bits:ty, $value:ident => $word:expr, $from:expr;)*) => {
        $(
            impl sealed::Sealed for $type {}

            impl Native for $type {
                const KIND: Kind = Kind::$kind;

                fn to_word(self) -> u64 {
                    let $value = self;
                    let bits: $bits = $word;
                    u64::from(bits)
                }

                fn from_word(word: u64) -> $type {
                    let $value = word as $bits;
                    $from
                }
            }

            impl From<$type> for Value {
                fn from(value: $type) -> Value {
                    Value::$kind(value)
                }
            }
        )*

        impl Value {
            /// The value's kind, or the null's.
            pub fn kind(self) -> Kind {
                match self {
                    $(Value::$kind(_) => Kind::$kind,)*
                    Value::Null(kind) => kind,
                }
            }

            /// The value in the low bits of a word, 0 if it is missing.
            pub fn word(self) -> u64 {
                match self {
                    $(Value::$kind(value) => value.to_word(),)*
                    Value::Null(_) => 0,
                }
            }

            /// The value of a kind in the low bits of a word.
            pub fn from_word(kind: Kind, word: u64) -> Value {
                match kind {
                    $(Kind::$kind => Value::$kind(<$type as Native>::from_word(word)),)*
                }
            }
        }

        impl fmt::Display for Value {
            fn fmt(&self, f: &mut fmt::Formatter<'_>) -> fmt::Result {
                match self {
                    $(Value::$kind(value) => fmt::Display::fmt(value, f),)*
                    Value::Null(_) => f.pad("null"),
                }
            }
        }
    };
}

native! {
    Int8: i8, u8, v => v as u8, v as i8;
    Int16: i16, u16, v => v as u16, v as i16;
    Int32: i32, u32, v => v as u32, v as i32;
    Int64: i64, u64, v => v as u64, v as i64;
    UInt8: u8, u8, v => v, v;
    UInt16: u16, u16, v => v, v;
    UInt32: u32, u32, v => v, v;
    UInt64: u64, u64, v => v, v;
    Float32: f32, u32, v => v.to_bits(), f32::from_bits(v);
    Float64: f64, u64, v => v.to_bits(), f64::from_bits(v);
}

impl Value {
    /// The value that the library answered.
    pub(crate) fn answered(kind: u8, missing: u8, bits: u64) -> Value {
        let kind = Kind::answered(kind);
        if missing == 1 { Value::Null(kind) } else { Value::from_word(kind, bits) }
    }

    /// Whether it is missing.
    pub fn is_null(self) -> bool {
        matches!(self, Value::Null(_))
    }

    /// The value as a Rust type, if it is of that type's kind and not missing.
    pub fn get<T: Native>(self) -> Option<T> {
        (self.kind() == T::KIND && !self.is_null()).then(|| T::from_word(self.word()))
    }
}
