//! Stands for the crate arrow-schema: data types, fields, errors. Of `UnionFields` document 01 says that ids are
//! unique and 0 to 127; the type holds the pairs as given and asks nothing, since no listed file asks.

use std::fmt;
use std::sync::Arc;

pub const DECIMAL32_MAX_PRECISION: u8 = 9;
pub const DECIMAL32_MAX_SCALE: i8 = 9;
pub const DECIMAL32_DEFAULT_SCALE: i8 = 2;
pub const DECIMAL64_MAX_PRECISION: u8 = 18;
pub const DECIMAL64_MAX_SCALE: i8 = 18;
pub const DECIMAL64_DEFAULT_SCALE: i8 = 6;
pub const DECIMAL128_MAX_PRECISION: u8 = 38;
pub const DECIMAL128_MAX_SCALE: i8 = 38;
pub const DECIMAL256_MAX_PRECISION: u8 = 76;
pub const DECIMAL256_MAX_SCALE: i8 = 76;
pub const DECIMAL_DEFAULT_SCALE: i8 = 10;

#[derive(Debug)]
pub enum ArrowError {
    InvalidArgumentError(String),
}

impl fmt::Display for ArrowError {
    fn fmt(&self, f: &mut fmt::Formatter<'_>) -> fmt::Result {
        let ArrowError::InvalidArgumentError(text) = self;
        f.write_str(text)
    }
}

impl std::error::Error for ArrowError {}

#[derive(Clone, Copy, Debug, PartialEq, Eq)]
pub enum TimeUnit {
    Second,
    Millisecond,
    Microsecond,
    Nanosecond,
}

#[derive(Clone, Copy, Debug, PartialEq, Eq)]
pub enum IntervalUnit {
    YearMonth,
    DayTime,
    MonthDayNano,
}

#[derive(Clone, Copy, Debug, PartialEq, Eq)]
pub enum UnionMode {
    Sparse,
    Dense,
}

#[derive(Clone, Debug, PartialEq)]
pub enum DataType {
    Null,
    Boolean,
    Int8,
    Int16,
    Int32,
    Int64,
    UInt8,
    UInt16,
    UInt32,
    UInt64,
    Float16,
    Float32,
    Float64,
    Timestamp(TimeUnit, Option<Arc<str>>),
    Date32,
    Date64,
    Time32(TimeUnit),
    Time64(TimeUnit),
    Duration(TimeUnit),
    Interval(IntervalUnit),
    Binary,
    FixedSizeBinary(i32),
    LargeBinary,
    BinaryView,
    Utf8,
    LargeUtf8,
    Utf8View,
    List(FieldRef),
    ListView(FieldRef),
    FixedSizeList(FieldRef, i32),
    LargeList(FieldRef),
    LargeListView(FieldRef),
    Struct(Arc<[FieldRef]>),
    Union(UnionFields, UnionMode),
    Dictionary(Box<DataType>, Box<DataType>),
    Decimal32(u8, i8),
    Decimal64(u8, i8),
    Decimal128(u8, i8),
    Decimal256(u8, i8),
    Map(FieldRef, bool),
    RunEndEncoded(FieldRef, FieldRef),
}

impl DataType {
    /// Whether the values are of one fixed width; asked by dictionary_array.rs.
    pub fn is_primitive(&self) -> bool {
        use DataType::*;
        matches!(self, Int8 | Int16 | Int32 | Int64 | UInt8 | UInt16 | UInt32 | UInt64 | Float16 | Float32 | Float64)
    }
}

impl fmt::Display for DataType {
    fn fmt(&self, f: &mut fmt::Formatter<'_>) -> fmt::Result {
        write!(f, "{self:?}")
    }
}

pub type FieldRef = Arc<Field>;

#[derive(Clone, Debug, PartialEq)]
pub struct Field {
    name: String,
    data_type: DataType,
    nullable: bool,
}

impl Field {
    pub fn new(name: impl Into<String>, data_type: DataType, nullable: bool) -> Self {
        Field { name: name.into(), data_type, nullable }
    }
    pub fn name(&self) -> &String {
        &self.name
    }
    pub fn data_type(&self) -> &DataType {
        &self.data_type
    }
    pub fn is_nullable(&self) -> bool {
        self.nullable
    }
}

/// The fields of a union with their ids, in list order.
#[derive(Clone, Debug, PartialEq)]
pub struct UnionFields(Arc<[(i8, FieldRef)]>);

impl UnionFields {
    pub fn len(&self) -> usize {
        self.0.len()
    }
    pub fn is_empty(&self) -> bool {
        self.0.is_empty()
    }
    pub fn iter(&self) -> impl Iterator<Item = (i8, &FieldRef)> + '_ {
        self.0.iter().map(|(id, field)| (*id, field))
    }
}

impl FromIterator<(i8, FieldRef)> for UnionFields {
    fn from_iter<I: IntoIterator<Item = (i8, FieldRef)>>(pairs: I) -> Self {
        UnionFields(pairs.into_iter().collect())
    }
}
