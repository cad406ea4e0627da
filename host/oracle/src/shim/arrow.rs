//! Arrow's types, to and from which the text converts. No run does, so keys and names are any texts.

pub mod datatypes {
    use crate::shim::polars_utils::pl_str::PlSmallStr;
    use std::collections::BTreeMap;
    use std::sync::Arc;

    pub type Metadata = BTreeMap<PlSmallStr, PlSmallStr>;

    pub const DTYPE_CATEGORICAL_NEW: &str = "categorical";
    pub const DTYPE_ENUM_VALUES_LEGACY: &str = "enum values, legacy";
    pub const DTYPE_ENUM_VALUES_NEW: &str = "enum values";
    pub const MAINTAIN_PL_TYPE: &str = "maintain type";
    pub const PL_KEY: &str = "key";
    pub const LIST_VALUES_NAME: PlSmallStr = PlSmallStr::from_static("item");

    #[derive(Debug)]
    pub struct Field {
        pub name: PlSmallStr,
        pub dtype: ArrowDataType,
        pub metadata: Option<Arc<Metadata>>,
    }

    impl Field {
        pub fn new(name: PlSmallStr, dtype: ArrowDataType, _nullable: bool) -> Field {
            Field { name, dtype, metadata: None }
        }

        pub fn with_metadata(self, metadata: Metadata) -> Field {
            Field { metadata: Some(Arc::new(metadata)), ..self }
        }
    }

    #[derive(Debug)]
    pub enum ArrowDataType {
        Null,
        Boolean,
        Int8,
        Int16,
        Int32,
        Int64,
        Int128,
        UInt8,
        UInt16,
        UInt32,
        UInt64,
        UInt128,
        Float16,
        Float32,
        Float64,
        Decimal(usize, usize),
        Decimal32(usize, usize),
        Decimal64(usize, usize),
        Decimal256(usize, usize),
        Utf8,
        LargeUtf8,
        Utf8View,
        Binary,
        LargeBinary,
        BinaryView,
        FixedSizeBinary(usize),
        Date32,
        Date64,
        Time32(TimeUnit),
        Time64(TimeUnit),
        Timestamp(TimeUnit, Option<PlSmallStr>),
        Duration(TimeUnit),
        Interval(IntervalUnit),
        List(Box<Field>),
        LargeList(Box<Field>),
        FixedSizeList(Box<Field>, usize),
        Map(Box<Field>, bool),
        Struct(Vec<Field>),
        Extension(Box<ExtensionType>),
        Unknown,
    }

    #[derive(Debug)]
    pub enum TimeUnit {
        Second,
        Millisecond,
        Microsecond,
        Nanosecond,
    }

    #[derive(Debug)]
    pub enum IntervalUnit {
        MonthDayNano,
        MonthDayMillis,
    }

    #[derive(Debug)]
    pub struct ExtensionType {
        pub name: PlSmallStr,
    }
}
