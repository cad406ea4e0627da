//! The kinds of nodes: a constant for each code, and its name.

macro_rules! kinds {
    ($($code:literal $constant:ident $name:literal)*) => {
        $(
            #[doc = concat!("The kind ", $name, ".")]
            pub const $constant: u8 = $code;
        )*

        /// The name of a kind, if it is one.
        ///
        /// ```
        /// use lomzegash::kind;
        /// assert_eq!(kind::name(kind::INT16), Some("Int16"));
        /// assert_eq!(kind::name(32), None);
        /// ```
        pub const fn name(kind: u8) -> Option<&'static str> {
            match kind {
                $($code => Some($name),)*
                _ => None,
            }
        }
    };
}

kinds! {
    0 NULL "Null"
    1 BOOLEAN "Boolean"
    2 UINT8 "UInt8"
    3 UINT16 "UInt16"
    4 UINT32 "UInt32"
    5 UINT64 "UInt64"
    6 UINT128 "UInt128"
    7 INT8 "Int8"
    8 INT16 "Int16"
    9 INT32 "Int32"
    10 INT64 "Int64"
    11 INT128 "Int128"
    12 FLOAT16 "Float16"
    13 FLOAT32 "Float32"
    14 FLOAT64 "Float64"
    15 DECIMAL "Decimal"
    16 STRING "String"
    17 BINARY "Binary"
    18 BINARY_OFFSET "BinaryOffset"
    19 DATE "Date"
    20 DATETIME "Datetime"
    21 DURATION "Duration"
    22 TIME "Time"
    23 UNKNOWN_ANY "Unknown(Any)"
    24 UNKNOWN_STR "Unknown(Str)"
    25 UNKNOWN_FLOAT "Unknown(Float)"
    26 UNKNOWN_INT_POS "Unknown(Int(v)), v ≥ 0"
    27 UNKNOWN_INT_NEG "Unknown(Int(v)), v < 0"
    28 LIST "List"
    29 ARRAY "Array"
    30 STRUCT "Struct"
    31 FIELD "field"
}
