use std::fmt;

/// Why a call is refused. Of several causes that apply, the one with the lowest number is given.
///
/// 13 is retired: it was given for a Decimal with an integer type in a supertype call, and is never given again.
#[derive(Debug, Clone, Copy, PartialEq, Eq, Hash)]
pub enum Error {
    /// No node, too many nodes, a flat type's two lengths differ, or an encoded type's length is under 2 or doesn't
    /// match its number of nodes.
    Length = 1,
    /// A kind above 31.
    Kind = 2,
    /// An argument outside its kind's rule.
    Argument = 3,
    /// The nodes don't form exactly one type.
    Shape = 4,
    /// A node has too many nodes above it.
    Depth = 5,
    /// A nested type in a supertype call.
    Nested = 6,
    /// The unknown type `any`, where it isn't allowed, in materialising.
    Unknown = 7,
    /// An output is shorter than the result.
    OutputTooShort = 8,
    /// There is no such channel.
    Channel = 9,
    /// The channel holds something other than 0 or an integer type.
    ChannelCode = 10,
    /// The type merged into a channel is neither Null nor an integer type.
    NotAnInteger = 11,
    /// The channel's type and the one merged into it are unequal, and their lossless upcast is None.
    NoUpcast = 12,
}

impl Error {
    /// Every cause, in the order of their numbers.
    pub const ALL: [Error; 12] = [
        Error::Length,
        Error::Kind,
        Error::Argument,
        Error::Shape,
        Error::Depth,
        Error::Nested,
        Error::Unknown,
        Error::OutputTooShort,
        Error::Channel,
        Error::ChannelCode,
        Error::NotAnInteger,
        Error::NoUpcast,
    ];

    /// The cause's number, 1 to 12.
    pub const fn number(self) -> u64 {
        self as u64
    }

    /// The cause with this number, if there is one.
    ///
    /// ```
    /// use lomzegash::Error;
    /// assert_eq!(Error::from_number(4), Some(Error::Shape));
    /// assert_eq!([0, 13].map(Error::from_number), [None; 2]);
    /// ```
    pub fn from_number(number: u64) -> Option<Error> {
        Error::ALL.into_iter().find(|error| error.number() == number)
    }
}

impl fmt::Display for Error {
    /// Writes document 01's cause; its limits stand in the proved code alone. That of 11 is never given for Null, which
    /// channels take.
    fn fmt(&self, f: &mut fmt::Formatter<'_>) -> fmt::Result {
        f.write_str(match self {
            Error::Length => {
                "no node, too many nodes, a type's two array lengths differ, or stored length under 2 or not 2 + 9 × n"
            }
            Error::Kind => "kind above 31",
            Error::Argument => "argument outside its rule",
            Error::Shape => "nodes don't form exactly one type",
            Error::Depth => "depth over the limit",
            Error::Nested => "nested type in a supertype call",
            Error::Unknown => "any, not allowed, in materialising",
            Error::OutputTooShort => "an output array shorter than the result",
            Error::Channel => "channel number over the limit",
            Error::ChannelCode => "addressed channel holds neither 0 nor 2 to 11",
            Error::NotAnInteger => "offered type not an integer code 2 to 11",
            Error::NoUpcast => "in an offer, held and offered are unequal integers whose upcast is None",
        })
    }
}

impl std::error::Error for Error {}
