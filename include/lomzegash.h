/*
 * lomzegash: the C interface of the proved library (archive libcapi.a).
 *
 * A flat type is a type as a tree in preorder: two arrays of equal length, one
 * kind (8 bits) and one argument (64 bits) for each node. An encoded type is the
 * same in bytes: the number of nodes n (2 bytes, low byte first), n kinds, then n
 * arguments of 8 bytes each, low byte first: 2 + 9 * n bytes.
 *
 * Every array passes as a pointer and its number of elements, but for the codes of the
 * channels, which are always LZ_CHANNELS. An array of length 0 may have any pointer, null
 * included. An output never overlaps an input or another output. No function keeps a
 * pointer, allocates or has state of its own. No call needs more than 16384 bytes of stack,
 * whatever the arrays say.
 */
#ifndef LOMZEGASH_H
#define LOMZEGASH_H

#include <stddef.h>
#include <stdint.h>

#ifdef __cplusplus
extern "C" {
#endif

/* Why a call is refused. Of several numbers that apply the lowest is given; each of
 * 1 to 5 looks at the whole type before the next. */
enum lz_error {
    LZ_OK = 0,
    LZ_LENGTH = 1,           /* no node, too many nodes, a flat type's two lengths differ, or
                                an encoded type's length is under 2 or not 2 + 9 * n */
    LZ_KIND = 2,             /* a kind above 31 */
    LZ_ARGUMENT = 3,         /* an argument outside its kind's rule */
    LZ_SHAPE = 4,            /* the nodes don't form exactly one type */
    LZ_DEPTH = 5,            /* a node with too many nodes above it */
    LZ_NESTED = 6,           /* a nested type in a supertype call */
    LZ_UNKNOWN = 7,          /* an unknown type that is not allowed where types are materialised */
    LZ_OUTPUT_TOO_SHORT = 8, /* an output shorter than the result */
    LZ_CHANNEL = 9,          /* no such channel */
    LZ_CHANNEL_CODE = 10,    /* the channel holds neither 0 nor 2 to 11 */
    LZ_NOT_AN_INTEGER = 11,  /* the type is neither Null nor an integer type, codes 2 to 11 */
    LZ_NO_UPCAST = 12        /* no integer type holds the channel's numbers and the new type's */
    /* 13 is retired: it was given for a Decimal with an integer type in a supertype call, and is
       never given again */
};

/* The answer of every function here but lz_get_shape and lz_flat_channel_merged. A refused
 * call has value 0. */
typedef struct {
    uint64_t number; /* 0, or the number of the refusal */
    uint64_t value;  /* what the function says it is */
} lz_reply;

/* The answer of lz_get_shape. A refused call has count 0. */
typedef struct {
    uint64_t number;     /* 0, or the number of the refusal */
    uint64_t count;      /* how many widths there are; 0 for none */
    uint64_t widths[32]; /* the widths, the outermost first, and zeros from the count on */
} lz_shape_reply;

/* How many channels there are. */
enum { LZ_CHANNELS = 32 };

/* For each channel the code of its integer type, 2 to 11, or 0 while it is empty. */
typedef struct {
    uint8_t codes[LZ_CHANNELS];
} lz_channel_types;

/* The answer of lz_flat_channel_merged. */
typedef struct {
    lz_reply reply;
    lz_channel_types types; /* as the call leaves them */
} lz_types_reply;

/*
 * Checks an encoded type.
 * Refused by 1 to 5. The value is 0. Nothing is written.
 */
lz_reply lz_check(const uint8_t *encoded, size_t encoded_len);

/*
 * Decodes an encoded type of n nodes into kinds and args.
 * Refused by 1 to 5, then by 8 where kinds_len or args_len is below n. The value is
 * n: so many elements of each array are written, the others keep what they held.
 * A refused call writes nothing.
 */
lz_reply lz_decode(const uint8_t *encoded, size_t encoded_len,
                   uint8_t *kinds, size_t kinds_len,
                   uint64_t *args, size_t args_len);

/*
 * Encodes a flat type of n nodes into out.
 * Refused by 1 to 5, then by 8 where out_len is below 2 + 9 * n. The value is
 * 2 + 9 * n: so many bytes of out are written, the others keep what they held.
 * A refused call writes nothing.
 */
lz_reply lz_encode(const uint8_t *kinds, size_t kinds_len,
                   const uint64_t *args, size_t args_len,
                   uint8_t *out, size_t out_len);

/*
 * What follows are the rules of polars-core 0.55.2, on encoded types, by the names of
 * its source. Each is refused by 1 to 5 where a type isn't one; of two types the left
 * is looked at first. One encoded type may be passed twice.
 *
 * Of one type: the value is 1 for yes and 0 for no. Nothing is written.
 */
lz_reply lz_is_nested(const uint8_t *encoded, size_t encoded_len);
lz_reply lz_is_known(const uint8_t *encoded, size_t encoded_len);
lz_reply lz_is_logical(const uint8_t *encoded, size_t encoded_len);
lz_reply lz_is_primitive(const uint8_t *encoded, size_t encoded_len);
lz_reply lz_is_primitive_numeric(const uint8_t *encoded, size_t encoded_len);
lz_reply lz_is_temporal(const uint8_t *encoded, size_t encoded_len);
lz_reply lz_is_float(const uint8_t *encoded, size_t encoded_len);
lz_reply lz_is_integer(const uint8_t *encoded, size_t encoded_len);
lz_reply lz_is_signed_integer(const uint8_t *encoded, size_t encoded_len);
lz_reply lz_is_unsigned_integer(const uint8_t *encoded, size_t encoded_len);
lz_reply lz_is_string(const uint8_t *encoded, size_t encoded_len);
lz_reply lz_is_unknown(const uint8_t *encoded, size_t encoded_len);
lz_reply lz_contains_unknown(const uint8_t *encoded, size_t encoded_len);
lz_reply lz_contains_list_recursive(const uint8_t *encoded, size_t encoded_len);

/*
 * Of two types: whether they are equal, whether the left is or contains a type equal
 * to the right, and whether a cast of the left to the right makes sense. The value is
 * 1 for yes and 0 for no; lz_can_cast_to gives 2 for no verdict. Nothing is written.
 */
lz_reply lz_equal(const uint8_t *left, size_t left_len,
                  const uint8_t *right, size_t right_len);
lz_reply lz_contains_dtype_recursive(const uint8_t *left, size_t left_len,
                                     const uint8_t *right, size_t right_len);
lz_reply lz_can_cast_to(const uint8_t *left, size_t left_len,
                        const uint8_t *right, size_t right_len);

/*
 * A type from a type, encoded into out: the type inside a List or an Array, the type
 * inside all Lists and Arrays at the front, the type inside all Arrays at the front,
 * and the physical form. Refused by 8 where out_len is below the length of the result.
 * The value is that length: so many bytes of out are written, the others keep what they
 * held. lz_inner_dtype and lz_array_leaf_dtype have value 0 where there is no such type,
 * and then, as where it is refused, a call writes nothing.
 */
lz_reply lz_inner_dtype(const uint8_t *encoded, size_t encoded_len,
                        uint8_t *out, size_t out_len);
lz_reply lz_leaf_dtype(const uint8_t *encoded, size_t encoded_len,
                       uint8_t *out, size_t out_len);
lz_reply lz_array_leaf_dtype(const uint8_t *encoded, size_t encoded_len,
                             uint8_t *out, size_t out_len);
lz_reply lz_to_physical(const uint8_t *encoded, size_t encoded_len,
                        uint8_t *out, size_t out_len);

/*
 * The same, with every unknown part of the type made known. The unknown type any stays
 * where allow_unknown isn't 0; where it is 0 and any is a part, the call is refused by 7,
 * which comes before 8.
 */
lz_reply lz_materialize_unknown(const uint8_t *encoded, size_t encoded_len,
                                uint8_t allow_unknown,
                                uint8_t *out, size_t out_len);

/*
 * The widths of the Arrays at the front of a type; none where there are no Arrays.
 */
lz_shape_reply lz_get_shape(const uint8_t *encoded, size_t encoded_len);

/*
 * Two types joined into one, encoded into out. Each is refused by 8, last of all, where out_len
 * is below the length of the result. The value is that length: so many bytes of out are
 * written, the others keep what they held. Value 0 says that there is no such type, and
 * then, as where it is refused, a call writes nothing.
 *
 * The smallest numeric type that both can be cast to without loss; none where the two are
 * equal or either isn't numeric.
 */
lz_reply lz_get_numeric_upcast_supertype_lossless(const uint8_t *left, size_t left_len,
                                                  const uint8_t *right, size_t right_len,
                                                  uint8_t *out, size_t out_len);

/*
 * The type that both can be cast to, with loss where the source takes it for reasonable.
 * Each flag is off at 0 and else on. Of a Decimal and an integer type, codes 2 to 11, in either
 * order, it is a Decimal of the same scale: of the same precision where the type's largest number
 * has at most as many digits as the Decimal has before its point, else of precision 38, as always
 * beside UInt128 and Int128. Where the integer type's largest number has more than 38 - scale
 * digits, that number is lost. Refused by 6 where either type is nested, then by 8.
 */
lz_reply lz_get_supertype_with_options(const uint8_t *left, size_t left_len,
                                       const uint8_t *right, size_t right_len,
                                       uint8_t allow_implode_list,
                                       uint8_t allow_primitive_to_string,
                                       uint8_t *out, size_t out_len);

/* What the values of lz_join_report say. */
enum lz_join {
    LZ_JOIN_KEPT = 0,        /* the supertype keeps every whole number of both */
    LZ_JOIN_AVOIDABLE = 1,   /* it doesn't, and an integer type exists that holds both ranges */
    LZ_JOIN_UNAVOIDABLE = 2, /* it doesn't, and no integer type holds both ranges */
    LZ_JOIN_NOT_INTEGERS = 3 /* the two aren't integer types, codes 2 to 11 */
};

/*
 * What the supertype of two integer types, both flags off, does to their whole numbers.
 * The value is one of lz_join. Nothing is written.
 */
lz_reply lz_join_report(const uint8_t *left, size_t left_len,
                        const uint8_t *right, size_t right_len);

/*
 * The coarser of two time units, 0 ns, 1 us, 2 ms.
 * Refused by 3 where either is no unit, and by nothing else. The value is the unit.
 */
lz_reply lz_get_time_units(uint8_t left, uint8_t right);

/*
 * What polars-core doesn't have: the type of a column is merged into a channel, which then
 * holds an integer type that has every number of the columns merged into it, and is empty while
 * they have none. An empty channel gets the column's own, any other the smallest that holds the
 * numbers of the channel's type and of the column's. Null, code 0, has no numbers: a column of
 * it leaves the channel as it is, and is never refused by 11 or 12. The codes may be any bytes
 * before the call, and overlap nothing else. Refused by 1 to 5, then by 9, 10, 11 and 12. The
 * value is the code that the channel now holds, 0 where Null was merged into an empty one. No
 * byte but the channel's is written, and a refused call writes nothing.
 */
lz_reply lz_channel_merge(uint8_t codes[LZ_CHANNELS], size_t channel,
                          const uint8_t *column, size_t column_len);

/*
 * Some of these on flat types, kinds and args, for callers that keep types so. Two arrays of unequal
 * length are refused by 1. Those that make a type write it to the front of out_kinds and
 * out_args and are refused by 8 where either is too short; the value is the number of nodes,
 * 0 where there is no such type.
 */
lz_reply lz_flat_is_known(const uint8_t *kinds, size_t kinds_len,
                          const uint64_t *args, size_t args_len);
lz_reply lz_flat_equal(const uint8_t *left_kinds, size_t left_kinds_len,
                       const uint64_t *left_args, size_t left_args_len,
                       const uint8_t *right_kinds, size_t right_kinds_len,
                       const uint64_t *right_args, size_t right_args_len);
lz_reply lz_flat_can_cast_to(const uint8_t *from_kinds, size_t from_kinds_len,
                             const uint64_t *from_args, size_t from_args_len,
                             const uint8_t *to_kinds, size_t to_kinds_len,
                             const uint64_t *to_args, size_t to_args_len);
lz_reply lz_flat_materialize_unknown(const uint8_t *kinds, size_t kinds_len,
                                     const uint64_t *args, size_t args_len,
                                     uint8_t allow_unknown,
                                     uint8_t *out_kinds, size_t out_kinds_len,
                                     uint64_t *out_args, size_t out_args_len);
lz_reply lz_flat_to_physical(const uint8_t *kinds, size_t kinds_len,
                             const uint64_t *args, size_t args_len,
                             uint8_t *out_kinds, size_t out_kinds_len,
                             uint64_t *out_args, size_t out_args_len);
lz_reply lz_flat_get_numeric_upcast_supertype_lossless(const uint8_t *left_kinds, size_t left_kinds_len,
                                                       const uint64_t *left_args, size_t left_args_len,
                                                       const uint8_t *right_kinds, size_t right_kinds_len,
                                                       const uint64_t *right_args, size_t right_args_len,
                                                       uint8_t *out_kinds, size_t out_kinds_len,
                                                       uint64_t *out_args, size_t out_args_len);
lz_reply lz_flat_get_supertype_with_options(const uint8_t *left_kinds, size_t left_kinds_len,
                                            const uint64_t *left_args, size_t left_args_len,
                                            const uint8_t *right_kinds, size_t right_kinds_len,
                                            const uint64_t *right_args, size_t right_args_len,
                                            uint8_t allow_implode_list,
                                            uint8_t allow_primitive_to_string,
                                            uint8_t *out_kinds, size_t out_kinds_len,
                                            uint64_t *out_args, size_t out_args_len);

/*
 * The type inside a List or an Array, the type inside all Lists and Arrays at the front, and
 * the type inside all Arrays at the front, where it stands in the caller's own arrays. The
 * value k is its number of nodes: the last k elements of kinds are its kinds, and the last k
 * of args its arguments. It is 0 where there is no such type. Nothing is written.
 */
lz_reply lz_flat_inner_dtype(const uint8_t *kinds, size_t kinds_len,
                             const uint64_t *args, size_t args_len);
lz_reply lz_flat_leaf_dtype(const uint8_t *kinds, size_t kinds_len,
                            const uint64_t *args, size_t args_len);
lz_reply lz_flat_array_leaf_dtype(const uint8_t *kinds, size_t kinds_len,
                                  const uint64_t *args, size_t args_len);

/*
 * The merge of a flat type. In the first the channels' types are lent, and changed as
 * lz_channel_merge changes its codes. In the second they come and go by value, and a refused call
 * gives them back as they were.
 */
lz_reply lz_flat_channel_merge(lz_channel_types *types, size_t channel,
                               const uint8_t *kinds, size_t kinds_len,
                               const uint64_t *args, size_t args_len);
lz_types_reply lz_flat_channel_merged(lz_channel_types types, size_t channel,
                                      const uint8_t *kinds, size_t kinds_len,
                                      const uint64_t *args, size_t args_len);

#ifdef __cplusplus
}
#endif

#endif /* LOMZEGASH_H */
