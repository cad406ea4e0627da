/* A caller in C, which calls each function of the header and holds each constant to its number. A condition that
 * doesn't hold is told by its line, and then the status is 1. */
#include "lomzegash.h"

#include <stdio.h>
#include <string.h>

static int status = 0;

static void went_wrong(int line, const char *condition) {
    fprintf(stderr, "line %d: %s\n", line, condition);
    status = 1;
}

#define MUST(condition) ((condition) ? (void)0 : went_wrong(__LINE__, #condition))

/* Encoded types of one node, and List(Int16), Array(3, Date) and Decimal(10, 2). */
static const uint8_t null[11] = {0x01, 0x00, 0x00}, boolean[11] = {0x01, 0x00, 0x01}, uint64[11] = {0x01, 0x00, 0x05};
static const uint8_t uint128[11] = {0x01, 0x00, 0x06}, int8[11] = {0x01, 0x00, 0x07}, int32[11] = {0x01, 0x00, 0x09};
static const uint8_t float64[11] = {0x01, 0x00, 0x0E}, string[11] = {0x01, 0x00, 0x10}, date[11] = {0x01, 0x00, 0x13};
static const uint8_t any[11] = {0x01, 0x00, 0x17}, decimal[11] = {0x01, 0x00, 0x0F, 0x0A, 0x02};
static const uint8_t list[20] = {0x02, 0x00, 0x1C, 0x08}, array[20] = {0x02, 0x00, 0x1D, 0x13, 0x03};

/* An array as a call takes it. */
#define LENT(array) array, sizeof array / sizeof *array

static int is(lz_reply reply, uint64_t number, uint64_t value) {
    return reply.number == number && reply.value == value;
}

static int yes(lz_reply reply) {
    return is(reply, 0, 1);
}

static int no(lz_reply reply) {
    return is(reply, 0, 0);
}

static void constants(void) {
    MUST(LZ_OK == 0);
    MUST(LZ_LENGTH == 1);
    MUST(LZ_KIND == 2);
    MUST(LZ_ARGUMENT == 3);
    MUST(LZ_SHAPE == 4);
    MUST(LZ_DEPTH == 5);
    MUST(LZ_NESTED == 6);
    MUST(LZ_UNKNOWN == 7);
    MUST(LZ_OUTPUT_TOO_SHORT == 8);
    MUST(LZ_CHANNEL == 9);
    MUST(LZ_CHANNEL_CODE == 10);
    MUST(LZ_NOT_AN_INTEGER == 11);
    MUST(LZ_NO_UPCAST == 12);
    MUST(LZ_CHANNELS == 32);
    MUST(LZ_JOIN_KEPT == 0);
    MUST(LZ_JOIN_AVOIDABLE == 1);
    MUST(LZ_JOIN_UNAVOIDABLE == 2);
    MUST(LZ_JOIN_NOT_INTEGERS == 3);
    MUST(sizeof(lz_reply) == 2 * 8);
    MUST(sizeof(lz_shape_reply) == (2 + 32) * 8);
    MUST(sizeof(lz_channel_types) == 32);
    MUST(sizeof(lz_types_reply) == 2 * 8 + 32);
}

/* Each refusal of a type. */
static void checks(void) {
    const uint8_t kind[11] = {0x01, 0x00, 0x20}, argument[11] = {0x01, 0x00, 0x07, 0x01};
    uint8_t deep[2 + 9 * 34] = {34, 0};
    memset(deep + 2, 28, 33);

    MUST(is(lz_check(LENT(list)), LZ_OK, 0));
    MUST(is(lz_check(list, 19), LZ_LENGTH, 0));
    MUST(is(lz_check(NULL, 0), LZ_LENGTH, 0));
    MUST(is(lz_check(LENT(kind)), LZ_KIND, 0));
    MUST(is(lz_check(LENT(argument)), LZ_ARGUMENT, 0));
    MUST(is(lz_check(LENT(deep)), LZ_DEPTH, 0));
    deep[2 + 32] = 7;
    MUST(is(lz_check(LENT(deep)), LZ_SHAPE, 0));
}

static void encoding(void) {
    uint8_t kinds[3] = {9, 9, 9}, out[21];
    uint64_t args[3] = {9, 9, 9};
    memset(out, 9, sizeof out);

    MUST(is(lz_decode(LENT(list), LENT(kinds), args, 1), LZ_OUTPUT_TOO_SHORT, 0) && kinds[0] == 9);
    MUST(is(lz_decode(LENT(list), LENT(kinds), LENT(args)), LZ_OK, 2));
    MUST(kinds[0] == 28 && kinds[1] == 8 && kinds[2] == 9 && args[0] == 0 && args[1] == 0 && args[2] == 9);

    MUST(is(lz_encode(kinds, 1, args, 1, LENT(out)), LZ_SHAPE, 0) && out[0] == 9);
    MUST(is(lz_encode(kinds, 2, args, 1, LENT(out)), LZ_LENGTH, 0) && out[0] == 9);
    MUST(is(lz_encode(kinds, 2, args, 2, out, 19), LZ_OUTPUT_TOO_SHORT, 0) && out[0] == 9);
    MUST(is(lz_encode(kinds, 2, args, 2, LENT(out)), LZ_OK, 20));
    MUST(memcmp(out, list, 20) == 0 && out[20] == 9);
}

static void predicates(void) {
    MUST(yes(lz_is_nested(LENT(list))) && no(lz_is_nested(LENT(int32))));
    MUST(yes(lz_is_known(LENT(list))) && no(lz_is_known(LENT(any))));
    MUST(yes(lz_is_logical(LENT(array))) && no(lz_is_logical(LENT(list))));
    MUST(yes(lz_is_primitive(LENT(string))) && no(lz_is_primitive(LENT(date))));
    MUST(yes(lz_is_primitive_numeric(LENT(float64))) && no(lz_is_primitive_numeric(LENT(string))));
    MUST(yes(lz_is_temporal(LENT(date))) && no(lz_is_temporal(LENT(int32))));
    MUST(yes(lz_is_float(LENT(float64))) && no(lz_is_float(LENT(int32))));
    MUST(yes(lz_is_integer(LENT(uint64))) && no(lz_is_integer(LENT(float64))));
    MUST(yes(lz_is_signed_integer(LENT(int32))) && no(lz_is_signed_integer(LENT(uint64))));
    MUST(yes(lz_is_unsigned_integer(LENT(uint64))) && no(lz_is_unsigned_integer(LENT(int32))));
    MUST(yes(lz_is_string(LENT(string))) && no(lz_is_string(LENT(any))));
    MUST(yes(lz_is_unknown(LENT(any))) && no(lz_is_unknown(LENT(list))));
    MUST(yes(lz_contains_unknown(LENT(any))) && no(lz_contains_unknown(LENT(list))));
    MUST(yes(lz_contains_list_recursive(LENT(list))) && no(lz_contains_list_recursive(LENT(array))));
    MUST(is(lz_is_nested(list, 19), LZ_LENGTH, 0));
}

static void relations(void) {
    MUST(yes(lz_equal(LENT(list), LENT(list))) && no(lz_equal(LENT(list), LENT(array))));
    MUST(yes(lz_contains_dtype_recursive(LENT(array), LENT(date))));
    MUST(no(lz_contains_dtype_recursive(LENT(array), LENT(int32))));
    MUST(yes(lz_can_cast_to(LENT(null), LENT(boolean))) && no(lz_can_cast_to(LENT(boolean), LENT(null))));
    MUST(is(lz_can_cast_to(LENT(list), LENT(array)), LZ_OK, 2));
}

static void types_from_types(void) {
    uint8_t out[21];
    memset(out, 9, sizeof out);

    MUST(is(lz_inner_dtype(LENT(any), LENT(out)), LZ_OK, 0) && out[0] == 9);
    MUST(is(lz_leaf_dtype(LENT(list), out, 10), LZ_OUTPUT_TOO_SHORT, 0) && out[0] == 9);
    MUST(is(lz_materialize_unknown(LENT(any), 0, out, 0), LZ_UNKNOWN, 0) && out[0] == 9);
    MUST(is(lz_inner_dtype(LENT(list), LENT(out)), LZ_OK, 11) && out[2] == 0x08 && out[11] == 9);
    MUST(is(lz_leaf_dtype(LENT(int32), LENT(out)), LZ_OK, 11) && memcmp(out, int32, 11) == 0 && out[11] == 9);
    MUST(is(lz_array_leaf_dtype(LENT(array), LENT(out)), LZ_OK, 11) && out[2] == 0x13 && out[11] == 9);
    MUST(is(lz_array_leaf_dtype(LENT(list), LENT(out)), LZ_OK, 0) && out[2] == 0x13);
    MUST(is(lz_materialize_unknown(LENT(any), 1, LENT(out)), LZ_OK, 11) && memcmp(out, any, 11) == 0);
    MUST(is(lz_to_physical(LENT(array), LENT(out)), LZ_OK, 20) && out[3] == 0x09 && out[20] == 9);
}

static void shapes_and_units(void) {
    lz_shape_reply shape = lz_get_shape(LENT(array)), none = lz_get_shape(LENT(list));
    MUST(shape.number == LZ_OK && shape.count == 1 && shape.widths[0] == 3 && shape.widths[1] == 0);
    MUST(none.number == LZ_OK && none.count == 0 && none.widths[0] == 0);
    MUST(lz_get_shape(array, 19).number == LZ_LENGTH);
    MUST(is(lz_get_time_units(0, 1), LZ_OK, 1) && is(lz_get_time_units(2, 0), LZ_OK, 2));
    MUST(is(lz_get_time_units(3, 0), LZ_ARGUMENT, 0) && is(lz_get_time_units(0, 3), LZ_ARGUMENT, 0));
}

static void joins(void) {
    uint8_t out[12];
    memset(out, 9, sizeof out);

    MUST(is(lz_get_numeric_upcast_supertype_lossless(LENT(uint128), LENT(int32), LENT(out)), LZ_OK, 0) && out[0] == 9);
    MUST(is(lz_get_numeric_upcast_supertype_lossless(LENT(list), LENT(decimal), out, 0), LZ_OK, 0));
    MUST(is(lz_get_numeric_upcast_supertype_lossless(LENT(int32), LENT(uint64), LENT(out)), LZ_OK, 11));
    MUST(out[0] == 1 && out[2] == 0x0B && out[10] == 0 && out[11] == 9);

    MUST(is(lz_get_supertype_with_options(LENT(decimal), LENT(list), 0, 0, LENT(out)), LZ_NESTED, 0));
    MUST(is(lz_get_supertype_with_options(LENT(int32), LENT(uint64), 0, 0, out, 10), LZ_OUTPUT_TOO_SHORT, 0));
    MUST(out[2] == 0x0B);
    MUST(is(lz_get_supertype_with_options(LENT(int32), LENT(uint64), 1, 1, LENT(out)), LZ_OK, 11) && out[2] == 0x0E);

    MUST(is(lz_join_report(LENT(int32), LENT(int32)), LZ_OK, LZ_JOIN_KEPT));
    MUST(is(lz_join_report(LENT(int32), LENT(uint64)), LZ_OK, LZ_JOIN_AVOIDABLE));
    MUST(is(lz_join_report(LENT(uint128), LENT(int32)), LZ_OK, LZ_JOIN_UNAVOIDABLE));
    MUST(is(lz_join_report(LENT(list), LENT(int32)), LZ_OK, LZ_JOIN_NOT_INTEGERS));
}

/* The supertype of two types of one node is this one, and leaves the byte behind it alone. */
static int joins_to(const uint8_t *left, const uint8_t *right, int implode, int to_string, const uint8_t *type) {
    uint8_t out[12];
    memset(out, 9, sizeof out);
    lz_reply reply = lz_get_supertype_with_options(left, 11, right, 11, implode, to_string, LENT(out));
    return is(reply, LZ_OK, 11) && memcmp(out, type, 11) == 0 && out[11] == 9;
}

/* Decimal(10, 2) stays beside Int8, whose largest number has 3 digits, and becomes Decimal(38, 2) beside Int32, whose
 * largest has 10: in either order. */
static void decimal_joins(void) {
    const uint8_t wide[11] = {0x01, 0x00, 0x0F, 0x26, 0x02};
    uint8_t out[12], before[12];
    memset(out, 9, sizeof out);
    memset(before, 9, sizeof before);

    MUST(joins_to(decimal, int8, 0, 0, decimal) && joins_to(int8, decimal, 1, 0, decimal));
    MUST(joins_to(decimal, int32, 0, 1, wide) && joins_to(int32, decimal, 1, 1, wide));
    MUST(is(lz_get_supertype_with_options(LENT(decimal), LENT(int32), 0, 0, out, 10), LZ_OUTPUT_TOO_SHORT, 0));
    MUST(is(lz_get_supertype_with_options(LENT(boolean), LENT(decimal), 0, 0, LENT(out)), LZ_OK, 0));
    MUST(memcmp(out, before, sizeof out) == 0);
}

/* The rules on flat types, of List(Unknown(Str)), List(String) and List(Date). */
static void flat_rules(void) {
    const uint8_t str[2] = {28, 24}, text[2] = {28, 16}, day[2] = {28, 19};
    const uint64_t zero[2] = {0, 0};
    uint8_t kinds[3] = {9, 9, 9};
    uint64_t args[3] = {9, 9, 9};

    MUST(no(lz_flat_is_known(LENT(str), LENT(zero))) && yes(lz_flat_is_known(LENT(text), LENT(zero))));
    MUST(is(lz_flat_is_known(str, 1, zero, 1), LZ_SHAPE, 0) && is(lz_flat_is_known(str, 1, zero, 2), LZ_LENGTH, 0));
    MUST(yes(lz_flat_equal(LENT(str), LENT(zero), LENT(str), LENT(zero))));
    MUST(no(lz_flat_equal(LENT(str), LENT(zero), LENT(text), LENT(zero))));
    MUST(yes(lz_flat_can_cast_to(LENT(text), LENT(zero), LENT(text), LENT(zero))));
    MUST(is(lz_flat_can_cast_to(LENT(day), LENT(zero), LENT(text), LENT(zero)), LZ_OK, 2));

    MUST(is(lz_flat_materialize_unknown(LENT(str), LENT(zero), 0, kinds, 1, LENT(args)), LZ_OUTPUT_TOO_SHORT, 0));
    MUST(kinds[0] == 9 && args[0] == 9);
    MUST(is(lz_flat_materialize_unknown(LENT(str), LENT(zero), 0, LENT(kinds), LENT(args)), LZ_OK, 2));
    MUST(kinds[0] == 28 && kinds[1] == 16 && kinds[2] == 9 && args[1] == 0 && args[2] == 9);
    MUST(is(lz_flat_to_physical(LENT(day), LENT(zero), LENT(kinds), LENT(args)), LZ_OK, 2));
    MUST(kinds[0] == 28 && kinds[1] == 9 && kinds[2] == 9 && args[1] == 0 && args[2] == 9);
}

/* The parts of Array(3, List(Date)), which has two nodes under its root, and of Date, which has none. */
static void flat_parts(void) {
    const uint8_t kinds[3] = {29, 28, 19};
    const uint64_t args[3] = {3, 0, 0};

    MUST(is(lz_flat_inner_dtype(LENT(kinds), LENT(args)), LZ_OK, 2));
    MUST(is(lz_flat_leaf_dtype(LENT(kinds), LENT(args)), LZ_OK, 1));
    MUST(is(lz_flat_array_leaf_dtype(LENT(kinds), LENT(args)), LZ_OK, 2));
    MUST(is(lz_flat_inner_dtype(kinds + 2, 1, args + 2, 1), LZ_OK, 0));
    MUST(is(lz_flat_leaf_dtype(kinds + 2, 1, args + 2, 1), LZ_OK, 1));
    MUST(is(lz_flat_array_leaf_dtype(kinds + 1, 2, args + 1, 2), LZ_OK, 0));
    MUST(is(lz_flat_leaf_dtype(kinds, 2, args, 2), LZ_SHAPE, 0));
}

/* The unknown string and the unknown integer 5, with primitive-to-string off and on; Int8 and Int16. */
static void flat_joins(void) {
    const uint8_t str[1] = {24}, dyn[1] = {26}, byte[1] = {7}, word[1] = {8};
    const uint64_t zero[1] = {0}, five[1] = {5};
    uint8_t kinds[2] = {9, 9};
    uint64_t args[2] = {9, 9};
    lz_reply reply;

    reply = lz_flat_get_supertype_with_options(LENT(str), LENT(zero), LENT(dyn), LENT(five), 1, 0, LENT(kinds),
                                               LENT(args));
    MUST(is(reply, LZ_OK, 1) && kinds[0] == 23 && kinds[1] == 9 && args[0] == 0 && args[1] == 9);
    reply = lz_flat_get_supertype_with_options(LENT(str), LENT(zero), LENT(dyn), LENT(five), 0, 1, LENT(kinds),
                                               LENT(args));
    MUST(is(reply, LZ_OK, 1) && kinds[0] == 24);
    reply = lz_flat_get_numeric_upcast_supertype_lossless(LENT(byte), LENT(zero), LENT(word), LENT(zero), LENT(kinds),
                                                          args, 0);
    MUST(is(reply, LZ_OUTPUT_TOO_SHORT, 0) && kinds[0] == 24);
    reply = lz_flat_get_numeric_upcast_supertype_lossless(LENT(byte), LENT(zero), LENT(word), LENT(zero), kinds, 1,
                                                          args, 1);
    MUST(is(reply, LZ_OK, 1) && kinds[0] == 8 && args[0] == 0);
}

/* Decimal(10, 2) with Int8 and with Int32, as above. */
static void flat_decimal_joins(void) {
    const uint8_t reading[1] = {15}, byte[1] = {7}, counter[1] = {9};
    const uint64_t zero[1] = {0}, of_10[1] = {2 * 256 + 10}, of_38 = 2 * 256 + 38;
    uint8_t kinds[2] = {9, 9};
    uint64_t args[2] = {9, 9};
    lz_reply reply;

    reply = lz_flat_get_supertype_with_options(LENT(reading), LENT(of_10), LENT(byte), LENT(zero), 0, 0, LENT(kinds),
                                               args, 0);
    MUST(is(reply, LZ_OUTPUT_TOO_SHORT, 0) && kinds[0] == 9 && args[0] == 9);
    reply = lz_flat_get_supertype_with_options(LENT(reading), LENT(of_10), LENT(byte), LENT(zero), 0, 0, LENT(kinds),
                                               LENT(args));
    MUST(is(reply, LZ_OK, 1) && kinds[0] == 15 && kinds[1] == 9 && args[0] == of_10[0] && args[1] == 9);
    reply = lz_flat_get_supertype_with_options(LENT(counter), LENT(zero), LENT(reading), LENT(of_10), 0, 1, LENT(kinds),
                                               LENT(args));
    MUST(is(reply, LZ_OK, 1) && kinds[0] == 15 && kinds[1] == 9 && args[0] == of_38 && args[1] == 9);
    reply = lz_flat_get_supertype_with_options(LENT(byte), LENT(zero), LENT(reading), LENT(of_10), 1, 0, LENT(kinds),
                                               LENT(args));
    MUST(is(reply, LZ_OK, 1) && kinds[0] == 15 && kinds[1] == 9 && args[0] == of_10[0] && args[1] == 9);
    reply = lz_flat_get_supertype_with_options(LENT(reading), LENT(of_10), LENT(counter), LENT(zero), 1, 1, LENT(kinds),
                                               LENT(args));
    MUST(is(reply, LZ_OK, 1) && kinds[0] == 15 && kinds[1] == 9 && args[0] == of_38 && args[1] == 9);
}

/* With a byte before the codes and one behind them. */
static void merges(void) {
    uint8_t lent[LZ_CHANNELS + 2] = {9}, expected[LZ_CHANNELS + 2] = {9};
    uint8_t *codes = lent + 1;
    lent[LZ_CHANNELS + 1] = expected[LZ_CHANNELS + 1] = 9;

    MUST(is(lz_channel_merge(codes, 31, LENT(uint64)), LZ_OK, 5));
    MUST(is(lz_channel_merge(codes, 31, LENT(int8)), LZ_OK, 11));
    MUST(is(lz_channel_merge(codes, 31, LENT(uint128)), LZ_NO_UPCAST, 0));
    MUST(is(lz_channel_merge(codes, 31, LENT(list)), LZ_NOT_AN_INTEGER, 0));
    MUST(is(lz_channel_merge(codes, 32, LENT(int8)), LZ_CHANNEL, 0));
    MUST(is(lz_channel_merge(codes, 32, int8, 10), LZ_LENGTH, 0));
    expected[1 + 31] = 11;
    MUST(memcmp(lent, expected, sizeof lent) == 0);
    codes[0] = expected[1] = 1;
    MUST(is(lz_channel_merge(codes, 0, LENT(int8)), LZ_CHANNEL_CODE, 0));
    MUST(is(lz_channel_merge(codes, 1, LENT(int8)), LZ_OK, 7));
    expected[1 + 1] = 7;
    MUST(memcmp(lent, expected, sizeof lent) == 0);
}

/* Null into an empty channel, one that holds Int8, one whose byte is no code and one that there isn't: no change. */
static void null_merges(void) {
    const uint8_t argument[11] = {0x01, 0x00, 0x00, 0x01}, two[20] = {0x02, 0x00, 0x00, 0x00};
    uint8_t lent[LZ_CHANNELS + 2] = {9}, expected[LZ_CHANNELS + 2];
    uint8_t *codes = lent + 1;
    lent[LZ_CHANNELS + 1] = 9;
    codes[30] = 7;
    codes[29] = 12;
    memcpy(expected, lent, sizeof lent);

    MUST(is(lz_channel_merge(codes, 31, LENT(null)), LZ_OK, 0));
    MUST(is(lz_channel_merge(codes, 30, LENT(null)), LZ_OK, 7));
    MUST(is(lz_channel_merge(codes, 29, LENT(null)), LZ_CHANNEL_CODE, 0));
    MUST(is(lz_channel_merge(codes, 32, LENT(null)), LZ_CHANNEL, 0));
    MUST(is(lz_channel_merge(codes, 30, LENT(argument)), LZ_ARGUMENT, 0));
    MUST(is(lz_channel_merge(codes, 30, LENT(two)), LZ_SHAPE, 0));
    MUST(is(lz_channel_merge(codes, 30, LENT(boolean)), LZ_NOT_AN_INTEGER, 0));
    MUST(memcmp(lent, expected, sizeof lent) == 0);
}

/* The same of flat types, lent and by value. */
static void flat_null_merges(void) {
    const uint8_t nothing[2] = {0, 0};
    const uint64_t zero[2] = {0, 0}, one[1] = {1};
    lz_channel_types expected = {{0}}, lent = {{0}};
    lz_types_reply next = {{0, 0}, {{0}}};
    expected.codes[30] = lent.codes[30] = next.types.codes[30] = 7;
    expected.codes[29] = lent.codes[29] = next.types.codes[29] = 12;

    next = lz_flat_channel_merged(next.types, 31, nothing, 1, zero, 1);
    MUST(is(next.reply, LZ_OK, 0));
    next = lz_flat_channel_merged(next.types, 30, nothing, 1, zero, 1);
    MUST(is(next.reply, LZ_OK, 7));
    next = lz_flat_channel_merged(next.types, 29, nothing, 1, zero, 1);
    MUST(is(next.reply, LZ_CHANNEL_CODE, 0));
    next = lz_flat_channel_merged(next.types, 32, nothing, 1, zero, 1);
    MUST(is(next.reply, LZ_CHANNEL, 0));
    next = lz_flat_channel_merged(next.types, 30, nothing, 1, LENT(one));
    MUST(is(next.reply, LZ_ARGUMENT, 0));
    next = lz_flat_channel_merged(next.types, 30, LENT(nothing), LENT(zero));
    MUST(is(next.reply, LZ_SHAPE, 0) && memcmp(&next.types, &expected, sizeof expected) == 0);

    MUST(is(lz_flat_channel_merge(&lent, 31, nothing, 1, zero, 1), LZ_OK, 0));
    MUST(is(lz_flat_channel_merge(&lent, 30, nothing, 1, zero, 1), LZ_OK, 7));
    MUST(is(lz_flat_channel_merge(&lent, 29, nothing, 1, zero, 1), LZ_CHANNEL_CODE, 0));
    MUST(is(lz_flat_channel_merge(&lent, 32, nothing, 1, zero, 1), LZ_CHANNEL, 0));
    MUST(is(lz_flat_channel_merge(&lent, 30, nothing, 1, LENT(one)), LZ_ARGUMENT, 0));
    MUST(is(lz_flat_channel_merge(&lent, 30, LENT(nothing), LENT(zero)), LZ_SHAPE, 0));
    MUST(memcmp(&lent, &expected, sizeof expected) == 0);
}

/* The merges of flat types, lent and by value: Int8, UInt8 and UInt128, and kinds without arguments. */
static void flat_merges(void) {
    const uint8_t byte[1] = {7}, unsigned_byte[1] = {2}, longest[1] = {6};
    const uint64_t zero[1] = {0};
    lz_channel_types expected = {{0}}, lent = {{0}};
    lz_types_reply next = {{0, 0}, {{0}}};
    expected.codes[30] = 8;

    next = lz_flat_channel_merged(next.types, 30, LENT(byte), LENT(zero));
    MUST(is(next.reply, LZ_OK, 7));
    next = lz_flat_channel_merged(next.types, 30, LENT(unsigned_byte), LENT(zero));
    MUST(is(next.reply, LZ_OK, 8) && memcmp(&next.types, &expected, sizeof expected) == 0);
    next = lz_flat_channel_merged(next.types, 30, LENT(longest), LENT(zero));
    MUST(is(next.reply, LZ_NO_UPCAST, 0));
    next = lz_flat_channel_merged(next.types, SIZE_MAX, LENT(byte), LENT(zero));
    MUST(is(next.reply, LZ_CHANNEL, 0));
    next = lz_flat_channel_merged(next.types, SIZE_MAX, LENT(byte), zero, 0);
    MUST(is(next.reply, LZ_LENGTH, 0) && memcmp(&next.types, &expected, sizeof expected) == 0);

    MUST(is(lz_flat_channel_merge(&lent, 30, LENT(byte), LENT(zero)), LZ_OK, 7));
    MUST(is(lz_flat_channel_merge(&lent, 30, LENT(unsigned_byte), LENT(zero)), LZ_OK, 8));
    MUST(is(lz_flat_channel_merge(&lent, 30, LENT(longest), LENT(zero)), LZ_NO_UPCAST, 0));
    MUST(is(lz_flat_channel_merge(&lent, SIZE_MAX, LENT(byte), LENT(zero)), LZ_CHANNEL, 0));
    MUST(memcmp(&lent, &expected, sizeof expected) == 0);
}

int main(void) {
    constants();
    checks();
    encoding();
    predicates();
    relations();
    types_from_types();
    shapes_and_units();
    joins();
    decimal_joins();
    flat_rules();
    flat_parts();
    flat_joins();
    flat_decimal_joins();
    merges();
    null_merges();
    flat_merges();
    flat_null_merges();
    return status;
}
