/* How much stack each function of the header needs for the types in a file, encoded one behind the other: every call is made on a
 * stack of its own that was painted, and what is no longer painted was used. Prints a line for each function, its name and
 * the most bytes that a call needed. */
#define _XOPEN_SOURCE 700
#include "lomzegash.h"

#include <stdio.h>
#include <stdlib.h>
#include <string.h>
#include <ucontext.h>

enum { MOST_NODES = 512, MOST_TYPES = 100, WORDS = 1 << 14 };

typedef struct {
    size_t nodes, len;
    uint8_t encoded[2 + 9 * MOST_NODES];
    uint64_t args[MOST_NODES];
} type;

/* The stack and its paint, which no call writes but by chance. */
static uint64_t stack[WORDS];
static const uint64_t paint = 0xB7E151628AED2A6B;

/* What a call is given: one type or two, flags, and room for outputs or none. */
static const type *left, *right;
static uint8_t flag;
static size_t room, channel;

static uint8_t out[2 + 9 * MOST_NODES], out_kinds[MOST_NODES], codes[LZ_CHANNELS];
static uint64_t out_args[MOST_NODES];
static lz_channel_types types;

#define BYTES(type) type->encoded, type->len
#define NODES(type) type->encoded + 2, type->nodes, type->args, type->nodes
#define OUT out, room * sizeof out
#define OUT_NODES out_kinds, room * MOST_NODES, out_args, room * MOST_NODES

/* Every function of the header, how many types it takes, and what it is given. */
#define CALLS(CALL)                                                                                 \
    CALL(lz_check, 1, BYTES(left))                                                                  \
    CALL(lz_decode, 1, BYTES(left), OUT_NODES)                                                      \
    CALL(lz_encode, 1, NODES(left), OUT)                                                            \
    CALL(lz_is_nested, 1, BYTES(left))                                                              \
    CALL(lz_is_known, 1, BYTES(left))                                                               \
    CALL(lz_is_logical, 1, BYTES(left))                                                             \
    CALL(lz_is_primitive, 1, BYTES(left))                                                           \
    CALL(lz_is_primitive_numeric, 1, BYTES(left))                                                   \
    CALL(lz_is_temporal, 1, BYTES(left))                                                            \
    CALL(lz_is_float, 1, BYTES(left))                                                               \
    CALL(lz_is_integer, 1, BYTES(left))                                                             \
    CALL(lz_is_signed_integer, 1, BYTES(left))                                                      \
    CALL(lz_is_unsigned_integer, 1, BYTES(left))                                                    \
    CALL(lz_is_string, 1, BYTES(left))                                                              \
    CALL(lz_is_unknown, 1, BYTES(left))                                                             \
    CALL(lz_contains_unknown, 1, BYTES(left))                                                       \
    CALL(lz_contains_list_recursive, 1, BYTES(left))                                                \
    CALL(lz_equal, 2, BYTES(left), BYTES(right))                                                    \
    CALL(lz_contains_dtype_recursive, 2, BYTES(left), BYTES(right))                                 \
    CALL(lz_can_cast_to, 2, BYTES(left), BYTES(right))                                              \
    CALL(lz_inner_dtype, 1, BYTES(left), OUT)                                                       \
    CALL(lz_leaf_dtype, 1, BYTES(left), OUT)                                                        \
    CALL(lz_array_leaf_dtype, 1, BYTES(left), OUT)                                                  \
    CALL(lz_to_physical, 1, BYTES(left), OUT)                                                       \
    CALL(lz_materialize_unknown, 1, BYTES(left), flag, OUT)                                         \
    CALL(lz_get_shape, 1, BYTES(left))                                                              \
    CALL(lz_get_numeric_upcast_supertype_lossless, 2, BYTES(left), BYTES(right), OUT)               \
    CALL(lz_get_supertype_with_options, 2, BYTES(left), BYTES(right), flag, flag, OUT)              \
    CALL(lz_join_report, 2, BYTES(left), BYTES(right))                                              \
    CALL(lz_get_time_units, 1, flag, 2)                                                             \
    CALL(lz_channel_merge, 1, codes, channel, BYTES(left))                                          \
    CALL(lz_flat_is_known, 1, NODES(left))                                                          \
    CALL(lz_flat_equal, 2, NODES(left), NODES(right))                                               \
    CALL(lz_flat_can_cast_to, 2, NODES(left), NODES(right))                                         \
    CALL(lz_flat_materialize_unknown, 1, NODES(left), flag, OUT_NODES)                              \
    CALL(lz_flat_to_physical, 1, NODES(left), OUT_NODES)                                            \
    CALL(lz_flat_get_numeric_upcast_supertype_lossless, 2, NODES(left), NODES(right), OUT_NODES)    \
    CALL(lz_flat_get_supertype_with_options, 2, NODES(left), NODES(right), flag, flag, OUT_NODES)   \
    CALL(lz_flat_inner_dtype, 1, NODES(left))                                                       \
    CALL(lz_flat_leaf_dtype, 1, NODES(left))                                                        \
    CALL(lz_flat_array_leaf_dtype, 1, NODES(left))                                                  \
    CALL(lz_flat_channel_merge, 1, &types, channel, NODES(left))                                    \
    CALL(lz_flat_channel_merged, 1, types, channel, NODES(left))

/* A caller for each: of the function, or of one that does nothing, which shows where the caller's own part of the stack ends. */
static void empty(void) {
}

static void (*volatile nothing)(void) = empty;
static int is_dry;

#define CALLER(name, count, ...)     \
    static void call_##name(void) {  \
        if (is_dry)                  \
            nothing();               \
        else                         \
            (void)name(__VA_ARGS__); \
    }
CALLS(CALLER)

#define ROW(name, count, ...) {#name, count, call_##name},
static const struct {
    const char *name;
    int types;
    void (*call)(void);
} calls[] = {CALLS(ROW)};

static void paint_from(size_t word) {
    for (; word < WORDS; word++)
        stack[word] = paint;
}

/* The bytes of the stack that a caller used, which are painted again. */
static size_t used(void (*call)(void)) {
    static ucontext_t here, there;
    size_t word = 0;
    getcontext(&there);
    there.uc_stack.ss_sp = stack;
    there.uc_stack.ss_size = sizeof stack;
    there.uc_link = &here;
    makecontext(&there, call, 0);
    swapcontext(&here, &there);
    while (word < WORDS && stack[word] == paint)
        word++;
    if (word < WORDS / 8) {
        fprintf(stderr, "the stack has too few words\n");
        exit(2);
    }
    paint_from(word);
    return (WORDS - word) * sizeof *stack;
}

static size_t greater(size_t one, size_t other) {
    return one < other ? other : one;
}

/* The most that a call needs for the two types, with either flag, with room and without, where so much is the caller's own. */
static size_t needed(void (*call)(void), size_t own) {
    size_t most = 0;
    for (int which = 0; which < 4; which++) {
        flag = which % 2;
        room = which / 2;
        channel = LZ_CHANNELS - which % 2;
        memset(codes, 0, sizeof codes);
        memset(&types, 0, sizeof types);
        most = greater(most, used(call) - own);
    }
    return most;
}

/* The most over these types, or over all pairs of them. A call of nothing puts an address on the stack and no more. */
static size_t most_needed(size_t call, const type *all, size_t count) {
    size_t most = 0, own;
    is_dry = 1;
    own = used(calls[call].call) - sizeof(void *);
    is_dry = 0;
    for (left = all; left < all + count; left++)
        for (right = all; right < all + (calls[call].types == 2 ? count : 1); right++)
            most = greater(most, needed(calls[call].call, own));
    return most;
}

static int read_type(FILE *file, type *to) {
    if (fread(to->encoded, 1, 2, file) < 2)
        return 0;
    to->nodes = to->encoded[0] + 256 * to->encoded[1];
    to->len = 2 + 9 * to->nodes;
    if (to->nodes > MOST_NODES || fread(to->encoded + 2, 1, to->len - 2, file) < to->len - 2)
        return 0;
    for (size_t node = 0; node < to->nodes; node++) {
        to->args[node] = 0;
        for (int byte = 7; byte >= 0; byte--)
            to->args[node] = 256 * to->args[node] + to->encoded[2 + to->nodes + 8 * node + byte];
    }
    return 1;
}

int main(int words, char **word) {
    static type all[MOST_TYPES];
    size_t count = 0;
    FILE *file = words == 2 ? fopen(word[1], "rb") : NULL;
    if (file == NULL)
        return 2;
    while (count < MOST_TYPES && read_type(file, &all[count]))
        count++;
    if (count == 0 || count == MOST_TYPES || !feof(file))
        return 2;
    paint_from(0);
    for (size_t call = 0; call < sizeof calls / sizeof *calls; call++)
        printf("%s %zu\n", calls[call].name, most_needed(call, all, count));
    return 0;
}
