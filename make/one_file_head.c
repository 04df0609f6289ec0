#include "muxandu.h"

#include <stddef.h>
#include <stdlib.h>
#include <string.h>

typedef uint8_t u8;
typedef int8_t s8;
typedef uint16_t u16;
typedef int16_t s16;
typedef uint32_t u32;
typedef int32_t s32;
typedef uint64_t u64;
typedef int64_t s64;

/* Whether the low byte of a number comes last, as the compiler says. */
#if defined(MUXANDU_BIG_ENDIAN)
#elif defined(__BYTE_ORDER__) && defined(__ORDER_BIG_ENDIAN__)
#define MUXANDU_BIG_ENDIAN (__BYTE_ORDER__ == __ORDER_BIG_ENDIAN__)
#elif defined(_MSC_VER) || defined(__x86_64__) || defined(__i386__) || defined(__aarch64__)
#define MUXANDU_BIG_ENDIAN 0
#else
#error "this compiler does not say the order of bytes: define MUXANDU_BIG_ENDIAN as 1 (the low byte is last) or 0"
#endif

/* Where a pointer has 64 bits and the low byte comes first, a call works on your memory as it is. Elsewhere it reads and writes
 * the fields of your structs byte by byte. */
#if !defined(MUXANDU_BY_BYTES)
#define MUXANDU_BY_BYTES (MUXANDU_BIG_ENDIAN || UINTPTR_MAX != UINT64_MAX)
#endif

#if defined(__GNUC__)
#define TRAP __builtin_trap()
#else
#define TRAP abort()
#endif

#if defined(__GNUC__) && !defined(__TINYC__)
#define CLZ32(x) ((x) ? (u32)__builtin_clz(x) : 32u)
#define CLZ64(x) ((x) ? (u64)__builtin_clzll(x) : 64u)
#define CTZ32(x) ((x) ? (u32)__builtin_ctz(x) : 32u)
#define CTZ64(x) ((x) ? (u64)__builtin_ctzll(x) : 64u)
#define POPCNT32(x) ((u32)__builtin_popcount(x))
#define POPCNT64(x) ((u64)__builtin_popcountll(x))
#else
static u32 count_ones(u64 x) {
    u32 count = 0;
    for (; x; x &= x - 1) count++;
    return count;
}
static u64 fill_down(u64 x) {
    int by;
    for (by = 1; by < 64; by *= 2) x |= x >> by;
    return x;
}
#define CLZ32(x) (32u - count_ones(fill_down((u32)(x))))
#define CLZ64(x) ((u64)(64u - count_ones(fill_down(x))))
#define CTZ32(x) ((x) ? count_ones((u32)(((x) & (0u - (x))) - 1u)) : 32u)
#define CTZ64(x) ((u64)((x) ? count_ones(((x) & (0u - (x))) - 1u) : 64u))
#define POPCNT32(x) count_ones((u32)(x))
#define POPCNT64(x) ((u64)count_ones(x))
#endif
#define ROTL32(x, by) ((x) << ((by)&31) | (x) >> ((0u - (by)) & 31))
#define ROTR32(x, by) ((x) >> ((by)&31) | (x) << ((0u - (by)) & 31))
#define ROTL64(x, by) ((x) << ((by)&63) | (x) >> ((0u - (by)) & 63))
#define ROTR64(x, by) ((x) >> ((by)&63) | (x) << ((0u - (by)) & 63))

/* The frame of a function. */
#if defined(__GNUC__)
#define FRAME(size) u8 frame[size] __attribute__((aligned(16)))
#elif defined(_MSC_VER)
#define FRAME(size) __declspec(align(16)) u8 frame[size]
#else
#define FRAME(size)                                                                                                    \
    u64 words[(size) / 8];                                                                                             \
    u8 *const frame = (u8 *)words
#endif
/* A function that a module may call, and one of the module that is never in line. */
#if defined(__GNUC__)
#define INLINE static inline __attribute__((unused))
#define APART __attribute__((noinline))
#else
#define INLINE static inline
#define APART
#endif
#define ADDRESS(pointer) ((u64)(uintptr_t)(pointer))

#if !MUXANDU_BY_BYTES

#define GIVEN void
#define GIVEN_AND
#define GIVES0
#define GIVES
#define UNUSED
#define PARTS
#define PART(number, kind, at) ADDRESS(at)
#define DATA(at) (ADDRESS(&data) + (at))
#define AT(address) ((u8 *)(uintptr_t)(address))

#define ACCESS(bits)                                                                                                   \
    static inline u##bits load##bits##_here(const u8 *at) {                                                            \
        u##bits number;                                                                                                \
        memcpy(&number, at, sizeof number);                                                                            \
        return number;                                                                                                 \
    }                                                                                                                  \
    static inline void store##bits##_here(u8 *at, u##bits number) {                                                    \
        memcpy(at, &number, sizeof number);                                                                            \
    }                                                                                                                  \
    static inline u##bits load##bits(u64 address) {                                                                    \
        return load##bits##_here(AT(address));                                                                         \
    }                                                                                                                  \
    static inline void store##bits(u64 address, u##bits number) {                                                      \
        store##bits##_here(AT(address), number);                                                                       \
    }

static inline void copy(u64 to, u64 from, u64 count) {
    if (count) memmove(AT(to), AT(from), (size_t)count);
}

static inline void fill(u64 to, int byte, u64 count) {
    if (count) memset(AT(to), byte, (size_t)count);
}

#else

/* What a call has from its caller beside texts: for an array of numbers or structs its address in the module is the number of the
 * part, shifted, and a kind says where each byte of an item is. A kind has the size of an item in the module, its size here, and the
 * place here of each byte, where 255 stands for none. */
typedef struct {
    const u8 *kind;
    u8 *at;
} Part;

typedef struct {
    Part part[8];
} Parts;

#define SHIFT 56
#define DATA_PART 15u
#define GIVEN const Parts *own_parts
#define GIVEN_AND const Parts *own_parts,
#define GIVES0 own_parts
#define GIVES own_parts,
#define UNUSED (void)own_parts;
#define PARTS                                                                                                          \
    Parts own_given = {{{NULL, NULL}}};                                                                                \
    const Parts *const own_parts = &own_given;
#define PART(number, kind, at) part_at(&own_given, number, kind_##kind, (u8 *)(uintptr_t)(at))
#define DATA(at) (((u64)DATA_PART << SHIFT) + (at))

#define BYTE(place, size, n) (u8)((place) + (MUXANDU_BIG_ENDIAN ? (size)-1 - (n) : (n)))
#define BYTES_1(place) (u8)(place)
#define BYTES_2(place) BYTE(place, 2, 0), BYTE(place, 2, 1)
#define BYTES_4(place) BYTE(place, 4, 0), BYTE(place, 4, 1), BYTE(place, 4, 2), BYTE(place, 4, 3)
#define BYTES_8(place)                                                                                                 \
    BYTE(place, 8, 0), BYTE(place, 8, 1), BYTE(place, 8, 2), BYTE(place, 8, 3), BYTE(place, 8, 4), BYTE(place, 8, 5),  \
        BYTE(place, 8, 6), BYTE(place, 8, 7)
#if UINTPTR_MAX == UINT64_MAX
#define BYTES_SIZE(place) BYTES_8(place)
#elif UINTPTR_MAX == UINT32_MAX
#define BYTES_SIZE(place) BYTES_4(place), 255, 255, 255, 255
#else
#error "this file needs pointers of 32 or 64 bits"
#endif

static u64 part_at(Parts *own_parts, unsigned number, const u8 *kind, u8 *at) {
    own_parts->part[number].kind = kind;
    own_parts->part[number].at = at;
    return at == NULL ? 0 : (u64)number << SHIFT;
}

/* Where a byte is, or NULL for one that is not here. */
static u8 *place_of(const Parts *own_parts, u64 address) {
    unsigned number = (unsigned)(address >> SHIFT);
    u64 at = address & (((u64)1 << SHIFT) - 1);
    const Part *part;
    u8 place;
    if (number == 0) return (u8 *)(uintptr_t)address;
    if (number == DATA_PART) return (u8 *)(uintptr_t)data + (size_t)at;
    part = &own_parts->part[number];
    place = part->kind[2 + at % part->kind[0]];
    return place == 255 ? NULL : part->at + (size_t)(at / part->kind[0]) * part->kind[1] + place;
}

static u32 load_byte(const Parts *own_parts, u64 address) {
    const u8 *at = place_of(own_parts, address);
    return at == NULL ? 0 : *at;
}

static void store_byte(const Parts *own_parts, u64 address, u8 byte) {
    u8 *at = place_of(own_parts, address);
    if (at != NULL) *at = byte;
}

#define ACCESS(bits)                                                                                                   \
    static inline u##bits load##bits##_here(const u8 *at) {                                                            \
        u##bits number = 0;                                                                                            \
        int n;                                                                                                         \
        for (n = 0; n < bits / 8; n++) number = (u##bits)(number | (u##bits)((u##bits)at[n] << (8 * n)));              \
        return number;                                                                                                 \
    }                                                                                                                  \
    static inline void store##bits##_here(u8 *at, u##bits number) {                                                    \
        int n;                                                                                                         \
        for (n = 0; n < bits / 8; n++) at[n] = (u8)(number >> (8 * n));                                                \
    }                                                                                                                  \
    static inline u##bits load##bits(const Parts *own_parts, u64 address) {                                            \
        u##bits number = 0;                                                                                            \
        int n;                                                                                                         \
        for (n = 0; n < bits / 8; n++)                                                                                 \
            number = (u##bits)(number | (u##bits)((u##bits)load_byte(own_parts, address + (u64)n) << (8 * n)));        \
        return number;                                                                                                 \
    }                                                                                                                  \
    static inline void store##bits(const Parts *own_parts, u64 address, u##bits number) {                              \
        int n;                                                                                                         \
        for (n = 0; n < bits / 8; n++) store_byte(own_parts, address + (u64)n, (u8)(number >> (8 * n)));               \
    }

static inline void copy(const Parts *own_parts, u64 to, u64 from, u64 count) {
    u64 n;
    if (to <= from) {
        for (n = 0; n < count; n++) store_byte(own_parts, to + n, (u8)load_byte(own_parts, from + n));
    } else {
        for (n = count; n > 0; n--) store_byte(own_parts, to + n - 1, (u8)load_byte(own_parts, from + n - 1));
    }
}

static inline void fill(const Parts *own_parts, u64 to, int byte, u64 count) {
    u64 n;
    for (n = 0; n < count; n++) store_byte(own_parts, to + n, (u8)byte);
}

#endif

ACCESS(8)
ACCESS(16)
ACCESS(32)
ACCESS(64)

/* Sixteen bytes at once, as lanes of one width: vectors of the processor where the compiler has them, else lane by lane. */
#if !defined(MUXANDU_VECTORS)
#if defined(__GNUC__) && !defined(__TINYC__) && (defined(__SSE2__) || defined(__aarch64__))
#define MUXANDU_VECTORS !MUXANDU_BY_BYTES
#else
#define MUXANDU_VECTORS 0
#endif
#endif

#if MUXANDU_VECTORS

#if defined(__SSE2__)
#include <emmintrin.h>
#endif
#define LANES_OF(bits)                                                                                                 \
    typedef u##bits lanes_u##bits __attribute__((vector_size(16)));                                                    \
    typedef s##bits lanes_s##bits __attribute__((vector_size(16)));
LANES_OF(8)
LANES_OF(16)
LANES_OF(32)
LANES_OF(64)
typedef lanes_u64 Lanes;

/* An operation over each lane of one, of two, or of one by a number of bits. */
#define EACH1(name, type, bits, made)                                                                                  \
    INLINE Lanes name##bits(Lanes v) {                                                                                 \
        const lanes_##type##bits a = (lanes_##type##bits)v;                                                            \
        return (Lanes)(made);                                                                                          \
    }
#define EACH2(name, type, bits, made)                                                                                  \
    INLINE Lanes name##bits(Lanes v, Lanes w) {                                                                        \
        const lanes_##type##bits a = (lanes_##type##bits)v, b = (lanes_##type##bits)w;                                 \
        return (Lanes)(made);                                                                                          \
    }
#define EACH_BY(name, type, bits, made)                                                                                \
    INLINE Lanes name##bits(Lanes v, u32 count) {                                                                      \
        const lanes_##type##bits a = (lanes_##type##bits)v;                                                            \
        const type##bits by = (type##bits)(count & (bits - 1));                                                        \
        return (Lanes)(made);                                                                                          \
    }
#define TEST(test) (test)
#define PICK(type, bits, test, one, other)                                                                             \
    (((lanes_##type##bits)(test) & (one)) | (~(lanes_##type##bits)(test) & (other)))

#define LANE_BY_LANE(bits)                                                                                             \
    INLINE u##bits lane##bits(Lanes v, int n) {                                                                        \
        const lanes_u##bits a = (lanes_u##bits)v;                                                                      \
        return a[n];                                                                                                   \
    }                                                                                                                  \
    INLINE Lanes with_lane##bits(Lanes v, int n, u##bits number) {                                                     \
        lanes_u##bits a = (lanes_u##bits)v;                                                                            \
        a[n] = number;                                                                                                 \
        return (Lanes)a;                                                                                               \
    }                                                                                                                  \
    INLINE Lanes splat##bits(u##bits number) {                                                                         \
        const lanes_u##bits none = {0};                                                                                \
        return (Lanes)(none + number);                                                                                 \
    }

INLINE Lanes pair(u64 low, u64 high) {
    const Lanes both = {low, high};
    return both;
}

INLINE Lanes four(u32 a, u32 b, u32 c, u32 d) {
    const lanes_u32 all = {a, b, c, d};
    return (Lanes)all;
}
#define DIVIDED32(v, by) (Lanes)((lanes_u32)(v) / by)

#if defined(__clang__) || __GNUC__ >= 12
#define SHUFFLE(bits, v, w, low, high, ...)                                                                            \
    (Lanes) __builtin_shufflevector((lanes_u##bits)(v), (lanes_u##bits)(w), __VA_ARGS__)
#else
#define SHUFFLE(bits, v, w, low, high, ...)                                                                            \
    (Lanes) __builtin_shuffle((lanes_u##bits)(v), (lanes_u##bits)(w), __extension__(lanes_u##bits){__VA_ARGS__})
#endif

#else

typedef struct {
    u8 byte[16];
} Lanes;

#define EACH1(name, type, bits, made)                                                                                  \
    INLINE Lanes name##bits(Lanes v) {                                                                                 \
        int n;                                                                                                         \
        for (n = 0; n < 128 / bits; n++) {                                                                             \
            const type##64 a = (type##bits)lane##bits(v, n);                                                           \
            v = with_lane##bits(v, n, (u##bits)(made));                                                                \
        }                                                                                                              \
        return v;                                                                                                      \
    }
#define EACH2(name, type, bits, made)                                                                                  \
    INLINE Lanes name##bits(Lanes v, Lanes w) {                                                                        \
        int n;                                                                                                         \
        for (n = 0; n < 128 / bits; n++) {                                                                             \
            const type##64 a = (type##bits)lane##bits(v, n), b = (type##bits)lane##bits(w, n);                         \
            v = with_lane##bits(v, n, (u##bits)(made));                                                                \
        }                                                                                                              \
        return v;                                                                                                      \
    }
#define EACH_BY(name, type, bits, made)                                                                                \
    INLINE Lanes name##bits(Lanes v, u32 count) {                                                                      \
        const int by = (int)(count & (bits - 1));                                                                      \
        int n;                                                                                                         \
        for (n = 0; n < 128 / bits; n++) {                                                                             \
            const type##64 a = (type##bits)lane##bits(v, n);                                                           \
            v = with_lane##bits(v, n, (u##bits)(made));                                                                \
        }                                                                                                              \
        return v;                                                                                                      \
    }
#define TEST(test) (0 - (u64)(test))
#define PICK(type, bits, test, one, other) ((test) ? (one) : (other))

#define LANE_BY_LANE(bits)                                                                                             \
    INLINE u##bits lane##bits(Lanes v, int n) {                                                                        \
        u##bits number = 0;                                                                                            \
        int k;                                                                                                         \
        for (k = 0; k < bits / 8; k++)                                                                                 \
            number = (u##bits)(number | (u##bits)((u##bits)v.byte[n * (bits / 8) + k] << (8 * k)));                    \
        return number;                                                                                                 \
    }                                                                                                                  \
    INLINE Lanes with_lane##bits(Lanes v, int n, u##bits number) {                                                     \
        int k;                                                                                                         \
        for (k = 0; k < bits / 8; k++) v.byte[n * (bits / 8) + k] = (u8)(number >> (8 * k));                           \
        return v;                                                                                                      \
    }                                                                                                                  \
    INLINE Lanes splat##bits(u##bits number) {                                                                         \
        Lanes v = {{0}};                                                                                               \
        int n;                                                                                                         \
        for (n = 0; n < 128 / bits; n++) v = with_lane##bits(v, n, number);                                            \
        return v;                                                                                                      \
    }

/* The bytes of two with these numbers, eight in a word. */
INLINE Lanes shuffle_bytes(Lanes v, Lanes w, u64 low, u64 high) {
    Lanes made = v;
    int n;
    for (n = 0; n < 16; n++) {
        const int from = (int)((n < 8 ? low : high) >> (8 * (n % 8)) & 31);
        made.byte[n] = from < 16 ? v.byte[from] : w.byte[from - 16];
    }
    return made;
}
#define SHUFFLE(bits, v, w, low, high, ...) shuffle_bytes(v, w, low, high)

#endif

LANE_BY_LANE(8)
LANE_BY_LANE(16)
LANE_BY_LANE(32)
LANE_BY_LANE(64)

#if !MUXANDU_VECTORS
INLINE Lanes pair(u64 low, u64 high) {
    return with_lane64(splat64(low), 1, high);
}

INLINE Lanes four(u32 a, u32 b, u32 c, u32 d) {
    return pair((u64)b << 32 | a, (u64)d << 32 | c);
}

INLINE Lanes DIVIDED32(Lanes v, u32 by) {
    return four(lane32(v, 0) / by, lane32(v, 1) / by, lane32(v, 2) / by, lane32(v, 3) / by);
}
#endif

/* One lane of each of four. */
#define COLUMN(n, half, ...)                                                                                           \
    INLINE Lanes column##n(Lanes v, Lanes w, Lanes x, Lanes y) {                                                       \
        const Lanes one = half(v, w), other = half(x, y);                                                              \
        return SHUFFLE(64, one, other, __VA_ARGS__);                                                                   \
    }
#define LOW_LANES(v, w) SHUFFLE(32, v, w, 0x1312111003020100, 0x1716151407060504, 0, 4, 1, 5)
#define HIGH_LANES(v, w) SHUFFLE(32, v, w, 0x1b1a19180b0a0908, 0x1f1e1d1c0f0e0d0c, 2, 6, 3, 7)
COLUMN(0, LOW_LANES, 0x0706050403020100, 0x1716151413121110, 0, 2)
COLUMN(1, LOW_LANES, 0x0f0e0d0c0b0a0908, 0x1f1e1d1c1b1a1918, 1, 3)
COLUMN(2, HIGH_LANES, 0x0706050403020100, 0x1716151413121110, 0, 2)
COLUMN(3, HIGH_LANES, 0x0f0e0d0c0b0a0908, 0x1f1e1d1c1b1a1918, 1, 3)

#define OF_EACH_WIDTH(bits)                                                                                            \
    EACH2(add, u, bits, a + b)                                                                                         \
    EACH2(sub, u, bits, a - b)                                                                                         \
    EACH1(neg, u, bits, 0 - a)                                                                                         \
    EACH_BY(shl, u, bits, a << by)                                                                                     \
    EACH_BY(shr_u, u, bits, a >> by)                                                                                   \
    EACH_BY(shr_s, s, bits, a >> by)                                                                                   \
    EACH2(eq, u, bits, TEST(a == b))                                                                                   \
    EACH2(ne, u, bits, TEST(a != b))                                                                                   \
    EACH2(lt_s, s, bits, TEST(a < b))                                                                                  \
    EACH2(gt_s, s, bits, TEST(a > b))                                                                                  \
    EACH2(le_s, s, bits, TEST(a <= b))                                                                                 \
    EACH2(ge_s, s, bits, TEST(a >= b))                                                                                 \
    INLINE u32 bitmask##bits(Lanes v) {                                                                                \
        u32 mask = 0;                                                                                                  \
        int n;                                                                                                         \
        for (n = 0; n < 128 / bits; n++) mask |= (u32)(lane##bits(v, n) >> (bits - 1)) << n;                           \
        return mask;                                                                                                   \
    }
/* An order of numbers without a sign is that of those with one whose first bits are the others. */
#define OF_EACH_BUT_64(bits)                                                                                           \
    INLINE Lanes gt_u##bits(Lanes v, Lanes w) {                                                                        \
        const Lanes top = splat##bits((u##bits)((u##bits)1 << (bits - 1)));                                            \
        return gt_s##bits(xor_64(v, top), xor_64(w, top));                                                             \
    }                                                                                                                  \
    INLINE Lanes lt_u##bits(Lanes v, Lanes w) {                                                                        \
        return gt_u##bits(w, v);                                                                                       \
    }                                                                                                                  \
    INLINE Lanes le_u##bits(Lanes v, Lanes w) {                                                                        \
        return not_64(gt_u##bits(v, w));                                                                               \
    }                                                                                                                  \
    INLINE Lanes ge_u##bits(Lanes v, Lanes w) {                                                                        \
        return not_64(gt_u##bits(w, v));                                                                               \
    }                                                                                                                  \
    EACH2(min_s, s, bits, PICK(s, bits, a < b, a, b))                                                                  \
    EACH2(min_u, u, bits, PICK(u, bits, a < b, a, b))                                                                  \
    EACH2(max_s, s, bits, PICK(s, bits, a > b, a, b))                                                                  \
    EACH2(max_u, u, bits, PICK(u, bits, a > b, a, b))
#define OF_EACH_BUT_8(bits) EACH2(mul, u, bits, a *b)

OF_EACH_WIDTH(8)
OF_EACH_WIDTH(16)
OF_EACH_WIDTH(32)
OF_EACH_WIDTH(64)
EACH1(not_, u, 64, ~a)
EACH2(and_, u, 64, a &b)
EACH2(andnot_, u, 64, a & ~b)
EACH2(or_, u, 64, a | b)
EACH2(xor_, u, 64, a ^ b)
OF_EACH_BUT_64(8)
OF_EACH_BUT_64(16)
OF_EACH_BUT_64(32)
OF_EACH_BUT_8(16)
OF_EACH_BUT_8(32)
OF_EACH_BUT_8(64)

INLINE Lanes choice_64(Lanes v, Lanes w, Lanes mask) {
    return or_64(and_64(v, mask), andnot_64(w, mask));
}

INLINE u32 any_true(Lanes v) {
    return (lane64(v, 0) | lane64(v, 1)) != 0;
}
#define ALL_TRUE(bits)                                                                                                 \
    INLINE u32 all_true##bits(Lanes v) {                                                                               \
        return !any_true(eq##bits(v, splat##bits(0)));                                                                 \
    }
ALL_TRUE(8)
ALL_TRUE(16)
ALL_TRUE(32)
ALL_TRUE(64)

/* Lanes of twice the width: those of the low or the high half of one, and products of those of two. A product of halves is that of
 * lanes whose high halves are zero. */
#if MUXANDU_VECTORS && defined(__SSE2__)
INLINE Lanes mul_halves64(Lanes v, Lanes w) {
    return (Lanes)_mm_mul_epu32((__m128i)v, (__m128i)w);
}
#else
#define mul_halves64 mul64
#endif
#define mul_halves32 mul32
#define mul_halves16 mul16

#define WIDE(half, bits, ...)                                                                                          \
    INLINE Lanes extend_##half##_u##bits(Lanes v) {                                                                    \
        return SHUFFLE(__VA_ARGS__);                                                                                   \
    }                                                                                                                  \
    INLINE Lanes extend_##half##_s##bits(Lanes v) {                                                                    \
        return shr_s##bits(shl##bits(extend_##half##_u##bits(v), bits / 2), bits / 2);                                 \
    }                                                                                                                  \
    INLINE Lanes extmul_##half##_u##bits(Lanes v, Lanes w) {                                                           \
        return mul_halves##bits(extend_##half##_u##bits(v), extend_##half##_u##bits(w));                               \
    }                                                                                                                  \
    INLINE Lanes extmul_##half##_s##bits(Lanes v, Lanes w) {                                                           \
        return mul##bits(extend_##half##_s##bits(v), extend_##half##_s##bits(w));                                      \
    }
#define ZERO pair(0, 0)
WIDE(low, 16, 8, v, ZERO, 0x1303120211011000, 0x1707160615051404, 0, 16, 1, 17, 2, 18, 3, 19, 4, 20, 5, 21, 6, 22, 7,
     23)
WIDE(high, 16, 8, v, ZERO, 0x1b0b1a0a19091808, 0x1f0f1e0e1d0d1c0c, 8, 24, 9, 25, 10, 26, 11, 27, 12, 28, 13, 29, 14, 30,
     15, 31)
WIDE(low, 32, 16, v, ZERO, 0x1312030211100100, 0x1716070615140504, 0, 8, 1, 9, 2, 10, 3, 11)
WIDE(high, 32, 16, v, ZERO, 0x1b1a0b0a19180908, 0x1f1e0f0e1d1c0d0c, 4, 12, 5, 13, 6, 14, 7, 15)
WIDE(low, 64, 32, v, ZERO, 0x1312111003020100, 0x1716151407060504, 0, 4, 1, 5)
WIDE(high, 64, 32, v, ZERO, 0x1b1a19180b0a0908, 0x1f1e1d1c0f0e0d0c, 2, 6, 3, 7)

#if MUXANDU_VECTORS
INLINE Lanes load128_here(const u8 *at) {
    Lanes v;
    memcpy(&v, at, sizeof v);
    return v;
}
INLINE void store128_here(u8 *at, Lanes v) {
    memcpy(at, &v, sizeof v);
}
#else
INLINE Lanes load128_here(const u8 *at) {
    return pair(load64_here(at), load64_here(at + 8));
}
INLINE void store128_here(u8 *at, Lanes v) {
    store64_here(at, lane64(v, 0));
    store64_here(at + 8, lane64(v, 1));
}
#endif
#if MUXANDU_BY_BYTES
INLINE Lanes load128(const Parts *own_parts, u64 address) {
    return pair(load64(own_parts, address), load64(own_parts, address + 8));
}
INLINE void store128(const Parts *own_parts, u64 address, Lanes v) {
    store64(own_parts, address, lane64(v, 0));
    store64(own_parts, address + 8, lane64(v, 1));
}
#else
INLINE Lanes load128(u64 address) {
    return load128_here(AT(address));
}
INLINE void store128(u64 address, Lanes v) {
    store128_here(AT(address), v);
}
#endif
