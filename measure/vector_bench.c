/* The work of times_bench on `unix` lines, as fast as C and the vector instructions of an x86-64 processor go here: sixteen
 * digits at a time, texts of two and four digits by tables, the date by the multiplications of Neri and Schneider. It answers
 * every line, other lines with `bad line`. measure/speed builds it by `cc -O3 -msse4.1` and measures times_bench beside it. */
#include <immintrin.h>
#include <stdint.h>
#include <string.h>
#include <unistd.h>

/* FIRST_SECOND and LAST_SECOND, the ends of the range, are named by measure/speed. */
enum { BLOCK = 65536, LONGEST_LINE = 1024, TOO_LONG = LONGEST_LINE + 1, MOST_ANSWER = 64 };

static char input[2 * TOO_LONG + BLOCK + 64];
static char output[3 * BLOCK];
static char two_digits[200], four_digits[40000];
static uint8_t last_bytes[17][16];
static uint32_t line_feeds[BLOCK + 64];

static void make_tables(void) {
    for (int i = 0; i < 100; i++) {
        two_digits[2 * i] = (char)('0' + i / 10);
        two_digits[2 * i + 1] = (char)('0' + i % 10);
    }
    for (int i = 0; i < 10000; i++) {
        memcpy(four_digits + 4 * i, two_digits + 2 * (i / 100), 2);
        memcpy(four_digits + 4 * i + 2, two_digits + 2 * (i % 100), 2);
    }
    for (int count = 1; count <= 16; count++)
        for (int i = 0; i < 16; i++) last_bytes[count][i] = i >= 16 - count ? 255 : 0;
}

/* The number of at most sixteen digits that end there: 0 where one is no digit. Bytes before them are read too. */
static inline int digits_before(const char *end, long count, int64_t *number) {
    __m128i bytes = _mm_sub_epi8(_mm_loadu_si128((const __m128i *)(end - 16)), _mm_set1_epi8('0'));
    bytes = _mm_and_si128(bytes, _mm_loadu_si128((const __m128i *)last_bytes[count]));
    if (_mm_movemask_epi8(_mm_cmpeq_epi8(_mm_max_epu8(bytes, _mm_set1_epi8(10)), bytes))) return 0;
    __m128i pairs = _mm_maddubs_epi16(bytes, _mm_set1_epi16(0x010a));
    __m128i fours = _mm_madd_epi16(pairs, _mm_set1_epi32(0x00010064));
    fours = _mm_packus_epi32(fours, fours);
    uint64_t eights = (uint64_t)_mm_cvtsi128_si64(_mm_madd_epi16(fours, _mm_set1_epi32(0x00012710)));
    *number = (int64_t)((eights & 0xffffffff) * 100000000 + (eights >> 32));
    return 1;
}

/* The number of a text of any length: 0 where it is none of 64 bits. */
static int any_number(const char *text, long length, int64_t *number) {
    int is_negative = length > 0 && text[0] == '-';
    __int128 value = 0, past = (__int128)1 << 64;
    if (length == is_negative) return 0;
    for (long i = is_negative; i < length; i++) {
        unsigned digit = (unsigned char)text[i] - '0';
        if (digit > 9) return 0;
        value = value * 10 + digit;
        if (value > past) value = past;
    }
    if (is_negative) value = -value;
    *number = (int64_t)value;
    return value == (__int128)*number;
}

static inline char *put_two(char *out, uint32_t number) {
    memcpy(out, two_digits + 2 * number, 2);
    return out + 2;
}

static inline char *put_date(char *out, uint64_t day) {
    /* Days from 1 March of the year -1000000 on, of which `day` counts from 366,000,000 before 1970. */
    uint64_t quarters = 4 * (day - 366000000 + 719468 + 146097ull * 2500) + 3;
    uint32_t century = (uint32_t)(quarters / 146097);
    uint32_t of_century = ((uint32_t)(quarters - (uint64_t)century * 146097) / 4) * 4 + 3;
    uint64_t years = 2939745ull * of_century;
    uint32_t day_of_year = (uint32_t)years / 2939745 / 4;
    uint32_t months = 2141 * day_of_year + 197913;
    uint32_t is_next = day_of_year >= 306;
    int32_t year = (int32_t)(100 * century + (uint32_t)(years >> 32) + is_next) - 1000000;
    uint32_t absolute = (uint32_t)(year < 0 ? -year : year);
    if (year < 0)
        *out++ = '-';
    else if (absolute > 9999)
        *out++ = '+';
    if (absolute > 9999) {
        uint32_t high = absolute / 10000;
        absolute -= high * 10000;
        if (high >= 10)
            out = put_two(out, high);
        else
            *out++ = (char)('0' + high);
    }
    memcpy(out, four_digits + 4 * absolute, 4);
    out[4] = '-';
    put_two(out + 5, (months >> 16) - 12 * is_next);
    out[7] = '-';
    return put_two(out + 8, (months & 0xffff) / 2141 + 1);
}

static inline char *put_answer(char *out, const char *line, long length) {
    int64_t second;
    if (length < 6 || length > LONGEST_LINE || memcmp(line, "unix ", 5) != 0) goto bad;
    int is_negative = line[5] == '-';
    long count = length - 5 - is_negative;
    if (__builtin_expect(count >= 1 && count <= 16, 1)) {
        if (!digits_before(line + length, count, &second)) goto bad;
        second = is_negative ? -second : second;
    } else if (!any_number(line + 5, length - 5, &second)) {
        goto bad;
    }
    if (second < FIRST_SECOND || second > LAST_SECOND) {
        memcpy(out, "refused timestamp\n", 18);
        return out + 18;
    }
    uint64_t lifted = (uint64_t)(second + 86400ll * 366000000);
    uint64_t day = lifted / 86400;
    uint32_t rest = (uint32_t)(lifted - day * 86400), hour = rest / 3600, minute = rest % 3600 / 60;
    out = put_date(out, day);
    *out++ = ' ';
    if (hour >= 10)
        out = put_two(out, hour);
    else
        *out++ = (char)('0' + hour);
    *out = ':';
    put_two(out + 1, minute);
    out[3] = ':';
    put_two(out + 4, rest % 60);
    memcpy(out + 6, ".0 +00\n", 7);
    return out + 13;
bad:
    memcpy(out, "bad line\n", 9);
    return out + 9;
}

static void write_all(const char *text, long length) {
    while (length > 0) {
        long count = write(1, text, (size_t)length);
        if (count <= 0) _exit(1);
        text += count;
        length -= count;
    }
}

/* The places of the line feeds of a block, which may be read past its end. */
static uint32_t *find_line_feeds(const char *block, long length) {
    uint32_t *found = line_feeds;
    __m128i wanted = _mm_set1_epi8('\n');
    for (long place = 0; place < length; place += 64) {
        uint64_t marks = 0;
        for (int j = 0; j < 4; j++) {
            __m128i bytes = _mm_loadu_si128((const __m128i *)(block + place + 16 * j));
            marks |= (uint64_t)(unsigned)_mm_movemask_epi8(_mm_cmpeq_epi8(bytes, wanted)) << (16 * j);
        }
        if (length - place < 64) marks &= (1ull << (length - place)) - 1;
        int count = __builtin_popcountll(marks);
        /* Four at once, whether there are so many or not. */
        for (int j = 0; j < 4; j++, marks &= marks - 1)
            found[j] = (uint32_t)place + (uint32_t)__builtin_ctzll(marks | 1ull << 63);
        for (int j = 4; j < count; j++, marks &= marks - 1)
            found[j] = (uint32_t)place + (uint32_t)__builtin_ctzll(marks);
        found += count;
    }
    return found;
}

int main(void) {
    /* What is kept of a line that has not ended stands before the block. */
    char *block = input + TOO_LONG + 64;
    long kept = 0, length;
    make_tables();
    while ((length = read(0, block, BLOCK)) > 0) {
        char *start = block - kept, *out = output;
        const uint32_t *end = find_line_feeds(block, length);
        for (const uint32_t *place = line_feeds; place < end; place++) {
            out = put_answer(out, start, block + *place - start);
            start = block + *place + 1;
            if (out > output + sizeof output - MOST_ANSWER) {
                write_all(output, out - output);
                out = output;
            }
        }
        kept = block + length - start;
        if (kept > TOO_LONG) kept = TOO_LONG;
        memmove(block - kept, start, (size_t)kept);
        write_all(output, out - output);
    }
    if (length < 0) return 1;
    if (kept > 0) write_all(output, put_answer(output, block - kept, kept) - output);
    return 0;
}
