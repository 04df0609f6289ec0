"""A program in C that makes random calls of the header, each to the archive and to muxandu.c, and compares all they write."""

from shared.interface import type_of

# The types of numbers in C.
NUMBERS = {
    "i8": "int8_t",
    "u8": "uint8_t",
    "u16": "uint16_t",
    "i32": "int32_t",
    "u32": "uint32_t",
    "i64": "int64_t",
    "usize": "size_t",
}

# The name that a call of muxandu.c has there.
OTHER = "other_"

HEAD = """\
/* Random calls of two libraries, each compared: what is returned, what is written, and what is not.
 *
 *     beside COUNT SEED
 *
 * The last line is 'N passed, M failed', a call each. */
#include <muxandu.h>
#include <stdio.h>
#include <stdlib.h>
#include <string.h>

#define MOST 24
#define BYTES 1024
#define LONG (1 << 20)

static uint64_t state;

static uint64_t next(void) {
    state ^= state << 13;
    state ^= state >> 7;
    state ^= state << 17;
    return state;
}

static uint64_t below(uint64_t count) {
    return (next() >> 11) % count;
}

static int64_t between(int64_t low, int64_t high) {
    return low + (int64_t)(next() % ((uint64_t)high - (uint64_t)low + 1));
}

/* A number of a range, near its ends, or any. */
static int64_t some(int64_t low, int64_t high) {
    switch (below(16)) {
    case 0: return low - (int64_t)below(3);
    case 1: return high + (int64_t)below(3);
    case 2: return (int64_t)next() >> below(64);
    case 3: return between(-3, 3);
    default: return between(low, high);
    }
}

/* Texts, and what follows them in a long one. */
static char texts[LONG];

/* How many bytes a text has, most of them a few, and one in a thousand 1 MiB, of which half have nearly all in their fraction. */
static size_t long_at_times(size_t count) {
    if (below(1000) != 0) return count;
    if (count >= 20 && below(2)) {
        memset(texts + 19, (int)('0' + below(10)), LONG - 20);
        texts[19] = '.';
        texts[LONG - 1] = 'Z';
    }
    return LONG;
}

/* Bytes like those of texts, or texts, of which one byte is another at times. */
static size_t some_texts(MuxanduSpan *spans, size_t count) {
    size_t used = 0, n;
    for (n = 0; n < count && used + 64 < BYTES; n++) {
        MuxanduTimestamp at = {some(-62167219200, 253402300799), (uint32_t)(below(2) ? 0 : below(1000000000))};
        MuxanduDateTime local;
        size_t size = 0;
        spans[n].start = used;
        if (muxandu_date_time_from_timestamp(at, below(2) ? 0 : (int32_t)between(-1439, 1439) * 60, &local) == MUXANDU_OK)
            (void)muxandu_date_time_to_rfc3339(local, texts + used, 35, &size);
        if (size > 10 && below(16) == 0) size = 10;
        if (size > 0 && below(4) == 0) texts[used + below(size)] = "0123456789-+:.TtZz 6\\x80"[below(21)];
        spans[n].length = below(32) ? size : below(40);
        used += size;
    }
    for (; n < count; n++) spans[n].start = below(BYTES), spans[n].length = below(32);
    if (count > 0 && below(64) == 0) spans[below(count)].start = (size_t)next();
    return used;
}

/* A description, of which one byte is another at times. */
static const char *some_description(size_t *count) {
    static const char *const known[] = {
        "[year]-[month]-[day]T[hour]:[minute]:[second]Z",
        "[year]-[month]-[day]T[hour]:[minute]:[second].[subsecond][offset_hour sign:mandatory]:[offset_minute]",
        "[weekday repr:short], [day padding:none] [month repr:long] [year repr:last_two]",
        "[first [[ordinal]] [[week_number] [weekday repr:monday]]][optional [[hour repr:12] [period]]]",
        "[unix_timestamp precision:microsecond] [offset_second][ignore count:2]",
        "",
    };
    static char made[128];
    const char *one = known[below(6)];
    *count = strlen(one);
    memcpy(made, one, *count);
    if (*count > 0 && below(3) == 0) made[below(*count)] = "[]\\\\ :aeinost0-"[below(14)];
    return made;
}

/* The items of a description, of which one has another number at times. */
static size_t some_items(MuxanduItem *items, size_t most) {
    size_t count;
    const char *description = some_description(&count);
    MuxanduOutcome found = muxandu_description_parse(2, description, count, items, most);
    if (found.status != MUXANDU_OK) return 0;
    if (found.size > 0 && below(4) == 0) items[below(found.size)].kind = (uint8_t)below(33);
    if (found.size > 0 && below(4) == 0) items[below(found.size)].first = (uint8_t)below(12);
    if (found.size > 0 && below(4) == 0) items[below(found.size)].number = (size_t)(next() >> below(64));
    return found.size;
}

static void tell(const char *name) {
    printf("%s: the libraries differ\\n", name);
}
"""

MAIN = """\
int main(int count, char **words) {{
    uint64_t calls = count > 1 ? strtoull(words[1], NULL, 10) : 1000000, failed = 0, n;
    static const struct {{
        const char *name;
        int (*is_same)(void);
    }} tried[] = {{
{rows}
    }};
    state = 88172645463325252u + (count > 2 ? strtoull(words[2], NULL, 10) : 1);
    for (n = 0; n < calls; n++) {{
        size_t one = below(sizeof tried / sizeof *tried);
        if (tried[one].is_same()) continue;
        if (failed++ < 20) tell(tried[one].name);
    }}
    printf("%llu passed, %llu failed\\n", (unsigned long long)(calls - failed), (unsigned long long)failed);
    return failed > 0;
}}
"""

# The range of a number, by the last word of its name: most values are of it.
RANGES = {
    "year": ("MUXANDU_YEAR_MIN", "MUXANDU_YEAR_MAX"),
    "month": ("1", "12"),
    "months": ("-24000000", "24000000"),
    "ordinal": ("1", "366"),
    "week": ("1", "53"),
    "weekday": ("0", "6"),
    "hour": ("0", "23"),
    "hours": ("-25", "25"),
    "minute": ("0", "59"),
    "minutes": ("-59", "59"),
    "second": ("0", "59"),
    "nanosecond": ("0", "MUXANDU_NANOSECOND_MAX"),
    "nanoseconds": ("0", "MUXANDU_NANOSECOND_MAX"),
    "offset_seconds": ("MUXANDU_OFFSET_MIN", "MUXANDU_OFFSET_MAX"),
    "seconds": ("MUXANDU_SECONDS_MIN", "MUXANDU_SECONDS_MAX"),
    "milliseconds": ("MUXANDU_MILLISECONDS_MIN", "MUXANDU_MILLISECONDS_MAX"),
    "day": ("1", "31"),
    "days": ("MUXANDU_DAY_MIN", "MUXANDU_DAY_MAX"),
    "status": ("0", "30"),
    "unit": ("0", "12"),
    "part": ("0", "12"),
    "digits": ("0", "9"),
    "kind": ("1", "5"),
    "version": ("1", "2"),
}
ANY = ("-1000", "1000")


class Beside:
    """The functions of the program."""

    def __init__(self, described):
        self.described = described

    def c(self, kind):
        return NUMBERS[kind] if kind in NUMBERS else kind

    def number(self, name, kind, struct=""):
        """A random number for a parameter or a field."""
        low, high = RANGES.get(name, ANY)
        if name == "day" and not struct:
            low, high = RANGES["days"]
        if name == "seconds" and struct == "MuxanduOffset":
            low, high = RANGES["minutes"]
        return f"({self.c(kind)})some({low}, {high})"

    def fill(self, place, name, kind):
        """The lines that give a place a random value."""
        if kind in NUMBERS:
            return [f"{place} = {self.number(name, kind)};"]
        fields = self.described["structs"][kind]["fields"]
        return [f"{place}.{it['name']} = {self.number(it['name'], type_of(self.described, it['type']), kind)};" for it in fields]

    def same(self, one, other, kind):
        """Whether two places have one value, field by field."""
        if kind in NUMBERS:
            return f"{one} == {other}"
        fields = self.described["structs"][kind]["fields"]
        return " && ".join(f"{one}.{it['name']} == {other}.{it['name']}" for it in fields)

    def function(self, name, call):
        lines, given, others, tests, has_spans = [], [], [], [], False
        texts = [it["name"] for it in call["parameters"] if it["role"] == "text"]
        for one in call["parameters"]:
            own, role, kind = one["name"], one["role"], type_of(self.described, one["type"])
            if role == "count":
                given.append(own)
                others.append(own)
                continue
            if role == "in":
                lines += [f"{self.c(kind)} {own};", *self.fill(own, own, kind)]
                given.append(own)
                others.append(own)
            elif role == "text" and (own == "description" or name == "muxandu_description_parse"):
                lines += [f"size_t {own}_count;", f"const char *{own} = some_description(&{own}_count);"]
                given.append(own)
                others.append(own)
            elif role == "items in" and kind == "MuxanduItem":
                lines += [f"static MuxanduItem {own}[MOST];", f"size_t {own}_count = some_items({own}, MOST);"]
                given.append(own)
                others.append(own)
            elif role == "text":
                lines += ["static MuxanduSpan made[MOST];", f"size_t {own}_count;"]
                has_spans = any(it["type"] == "MuxanduSpan" for it in call["parameters"])
                lines += [
                    f"size_t many = {'below(MOST + 1)' if has_spans else '1'};",
                    f"{own}_count = long_at_times(some_texts(made, many));",
                ]
                given.append("texts")
                others.append("texts")
            elif role == "items in":
                lines += [f"static {self.c(kind)} {own}[MOST];"]
                if texts and kind == "MuxanduSpan":
                    lines += [f"size_t {own}_count = many;", f"memcpy({own}, made, sizeof made);"]
                else:
                    # most second columns are as long as the first
                    columns = (
                        it["name"] for it in call["parameters"] if it["role"] == "items in" and it["type"] != "MuxanduItem"
                    )
                    first = next(columns, own)
                    count = "below(MOST + 1)" if first == own else f"below(4) ? {first}_count : below(MOST + 1)"
                    lines += [f"size_t {own}_count = {count};"]
                    inner = " ".join(self.fill(f"{own}[n]", own, kind))
                    lines += [f"for (size_t n = 0; n < {own}_count; n++) {{ {inner} }}"]
                given.append(own)
                others.append(own)
            else:
                many = {"out": "1", "items out": "MOST", "room": "BYTES"}[role]
                c = "char" if role == "room" else self.c(kind)
                lines += [f"static {c} {own}[{many}], other_of_{own}[{many}];"]
                lines += [f"memset({own}, 0x5a, sizeof {own}), memset(other_of_{own}, 0x5a, sizeof {own});"]
                if role == "items out":
                    lines += [f"size_t {own}_count = below(16) ? MOST : below(MOST + 1);"]
                if role == "room":
                    lines += [f"size_t {own}_count = below(4) ? BYTES : below(64);"]
                given.append(own)
                others.append(f"other_of_{own}")
                if role == "room":
                    tests.append(f"if (memcmp({own}, other_of_{own}, sizeof {own}) != 0) return 0;")
                else:
                    test = self.same(f"{own}[n]", f"other_of_{own}[n]", kind)
                    tests.append(f"for (size_t n = 0; n < {many}; n++) if (!({test})) return 0;")
        result = type_of(self.described, call["result"])
        head = [f"{self.c(result)} one, other;"]
        run = [f"one = {name}({', '.join(given)});", f"other = {OTHER}{name}({', '.join(others)});"]
        run += [f"if (!({self.same('one', 'other', result)})) return 0;"]
        body = "".join(f"    {line}\n" for line in [*head, *lines, *run, *tests, "return 1;"])
        return f"static int same_{name}(void) {{\n{body}}}\n"

    def declaration_of(self, name, call):
        kinds = {"text": "const char *", "room": "char *", "count": "size_t"}
        words = []
        for it in call["parameters"]:
            c = self.c(type_of(self.described, it["type"]))
            words.append(kinds.get(it["role"], {"in": c, "items in": f"const {c} *"}.get(it["role"], f"{c} *")))
        return f"{self.c(type_of(self.described, call['result']))} {OTHER}{name}({', '.join(words) or 'void'});"

    def text(self):
        calls = self.described["calls"].items()
        rows = "\n".join(f'        {{"{name}", same_{name}}},' for name, _ in calls)
        declared = "\n".join(self.declaration_of(name, call) for name, call in calls)
        functions = "\n".join(self.function(name, call) for name, call in calls)
        return "\n".join([HEAD, declared, "", functions, MAIN.format(rows=rows)])
