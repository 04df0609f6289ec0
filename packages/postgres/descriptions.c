/* offset_timestamp and texts of another form, by format descriptions. */
#include "values.h"

#include "utils/builtins.h"

/* The version of the language of descriptions, and the bytes of the longest text by one. */
enum { VERSION = 2, FORM_ROOM = 64 };

static const char FORM_NAME[] = "a format description";
static const char PART_HINT[] = "Write the parts as the description has them.";
static const char CLOCKS_HINT[] = "Pass the offset of the clocks, such as '+02:00'.";

/* A description, and its text for an error. */
typedef struct Form {
    const text *word;
    size_t count;
    MuxanduItem items[MUXANDU_DESCRIPTION_ROOM];
} Form;

static void read_form(const text *word, Form *form) {
    MuxanduOutcome outcome = muxandu_description_parse(VERSION, VARDATA_ANY(word), (size_t)VARSIZE_ANY_EXHDR(word),
                                                       form->items, lengthof(form->items));
    form->word = word;
    form->count = outcome.size;
    if (outcome.status != MUXANDU_OK) {
        Input input = {FORM_NAME, text_to_cstring(word), muxandu_reason_string(outcome.reason), NULL};
        refuse_text(&input, outcome.status, outcome.size);
    }
}

static MuxanduOutcome read_text(const Form *form, MuxanduKind kind, const text *word, MuxanduDateTime *shown) {
    return muxandu_parse_items(kind, form->items, form->count, VARDATA_ANY(word), (size_t)VARSIZE_ANY_EXHDR(word),
                               shown);
}

/* Whether all that a text lacks is an offset. */
static bool lacks_offset(MuxanduOutcome outcome) {
    return outcome.status == MUXANDU_REFUSED_SYNTAX && outcome.reason == MUXANDU_REASON_OFFSET_HOUR;
}

/* The date-time of the text and the description of a call, whose third argument is the offset of
 * a text that has none. */
static MuxanduOutcome parse(FunctionCallInfo fcinfo, Form *form, MuxanduDateTime *shown) {
    const text *word = PG_GETARG_TEXT_PP(0);
    int32 offset = PG_NARGS() > 2 ? offset_in(PG_GETARG_TEXT_PP(2), CLOCKS_HINT) : 0;
    MuxanduOutcome outcome;
    read_form(PG_GETARG_TEXT_PP(1), form);
    outcome = read_text(form, MUXANDU_KIND_OFFSET_DATE_TIME, word, shown);
    if (PG_NARGS() > 2 && lacks_offset(outcome)) {
        outcome = read_text(form, MUXANDU_KIND_PLAIN_DATE_TIME, word, shown);
        shown->offset_seconds = offset;
    }
    return outcome;
}

/* How to write what a text lacks. */
static const char *hint_of(MuxanduOutcome outcome) {
    if (outcome.reason == 0) return PART_HINT;
    return lacks_offset(outcome) ? CLOCKS_HINT : psprintf("It lacks: %s", muxandu_reason_string(outcome.reason));
}

FUNCTION(offset_timestamp_parse) {
    Form form;
    MuxanduDateTime shown;
    MuxanduOutcome outcome = parse(fcinfo, &form, &shown);
    if (outcome.status != MUXANDU_OK) {
        const char *name = psprintf("format description \"%s\"", text_to_cstring(form.word));
        Input input = {name, text_to_cstring(PG_GETARG_TEXT_PP(0)), hint_of(outcome), NULL};
        refuse_text(&input, outcome.status, outcome.reason == 0 ? outcome.size : NO_FAULT);
    }
    PG_RETURN_POINTER(from_date_time(shown));
}

/* The value of a text, or NULL where it is an error. An error of the description stays one. */
FUNCTION(offset_timestamp_parse_or_null) {
    Form form;
    MuxanduDateTime shown;
    MuxanduTimestamp instant;
    if (parse(fcinfo, &form, &shown).status != MUXANDU_OK ||
        muxandu_timestamp_from_date_time(shown, &instant) != MUXANDU_OK)
        PG_RETURN_NULL();
    PG_RETURN_POINTER(from_parts(instant, shown.offset_seconds));
}

FUNCTION(offset_timestamp_format) {
    Form form;
    char written[FORM_ROOM];
    size_t size;
    read_form(PG_GETARG_TEXT_PP(1), &form);
    require(muxandu_format_items(MUXANDU_KIND_OFFSET_DATE_TIME, form.items, form.count, shown_by(GET_TIMESTAMP(0)),
                                 written, sizeof written, &size),
            "text of the format description");
    PG_RETURN_TEXT_P(cstring_to_text_with_len(written, (int)size));
}
