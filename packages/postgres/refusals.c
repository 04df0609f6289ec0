#include "refusals.h"

#if PG_VERSION_NUM >= 160000
#include "nodes/miscnodes.h"
#define REPORT(context, ...) errsave(context, __VA_ARGS__)
#else
#define REPORT(context, ...) ereport(ERROR, __VA_ARGS__)
#endif

/* Room for the name of each status, and for a byte 0. */
enum { NAME_ROOM = 32 };

static const char *name_of(MuxanduStatus status, char *buffer) {
    return muxandu_status_name_z(status, buffer, NAME_ROOM) == MUXANDU_OK ? buffer : "UNKNOWN";
}

void refuse(MuxanduStatus status, const char *type) {
    char name[NAME_ROOM];
    ereport(ERROR, (errcode(ERRCODE_DATETIME_FIELD_OVERFLOW), errmsg("%s out of range", type),
                    errdetail("%s: %s", name_of(status, name), muxandu_status_string(status))));
}

void refuse_text(const Input *input, MuxanduStatus status, size_t fault) {
    char name[NAME_ROOM];
    name_of(status, name);
    if (status == MUXANDU_REFUSED_SYNTAX)
        REPORT(input->context,
               (errcode(ERRCODE_INVALID_DATETIME_FORMAT),
                errmsg("invalid input syntax for %s: \"%s\"", input->name, input->text),
                fault == NO_FAULT
                    ? errdetail("%s: %s", name, muxandu_status_string(status))
                    : errdetail("%s: The text has another form from byte %zu on; the first byte is 0.", name, fault),
                errhint("%s", input->hint)));
    else
        REPORT(input->context, (errcode(ERRCODE_DATETIME_FIELD_OVERFLOW),
                                errmsg("date/time field value out of range: \"%s\"", input->text),
                                errdetail("%s: %s", name, muxandu_status_string(status))));
}

void refuse_unit(const char *type, const char *name, int size, const char *hint) {
    ereport(ERROR, (errcode(ERRCODE_INVALID_PARAMETER_VALUE),
                    errmsg("unit \"%.*s\" not recognized for type %s", size, name, type), errhint("%s", hint)));
}
