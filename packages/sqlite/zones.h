/* The calls over time zones, which read the files of the machine. */
#ifndef MUXANDU_SQLITE_ZONES_H
#define MUXANDU_SQLITE_ZONES_H

#include "calls.h"

Answer answer_at_zone, answer_from_local;

#endif
