/* What scan, walk and the patched scan print. */
#ifndef REPORTS_H
#define REPORTS_H

#include "kamordast.h"

/* A line for each report in the room, so that an offset with several labels has several lines, and one of the numbers; where the run was refused, says so of what it was refused for. Answers the status. */
int say_reports(kamordast_scanned r, const char *refused_for);

#endif
