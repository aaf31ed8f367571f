/* What povundiri_merge.c has for povundiri_recording_children.c. It is not installed. */
#ifndef POVUNDIRI_MERGE_PARTS_H
#define POVUNDIRI_MERGE_PARTS_H

#include "povundiri_merge.h"

/* Whether the caller has room for the first layout. So has one who wants no report. */
bool povundiri_parts_is_report(const struct povundiri_merge_report *report);

/* Gives the caller what he has room for, if he wants it. His size stays as he set it. */
void povundiri_parts_give(const struct povundiri_merge_report *made, struct povundiri_merge_report *report);

#endif
