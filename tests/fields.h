/* fields.h: the fields of what is kept and answered, and whether two agree in all of them, but for padding. */
#ifndef FIELDS_H
#define FIELDS_H

#include "phelgomrit.h"

/* A word of struct phel_sender. */
struct field {
    const char *name;
    size_t at;
    size_t bytes;
};

extern const struct field sender_fields[];
extern const size_t sender_fields_len;
bool fields_complete(void);
bool same_refusal(const struct phel_refusal *a, const struct phel_refusal *b);
bool same_sender(const struct phel_sender *a, const struct phel_sender *b);
bool same_timers(const struct phel_timers *a, const struct phel_timers *b);
bool same_messaged(const struct phel_messaged *a, const struct phel_messaged *b);
bool same_acked(const struct phel_acked *a, const struct phel_acked *b);
bool same_ran(const struct phel_ran *a, const struct phel_ran *b);
bool same_found(const struct phel_found *a, const struct phel_found *b);
bool same_reports(const struct phel_reports *a, const struct phel_reports *b);

#endif
