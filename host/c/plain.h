/* The plain program: the same job as railnoise_levels, railnoise_entitlement, railnoise_merged_levels and
 * railnoise_highest_speed, in doubles and libm. */
#ifndef PLAIN_H
#define PLAIN_H

#include "railnoise_requests.h"

/* Numbers by strtol, and by a digit loop. */
railnoise_answer plain_levels(const uint8_t *text, size_t text_length, int32_t *cells, size_t cell_count);
railnoise_answer digits_levels(const uint8_t *text, size_t text_length, int32_t *cells, size_t cell_count);

/* The parameters of one set of lines, as railnoise_entitlement takes four. */
#define SET(name) const uint8_t *name, size_t name##_length, bool name##_empty
typedef railnoise_entitlement_answer entitlement_function(SET(altered_before), SET(altered_after), SET(other_before),
                                                          SET(other_after));
entitlement_function plain_entitlement, digits_entitlement;

typedef railnoise_merged_answer merged_function(const uint8_t *first, size_t first_length, const uint8_t *second,
                                                size_t second_length, int32_t *cells, size_t cell_count);
merged_function plain_merged_levels, digits_merged_levels;

typedef railnoise_speed_answer speed_function(const uint8_t *text, size_t text_length, uint32_t entry, bool night,
                                              int32_t limit);
speed_function plain_highest_speed, digits_highest_speed;

#endif
