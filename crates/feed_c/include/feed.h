/* A GTFS Realtime snapshot as JSON, and the report on one: calls of the static library feed_c, which `rt lib` builds. docs/library.md says how to link it.
 *
 * Each reads `bytes_size` bytes, writes a text of at most `out_size` bytes to the front of `out`, not ended by a zero, and tells in `written` how long it is.
 * None of the pointers may be null, also where a size is 0, and no two of them may overlap. The answer is
 *
 *     0   the whole text was written, and nothing is wrong, or only warnings are found
 *     1   the whole text was written: the snapshot is refused, or an error is found
 *     4   the text is longer than `out_size`; a part of it was written
 *     5   no memory is left; a part of the text, or nothing, was written
 */
#ifndef FEED_H
#define FEED_H

#include <stddef.h>
#include <stdint.h>

#ifdef __cplusplus
extern "C" {
#endif

/* What `rt_command show` writes of the snapshot. */
uint8_t feed_decode(const uint8_t *bytes, size_t bytes_size, uint8_t *out, size_t out_size, size_t *written);

/* What `rt_command check --now MOMENT` writes of the snapshot, without a timetable; the moment is in POSIX seconds. */
uint8_t feed_check(const uint8_t *bytes, size_t bytes_size, uint64_t moment, uint8_t *out, size_t out_size, size_t *written);

#ifdef __cplusplus
}
#endif
#endif
