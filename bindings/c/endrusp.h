/* Endrusp for C: the text program over a buffer that is lent.
 * Link libforeign.a, which `rt lib`, run in crates/foreign, writes to crates/foreign/out/. */
#ifndef ENDRUSP_H
#define ENDRUSP_H

#include <stddef.h>
#include <stdint.h>

#ifdef __cplusplus
extern "C" {
#endif

/* What endrusp_run returns where the buffer has no room. */
#define ENDRUSP_NO_ROOM SIZE_MAX

/* How long a buffer endrusp_run needs for an input of a length: 11 bytes for each byte of input, each of which may be an empty line, and
 * 11 more. ENDRUSP_NO_ROOM for a length that no buffer can answer to. */
static inline size_t endrusp_room_for(size_t input_len)
{
    return input_len > (SIZE_MAX - 12) / 11 ? ENDRUSP_NO_ROOM : 11 * input_len + 11;
}

/* Runs a text from the closed state. Returns how many bytes of answers stand at the front of out, whose rest is as it was; or
 * ENDRUSP_NO_ROOM where out_len is below endrusp_room_for(input_len), with out as it was. Of an input longer than 65,536 bytes nothing is
 * run, and the one line ffffffffff is written.
 * The two buffers must be valid for their lengths, not null even where a length is 0, and must not overlap. No pointer is kept. */
size_t endrusp_run(const uint8_t *input, size_t input_len, uint8_t *out, size_t out_len);

#ifdef __cplusplus
}
#endif

#endif
