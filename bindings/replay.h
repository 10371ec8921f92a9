/* The replay of an action script, from libreplay_c.a (README.md, "Static library"). */
#ifndef SCUMBRADEL_REPLAY_H
#define SCUMBRADEL_REPLAY_H

#include <stddef.h>
#include <stdint.h>

#ifdef __cplusplus
extern "C" {
#endif

/* A script has at most so many bytes; a longer one is refused by its length alone, as "bad 0". */
#define SCUMBRADEL_SCRIPT_MOST 65536

/* No output is longer: 160 + 23 * SCUMBRADEL_SCRIPT_MOST. */
#define SCUMBRADEL_OUTPUT_MOST 1507488

/* Answers how many bytes the output of the script has. If they fit out_size they stand at the start of out, and what follows them
   there is as it was; else nothing is written, so that a call with out_size 0 measures. That both are exactly what the rules say is
   proved for every script and every buffer (docs/CONTRACTS.md).

   No proof reaches the caller, who sees to it that script points to script_size bytes and out to out_size, that neither pointer is
   null, and that the two do not overlap. Nothing else is read, written or kept, so that any thread may call that has half a megabyte
   of stack left. */
size_t scumbradel_replay(const uint8_t *script, size_t script_size, uint8_t *out, size_t out_size);

#ifdef __cplusplus
}
#endif

#endif
