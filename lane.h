/* The functions that a host calls: crates/host/out/libhost.a, made by `rt lib` in crates/host. */
#ifndef LANE_H
#define LANE_H

#include <stddef.h>
#include <stdint.h>

#ifdef __cplusplus
extern "C" {
#endif

/* The square root of the f32 with the pattern bits, rounded to nearest, ties to even, as a pattern.
   The root of -0 is -0, of plus infinity itself, of a NaN or any other negative 0x7fc00000. */
uint32_t lane_sqrt(uint32_t bits);

/* The FSK widths of the len / 4 little-endian u32 slots in bytes, in place. Answers 0; or 9, with nothing changed, where
   len is no multiple of 4 or the slots are odd in number or more than 131072. A call takes some 3 kB of stack for up to
   512 slots, 20 kB for up to 4096, and 530 kB for more. Where len is 0 the answer is 0 and bytes is not read, so it may be
   NULL; elsewhere bytes has len bytes that nothing else reads or writes during the call. */
uint32_t lane_fsk_widths(uint8_t *bytes, size_t len);

#ifdef __cplusplus
}
#endif

#endif
