/* include/sif.h compiles by itself, and declares what the Rust side declares. */
#include "../../include/sif.h"

uint32_t (*const tokens)(const uint8_t *, size_t, uint32_t *, size_t, uint32_t *, size_t,
                         uint32_t *, uint32_t *, uint32_t *) = sif_tokens;

uint32_t (*const reading)(const uint8_t *, size_t, uint32_t *, size_t, uint32_t *, size_t,
                          uint32_t *, size_t, uint32_t *, size_t, uint32_t *, size_t,
                          uint32_t *, size_t, uint32_t *, size_t,
                          size_t *, size_t *, size_t *, uint32_t *,
                          size_t *, size_t *, uint32_t *, size_t *, size_t *,
                          uint32_t *, size_t *) = sif_reading;

uint32_t (*const text)(const uint8_t *, size_t, uint32_t *, size_t, uint32_t *, size_t,
                       uint32_t *, size_t, uint32_t *, size_t, uint32_t *, size_t,
                       uint32_t *, size_t, uint32_t *, size_t, uint8_t *, size_t,
                       size_t *, uint32_t *, size_t *) = sif_text;

uint32_t (*const value)(const uint8_t *, size_t, double *) = sif_value;
uint32_t (*const deepest)(size_t, uint8_t *, size_t, size_t *) = sif_deepest;

_Static_assert(SIF_NONE == 0 && SIF_ERRORS_FULL == 9, "the refusals of a reading");
_Static_assert(SIF_FLAGGED == 10 && SIF_TEXT_FULL == 11, "the refusals of a text call");
_Static_assert(SIF_NO_LENGTH == 20, "the refusal of the deepest script");
_Static_assert(SIF_DEPTH(1) == 6 && SIF_DEPTH(255) == 768 && SIF_DEPTH(256) == 768, "the depth");
_Static_assert(SIF_NO_NUMBER == 12, "the refusal of a value call");
