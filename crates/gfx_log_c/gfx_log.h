/*
 * gfx_log_c: the log of a capture, for C and C++.
 *
 * A log takes a call only if its rules allow it there; what it holds is always a good capture file. Any thread may call
 * it, but it doesn't lock: make one call at a time, as under a mutex. Link libgfx_log_c.a, and the toolchain's
 * liblibc_c.a behind it.
 */
#ifndef GFX_LOG_H
#define GFX_LOG_H

#include <stddef.h>
#include <stdint.h>

#ifdef __cplusplus
extern "C" {
#endif

/* A handle of zeros holds no log. Only one copy of a handle may be used: that in the place where it was opened. */
typedef struct {
    void *at;
} gfx_log_handle;

enum gfx_log_result {
    GFX_LOG_OK = 0,
    GFX_LOG_BAD_VERSION = 2,   /* of gfx_log_open */
    GFX_LOG_BAD_FIELDS = 8,    /* the bytes spell no fields */
    /* 10 to 28: the rule that the call breaks, as docs/format.md numbers them */
    GFX_LOG_FULL = 29,         /* the log would pass 2^28 bytes */
    GFX_LOG_OUT_OF_MEMORY = 30
};

/* The functions of the library. They take the handle by value, and write it back to `out`; use those below. */
uint32_t gfx_log_open(gfx_log_handle *out, uint32_t minor_version);
uint32_t gfx_log_append(gfx_log_handle log, gfx_log_handle *out, uint32_t thread, uint32_t kind, uint32_t id,
                        const uint8_t *fields, size_t length);
uint64_t gfx_log_length(gfx_log_handle log, gfx_log_handle *out);
uint64_t gfx_log_bytes(gfx_log_handle log, gfx_log_handle *out, uint64_t from, uint8_t *into, size_t length);
void gfx_log_close(gfx_log_handle log);

#ifdef __cplusplus
}
#endif

/* Appends a call (kind 4) or a metadata block (kind 3). The log is unchanged unless the result is GFX_LOG_OK. */
static inline uint32_t log_append(gfx_log_handle *log, uint32_t thread, uint32_t kind, uint32_t id,
                                  const uint8_t *fields, size_t length) {
    return gfx_log_append(*log, log, thread, kind, id, fields, length);
}

/* The length in bytes of the capture file. */
static inline uint64_t log_length(gfx_log_handle *log) {
    return gfx_log_length(*log, log);
}

/* Copies bytes of the capture file from an offset on, as many as fit, and returns how many. */
static inline uint64_t log_bytes(gfx_log_handle *log, uint64_t from, uint8_t *into, size_t length) {
    return gfx_log_bytes(*log, log, from, into, length);
}

#endif
