/*
 * zstd as far as readsb's sources name it. Nothing that the bench calls compresses, so none of it is linked: were one
 * of these reached, there would be no program.
 */
#ifndef BENCH_ZSTD_H
#define BENCH_ZSTD_H

#include <stddef.h>

typedef struct ZSTD_CCtx_s ZSTD_CCtx;
typedef struct ZSTD_DCtx_s ZSTD_DCtx;
typedef ZSTD_CCtx ZSTD_CStream;

typedef struct {
    const void *src;
    size_t size, pos;
} ZSTD_inBuffer;

typedef struct {
    void *dst;
    size_t size, pos;
} ZSTD_outBuffer;

ZSTD_CCtx *ZSTD_createCCtx(void);
ZSTD_DCtx *ZSTD_createDCtx(void);
ZSTD_CStream *ZSTD_createCStream(void);
size_t ZSTD_freeCStream(ZSTD_CStream *stream);
size_t ZSTD_initCStream(ZSTD_CStream *stream, int level);
size_t ZSTD_compressStream(ZSTD_CStream *stream, ZSTD_outBuffer *to, ZSTD_inBuffer *from);
size_t ZSTD_flushStream(ZSTD_CStream *stream, ZSTD_outBuffer *to);
size_t ZSTD_endStream(ZSTD_CStream *stream, ZSTD_outBuffer *to);
size_t ZSTD_compressBound(size_t length);
size_t ZSTD_compressCCtx(ZSTD_CCtx *context, void *to, size_t room, const void *from, size_t length, int level);
size_t ZSTD_decompressDCtx(ZSTD_DCtx *context, void *to, size_t room, const void *from, size_t length);
unsigned ZSTD_isError(size_t answer);
const char *ZSTD_getErrorName(size_t answer);

#endif
