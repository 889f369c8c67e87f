/*
 * zlib as far as readsb's sources name it. Nothing that the bench calls reads or writes a file, so none of it is
 * linked: were one of these reached, there would be no program.
 */
#ifndef BENCH_ZLIB_H
#define BENCH_ZLIB_H

#define Z_OK 0
#define Z_ERRNO (-1)
#define Z_FILTERED 1
#define Z_DEFAULT_STRATEGY 0

typedef struct gzFile_s *gzFile;

gzFile gzopen(const char *path, const char *mode);
gzFile gzdopen(int descriptor, const char *mode);
int gzbuffer(gzFile file, unsigned size);
int gzsetparams(gzFile file, int level, int strategy);
int gzread(gzFile file, void *bytes, unsigned length);
int gzwrite(gzFile file, const void *bytes, unsigned length);
const char *gzerror(gzFile file, int *number);
int gzclose(gzFile file);

#endif
