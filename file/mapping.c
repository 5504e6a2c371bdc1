/* A table's file: its length, its name, its words mapped. */
#include "mapping.h"

#include <errno.h>
#include <fcntl.h>
#include <sys/mman.h>

#if __BYTE_ORDER__ != __ORDER_LITTLE_ENDIAN__
#error "A table's words are little-endian."
#endif

size_t words_for(uint64_t nodes)
{
    return HEADER_WORDS + NODE_WORDS * (size_t)nodes;
}

size_t bytes_of(size_t words, bool trailer)
{
    return (words + (trailer ? TRAILER_WORDS : 0)) * sizeof(uint64_t);
}

bool same_file(const struct stat *a, const struct stat *b)
{
    return a->st_dev == b->st_dev && a->st_ino == b->st_ino;
}

bool has_name(const struct catalogue_file *f, struct stat *ours)
{
    struct stat named;
    return fstat(f->file, ours) == 0 && stat(f->path, &named) == 0 && same_file(ours, &named);
}

bool fill_holes(int file, const struct stat *about, uint64_t bytes)
{
    if ((uint64_t)about->st_blocks * 512 >= bytes)
        return true;
    int status;
    do
        status = fallocate(file, 0, 0, (off_t)bytes);
    while (status != 0 && errno == EINTR);
    return status == 0 || (errno != ENOSPC && errno != EDQUOT && errno != EIO);
}

/*
 * The trailer lies in the page of the last node, so it is mapped with the table, also of a file that has none yet: what a writer puts there
 * once it has made the file longer is seen. On persistent memory MAP_SYNC makes the flush instructions enough. Elsewhere it is refused.
 */
uint64_t *map_words(int file, size_t words, bool writing, bool *persistent)
{
    size_t bytes = bytes_of(words, true);
    int access = PROT_READ | (writing ? PROT_WRITE : 0);
    void *at = mmap(NULL, bytes, access, MAP_SHARED_VALIDATE | MAP_SYNC, file, 0);
    *persistent = at != MAP_FAILED;
    if (!*persistent)
        at = mmap(NULL, bytes, access, MAP_SHARED, file, 0);
    return at == MAP_FAILED ? NULL : at;
}

void unmap_words(uint64_t *mapped, size_t words)
{
    if (mapped)
        munmap(mapped, bytes_of(words, true));
}
