/* The shared library: the version of its core, and a code that a second handle finds. The word is a new file's name. */
#include <inttypes.h>
#include <stdio.h>

#include <catalogue_file.h>

int main(int count, char **words)
{
    catalogue_file *f = catalogue_file_new(), *g = catalogue_file_new();
    struct catalogue_file_pair found = {0};
    uint64_t key, version = catalogue_version(), number = count == 2 ? catalogue_file_parse("ISRC AA-000-19-12345", SIZE_MAX, &key) : 1;
    if (number == 0 && (number = catalogue_file_create(f, words[1], 9, 2)) == 0
        && (number = catalogue_file_open(f, words[1], CATALOGUE_FILE_WRITING, 0)) == 0
        && (number = catalogue_file_open(g, words[1], CATALOGUE_FILE_READING, 0)) == 0
        && (number = catalogue_file_add(f, 2, key, 77, CATALOGUE_ROOM)) == 0)
        number = catalogue_file_find(g, 2, key, &found);
    int right = number == 0 && found.recording == 77 && found.access == CATALOGUE_ROOM && version == CATALOGUE_VERSION;
    if (!right)
        printf("%s; recording %" PRIu64 ", version %" PRIu64 "\n", catalogue_file_strerror(number), found.recording, version);
    catalogue_file_free(f);
    catalogue_file_free(g);
    printf("%d passed, %d failed\n", right, !right);
    return !right;
}
