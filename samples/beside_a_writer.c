/* A code that is always there, searched by one thread while another adds and removes its neighbour: it never has another recording. */
#include <catalogue_file.h>
#include <pthread.h>
#include <stdio.h>

static _Atomic int writing = 1;
static long searches, missing, other;

static void *reader(void *name)
{
    catalogue_file *f = catalogue_file_new();
    struct catalogue_file_pair found;
    missing = catalogue_file_open(f, name, CATALOGUE_FILE_READING, 0) != 0;
    for (; writing; searches++) {
        uint64_t number = catalogue_file_find(f, 1, 40, &found);
        missing += number != 0;
        other += number == 0 && found.recording != 40;
    }
    catalogue_file_free(f);
    return NULL;
}

int main(int count, char **words)
{
    pthread_t thread;
    catalogue_file *f = catalogue_file_new();
    uint64_t flags = CATALOGUE_FILE_WRITING | CATALOGUE_FILE_FAST, number = 0;
    if (count != 2 || catalogue_file_create(f, words[1], 100, 1) != 0 || catalogue_file_open(f, words[1], flags, 0) != 0)
        return 2;
    for (uint64_t key = 20; number == 0 && key <= 90; key += 10)
        number = catalogue_file_add(f, 1, key, key, CATALOGUE_OPEN);
    pthread_create(&thread, NULL, reader, words[1]);
    for (int i = 0; number == 0 && i < 40000; i++)
        number = i % 2 == 0 ? catalogue_file_add(f, 1, 10, 10, CATALOGUE_OPEN) : catalogue_file_remove(f, 1, 10);
    writing = 0;
    pthread_join(thread, NULL);
    printf("%ld searches: %ld without an answer, %ld with another recording\n", searches, missing, other);
    catalogue_file_free(f);
    return missing + other != 0 || number != 0 || searches == 0;
}
