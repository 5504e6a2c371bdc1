/* Codes, classes and texts. */
#include <stdlib.h>
#include <string.h>

#include "check.h"

static bool people_write_codes(void)
{
    static const char *const same[] = {"AA0001912345", "AA-000-19-12345", "aa-000-19-12345", " AA 000 19 12345 ", "ISRC AA-000-19-12345",
                                       "isrcaa0001912345", "ISRC: AA0001912345", "ISRC-AA-000-19-12345", "AA\t000\t19\t12345", "AA\xe2\x80\x93" "000\xe2\x80\x93" "19\xe2\x80\x93" "12345",
                                       "AA\xe2\x80\x94" "000\xe2\x88\x92" "19\xc2\xa0" "12345\xc2\xa0"};
    static const char *const none[] = {"", "A", "AA000191234", "AA00019123456", "ISRC", "ISRCAA000191234", "ISRCISRCAA0001912345",
                                       "AA_0001912345", "1A0001912345", "#", "#x", "#18446744073709551616", "AA000191234X", "ISRD AA0001912345", "AA\xe2\x80" "0001912345", "AA0001912345\xe2\x80",
                                       "AA\xe2\x80\x96" "0001912345", "\xc2\xa0"};
    uint64_t key, wanted;
    GIVES(0, catalogue_parse((const uint8_t *)"AA0001912345", 12, &wanted));
    for (size_t i = 0; i < sizeof same / sizeof same[0]; i++) {
        key = 0;
        GIVES(0, catalogue_file_parse(same[i], SIZE_MAX, &key));
        CHECK(key == wanted);
    }
    for (size_t i = 0; i < sizeof none / sizeof none[0]; i++) {
        key = 77;
        GIVES(CATALOGUE_NO_CODE, catalogue_file_parse(none[i], strlen(none[i]), &key));
        CHECK(key == 77);
    }
    GIVES(0, catalogue_file_parse("AA0001912345,7", 12, &key));
    CHECK(key == wanted);
    return true;
}

/* Twelve characters are a code, whatever they begin with. */
static bool a_code_of_iceland(void)
{
    uint64_t key, wanted;
    GIVES(0, catalogue_parse((const uint8_t *)"ISRC12345678", 12, &wanted));
    GIVES(0, catalogue_file_parse("ISRC12345678", SIZE_MAX, &key));
    CHECK(key == wanted);
    GIVES(0, catalogue_file_parse("ISRC ISRC12345678", SIZE_MAX, &key));
    CHECK(key == wanted);
    return true;
}

static bool keys_are_printed(void)
{
    char text[CATALOGUE_FILE_CODE];
    uint64_t key, again;
    GIVES(0, catalogue_file_parse("GB-ABC-99-00042", SIZE_MAX, &key));
    CHECK(strcmp(catalogue_file_print(key, CATALOGUE_FILE_PLAIN, text), "GBABC9900042") == 0);
    CHECK(strcmp(catalogue_file_print(key, CATALOGUE_FILE_HYPHENS, text), "GB-ABC-99-00042") == 0);
    CHECK(strcmp(catalogue_file_print(UINT64_MAX, CATALOGUE_FILE_HYPHENS, text), "#18446744073709551615") == 0);
    GIVES(0, catalogue_file_parse(text, SIZE_MAX, &again));
    CHECK(again == UINT64_MAX);
    return true;
}

/* True only for what is known. */
static bool what_may_play(void)
{
    for (uint64_t access = 0; access < 300; access++)
        for (uint64_t place = 0; place < 4; place++) {
            bool may = place <= 1 && (access == CATALOGUE_OPEN || (access == CATALOGUE_ROOM && place == CATALOGUE_FILE_IN_THE_ROOM));
            CHECK((catalogue_file_may_play(access, place) != 0) == may);
        }
    CHECK(!catalogue_file_may_play(UINT64_MAX, CATALOGUE_FILE_IN_THE_ROOM) && !catalogue_file_may_play(0, UINT64_MAX));
    CHECK(strcmp(catalogue_file_class(1), "room") == 0 && catalogue_file_class(3) == NULL && catalogue_file_class(UINT64_MAX) == NULL);
    return true;
}

/* The script that runs the tests writes the numbers of both headers here. */
static const uint64_t numbers[] = {
#include "numbers.inc"
};

static bool every_number_has_a_text(void)
{
    const char *none = catalogue_file_strerror(UINT64_MAX);
    size_t count = sizeof numbers / sizeof numbers[0];
    CHECK(count > 40);
    for (size_t i = 0; i < count; i++) {
        CHECK(strcmp(catalogue_file_strerror(numbers[i]), none) != 0);
        for (size_t j = 0; j < i; j++)
            CHECK(numbers[i] != numbers[j] && strcmp(catalogue_file_strerror(numbers[i]), catalogue_file_strerror(numbers[j])) != 0);
    }
    CHECK(strcmp(catalogue_file_strerror(12), none) == 0);
    return true;
}

/* The best flush is one of the four; fences alone every processor has. */
static bool flushes(void)
{
    const char *best = catalogue_file_flush(NULL);
    CHECK(best && strcmp(catalogue_file_flush(best), best) == 0 && strcmp(catalogue_file_flush("none"), "none") == 0);
    CHECK(!catalogue_file_flush("") && !catalogue_file_flush("clean"));
    return true;
}

const struct test codes_tests[] = {
    {"people write codes", people_write_codes},
    {"a code of Iceland", a_code_of_iceland},
    {"keys are printed", keys_are_printed},
    {"what may play", what_may_play},
    {"every number has a text", every_number_has_a_text},
    {"flushes", flushes},
    {NULL, NULL},
};
