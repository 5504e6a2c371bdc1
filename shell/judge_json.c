/* The verdict on an order list, as JSON. */
#include "judge_json.h"

#include <inttypes.h>
#include <stdio.h>
#include <stdlib.h>
#include <string.h>

#include "catalogue.h"
#include "json.h"
#include "judge.h"
#include "text.h"

/* A no: the count in its first line, the line itself, and what a cut may leave, a line each. */
static void json_no(struct json *json, char *text)
{
    char *rest;
    uint64_t after = 0;
    const char *first = strtok_r(text, "\n", &rest);
    sscanf(first, "no: after %" SCNu64, &after);
    json_number(json, "after", after);
    json_string(json, "says", first);
    json_open(json, "reasons", '[');
    for (const char *line; (line = strtok_r(NULL, "\n", &rest));)
        json_string(json, NULL, line);
    json_close(json, ']');
}

static void json_verdict(bool yes, size_t total, char *text)
{
    struct json json = {0};
    json_open(&json, NULL, '{');
    json_string(&json, "verdict", yes ? "yes" : "no");
    json_number(&json, "orders", total);
    if (!yes)
        json_no(&json, text);
    json_close(&json, '}');
    json_end();
}

int judge_json(const struct table *t, const char *name, const struct change *c)
{
    char *text = NULL;
    size_t length = 0, total = 0;
    FILE *out = open_memstream(&text, &length);
    if (!out)
        return fail(BAD_FILE, "not enough memory to judge orders for %s", t->name);
    int status = judge_list(t, name, c, out, &total);
    if (fclose(out) != 0)
        status = fail(BAD_FILE, "not enough memory to judge orders for %s", t->name);
    else if (status == 0 || status == CATALOGUE_NO)
        json_verdict(status == 0, total, text);
    free(text);
    return status;
}
