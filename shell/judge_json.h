/* The verdict on an order list, as JSON. */
#ifndef JUDGE_JSON_H
#define JUDGE_JSON_H

#include "planned.h"
#include "table.h"

/* Prints what judge_list prints as an object: verdict, orders, and for a no the count after which it fails, its line and the reasons. */
int judge_json(const struct table *t, const char *name, const struct change *c);

#endif
