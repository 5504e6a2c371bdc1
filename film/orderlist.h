/* An order list as text: in words, in the order printer's form, or as `catalogue orders` prints it. */
#ifndef ORDERLIST_H
#define ORDERLIST_H

#include <stddef.h>
#include <stdint.h>

#define ORDER_LIST_WRONG 256

struct order_list {
    uint64_t *words; /* two an order */
    size_t count;    /* orders */
    size_t room;     /* for so many */
    size_t changes;  /* lists with orders: lines that end one stand between them */
    char wrong[ORDER_LIST_WRONG]; /* why it cannot be read; empty if it can */
};

/*
 * From the lines of a file, or of standard input if the name is -, each an order as order_read reads it. Empty lines are passed over, and so are
 * those that begin with #, and lines `done ..`, `refused ..` and `not made ..`, which end a list. 0, or an exit status after saying which word
 * of which line is wrong and what could stand there; order_list_free in either case.
 */
int order_list_read(struct order_list *l, const char *name);

/* The same of a text; the name is for messages. */
int order_list_read_text(struct order_list *l, const char *name, const char *text);

/* The same, which says nothing: why it fails stands in the list. */
int order_list_scan(struct order_list *l, const char *name, const char *text);

void order_list_free(struct order_list *l);

#endif
