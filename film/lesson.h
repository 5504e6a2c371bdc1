/* The lesson: the worked split, the right lists, and each drawing that does not hold, in one page. */
#ifndef LESSON_H
#define LESSON_H

#include <stdbool.h>

/* 0, or an exit status after saying why. */
int lesson(bool data);

#endif
