/* Room for the library's stack. */
#ifndef RESERVE_H
#define RESERVE_H

/*
 * Takes the stack that any call of the library needs, before other memory is taken: it stays the program's. 0, or an exit status after
 * saying why.
 */
int stack_take(void);

#endif
