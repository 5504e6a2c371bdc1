/* Who may read and write a file, and what else is attached to it. */
#ifndef RIGHTS_H
#define RIGHTS_H

#include <stdbool.h>

/*
 * A new file, which nobody but its maker may open so far, gets the owner, the group, the rights, the access lists and all other extended
 * attributes of an old one, and no others; in between only users who may open the old one may open it. False, with errno, if one of them
 * cannot be carried over.
 */
bool same_rights(int file, int old);

#endif
