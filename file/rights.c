/* Who may read and write a file, and what else is attached to it. */
#include "rights.h"

#include <errno.h>
#include <linux/limits.h>
#include <stddef.h>
#include <stdlib.h>
#include <string.h>
#include <sys/stat.h>
#include <sys/xattr.h>
#include <unistd.h>

/* The names of a file's attributes, one after the other, each with its final 0, and two values. */
struct attributes {
    char names[XATTR_LIST_MAX], value[XATTR_SIZE_MAX], present[XATTR_SIZE_MAX];
    ssize_t length; /* of the names */
};

static bool list_attributes(struct attributes *a, int file)
{
    a->length = flistxattr(file, a->names, sizeof a->names);
    /* A file system that has none. */
    if (a->length < 0 && errno == ENOTSUP)
        a->length = 0;
    return a->length >= 0;
}

/* The next name, from null on; null after the last. */
static const char *next_name(const struct attributes *a, const char *name)
{
    name = name ? name + strlen(name) + 1 : a->names;
    return name < a->names + a->length ? name : NULL;
}

/* What the system gave the new file by itself, such as the folder's default list, and the old one has not. */
static bool remove_others(struct attributes *a, int file, int old)
{
    if (!list_attributes(a, file))
        return false;
    for (const char *name = NULL; (name = next_name(a, name));)
        if (fgetxattr(old, name, NULL, 0) < 0 && (errno != ENODATA || fremovexattr(file, name) != 0))
            return false;
    return true;
}

/* A seal over the file's contents, which the system makes: of other words it would be false. */
static bool is_seal(const char *name)
{
    return strcmp(name, "security.ima") == 0 || strcmp(name, "security.evm") == 0;
}

static bool copy_attribute(struct attributes *a, int file, int old, const char *name)
{
    ssize_t size = fgetxattr(old, name, a->value, sizeof a->value), present = fgetxattr(file, name, a->present, sizeof a->present);
    if (size < 0)
        return false;
    if (is_seal(name)) {
        errno = EPERM;
        return false;
    }
    bool same = present == size && memcmp(a->value, a->present, (size_t)size) == 0;
    return same || fsetxattr(file, name, a->value, (size_t)size, 0) == 0;
}

static bool copy_attributes(struct attributes *a, int file, int old)
{
    if (!list_attributes(a, old))
        return false;
    for (const char *name = NULL; (name = next_name(a, name));)
        if (!copy_attribute(a, file, old, name))
            return false;
    return true;
}

static bool same_attributes(int file, int old)
{
    struct attributes *a = malloc(sizeof *a);
    bool same = a && remove_others(a, file, old) && copy_attributes(a, file, old);
    int why = errno;
    free(a);
    errno = why;
    return same;
}

bool same_rights(int file, int old)
{
    struct stat wanted, made;
    if (fstat(old, &wanted) != 0 || fstat(file, &made) != 0)
        return false;
    bool owned = made.st_uid == wanted.st_uid && made.st_gid == wanted.st_gid;
    /* The lists come before the rights: under a list the group's rights are only the most that anyone on it may have. */
    return (owned || fchown(file, wanted.st_uid, wanted.st_gid) == 0) && same_attributes(file, old)
           && fchmod(file, wanted.st_mode & 07777) == 0;
}
