/* Another name for the meter's line: a symbolic link that is there as long as the meter runs. */
#define _XOPEN_SOURCE 700
#include "link.h"

#include <errno.h>
#include <limits.h>
#include <stdio.h>
#include <string.h>
#include <sys/stat.h>
#include <unistd.h>

#define PSEUDO_TERMINALS "/dev/pts/"

/* Where a symbolic link leads; an empty text where there is none. */
static void find_target(const char *link, char target[PATH_MAX])
{
    ssize_t n = readlink(link, target, PATH_MAX - 1);
    target[n > 0 ? n : 0] = '\0';
}

static int is_gone(const char *path)
{
    struct stat status;
    return stat(path, &status) != 0 && errno == ENOENT;
}

/* A meter that was killed leaves its link behind. It leads to a pseudo-terminal that is gone, or that this meter was given since. */
static int is_dead(const char *target, const char *line)
{
    if (strcmp(target, line) == 0)
        return 1;
    return strncmp(target, PSEUDO_TERMINALS, strlen(PSEUDO_TERMINALS)) == 0 && is_gone(target);
}

static void say_what_stands_there(const char *link, const char *target)
{
    if (target[0] == '\0')
        fprintf(stderr, "%s is there already, and no meter's link. It was left as it is: give LINK another name\n", link);
    else if (is_gone(target))
        fprintf(stderr, "%s is a link to %s, which no meter made. It was left as it is: give LINK another name\n", link, target);
    else
        fprintf(stderr, "%s is a link to %s, which is in use. It was left as it is: give LINK another name\n", link, target);
}

int make_link(const char *line, const char *link)
{
    char target[PATH_MAX];
    find_target(link, target);
    if (is_dead(target, line))
        unlink(link);
    if (symlink(line, link) == 0)
        return 0;
    if (errno == EEXIST)
        say_what_stands_there(link, target);
    else
        fprintf(stderr, "no link %s: %s\n", link, strerror(errno));
    return -1;
}

void remove_link(const char *line, const char *link)
{
    char target[PATH_MAX];
    find_target(link, target);
    if (strcmp(target, line) == 0)
        unlink(link);
}
