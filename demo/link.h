/* Another name for the meter's line: a symbolic link that is there as long as the meter runs. */
#ifndef LINK_H
#define LINK_H

/* Makes the link where nothing stands, or where a dead link of an earlier run does. Else it says what is in the way, changes nothing, and
   hands back -1. */
int make_link(const char *line, const char *link);

/* Removes the link, unless it has become another's meanwhile. */
void remove_link(const char *line, const char *link);

#endif
