/* The number of parts on the belt. Tasks have no memory in common, so it is kept as the one message of a box. */
#ifndef PARTS_H
#define PARTS_H

enum { COUNT = 0 };      /* the box */
enum { COUNT_LOCK = 0 }; /* the resource that guards it */

/* Adds to the number, and gives the sum. */
int change_parts(int by);

#endif
