/* The number is read and written, and each is guarded. */
#include "parts.h"
#include "tm.h"

/* An empty box is a belt without parts: the words of a refused Receive are 0. */
static int read_parts(void)
{
    struct message count;
    GetResource(COUNT_LOCK);
    Receive(COUNT, &count);
    Send(COUNT, count);
    ReleaseResource(COUNT_LOCK);
    return (int)count.words[0];
}

static void write_parts(int parts)
{
    struct message count;
    GetResource(COUNT_LOCK);
    Receive(COUNT, &count);
    count.words[0] = (word)parts;
    Send(COUNT, count);
    ReleaseResource(COUNT_LOCK);
}

int change_parts(int by)
{
    int parts = read_parts() + by;
    write_parts(parts);
    return parts;
}
