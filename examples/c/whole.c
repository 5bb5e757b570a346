/* The number is changed under one guard. */
#include "parts.h"
#include "tm.h"

int change_parts(int by)
{
    struct message count;
    GetResource(COUNT_LOCK);
    Receive(COUNT, &count);
    count.words[0] += (word)by;
    Send(COUNT, count);
    ReleaseResource(COUNT_LOCK);
    return (int)count.words[0];
}
