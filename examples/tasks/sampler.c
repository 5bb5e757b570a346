/* The sampler of examples/lost in C: it counts what was sent, and what the full box refused. */
#include "../c/tm.h"

static word sent, refused;

int main(void)
{
    struct message sample = {{0}};
    ReadInput(0, &sample.words[0]);
    if (Send(0, sample) == E_OK)
        sent++;
    else
        refused++;
    SetEvent(0, 1);
    return 0;
}
