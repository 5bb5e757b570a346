/* The tasks of examples/c on the machine at hand: one function stands for the kernel. It reads a plan from standard
   input, in which each interrupt finds the tasks done, and prints the outputs that they make. */
#include <stdio.h>
#include <stdlib.h>
#include "tm.h"

enum { PART_CAME = 2, PART_LEFT = 4 }; /* the lines, as masks */
enum { GET_RESOURCE = 6, RELEASE_RESOURCE = 7, CLEAR_EVENT = 9, WAIT_EVENT = 11 };
enum { SEND = 16, RECEIVE = 17, READ_INPUT = 18, WRITE_OUTPUT = 19 };

int control_main(void);
int entry_main(void);

static struct message box;
static int is_full;
static word events, ports[4];

/* Lets come what the next slice brings. The run ends where the plan does. */
static void next_slice(void)
{
    unsigned length, mask;
    int count = scanf(" slice %u %u %u %u %u %u", &length, &mask, &ports[0], &ports[1], &ports[2], &ports[3]);
    if (count != 6)
        exit(count != EOF);
    if (mask & PART_CAME)
        entry_main();
    if (mask & PART_LEFT)
        events = 1;
}

static struct answer answered(enum status status, word first)
{
    return (struct answer){status, {{first, 0, 0, 0}}};
}

static struct answer send(word first, word second, word third, word fourth)
{
    if (is_full)
        return answered(E_OS_LIMIT, 0);
    box = (struct message){{first, second, third, fourth}};
    is_full = 1;
    return answered(E_OK, 0);
}

static struct answer receive(void)
{
    if (!is_full)
        return answered(E_OS_NOFUNC, 0);
    is_full = 0;
    return (struct answer){E_OK, box};
}

struct answer tm_call_with(word service, word first, word second, word third, word fourth, word fifth)
{
    switch (service) {
    case GET_RESOURCE:
    case RELEASE_RESOURCE:
        return answered(E_OK, 0);
    case CLEAR_EVENT:
        events &= ~first;
        return answered(E_OK, 0);
    case WAIT_EVENT:
        while (!(events & first))
            next_slice();
        return answered(E_OK, 0);
    case SEND:
        return send(second, third, fourth, fifth);
    case RECEIVE:
        return receive();
    case READ_INPUT:
        return answered(E_OK, ports[first]);
    case WRITE_OUTPUT:
        printf("out %u %08x\n", first, second);
        return answered(E_OK, 0);
    default:
        fprintf(stderr, "native: a call of service %u\n", service);
        exit(1);
    }
}

int main(void)
{
    if (scanf("tmplan 1") == EOF)
        return 1;
    return control_main();
}
