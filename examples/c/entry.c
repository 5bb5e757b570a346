/* The task of the near end: a part has come onto the belt. */
#include "parts.h"

int main(void)
{
    change_parts(1);
    return 0;
}
