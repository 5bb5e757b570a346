/* Writes three tenths of the word at port 0. */
#include "../tm.h"

int main(void)
{
    word value;
    ReadInput(0, &value);
    WriteOutput(0, value * 3 / 10);
    return 0;
}
