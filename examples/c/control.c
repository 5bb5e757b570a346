/* The control task: whenever a part has left the belt, it smooths the measured speed, takes the part off the number,
   and tells the motor the speed that it is to have. */
#include "parts.h"
#include "tm.h"

enum { PART_LEFT = 1 };        /* its event */
enum { SPEED = 0 };            /* the input port */
enum { DRIVE = 0, PARTS = 1 }; /* the output ports */
enum { READINGS = 16, MOST = 5 };

/* The speed that a number of parts wants, in millimetres a minute. */
static const unsigned short wanted[MOST + 1] = {0, 9000, 12000, 14000, 15000, 15500};

/* How much a reading counts, the latest first; the sum is 128. */
static const unsigned char weights[READINGS] = {15, 14, 13, 12, 11, 10, 9, 8, 7, 7, 6, 5, 4, 3, 2, 2};

static word readings[READINGS];
static word latest = READINGS - 1;

/* RV32I has no multiplication: the compiler would call a library's. */
static word times(word left, word right)
{
    word product = 0;
    for (; right; left <<= 1, right >>= 1)
        if (right & 1)
            product += left;
    return product;
}

/* The mean of the last readings, this one included, by their weights. */
static word smoothed(word reading)
{
    word sum = 0;
    latest = (latest + 1) % READINGS;
    readings[latest] = reading;
    for (word age = 0; age < READINGS; age++)
        sum += times(weights[age], readings[(latest - age) % READINGS]);
    return sum >> 7;
}

/* Nothing without a part; else what the parts want, and half of what the belt is behind. */
static word drive(int parts, word speed)
{
    if (parts <= 0)
        return 0;
    word aim = wanted[parts < MOST ? parts : MOST];
    return speed < aim ? aim + ((aim - speed) >> 1) : aim;
}

int main(void)
{
    for (;;) {
        WaitEvent(PART_LEFT);
        ClearEvent(PART_LEFT);
        word reading;
        ReadInput(SPEED, &reading);
        word speed = smoothed(reading);
        int parts = change_parts(-1);
        WriteOutput(PARTS, (word)parts);
        WriteOutput(DRIVE, drive(parts, speed));
    }
}
