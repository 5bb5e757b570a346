/* A program as a C compiler makes it: it fills a list with pseudo-random words, takes its checksum (CRC-32,
   bit by bit), sorts it, and takes the checksum again, without end. */
typedef unsigned int word;

static word values[256], sums[2];

static void fill(word seed);
static void sort(int low, int high);
static word checksum(const unsigned char *bytes, int count);

/* The first function: it stands at address 0. */
void _start(void)
{
    for (word seed = 1;; seed++) {
        fill(seed);
        sums[0] ^= checksum((const unsigned char *)values, sizeof values);
        sort(0, 255);
        sums[1] ^= checksum((const unsigned char *)values, sizeof values);
    }
}

__attribute__((noinline)) static void fill(word seed)
{
    for (int i = 0; i < 256; i++) {
        seed ^= seed << 13;
        seed ^= seed >> 17;
        seed ^= seed << 5;
        values[i] = seed;
    }
}

/* Quicksort of the values from `low` to `high`. */
__attribute__((noinline)) static void sort(int low, int high)
{
    while (low < high) {
        word middle = values[(low + high) / 2];
        int i = low, j = high;
        while (i <= j) {
            while (values[i] < middle)
                i++;
            while (values[j] > middle)
                j--;
            if (i <= j) {
                word v = values[i];
                values[i++] = values[j];
                values[j--] = v;
            }
        }
        sort(low, j);
        low = i;
    }
}

__attribute__((noinline)) static word checksum(const unsigned char *bytes, int count)
{
    word sum = ~0u;
    while (count-- > 0) {
        sum ^= *bytes++;
        for (int bit = 0; bit < 8; bit++)
            sum = sum & 1 ? sum >> 1 ^ 0xedb88320u : sum >> 1;
    }
    return ~sum;
}
