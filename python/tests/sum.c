/* Fills a table with squares, sums it, and then stores where no memory is. */

static volatile long table[8];

/* the sum of the table's numbers from one place up to another */
__attribute__((noinline)) static long weigh(long from, long to)
{
    long sum;
    sum = 0;
    for (long i = from; i < to; i++)
        sum += table[i];
    return sum;
}

int main(void)
{
    long whole;

    for (long i = 0; i < 8; i++)
        table[i] = i * i;
    whole = weigh(0, 8);
    if (whole != 140)
        return 1;
    *(volatile long *)0x40000000 = 1;       /* no memory there */
    return 0;
}
