/* Sends the prime numbers below 100, and halts with 0 (start.S stores what main returns to the halt register). */

static volatile unsigned char *const transmit = (volatile unsigned char *)0x10000000;

static unsigned char is_composite[100];

static void send(const char *text)
{
    while (*text)
        *transmit = (unsigned char)*text++;
}

static void send_decimal(unsigned number)
{
    if (number >= 10)
        send_decimal(number / 10);
    *transmit = (unsigned char)('0' + number % 10);
}

int main(void)
{
    for (unsigned n = 2; n < 100; n++) {
        if (is_composite[n])
            continue;
        send_decimal(n);
        send(n < 97 ? " " : "\n");
        for (unsigned multiple = n * n; multiple < 100; multiple += n)
            is_composite[multiple] = 1;
    }
    return 0;
}
