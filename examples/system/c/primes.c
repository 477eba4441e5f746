/* primes N: the prime numbers up to N, at most 32767, ten a line: what Eratosthenes' sieve leaves. */
#include "system.h"

static char struck[4096];               /* a bit for each number */

int main(int count, char **words)
{
    unsigned most = 0, in_line = 0;

    if (count < 2)
        misuse("primes N");
    for (const char *digit = words[1]; *digit; digit++)
        most = 10 * most + (*digit - '0');
    for (unsigned n = 2; n <= most && n < 32768; n++) {
        if (struck[n / 8] & 1 << n % 8)
            continue;
        for (unsigned at = n; at < 32768; at += n)
            struck[at / 8] |= 1 << at % 8;
        number(n, 6);
        if (++in_line % 10 == 0)
            newline();
    }
    if (in_line % 10)
        newline();
    return 0;
}
