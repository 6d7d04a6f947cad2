/* The report of a file of captures on standard input, taken in parts of 997 bytes. */
#include "dhcpopt.h"

#include <stdio.h>

int main(void)
{
    static uint8_t part[997], message[DHCPOPT_CAPTURES_MESSAGE], text[DHCPOPT_CAPTURES_TEXT];
    static uint64_t verdicts[DHCPOPT_CAPTURES_VERDICTS], held[DHCPOPT_CAPTURES_CODES], bytes[DHCPOPT_CAPTURES_CODES];
    dhcpopt_captures p = dhcpopt_captures_begin(verdicts, held, bytes);
    size_t n;
    while ((n = fread(part, 1, sizeof part, stdin)) > 0)
        p = dhcpopt_captures_feed(part, n, p, message, verdicts, held, bytes);
    n = dhcpopt_captures_report(p, verdicts, held, bytes, text);
    return fwrite(text, 1, n, stdout) != n;
}
