#include "dhcpopt.h"

#include <stdio.h>

int main(void)
{
    static uint8_t message[DHCPOPT_LONGEST_MESSAGE + 1]; /* one byte more, so that a longer message is refused */
    size_t size = fread(message, 1, sizeof message, stdin);
    dhcpopt_answer a = dhcpopt_lookup_known(message, size, dhcpopt_known_all(), DHCPOPT_CODE_LEASE_TIME);
    if (a.status == DHCPOPT_STATUS_NUMBER)
        printf("lease time: %lld s, in %s\n", (long long)a.number, dhcpopt_field_name(a.field));
    else if (a.status == DHCPOPT_STATUS_BROKEN)
        printf("a broken lease time, in %s: %s, %u at %zu\n", dhcpopt_field_name(a.field), dhcpopt_refusal_name(a.refusal), a.refusal, a.place);
    else if (a.status == DHCPOPT_STATUS_REFUSED)
        printf("the message is refused: %s, %u at %zu\n", dhcpopt_refusal_name(a.refusal), a.refusal, a.place);
    else
        printf("no lease time\n");
    return 0;
}
