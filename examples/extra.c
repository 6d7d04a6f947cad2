/* The listing, the place of END and the copy through an index: every member of every answer, and every byte of the buffer. Prints what fails. */
#include "dhcpopt.h"

#include <stdio.h>
#include <string.h>

static int faults;

static void expect(int right, const char *what)
{
    if (!right) {
        faults++;
        printf("wrong: %s\n", what);
    }
}

static int is_filled(dhcpopt_filled a, uint32_t refusal, size_t size, size_t place)
{
    return a.refusal == refusal && a.size == size && a.place == place;
}

static int is_end(dhcpopt_end a, uint32_t refusal, size_t place) { return a.refusal == refusal && a.place == place; }

/* The first message of case 6, with four bytes behind END; and the same without the END of file. */
static uint8_t message[248];

static void make(void)
{
    static const uint8_t cookie[] = {99, 130, 83, 99}, options[] = {52, 1, 1, 255, 53, 1, 5, 255}, file[] = {51, 4, 0, 0, 14, 255, 255};
    memset(message, 0, sizeof message);
    memcpy(message + DHCPOPT_COOKIE_OFFSET, cookie, sizeof cookie);
    memcpy(message + DHCPOPT_OPTIONS_OFFSET, options, sizeof options);
    memcpy(message + DHCPOPT_FILE_OFFSET, file, sizeof file);
}

static void listings(void)
{
    static const char text[] = "accepted 2\n52 242 1 options\n51 110 4 file\n", refused[] = "refused 5 236\n";
    static uint8_t out[DHCPOPT_LONGEST_LISTING + 1], before[sizeof out];
    const size_t n = sizeof text - 1, k = sizeof refused - 1;
    memset(before, 'x', sizeof before);
    memcpy(out, before, sizeof out);
    expect(is_filled(dhcpopt_list(message, sizeof message, out, n - 1), DHCPOPT_REFUSED_NO_ROOM, 0, n - 1), "11 where a byte of room is missing");
    expect(memcmp(out, before, sizeof out) == 0, "a refusal changes no byte");
    expect(is_filled(dhcpopt_list(message, sizeof message, out, n), DHCPOPT_NOT_REFUSED, n, 0), "just enough room");
    expect(memcmp(out, text, n) == 0 && memcmp(out + n, before, sizeof out - n) == 0, "the text, and nothing behind it");
    message[114] = 0;
    memcpy(out, before, sizeof out);
    expect(is_filled(dhcpopt_list(message, sizeof message, out, DHCPOPT_LONGEST_LISTING), DHCPOPT_NOT_REFUSED, k, 0), "a refused message is listed");
    expect(memcmp(out, refused, k) == 0 && memcmp(out + k, before, sizeof out - k) == 0, "its line");
    make();
}

static void ends(void)
{
    expect(is_end(dhcpopt_options_end(message, sizeof message), DHCPOPT_NOT_REFUSED, 243), "END of options, not of file, nor the last 255");
    expect(is_end(dhcpopt_options_end(message, 244), DHCPOPT_NOT_REFUSED, 243), "cut off behind END");
    expect(is_end(dhcpopt_options_end(message, 243), DHCPOPT_REFUSED_NO_END, 243), "cut off before END");
    message[114] = 0;
    expect(is_end(dhcpopt_options_end(message, sizeof message), DHCPOPT_REFUSED_NO_END, 236), "file without END");
    make();
    expect(is_end(dhcpopt_options_end(message, 239), DHCPOPT_REFUSED_TOO_SHORT, 239), "too short");
    message[241] = 255;
    expect(is_end(dhcpopt_options_end(message, sizeof message), DHCPOPT_REFUSED_OPTION_TRUNCATED, 240), "an option beyond the field");
    make();
}

static void copies(void)
{
    uint16_t index[DHCPOPT_INDEX_COUNT];
    uint8_t out[6] = {9, 9, 9, 9, 9, 9};
    expect(is_filled(dhcpopt_index_build(message, sizeof message, index, DHCPOPT_INDEX_COUNT), DHCPOPT_NOT_REFUSED, 512, 0), "the index");
    expect(is_filled(dhcpopt_index_copy(message, sizeof message, index, DHCPOPT_INDEX_COUNT, 51, out, 3), DHCPOPT_REFUSED_NO_ROOM, 0, 3), "11 at room");
    expect(is_filled(dhcpopt_index_copy(message, sizeof message, index, DHCPOPT_INDEX_COUNT, 53, out, 6), DHCPOPT_REFUSED_NO_ROOM, 0, 0), "11 at 0: absent");
    expect(is_filled(dhcpopt_index_copy(message, sizeof message, index, 255, 51, out, 6), DHCPOPT_REFUSED_BAD_INDEX_COUNT, 0, 255), "18");
    expect(is_filled(dhcpopt_index_copy(message, sizeof message, index, 255, 0, out, 6), DHCPOPT_REFUSED_BAD_CODE, 0, 0), "10 first");
    expect(is_filled(dhcpopt_index_copy(message, 239, index, 255, 51, out, 6), DHCPOPT_REFUSED_TOO_SHORT, 0, 239), "1 before 18");
    index[51] = 240;
    expect(is_filled(dhcpopt_index_copy(message, sizeof message, index, DHCPOPT_INDEX_COUNT, 51, out, 6), DHCPOPT_REFUSED_BAD_INDEX_ENTRY, 0, 240), "19 at the entry");
    expect(memcmp(out, "\11\11\11\11\11\11", 6) == 0, "a refusal changes no byte");
    index[51] = DHCPOPT_INDEX_PIECES;
    index[53] = 244; /* behind END: used all the same, as by a lookup */
    expect(is_filled(dhcpopt_index_copy(message, sizeof message, index, DHCPOPT_INDEX_COUNT, 51, out, 6), DHCPOPT_NOT_REFUSED, 4, 0), "65,535: the plain copy");
    expect(memcmp(out, "\0\0\16\377\11\11", 6) == 0, "its bytes, and nothing behind them");
    expect(is_filled(dhcpopt_index_copy(message, sizeof message, index, DHCPOPT_INDEX_COUNT, 53, out, 6), DHCPOPT_NOT_REFUSED, 1, 0), "an entry behind END");
    expect(memcmp(out, "\5\0\16\377\11\11", 6) == 0, "its byte");
}

int main(void)
{
    make();
    listings();
    ends();
    copies();
    printf("%d wrong\n", faults);
    return faults != 0;
}
