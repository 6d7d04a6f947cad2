/*
 * Stands for the box's service: reads the settings in a DHCP message, and makes an offer from a settings sheet.
 *
 *   service read MESSAGE [CODE...]                 CODE...: the codes that the meter knows. None given: all
 *   service trust MESSAGE                          whether a meter is to trust this reply, and else why not
 *   service offer SHEET SIZE PERMISSION [MESSAGE]  SIZE: bytes of the message; MESSAGE: a file to write it to
 *   service choose GROUPED CLASS SIZE PERMISSION   the same from a sheet for all devices, for those of a class
 *
 * Exit status: 0 done, 1 refused, a reply that is not to be trusted, or a setting is broken, 2 wrong usage, or a file that cannot be read or written.
 */
#include "dhcpopt.h"

#include <ctype.h>
#include <errno.h>
#include <inttypes.h>
#include <stdbool.h>
#include <stdio.h>
#include <stdlib.h>
#include <string.h>

enum { DONE = 0, REFUSED = 1, FAILED = 2 };

static const struct {
    uint8_t code;
    const char *name, *unit;
} SETTINGS[] = {
    {DHCPOPT_CODE_ROUTER, "router", ""},
    {DHCPOPT_CODE_TIME_OFFSET, "clock offset", " s east of UTC"},
    {DHCPOPT_CODE_LEASE_TIME, "lease time", " s"},
    {DHCPOPT_CODE_TFTP_SERVER_NAME, "server name", ""},
    {DHCPOPT_CODE_HOST_NAME, "host name", ""},
    {DHCPOPT_CODE_DOMAIN_NAME, "domain name", ""},
};

static const struct {
    const char *cause, *place;
} REFUSALS[] = {
    [DHCPOPT_REFUSED_TOO_SHORT] = {"the message is under 240 bytes", "its length"},
    [DHCPOPT_REFUSED_TOO_LONG] = {"the message is over 1,472 bytes", "its length"},
    [DHCPOPT_REFUSED_BAD_COOKIE] = {"the cookie differs", "its first byte"},
    [DHCPOPT_REFUSED_OPTION_TRUNCATED] = {"an option goes beyond its field", "its code byte"},
    [DHCPOPT_REFUSED_NO_END] = {"a field has no END", "the first byte after it"},
    [DHCPOPT_REFUSED_BAD_OVERLOAD] = {"option 52 is in file or sname, or is not one byte from 1 to 3", "its code byte"},
    [DHCPOPT_REFUSED_DUPLICATE] = {"option 52, or a tag of the sheet, is there twice", "the later one"},
    [DHCPOPT_REFUSED_BAD_LENGTH] = {"the length is wrong for this code", "its code or tag byte"},
    [DHCPOPT_REFUSED_BAD_VALUE] = {"the value is wrong for this code", "its code or tag byte"},
    [DHCPOPT_REFUSED_BAD_CODE] = {"0, 52 and 255 are no settings", "the tag byte"},
    [DHCPOPT_REFUSED_NO_ROOM] = {"the settings do not fit with this permission", "the message's length"},
    [DHCPOPT_REFUSED_RECORD_TRUNCATED] = {"a record goes beyond the sheet", "its tag byte"},
    [DHCPOPT_REFUSED_RECORD_TOO_LONG] = {"a record has more than 1,024 data bytes", "its tag byte"},
    [DHCPOPT_REFUSED_ROUTER_BEFORE_MASK] = {"the router (3) stands before the subnet mask (1)", "the byte of tag 3"},
    [DHCPOPT_REFUSED_BAD_PERMISSION] = {"the permission is over 3", "always 0"},
    [DHCPOPT_REFUSED_SHEET_TOO_LONG] = {"the sheet is over 4,096 bytes, or the grouped file over 4,100", "its length"},
    [DHCPOPT_REFUSED_BAD_GROUP] = {"a group or record goes beyond what is around it, or the file is not exactly one group", "its tag byte, or the first byte behind the group"},
    [DHCPOPT_REFUSED_TOO_DEEP] = {"a group is of a fifth depth", "its tag byte"},
    [DHCPOPT_REFUSED_NO_WAY_BACK] = {"the file has a name or a group inside", "always 0"},
    [DHCPOPT_REFUSED_NO_REPLY] = {"the message type (53) is absent, broken, or neither offer nor acknowledgement", "always 0"},
    [DHCPOPT_REFUSED_BAD_ROUTE] = {"a route has a width over 32, or set bits past its width", "its number, from 0"},
};

static const char *const PLANS[] = {
    [DHCPOPT_OVERLOAD_NONE] = "options alone",
    [DHCPOPT_OVERLOAD_FILE] = "options and file",
    [DHCPOPT_OVERLOAD_SNAME] = "options and sname",
    [DHCPOPT_OVERLOAD_BOTH] = "options, file and sname",
};

/* One byte more than the longest is taken in, so that a longer one is seen and refused. */
static uint8_t message[DHCPOPT_LONGEST_MESSAGE + 1];
static uint8_t sheet[DHCPOPT_LONGEST_SHEET + 1];
static uint8_t grouped[DHCPOPT_LONGEST_GROUPED + 1];

static int fail(const char *what, const char *which)
{
    fprintf(stderr, "service: %s: %s\n", what, which);
    return FAILED;
}

static bool read_file(const char *name, uint8_t *to, size_t room, size_t *size)
{
    FILE *f = fopen(name, "rb");
    if (f == NULL)
        return false;
    *size = fread(to, 1, room, f);
    bool good = !ferror(f);
    fclose(f);
    return good;
}

static bool write_file(const char *name, const uint8_t *from, size_t size)
{
    FILE *f = fopen(name, "wb");
    if (f == NULL)
        return false;
    bool good = fwrite(from, 1, size, f) == size;
    return fclose(f) == 0 && good;
}

/* A larger number would be cut to its low byte on its way into a uint8_t, and mean something else. */
static bool read_number(const char *word, unsigned long most, unsigned long *number)
{
    char *end;
    if (!isdigit((unsigned char)word[0]))
        return false;
    errno = 0;
    *number = strtoul(word, &end, 10);
    return errno == 0 && *end == '\0' && *number <= most;
}

static void tell_refusal(const char *word, uint32_t refusal, size_t place)
{
    if (refusal < sizeof REFUSALS / sizeof REFUSALS[0] && REFUSALS[refusal].cause != NULL)
        printf("%s %" PRIu32 " at %zu: %s; the place is %s", word, refusal, place, REFUSALS[refusal].cause, REFUSALS[refusal].place);
    else
        printf("%s %" PRIu32 " at %zu: %s", word, refusal, place, dhcpopt_refusal_name(refusal));
}

static void tell_address(uint32_t address)
{
    printf("%" PRIu32 ".%" PRIu32 ".%" PRIu32 ".%" PRIu32, address >> 24, address >> 16 & 255, address >> 8 & 255, address & 255);
}

static void tell_addresses(const uint8_t *list, size_t size)
{
    const char *before = "";
    for (dhcpopt_address a = dhcpopt_address_step(list, size, 0); a.given; a = dhcpopt_address_step(list, size, a.next)) {
        printf("%s", before);
        tell_address(a.address);
        before = ", ";
    }
}

/* RFC 3442: a router of 0.0.0.0 is none; the destination is on the link itself. */
static void tell_routes(const uint8_t *data, size_t size)
{
    const char *before = "";
    for (dhcpopt_route r = dhcpopt_route_step(data, size, 0); r.given; r = dhcpopt_route_step(data, size, r.next)) {
        printf("%s", before);
        tell_address(r.destination);
        printf("/%" PRIu32 " by ", r.width);
        if (r.router == 0)
            printf("the link");
        else
            tell_address(r.router);
        before = ", ";
    }
}

/* Each byte of a text is 1 to 127. Control characters are among these, so what is not plain is shown in hex. */
static void tell_text(const uint8_t *text, size_t size)
{
    printf("\"");
    for (size_t i = 0; i < size; i++) {
        if (text[i] >= ' ' && text[i] <= '~' && text[i] != '"' && text[i] != '\\')
            printf("%c", text[i]);
        else
            printf("\\x%02x", text[i]);
    }
    printf("\"");
}

/* The bytes of a part. Those of a code in several pieces lie apart, and are copied together; the buffer is long enough for any message. */
static const uint8_t *bytes_of(size_t size, uint8_t code, const dhcpopt_answer *a)
{
    static uint8_t joined[DHCPOPT_LONGEST_MESSAGE];
    if (!a->several)
        return message + a->start;
    dhcpopt_filled copied = dhcpopt_copy(message, size, code, joined, sizeof joined);
    if (copied.refusal != DHCPOPT_NOT_REFUSED)
        abort(); /* the lookup was not refused, so the copy is not */
    return joined;
}

/* Behind what comes from an option stands its field. Without a default the compiler tells of a status that was left out. */
static void tell_answer(size_t size, uint8_t code, const dhcpopt_answer *a, const char *unit)
{
    switch ((enum dhcpopt_status)a->status) {
    case DHCPOPT_STATUS_ABSENT:
        printf("absent");
        break;
    case DHCPOPT_STATUS_UNKNOWN:
        printf("unknown to the meter");
        if (!a->several)
            printf(", %zu bytes at %zu", a->length, a->start);
        break;
    case DHCPOPT_STATUS_REFUSED:
        tell_refusal("refused", a->refusal, a->place);
        break;
    case DHCPOPT_STATUS_BROKEN:
        tell_refusal("broken", a->refusal, a->place);
        break;
    case DHCPOPT_STATUS_NUMBER:
        printf("%" PRId64 "%s", a->number, unit);
        break;
    case DHCPOPT_STATUS_PART:
        if (a->kind == DHCPOPT_KIND_TEXT)
            tell_text(bytes_of(size, code, a), a->length);
        else if (a->kind == DHCPOPT_KIND_ROUTES)
            tell_routes(bytes_of(size, code, a), a->length);
        else
            tell_addresses(bytes_of(size, code, a), a->length);
        break;
    }
    if (a->several)
        printf(", %zu bytes in several pieces, the first in %s", a->whole, dhcpopt_field_name(a->field));
    else if (a->field != DHCPOPT_FIELD_NONE)
        printf(", in %s", dhcpopt_field_name(a->field));
    printf("\n");
}

/* The routes, where there are any. Then what stands above of the router is not used: RFC 3442 has a client ignore 3 and 33. */
static int read_routes(size_t size, const uint16_t *index, dhcpopt_known known)
{
    dhcpopt_answer a = dhcpopt_index_lookup_known(message, size, index, DHCPOPT_INDEX_COUNT, known, DHCPOPT_CODE_CLASSLESS_STATIC_ROUTE);
    if (a.status == DHCPOPT_STATUS_ABSENT)
        return DONE;
    printf("routes (%d): ", DHCPOPT_CODE_CLASSLESS_STATIC_ROUTE);
    tell_answer(size, DHCPOPT_CODE_CLASSLESS_STATIC_ROUTE, &a, "");
    dhcpopt_ignored i = dhcpopt_routes_ignored_known(message, size, known);
    if (i.refusal != DHCPOPT_NOT_REFUSED) {
        printf("router (3) and static routes (33): not known whether to be ignored, ");
        tell_refusal("refused", i.refusal, i.place);
        printf("\n");
        return REFUSED;
    }
    printf("router (3) and static routes (33): %s\n", i.ignored ? "ignored, the routes (121) stand for them" : "not ignored");
    return DONE;
}

static int read_settings(size_t size, dhcpopt_known known)
{
    dhcpopt_codes codes = dhcpopt_present(message, size);
    if (codes.refusal != DHCPOPT_NOT_REFUSED) {
        tell_refusal("refused", codes.refusal, codes.place);
        printf("\n");
        return REFUSED;
    }
    printf("accepted: %zu bytes, %" PRIu32 " codes\n", size, codes.count);
    /* Every setting is looked up: so the message is walked once more, and not for each of them. An accepted message has an index. */
    uint16_t index[DHCPOPT_INDEX_COUNT];
    dhcpopt_filled built = dhcpopt_index_build(message, size, index, DHCPOPT_INDEX_COUNT);
    if (built.refusal != DHCPOPT_NOT_REFUSED) {
        tell_refusal("refused", built.refusal, built.place);
        printf("\n");
        return REFUSED;
    }
    int result = DONE;
    for (size_t i = 0; i < sizeof SETTINGS / sizeof SETTINGS[0]; i++) {
        dhcpopt_answer a = dhcpopt_index_lookup_known(message, size, index, DHCPOPT_INDEX_COUNT, known, SETTINGS[i].code);
        printf("%s (%d): ", SETTINGS[i].name, SETTINGS[i].code);
        tell_answer(size, SETTINGS[i].code, &a, SETTINGS[i].unit);
        if (a.status == DHCPOPT_STATUS_REFUSED || a.status == DHCPOPT_STATUS_BROKEN)
            result = REFUSED;
    }
    return read_routes(size, index, known) == DONE ? result : REFUSED;
}

/* The header is the service's own. sname and file are cleared too: where the plan does not use them they stay as they are. */
static void begin_reply(void)
{
    static const uint8_t header[DHCPOPT_HEADER_SIZE] = {
        2,   1,   6, 0,            /* op: reply; htype: Ethernet; hlen; hops */
        57,  3,   243, 38,         /* xid: the request's */
        0,   0,   0x80, 0,         /* secs; flags: broadcast */
        0,   0,   0, 0,            /* ciaddr */
        192, 0,   2, 10,           /* yiaddr: the address offered */
        192, 0,   2, 1,            /* siaddr */
        0,   0,   0, 0,            /* giaddr: the request's */
        0,   0,   0x5e, 0, 0x53, 1 /* chaddr: the request's */
    };
    memset(message, 0, sizeof message);
    memcpy(message, header, sizeof header);
}

/* Sixteen bytes to a line, behind the place of the first. */
static void dump(const uint8_t *bytes, size_t size)
{
    for (size_t i = 0; i < size; i++) {
        if (i % 16 == 0)
            printf("%s%5zu ", i == 0 ? "" : "\n", i);
        printf(" %02x", bytes[i]);
    }
    printf("\n");
}

static int offer(size_t sheet_size, size_t size, uint8_t permission)
{
    begin_reply();
    dhcpopt_wrote w = dhcpopt_write(sheet, sheet_size, message, size, permission);
    if (w.refusal != DHCPOPT_NOT_REFUSED) {
        tell_refusal("refused", w.refusal, w.place);
        printf("\n");
        return REFUSED;
    }
    printf("plan %" PRIu32 ": %s\n", w.plan, PLANS[w.plan]);
    dump(message, size);
    return DONE;
}

static int read_command(int argc, char **argv)
{
    size_t size;
    dhcpopt_known known = {{0, 0, 0, 0}};
    if (argc == 3)
        known = dhcpopt_known_all();
    for (int i = 3; i < argc; i++) {
        unsigned long code;
        if (!read_number(argv[i], 255, &code))
            return fail("not a code", argv[i]);
        known = dhcpopt_known_with(known, (uint8_t)code);
    }
    if (!read_file(argv[2], message, sizeof message, &size))
        return fail("cannot be read", argv[2]);
    return read_settings(size, known);
}

static int offer_command(int argc, char **argv)
{
    size_t sheet_size;
    unsigned long size, permission;
    if (!read_number(argv[3], sizeof message, &size))
        return fail("not a size from 0 to 1473", argv[3]);
    if (!read_number(argv[4], 255, &permission))
        return fail("not a permission from 0 to 255", argv[4]);
    if (!read_file(argv[2], sheet, sizeof sheet, &sheet_size))
        return fail("cannot be read", argv[2]);
    int result = offer(sheet_size, size, (uint8_t)permission);
    if (result == DONE && argc == 6 && !write_file(argv[5], message, size))
        return fail("cannot be written", argv[5]);
    return result;
}

static int choose_command(char **argv)
{
    size_t size_of_file;
    unsigned long size, permission;
    if (!read_number(argv[4], sizeof message, &size))
        return fail("not a size from 0 to 1473", argv[4]);
    if (!read_number(argv[5], 255, &permission))
        return fail("not a permission from 0 to 255", argv[5]);
    if (!read_file(argv[2], grouped, sizeof grouped, &size_of_file))
        return fail("cannot be read", argv[2]);
    dhcpopt_filled chosen = dhcpopt_choose(grouped, size_of_file, (const uint8_t *)argv[3], strlen(argv[3]), sheet, sizeof sheet);
    if (chosen.refusal != DHCPOPT_NOT_REFUSED) {
        tell_refusal("refused", chosen.refusal, chosen.place);
        printf("\n");
        return REFUSED;
    }
    printf("chosen: %zu bytes\n", chosen.size);
    dump(sheet, chosen.size);
    return offer(chosen.size, size, (uint8_t)permission);
}

/* Each rule that is broken is told, not the first alone. */
static int trust_command(char **argv)
{
    size_t size;
    if (!read_file(argv[2], message, sizeof message, &size))
        return fail("cannot be read", argv[2]);
    dhcpopt_profile_answer a = dhcpopt_profile(message, size);
    if (a.refusal != DHCPOPT_NOT_REFUSED) {
        tell_refusal("refused", a.refusal, a.place);
        printf("\n");
        return REFUSED;
    }
    if (a.broken == 0) {
        printf("to be trusted\n");
        return DONE;
    }
    printf("not to be trusted:\n");
    for (unsigned bit = 0; bit < 8; bit++)
        if (a.broken >> bit & 1)
            printf("  it has %s\n", dhcpopt_profile_rule_name(bit));
    return REFUSED;
}

int main(int argc, char **argv)
{
    int result;
    if (argc >= 3 && strcmp(argv[1], "read") == 0) {
        result = read_command(argc, argv);
    } else if (argc == 3 && strcmp(argv[1], "trust") == 0) {
        result = trust_command(argv);
    } else if ((argc == 5 || argc == 6) && strcmp(argv[1], "offer") == 0) {
        result = offer_command(argc, argv);
    } else if (argc == 6 && strcmp(argv[1], "choose") == 0) {
        result = choose_command(argv);
    } else {
        fputs("usage: service read MESSAGE [CODE...]\n"
              "       service trust MESSAGE\n"
              "       service offer SHEET SIZE PERMISSION [MESSAGE]\n"
              "       service choose GROUPED CLASS SIZE PERMISSION\n",
              stderr);
        return FAILED;
    }
    if (fflush(stdout) != 0)
        return fail("cannot be written", "standard output");
    return result;
}
