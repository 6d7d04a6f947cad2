/*
 * The options of one DHCPv4 message (RFC 2131, RFC 2132, RFC 3046, RFC 3396, RFC 3442): a reader and a writer, for C11 and C++17 on x86-64 Linux.
 *
 * libdhcpopt.a, which `make` writes, has every call. The same calls in parts, so that a meter that only reads links the reader's alone:
 * - libdhcpopt_reader.a: every call that is not named below;
 * - libdhcpopt_index.a: dhcpopt_index_build, dhcpopt_index_lookup;
 * - libdhcpopt_extra.a: dhcpopt_list, dhcpopt_options_end, dhcpopt_index_copy;
 * - libdhcpopt_profile.a: dhcpopt_profile;
 * - libdhcpopt_routes.a: dhcpopt_route_step, dhcpopt_routes_write, dhcpopt_routes_ignored;
 * - libdhcpopt_writer.a: dhcpopt_write, dhcpopt_vendor_write, dhcpopt_relay_write, and on grouped sheets dhcpopt_check_grouped,
 *   dhcpopt_choose, dhcpopt_group, dhcpopt_ungroup;
 * - libdhcpopt_captures.a: dhcpopt_captures_begin, dhcpopt_captures_feed, dhcpopt_captures_report.
 * docs/C-API.md has an example of each call.
 *
 * For every call:
 * - A message or sheet is a pointer and its number of bytes, an index a pointer and its count of numbers. The pointer is never null, also
 *   where that number is 0.
 * - What a call writes to (out, buffer, the index that is built) overlaps nothing else that it is given.
 * - A place counts bytes, from 0 at the first one. A place of the message counts from the message's first byte, in every field.
 * - A refusal has a number, one of DHCPOPT_REFUSED_*, and a place. It changes no byte of the caller's.
 * - A member that an answer does not need is 0.
 * - Nothing is allocated and nothing is kept from one call to the next.
 */
#ifndef DHCPOPT_H
#define DHCPOPT_H

#if defined(DHCPOPT_RUST) /* the calls come from dhcpopt-c, compiled for this machine: docs/C-API.md, 'Another machine' */
#include <stdint.h>
#if !defined(UINT8_MAX) || !defined(UINT64_MAX) || (SIZE_MAX != UINT32_MAX && SIZE_MAX != UINT64_MAX)
#error "dhcpopt.h: dhcpopt-c is for machines with bytes of 8 bits, and a size_t of 32 or 64."
#endif
#elif !defined(__x86_64__) || defined(__ILP32__) || !defined(__linux__)
#error "dhcpopt.h: the archives are compiled for x86-64 Linux alone. docs/C-API.md, 'Another machine', says what to do."
#endif

/*
 * The version of this header: 100 * major + minor. The major number grows where a program must change (a call, a struct, the meaning
 * of an answer), the minor one where calls or names are added, or other data are right.
 * An object file that is compiled with this header has the version as the value of a symbol, dhcpopt_version, and so has each object of
 * the archives that `make` writes. The linker refuses two values: "multiple definition" or "duplicate symbol". That takes no byte of code
 * or data (with clang 24 to 48 bytes of unwind table). The archives of packaging/build have no such symbol, and are linked as they are.
 * 2.0: a lookup's answer says which field it comes from, and a broken option has a status of its own.
 * 3.0: a code may come in several pieces, in one field or over several (RFC 3396). A lookup answers for all of them together, and
 * dhcpopt_copy gives their bytes. docs/C-API.md, 'Versions', says what to do.
 * 3.1: a text with a byte over 127, or with a zero before a byte that is not 0, is broken (9), and the writer refuses it.
 * 3.2: dhcpopt_vendor_records and dhcpopt_vendor_write, for what is inside option 43 (RFC 2132, 8.4).
 * 3.3: dhcpopt_index_build and dhcpopt_index_lookup: an index of a message, for many lookups of one message.
 * 3.4: one sheet for all devices: dhcpopt_check_grouped, dhcpopt_choose, dhcpopt_group and dhcpopt_ungroup.
 * 3.5: names of codes, message types and refusals, and inline helpers: to put records into a sheet, and to step over records and pairs.
 * The compiler now tells of an answer that is not looked at, and of a null pointer.
 * dhcpopt_list, dhcpopt_options_end and dhcpopt_index_copy, in an archive of their own.
 * 3.6: option 82 has a kind (RFC 3046), and must be the last of a sheet; dhcpopt_relay_records and dhcpopt_relay_write, for what is inside.
 * 3.7: 8 (cookie server), 10 (impress server) and 34 (trailer encapsulation) have no kind any more: they are unknown, and written unjudged.
 * 3.8: dhcpopt_captures_begin, dhcpopt_captures_feed and dhcpopt_captures_report: the tally of a file of captures.
 * 3.9: dhcpopt_profile: whether a meter is to trust a reply, and which rules it breaks.
 * 3.10: option 121 has a kind (RFC 3442); dhcpopt_route_step and dhcpopt_routes_write, for what is inside, and dhcpopt_routes_ignored: whether 3 and 33
 * are ignored.
 */
#define DHCPOPT_VERSION_MAJOR 3
#define DHCPOPT_VERSION_MINOR 10
#define DHCPOPT_VERSION (100 * DHCPOPT_VERSION_MAJOR + DHCPOPT_VERSION_MINOR)

/* With clang the symbol stands in an empty function that nobody calls: outside of one, clang's link-time optimization takes it as defined twice. */
#if defined(__GNUC__) && !defined(DHCPOPT_NO_VERSION_SYMBOL) && !defined(DHCPOPT_RUST)
#define DHCPOPT_WORDS(words) #words
#define DHCPOPT_SET_VERSION(value) \
    __asm__(".globl dhcpopt_version\n\t.hidden dhcpopt_version\n\t.set dhcpopt_version, " DHCPOPT_WORDS(value))
#ifdef __clang__
__attribute__((naked, used)) static void dhcpopt_version_symbol(void) { DHCPOPT_SET_VERSION(DHCPOPT_VERSION); }
#else
DHCPOPT_SET_VERSION(DHCPOPT_VERSION);
#endif
#undef DHCPOPT_SET_VERSION
#undef DHCPOPT_WORDS
#endif

#include <stddef.h>
#include <stdint.h>
#include <string.h>

/* Of every call: its answer is to be looked at, for it may be a refusal, and no pointer is null. */
#if defined(__GNUC__)
#define DHCPOPT_CALL __attribute__((warn_unused_result, nonnull))
#define DHCPOPT_NONNULL(...) __attribute__((nonnull(__VA_ARGS__)))
#else
#define DHCPOPT_CALL
#define DHCPOPT_NONNULL(...)
#endif

#ifdef __cplusplus
extern "C" {
#endif

/*
 * What has a name here is a uint32_t in the structs, so that its size is certain. A switch over a cast, such as (enum dhcpopt_kind)a.kind,
 * lets the compiler tell of a case that was left out. Bytes between members are left unset: compare members, not bytes.
 */

/* Where the fields of a message stand. The options field goes on to the message's end. */
enum dhcpopt_layout {
    DHCPOPT_HEADER_SIZE = 44, /* op to chaddr: the caller's, neither read nor written */
    DHCPOPT_SNAME_OFFSET = 44,
    DHCPOPT_SNAME_SIZE = 64,
    DHCPOPT_FILE_OFFSET = 108,
    DHCPOPT_FILE_SIZE = 128,
    DHCPOPT_COOKIE_OFFSET = 236,
    DHCPOPT_COOKIE_SIZE = 4, /* 99, 130, 83, 99 */
    DHCPOPT_OPTIONS_OFFSET = 240
};

/* Sizes in bytes. */
enum dhcpopt_limit {
    DHCPOPT_SHORTEST_MESSAGE = 240,
    DHCPOPT_LONGEST_MESSAGE = 1472, /* so it is enough for dhcpopt_copy too */
    DHCPOPT_LONGEST_PIECE = 255,    /* of an option's data in a message */
    DHCPOPT_LONGEST_RECORD = 1024,  /* of data in a record that dhcpopt_write takes */
    DHCPOPT_LONGEST_SHEET = 4096,   /* that dhcpopt_write, dhcpopt_vendor_write and dhcpopt_relay_write take. The records of a message are always shorter; what is
                                       chosen from a grouped file is never longer */
    DHCPOPT_LONGEST_ITEM = 255,     /* of data in a record that dhcpopt_vendor_write takes */
    DHCPOPT_LONGEST_VENDOR = 255,   /* that dhcpopt_vendor_write gives */
    DHCPOPT_LONGEST_RELAY = 255,    /* that dhcpopt_relay_write gives; a sub-option has at most 255 data bytes, too */
    DHCPOPT_GIVEN_ROUTE = 9,        /* a route that dhcpopt_routes_write takes; in option 121 it has 5 to 9 bytes */
    DHCPOPT_LONGEST_GROUPED = 4100, /* a grouped file */
    DHCPOPT_LONGEST_LISTING = 16384, /* no listing is longer: enough for dhcpopt_list */
    DHCPOPT_DEEPEST_GROUP = 4       /* groups within groups, the outermost counted */
};

/*
 * The codes with a kind: name, code and option. DHCPOPT_CODE_LEASE_TIME is 51, and dhcpopt_code_name(51) "IP address lease time".
 * Any other code from 1 to 254 is a code too: it has no kind, and no name here.
 */
#define DHCPOPT_CODES(X) \
    X(SUBNET_MASK, 1, "subnet mask")                                       \
    X(TIME_OFFSET, 2, "time offset")                                       \
    X(ROUTER, 3, "router")                                                 \
    X(TIME_SERVER, 4, "time server")                                       \
    X(NAME_SERVER, 5, "name server (IEN 116)")                             \
    X(DOMAIN_NAME_SERVER, 6, "domain name server")                         \
    X(LOG_SERVER, 7, "log server")                                         \
    X(LPR_SERVER, 9, "LPR server")                                         \
    X(RESOURCE_LOCATION_SERVER, 11, "resource location server")            \
    X(HOST_NAME, 12, "host name")                                          \
    X(BOOT_FILE_SIZE, 13, "boot file size")                                \
    X(MERIT_DUMP_FILE, 14, "merit dump file")                              \
    X(DOMAIN_NAME, 15, "domain name")                                      \
    X(SWAP_SERVER, 16, "swap server")                                      \
    X(ROOT_PATH, 17, "root path")                                          \
    X(EXTENSIONS_PATH, 18, "extensions path")                              \
    X(IP_FORWARDING, 19, "IP forwarding")                                  \
    X(NON_LOCAL_SOURCE_ROUTING, 20, "non-local source routing")            \
    X(POLICY_FILTER, 21, "policy filter")                                  \
    X(MAXIMUM_REASSEMBLY_SIZE, 22, "maximum datagram reassembly size")     \
    X(DEFAULT_TTL, 23, "default IP time to live")                          \
    X(PATH_MTU_AGING_TIMEOUT, 24, "path MTU aging timeout")                \
    X(PATH_MTU_PLATEAU_TABLE, 25, "path MTU plateau table")                \
    X(INTERFACE_MTU, 26, "interface MTU")                                  \
    X(ALL_SUBNETS_LOCAL, 27, "all subnets are local")                      \
    X(BROADCAST_ADDRESS, 28, "broadcast address")                          \
    X(PERFORM_MASK_DISCOVERY, 29, "perform mask discovery")                \
    X(MASK_SUPPLIER, 30, "mask supplier")                                  \
    X(PERFORM_ROUTER_DISCOVERY, 31, "perform router discovery")            \
    X(ROUTER_SOLICITATION_ADDRESS, 32, "router solicitation address")      \
    X(STATIC_ROUTE, 33, "static route")                                    \
    X(ARP_CACHE_TIMEOUT, 35, "ARP cache timeout")                          \
    X(ETHERNET_ENCAPSULATION, 36, "Ethernet encapsulation")                \
    X(TCP_DEFAULT_TTL, 37, "TCP default time to live")                     \
    X(TCP_KEEPALIVE_INTERVAL, 38, "TCP keepalive interval")                \
    X(TCP_KEEPALIVE_GARBAGE, 39, "TCP keepalive garbage")                  \
    X(NIS_DOMAIN, 40, "NIS domain")                                        \
    X(NIS_SERVERS, 41, "NIS servers")                                      \
    X(NTP_SERVERS, 42, "NTP servers")                                      \
    X(VENDOR_INFORMATION, 43, "vendor specific information")               \
    X(NETBIOS_NAME_SERVER, 44, "NetBIOS name server")                      \
    X(NETBIOS_DATAGRAM_SERVER, 45, "NetBIOS datagram distribution server") \
    X(NETBIOS_NODE_TYPE, 46, "NetBIOS node type")                          \
    X(NETBIOS_SCOPE, 47, "NetBIOS scope")                                  \
    X(X_FONT_SERVER, 48, "X Window font server")                           \
    X(X_DISPLAY_MANAGER, 49, "X Window display manager")                   \
    X(REQUESTED_ADDRESS, 50, "requested IP address")                       \
    X(LEASE_TIME, 51, "IP address lease time")                             \
    X(OVERLOAD, 52, "option overload")                                     \
    X(MESSAGE_TYPE, 53, "DHCP message type")                               \
    X(SERVER_IDENTIFIER, 54, "server identifier")                          \
    X(PARAMETER_REQUEST_LIST, 55, "parameter request list")                \
    X(MESSAGE, 56, "message")                                              \
    X(MAXIMUM_MESSAGE_SIZE, 57, "maximum DHCP message size")               \
    X(RENEWAL_TIME, 58, "renewal (T1) time")                               \
    X(REBINDING_TIME, 59, "rebinding (T2) time")                           \
    X(VENDOR_CLASS, 60, "vendor class identifier")                         \
    X(CLIENT_IDENTIFIER, 61, "client identifier")                          \
    X(NIS_PLUS_DOMAIN, 64, "NIS+ domain")                                  \
    X(NIS_PLUS_SERVERS, 65, "NIS+ servers")                                \
    X(TFTP_SERVER_NAME, 66, "TFTP server name")                            \
    X(BOOTFILE_NAME, 67, "bootfile name")                                  \
    X(MOBILE_IP_HOME_AGENT, 68, "mobile IP home agent")                    \
    X(SMTP_SERVER, 69, "SMTP server")                                      \
    X(POP3_SERVER, 70, "POP3 server")                                      \
    X(NNTP_SERVER, 71, "NNTP server")                                      \
    X(WWW_SERVER, 72, "WWW server")                                        \
    X(FINGER_SERVER, 73, "Finger server")                                  \
    X(IRC_SERVER, 74, "IRC server")                                        \
    X(STREETTALK_SERVER, 75, "StreetTalk server")                          \
    X(STDA_SERVER, 76, "STDA server")                                      \
    X(RELAY_AGENT_INFORMATION, 82, "relay agent information")              \
    X(CLASSLESS_STATIC_ROUTE, 121, "classless static route")

enum dhcpopt_code {
#define DHCPOPT_ROW(name, code, option) DHCPOPT_CODE_##name = code,
    DHCPOPT_CODES(DHCPOPT_ROW)
#undef DHCPOPT_ROW
};

/* The message type: the value of option 53. */
enum dhcpopt_type {
    DHCPOPT_TYPE_DISCOVER = 1,
    DHCPOPT_TYPE_OFFER = 2,
    DHCPOPT_TYPE_REQUEST = 3,
    DHCPOPT_TYPE_DECLINE = 4,
    DHCPOPT_TYPE_ACK = 5,
    DHCPOPT_TYPE_NAK = 6,
    DHCPOPT_TYPE_RELEASE = 7,
    DHCPOPT_TYPE_INFORM = 8
};

/* An index of a message: a number for each code. */
enum dhcpopt_index {
    DHCPOPT_INDEX_COUNT = 256,      /* numbers of 16 bits, that of code c at c */
    DHCPOPT_INDEX_ABSENT = 0,       /* the code is absent */
    DHCPOPT_INDEX_PIECES = 65535    /* it comes in two or more pieces. Any other number is the place of the code byte */
};

/*
 * What a lookup found, and after the colon what the answer then gives. From an option, which is every status but ABSENT and REFUSED, it
 * also gives where that option stands: field, offset and start. Of a code in several pieces that is the first of them, and a kind, number
 * or length is that of the bytes of all pieces, end to end in reading order (options, file, sname).
 */
enum dhcpopt_status {
    DHCPOPT_STATUS_ABSENT = 0,
    DHCPOPT_STATUS_UNKNOWN = 1, /* the code is not in the known set, or has no kind: length of its data */
    DHCPOPT_STATUS_REFUSED = 2, /* the message, or the code asked for, is refused: refusal (1 to 7, 10; through an index 18, 19) and place */
    DHCPOPT_STATUS_NUMBER = 3,  /* kind and number */
    DHCPOPT_STATUS_PART = 4,    /* kind, and length of its bytes. Unless several is 1 they begin at start; else dhcpopt_copy gives them */
    DHCPOPT_STATUS_BROKEN = 5   /* length or value of this option is wrong: refusal (8 or 9), and place, that of its code byte */
};

/* The field of the message that holds an option's code byte. */
enum dhcpopt_field {
    DHCPOPT_FIELD_NONE = 0, /* the answer is from no option */
    DHCPOPT_FIELD_OPTIONS = 1,
    DHCPOPT_FIELD_FILE = 2,
    DHCPOPT_FIELD_SNAME = 3
};

/* The kind of an option. Behind each: whether a lookup gives a number or a part. */
enum dhcpopt_kind {
    DHCPOPT_KIND_NONE = 0,
    DHCPOPT_KIND_ADDRESS = 1,       /* number: 192.0.2.1 is 0xC0000201 */
    DHCPOPT_KIND_ADDRESS_LIST = 2,  /* part, for dhcpopt_address_step */
    DHCPOPT_KIND_ADDRESS_PAIRS = 3, /* part, for dhcpopt_address_step: first and second of a pair by turns */
    DHCPOPT_KIND_FLAG = 4,          /* number, 0 or 1 */
    DHCPOPT_KIND_BYTE = 5,          /* number */
    DHCPOPT_KIND_UINT16 = 6,        /* number */
    DHCPOPT_KIND_UINT16_LIST = 7,   /* part: two bytes each, the high byte first */
    DHCPOPT_KIND_UINT32 = 8,        /* number */
    DHCPOPT_KIND_INT32 = 9,         /* number, may be negative: option 2, seconds east of UTC */
    DHCPOPT_KIND_TEXT = 10,         /* part, without the trailing zeros. Not ended by a zero; each byte is 1 to 127 */
    DHCPOPT_KIND_OPAQUE = 11,       /* part */
    DHCPOPT_KIND_RELAY = 12,        /* part: option 82, for dhcpopt_relay_records */
    DHCPOPT_KIND_ROUTES = 13        /* part: option 121, for dhcpopt_route_step */
};

/*
 * Why a call is refused, and after the colon what its place then is. Reading gives 1 to 7, 10 and 11, with an
 * index also 18 and 19; writing gives 1, 2, 7 to 16 and 23.
 * dhcpopt_vendor_records gives 11 and 17, dhcpopt_vendor_write 10 to 13 and 16.
 * dhcpopt_relay_records gives 8 and 11, dhcpopt_relay_write 8, 11 to 13 and 16.
 * The calls on grouped sheets give 10, 11, 12, 16 and 20 to 22. dhcpopt_profile gives 1 to 7 and 25, dhcpopt_routes_write 11 and 26; 24 stands
 * in the report of captures alone.
 * In reading a message 8 and 9 refuse nothing: they say why an option is broken, in a lookup's answer of DHCPOPT_STATUS_BROKEN. Only
 * dhcpopt_routes_ignored is refused by them, where option 121 is known and broken.
 */
enum dhcpopt_refusal {
    DHCPOPT_NOT_REFUSED = 0,
    DHCPOPT_REFUSED_TOO_SHORT = 1,           /* message or buffer under 240 bytes: its length */
    DHCPOPT_REFUSED_TOO_LONG = 2,            /* message or buffer over 1,472 bytes: its length */
    DHCPOPT_REFUSED_BAD_COOKIE = 3,          /* the cookie differs: 236 */
    DHCPOPT_REFUSED_OPTION_TRUNCATED = 4,    /* length byte or data beyond the field: the code byte */
    DHCPOPT_REFUSED_NO_END = 5,              /* field without END: the first byte after the field */
    DHCPOPT_REFUSED_BAD_OVERLOAD = 6,        /* option 52 in file or sname, or not one byte from 1 to 3: its code byte */
    DHCPOPT_REFUSED_DUPLICATE = 7,           /* reading, a second option 52; writing, a tag met again: the later one */
    DHCPOPT_REFUSED_BAD_LENGTH = 8,          /* the length breaks the kind: the code or tag byte. A sub-option runs past: its code byte; none: 0 */
    DHCPOPT_REFUSED_BAD_VALUE = 9,           /* the value breaks the kind: the code or tag byte */
    DHCPOPT_REFUSED_BAD_CODE = 10,           /* reading, asked for code 0 or 255: 0. Writing, tag 0, 52 (no item) or 255: the tag byte */
    DHCPOPT_REFUSED_NO_ROOM = 11,            /* out too small, items or sub-options over 255 bytes: room. A code to copy is absent: 0. No plan fits: size */
    DHCPOPT_REFUSED_RECORD_TRUNCATED = 12,   /* record head or data beyond the sheet: the tag byte */
    DHCPOPT_REFUSED_RECORD_TOO_LONG = 13,    /* record of more than 1,024 data bytes, for items and sub-options more than 255: the tag byte */
    DHCPOPT_REFUSED_ROUTER_BEFORE_MASK = 14, /* tag 3 stands before tag 1: the byte of tag 3 */
    DHCPOPT_REFUSED_BAD_PERMISSION = 15,     /* permission over 3: 0 */
    DHCPOPT_REFUSED_SHEET_TOO_LONG = 16,     /* sheet over 4,096 bytes, grouped file over 4,100: its length */
    DHCPOPT_REFUSED_ITEM_TRUNCATED = 17,     /* length byte or data of an item beyond the bytes: its code byte */
    DHCPOPT_REFUSED_BAD_INDEX_COUNT = 18,    /* an index not of 256 numbers: their count */
    DHCPOPT_REFUSED_BAD_INDEX_ENTRY = 19,    /* an entry of an index that does not fit the message: the entry */
    DHCPOPT_REFUSED_BAD_GROUP = 20,          /* grouped file: a group or record beyond what is around it, or a group too short for its
                                                name: the tag byte. Empty, or a first tag other than 0: 0. Bytes behind: the first */
    DHCPOPT_REFUSED_TOO_DEEP = 21,           /* grouped file, a group of a fifth depth: the tag byte */
    DHCPOPT_REFUSED_NO_WAY_BACK = 22,        /* dhcpopt_ungroup, a name or a group inside: 0 */
    DHCPOPT_REFUSED_RELAY_NOT_LAST = 23,     /* tag 82 is not the last of the sheet: its byte */
    DHCPOPT_REFUSED_CAPTURE = 24,            /* in the report of captures alone: another tag, a record cut short, or message 1,000,001: the
                                                record's first byte in the file */
    DHCPOPT_REFUSED_NO_REPLY = 25,           /* dhcpopt_profile, option 53 absent, broken, or neither offer nor acknowledgement: 0 */
    DHCPOPT_REFUSED_BAD_ROUTE = 26           /* dhcpopt_routes_write, a width over 32, set bits past the width, or not nine bytes: the number of
                                                the first such route, from 0. No route at all: 0 */
};

/* Permissions to overload, and the plans that the writer may then use: the value of option 52, or 0 without it. */
enum dhcpopt_overload {
    DHCPOPT_OVERLOAD_NONE = 0,
    DHCPOPT_OVERLOAD_FILE = 1,
    DHCPOPT_OVERLOAD_SNAME = 2,
    DHCPOPT_OVERLOAD_BOTH = 3 /* as a permission: either or both */
};

/* A lookup's answer. status says which members it gives. */
typedef struct {
    uint32_t status;  /* DHCPOPT_STATUS_* */
    uint32_t kind;    /* DHCPOPT_KIND_* */
    uint32_t refusal; /* DHCPOPT_REFUSED_* */
    uint32_t field;   /* DHCPOPT_FIELD_*: the field that holds the code byte */
    int64_t number;
    size_t place;  /* of a refusal, or of the code byte of a broken option */
    size_t offset; /* of the code byte in its field */
    size_t start;  /* of the data in the message: the field's first byte + offset + 2, at length 0 too */
    size_t length;
    size_t whole;     /* where several is 1: the bytes of all pieces together, a text's trailing zeros counted */
    uint32_t several; /* 1 where the code comes in two or more pieces, empty ones counted */
} dhcpopt_answer;

/* A part of the message. An empty one is 0 and 0. */
typedef struct {
    size_t start;
    size_t length;
} dhcpopt_extent;

/* A step in an address list: given is 1, with the address and the place after it; or 0, and next is the place asked for. */
typedef struct {
    uint32_t given;
    uint32_t address; /* 192.0.2.1 is 0xC0000201 */
    size_t next;
} dhcpopt_address;

/* The codes of a message: code c is bit c % 64 of words[c / 64]. count: how many; lowest: 0 if there is none. */
typedef struct {
    uint64_t words[4];
    uint32_t count;
    uint32_t lowest;
    uint32_t refusal; /* DHCPOPT_NOT_REFUSED, or all above are 0 */
    size_t place;
} dhcpopt_codes;

/* What a call that fills out gave: size bytes, or a refusal. */
typedef struct {
    uint32_t refusal; /* DHCPOPT_NOT_REFUSED, or size is 0 */
    size_t size;
    size_t place;
} dhcpopt_filled;

/* A sub-option of relay information, as start and length of its data in the bytes given. Absent where start is 0; one of length 0 is there. */
typedef struct {
    size_t start;
    size_t length;
} dhcpopt_id;

/* What dhcpopt_relay_records gave: size bytes and the two ids, or a refusal, which names none. */
typedef struct {
    uint32_t refusal; /* DHCPOPT_NOT_REFUSED, or size is 0 and both ids are absent */
    size_t size;
    size_t place;
    dhcpopt_id circuit; /* the first sub-option 1, circuit id */
    dhcpopt_id remote;  /* the first sub-option 2, remote id */
} dhcpopt_relay;

/* A step in the routes of option 121: given is 1, with the route and the place behind it; or 0, all else is 0, and next is the place asked for. */
typedef struct {
    uint32_t given;
    uint32_t destination; /* 192.0.2.0 is 0xC0000200. The bits past the width are 0 */
    uint32_t width;       /* of the destination's mask, in bits: 0 to 32 */
    uint32_t router;
    size_t next;
} dhcpopt_route;

/* What dhcpopt_routes_ignored says: whether options 3 and 33 are ignored, or a refusal. */
typedef struct {
    uint32_t refusal; /* DHCPOPT_NOT_REFUSED, or place is where, and ignored is 0 */
    uint32_t ignored; /* 1: the routes of option 121 stand for 3 and 33; 0: they do not */
    size_t place;
} dhcpopt_ignored;

/* What dhcpopt_write did: the plan used (DHCPOPT_OVERLOAD_*), or a refusal. */
typedef struct {
    uint32_t refusal; /* DHCPOPT_NOT_REFUSED, or plan is 0 */
    uint32_t plan;
    size_t place;
} dhcpopt_wrote;

/* What dhcpopt_options_end found: where END stands, or a refusal. */
typedef struct {
    uint32_t refusal; /* DHCPOPT_NOT_REFUSED, and place is that of END; or DHCPOPT_REFUSED_*, and place is the refusal's */
    size_t place;
} dhcpopt_end;

/* What dhcpopt_check_grouped found: no fault, or a refusal. */
typedef struct {
    uint32_t refusal; /* DHCPOPT_NOT_REFUSED, or place is where */
    size_t place;
} dhcpopt_checked;

/* The rules of a reply, as dhcpopt_profile has them: the bit of each in `broken`. */
enum dhcpopt_profile_rule {
    DHCPOPT_PROFILE_NO_LEASE_TIME = 1,        /* bit 0: 51 absent or broken */
    DHCPOPT_PROFILE_NO_SERVER_ID = 2,         /* bit 1: 54 absent or broken */
    DHCPOPT_PROFILE_REQUESTED_ADDRESS = 4,    /* bit 2: 50 there, broken or not */
    DHCPOPT_PROFILE_PARAMETER_LIST = 8,       /* bit 3: 55 there, broken or not */
    DHCPOPT_PROFILE_MAXIMUM_SIZE = 16,        /* bit 4: 57 there, broken or not */
    DHCPOPT_PROFILE_NO_MASK = 32,             /* bit 5: 1 absent or broken */
    DHCPOPT_PROFILE_NO_ROUTER = 64,           /* bit 6: 3 absent or broken */
    DHCPOPT_PROFILE_ROUTER_BEFORE_MASK = 128  /* bit 7: 1 and 3 there, the first piece of 3 read before that of 1 */
};

/* What dhcpopt_profile says of a reply. To be trusted: refusal and broken are both 0. */
typedef struct {
    uint32_t broken;  /* the sum of the DHCPOPT_PROFILE_* that are broken; 0 where there is a refusal */
    uint32_t refusal; /* DHCPOPT_NOT_REFUSED, or place is where; then nothing is said of the rules */
    size_t place;
} dhcpopt_profile_answer;

/*
 * Looks up a code. k0 to k3 are the set of known codes: code c is bit c % 64 of word c / 64.
 * The set never decides whether the message is accepted.
 * Refused, in this order: 10 at 0; 1 or 2 at the length; 3 at 236; the first fault of the message in reading order (options, file,
 * sname): 4, 6 or 7 at its code byte, or 5 at the first byte after the field. A known code that is there may then be broken: 8 or else 9,
 * at the code byte of its first piece. That refuses neither the message nor the lookup of any other code.
 */
DHCPOPT_CALL dhcpopt_answer dhcpopt_lookup(const uint8_t *message, size_t size, uint64_t k0, uint64_t k1, uint64_t k2, uint64_t k3,
                                           uint8_t code);

/*
 * All data bytes of a code, whatever its kind, also where the lookup finds it broken.
 * Empty where the code is absent, has no data or comes in several pieces, and on a refusal: dhcpopt_lookup names the cause.
 */
DHCPOPT_CALL dhcpopt_extent dhcpopt_data(const uint8_t *message, size_t size, uint8_t code);

/*
 * The text of a code, without its trailing zeros. Empty unless the lookup with the same known set answers with a text, and where the
 * code comes in several pieces. So it is empty too where a byte before the trailing zeros is not 1 to 127: the lookup then says broken, or
 * unknown where the code is not in the known set. The bytes are given by dhcpopt_copy, and by dhcpopt_data where they are in one piece.
 */
DHCPOPT_CALL dhcpopt_extent dhcpopt_text(const uint8_t *message, size_t size, uint64_t k0, uint64_t k1, uint64_t k2, uint64_t k3,
                                         uint8_t code);

/*
 * Copies the data bytes of a code to the front of out, those of all its pieces end to end, trailing zeros included, whatever its kind.
 * Bytes of out after the given ones stay as they were. A refusal leaves all of out as it was.
 * Refused by 10 at 0; by 1 to 7, with places as in dhcpopt_lookup; then by 11, at 0 where the code is absent, at room where out is too
 * small. A room of DHCPOPT_LONGEST_MESSAGE is always enough.
 */
DHCPOPT_CALL dhcpopt_filled dhcpopt_copy(const uint8_t *message, size_t size, uint8_t code, uint8_t *out, size_t room);

/*
 * The address at a place of a list: begin with at = 0, go on at next, until given is 0. list and size are those of the data
 * (message + start, length). One to three bytes left over are not given. Never refused.
 */
DHCPOPT_CALL dhcpopt_address dhcpopt_address_step(const uint8_t *list, size_t size, size_t at);

/* The codes present, each once, 52 included. Refused by 1 to 7, with places as in dhcpopt_lookup. */
DHCPOPT_CALL dhcpopt_codes dhcpopt_present(const uint8_t *message, size_t size);

/*
 * Every code but 52, in the order of their first pieces, as records in out: tag (1 byte), length (2 bytes, the high byte first), data,
 * that of all pieces of the code.
 * Bytes of out after the given ones stay as they were. A refusal leaves all of out as it was.
 * Refused by 1 to 7, with places as in dhcpopt_lookup, then by 11 at room. A room of DHCPOPT_LONGEST_SHEET is always enough.
 */
DHCPOPT_CALL dhcpopt_filled dhcpopt_records(const uint8_t *message, size_t size, uint8_t *out, size_t room);

/*
 * The items inside option 43, vendor specific information (RFC 2132, 8.4), in their order as records in out. bytes and size are those of
 * the data: message + start and length, or, of a code in several pieces, what dhcpopt_copy gave. There may be any number of them.
 * An item is a code from 1 to 254 (52 is one like any other, and a code may stand more than once), a length byte and that many data bytes.
 * 0 is a pad. 255 ends, and what follows it is not read; the bytes may also just run out between two items.
 * Bytes of out after the given ones stay as they were. A refusal leaves all of out as it was.
 * Refused by 17, an item that runs past the bytes, at its code byte, its place in bytes; then by 11 at room. A room of 2 * size is always
 * enough.
 */
DHCPOPT_CALL dhcpopt_filled dhcpopt_vendor_records(const uint8_t *bytes, size_t size, uint8_t *out, size_t room);

/*
 * The sub-options inside option 82, relay agent information (RFC 3046), in their order as records in out. bytes and size are those of the
 * data, as for dhcpopt_vendor_records. A sub-option is a code, a length byte and that many data bytes; there are no pads and there is no
 * END: 0 and 255 are codes like any other, and a code may stand more than once. The answer also names circuit id and remote id.
 * Bytes of out after the given ones stay as they were. A refusal leaves all of out as it was.
 * Refused by 8, a sub-option that runs past the bytes, at its code byte, its place in bytes, and at 0 where there is none at all; then by
 * 11 at room. A room of 2 * size is always enough.
 */
DHCPOPT_CALL dhcpopt_relay dhcpopt_relay_records(const uint8_t *bytes, size_t size, uint8_t *out, size_t room);

/*
 * Writes a sheet of such records into a message buffer. The whole buffer, all its size bytes, is then the message.
 * A record of more than 255 data bytes is cut into pieces of 255 and a last one of 1 to 255, in order; each is whole in one field.
 * Permitted plans are tried rising, and the first that fits is used. With permission 3 it is never plan 2: where that fits, plan 1 does.
 * Records keep their order and no field is gone back to, so the order may decide whether they fit: put a record of more than 255 bytes
 * right behind 53 and 54 (docs/C-API.md, 'When it does not fit').
 * Written are the cookie, the options field and whichever of file and sname the plan uses, each to its last byte; the header and an
 * unused file or sname stay as they were.
 * A refusal leaves all of the buffer as it was. Refused, in this order: 1 or 2 at size; 15 at 0; 16 at sheet_size; the first faulty
 * record at its tag byte: 12, 10, 13, 7, 8, 9; then 14 at the byte of tag 3; then 23 at the byte of tag 82; then 11 at size.
 * permission is one byte: C cuts a larger number to its low byte before the call, 259 to 3.
 */
DHCPOPT_CALL dhcpopt_wrote dhcpopt_write(const uint8_t *sheet, size_t sheet_size, uint8_t *buffer, size_t size, uint8_t permission);

/*
 * Writes the records of a sheet as items to the front of out: what option 43 is to hold, as a record for dhcpopt_write. There is no END
 * behind them. dhcpopt_vendor_records gives the same records back.
 * Bytes of out after the given ones stay as they were. A refusal leaves all of out as it was.
 * Refused, in this order: 16 at sheet_size; the first faulty record at its tag byte: 12, 10 (tag 0 or 255), 13 (over 255 data bytes);
 * then 11 at room, where the items take more than room or more than 255 bytes. No more room than DHCPOPT_LONGEST_VENDOR is needed.
 */
DHCPOPT_CALL dhcpopt_filled dhcpopt_vendor_write(const uint8_t *sheet, size_t sheet_size, uint8_t *out, size_t room);

/*
 * Writes the records of a sheet as sub-options to the front of out: what option 82 is to hold, as a record for dhcpopt_write, the last of
 * its sheet. dhcpopt_relay_records gives the same records back.
 * Bytes of out after the given ones stay as they were. A refusal leaves all of out as it was.
 * Refused, in this order: 16 at sheet_size; the first faulty record at its tag byte: 12, 13 (over 255 data bytes); then 8 at 0 where there
 * is no record; then 11 at room, where the sub-options take more than room or more than 255 bytes. No more room than
 * DHCPOPT_LONGEST_RELAY is needed.
 */
DHCPOPT_CALL dhcpopt_filled dhcpopt_relay_write(const uint8_t *sheet, size_t sheet_size, uint8_t *out, size_t room);

/*
 * Builds the index of a message into count numbers, all of which it writes: for each code the place of its byte, DHCPOPT_INDEX_ABSENT or
 * DHCPOPT_INDEX_PIECES. The message is walked once. It gives 512 bytes: 256 numbers of two.
 * A refusal leaves all numbers as they were. Refused, in this order: 1 or 2 at the length; 3 at 236; 18 at count where that is not 256;
 * then 4 to 7, with places as in dhcpopt_lookup.
 */
DHCPOPT_CALL dhcpopt_filled dhcpopt_index_build(const uint8_t *message, size_t size, uint16_t *index, size_t count);

/*
 * Looks up a code through an index. With an index that was built from the same bytes the answer is that of dhcpopt_lookup, in every
 * member; the message is walked only for a code in pieces. Build the index anew where the message changed: with any other index 0 says
 * absent, 65,535 is looked up as dhcpopt_lookup does, and any other entry is used only if it lies in options, file or sname, its byte is
 * the code, and length and data lie in that field (active or not, before END or behind it).
 * Refused, in this order: 10 at 0; 1 or 2 at the length; 3 at 236; 18 at count where that is not 256; 19 at the entry that is not used;
 * and 4 to 7, with places as in dhcpopt_lookup, where the message is walked.
 */
DHCPOPT_CALL dhcpopt_answer dhcpopt_index_lookup(const uint8_t *message, size_t size, const uint16_t *index, size_t count, uint64_t k0,
                                                 uint64_t k1, uint64_t k2, uint64_t k3, uint8_t code);

/*
 * A grouped file is one sheet for all devices: exactly one group. A group is tag 0, length (2 bytes, the high byte first), one byte n,
 * n bytes of class name, then records and groups mixed, end to end; the length counts n, name and contents. Groups stand at most four
 * deep, the outermost counted.
 * Checks such a file. Refused, in this order: 16 at size; 20 at 0 for an empty file or a first tag other than 0 (52 and 255 too); the
 * first faulty record or group in written order, in every group, at its tag byte: 20, 10 (tag 52 or 255), 21; 20 at the first byte behind
 * the outermost group.
 */
DHCPOPT_CALL dhcpopt_checked dhcpopt_check_grouped(const uint8_t *file, size_t size);

/*
 * Chooses for a class: the records of every group whose own name and those of all groups around it are empty or equal the class, in
 * written order, as a sheet in out. Nothing of another group is entered. The class is any bytes, perhaps none.
 * Bytes of out after the given ones stay as they were. A refusal leaves all of out as it was.
 * Refused as by dhcpopt_check_grouped, then by 11 at room. A room of DHCPOPT_LONGEST_SHEET is always enough.
 */
DHCPOPT_CALL dhcpopt_filled dhcpopt_choose(const uint8_t *file, size_t size, const uint8_t *class_name, size_t class_size, uint8_t *out,
                                           size_t room);

/*
 * Moves a sheet into a nameless outermost group: four bytes, and the sheet behind them. An empty sheet becomes 00 00 01 00.
 * Refused by 16 at sheet_size (over 4,096 bytes); by the first faulty record at its tag byte: 12, 10 (tag 0, 52 or 255); then by 11 at
 * room. Nothing else of a record is judged. A room of DHCPOPT_LONGEST_GROUPED is always enough.
 */
DHCPOPT_CALL dhcpopt_filled dhcpopt_group(const uint8_t *sheet, size_t sheet_size, uint8_t *out, size_t room);

/*
 * Takes the sheet back out of a file that is one nameless group with no group inside: what dhcpopt_group moved comes back byte for byte.
 * Refused as by dhcpopt_check_grouped, then by 22 at 0, then by 11 at room. A room of DHCPOPT_LONGEST_SHEET is always enough.
 */
DHCPOPT_CALL dhcpopt_filled dhcpopt_ungroup(const uint8_t *file, size_t size, uint8_t *out, size_t room);

/*
 * Lists a message as text, as the program list_options prints it: one line `accepted N` with the number of options, then one line for
 * each, `code start length field`, as `51 110 4 file`; or one line `refused N P`. Every line ends with a newline; there is no zero behind
 * the text. A refused message refuses nothing here: its line is the answer.
 * Bytes of out after the given ones stay as they were. Refused only by 11 at room, and then all of out stays as it was. A room of
 * DHCPOPT_LONGEST_LISTING is always enough. The call takes some 16 KiB of stack.
 */
DHCPOPT_CALL dhcpopt_filled dhcpopt_list(const uint8_t *message, size_t size, uint8_t *out, size_t room);

/*
 * Where the options field of an accepted message has its END. A sender may send the first place + 1 bytes alone: they are read as the whole
 * message is, each option at its place; what follows END is not read. (Some clients expect 300 bytes or more: RFC 2131, 2.)
 * Refused by 1 to 7, with places as in dhcpopt_lookup.
 */
DHCPOPT_CALL dhcpopt_end dhcpopt_options_end(const uint8_t *message, size_t size);

/*
 * Copies the data bytes of a code through an index. With an index that was built from the same bytes it does what dhcpopt_copy does, in its
 * answer and in every byte of out; the message is walked only for a code in pieces. With any other index 0 says absent, 65,535 is copied as
 * dhcpopt_copy does, and any other entry is used as by dhcpopt_index_lookup.
 * Refused, in this order: 10 at 0; 1 or 2 at the length; 3 at 236; 18 at count where that is not 256; 19 at the entry that is not used, or
 * 4 to 7, with places as in dhcpopt_lookup, where the message is walked; then 11, at 0 where the code is absent, at room where out is too
 * small. A refusal leaves all of out as it was.
 */
DHCPOPT_CALL dhcpopt_filled dhcpopt_index_copy(const uint8_t *message, size_t size, const uint16_t *index, size_t count, uint8_t code, uint8_t *out,
                                  size_t room);

/*
 * Whether a meter is to trust a reply, an offer or an acknowledgement (message types 2 and 5), and else every rule that it breaks. Every
 * code is known. What stands between the options that the rules name never changes the answer. The message is walked once; only for a
 * named code in pieces is it walked again.
 * Refused, in this order: 1 or 2 at the length; 3 at 236; 4 to 7, with places as in dhcpopt_lookup; 25 at 0.
 */
DHCPOPT_CALL dhcpopt_profile_answer dhcpopt_profile(const uint8_t *message, size_t size);

/*
 * The route at a place of option 121, classless static routes (RFC 3442): begin with at = 0, go on at next, until given is 0. bytes and size
 * are those of the data, as for dhcpopt_vendor_records. A route is a width byte 0 to 32, the destination's bytes as far as the width goes, a
 * byte that it only begins included, and four bytes of router. Bits past the width may be set in the data; in the answer they are 0.
 * Done at the end, and at a route with a width over 32 or cut short: next is then less than size, and the lookup says broken. Any bytes and
 * any place will do; past the end it is done. Never refused.
 */
DHCPOPT_CALL dhcpopt_route dhcpopt_route_step(const uint8_t *bytes, size_t size, size_t at);

/*
 * Writes routes, of nine bytes each (width, four of destination, four of router), to the front of out: what option 121 is to hold, as a
 * record for dhcpopt_write. dhcpopt_route_step gives the same routes back, in their order.
 * Bytes of out after the given ones stay as they were. A refusal leaves all of out as it was.
 * Refused by 26 at the number of the first faulty route, from 0: a width over 32, a bit set past the width, or a last route that has not
 * nine bytes; at 0 where there is none. Then by 11 at room. A room of size is always enough.
 */
DHCPOPT_CALL dhcpopt_filled dhcpopt_routes_write(const uint8_t *routes, size_t size, uint8_t *out, size_t room);

/*
 * Whether options 3 (router) and 33 (static route) are to be ignored, as RFC 3442 has it: exactly where dhcpopt_lookup of 121 with the same
 * known set answers with its kind. Whether 3 and 33 are there, or known, does not matter.
 * Refused as that lookup is: by 1 to 7, with places as in dhcpopt_lookup; then, where 121 is known and broken, by 8 or 9 at the code byte of
 * its first piece. So a broken 121 is neither yes nor no: the sender meant routes that cannot be read.
 */
DHCPOPT_CALL dhcpopt_ignored dhcpopt_routes_ignored(const uint8_t *message, size_t size, uint64_t k0, uint64_t k1, uint64_t k2, uint64_t k3);

/* A set of known codes. Begin with {{0, 0, 0, 0}} or with dhcpopt_known_all. */
typedef struct {
    uint64_t words[4];
} dhcpopt_known;

static inline dhcpopt_known dhcpopt_known_all(void)
{
    dhcpopt_known all = {{UINT64_MAX, UINT64_MAX, UINT64_MAX, UINT64_MAX}};
    return all;
}

static inline dhcpopt_known dhcpopt_known_with(dhcpopt_known known, uint8_t code)
{
    known.words[code / 64] |= UINT64_C(1) << (code % 64);
    return known;
}

DHCPOPT_CALL static inline dhcpopt_answer dhcpopt_lookup_known(const uint8_t *message, size_t size, dhcpopt_known known, uint8_t code)
{
    return dhcpopt_lookup(message, size, known.words[0], known.words[1], known.words[2], known.words[3], code);
}

DHCPOPT_CALL static inline dhcpopt_answer dhcpopt_index_lookup_known(const uint8_t *message, size_t size, const uint16_t *index,
                                                                     size_t count, dhcpopt_known known, uint8_t code)
{
    return dhcpopt_index_lookup(message, size, index, count, known.words[0], known.words[1], known.words[2], known.words[3], code);
}

DHCPOPT_CALL static inline dhcpopt_extent dhcpopt_text_known(const uint8_t *message, size_t size, dhcpopt_known known, uint8_t code)
{
    return dhcpopt_text(message, size, known.words[0], known.words[1], known.words[2], known.words[3], code);
}

DHCPOPT_CALL static inline dhcpopt_ignored dhcpopt_routes_ignored_known(const uint8_t *message, size_t size, dhcpopt_known known)
{
    return dhcpopt_routes_ignored(message, size, known.words[0], known.words[1], known.words[2], known.words[3]);
}

/* The name of a field, as the listing has it; that of no field is empty. */
static inline const char *dhcpopt_field_name(uint32_t field)
{
    return field == DHCPOPT_FIELD_OPTIONS ? "options" : field == DHCPOPT_FIELD_FILE ? "file" : field == DHCPOPT_FIELD_SNAME ? "sname" : "";
}

/*
 * The name of a code's option, as DHCPOPT_CODES and docs/C-API.md have it; that of a code without a kind is empty. A program that does not
 * call it does not hold the names.
 */
static inline const char *dhcpopt_code_name(uint8_t code)
{
    switch (code) {
#define DHCPOPT_ROW(name, code, option) \
    case code:                          \
        return option;
        DHCPOPT_CODES(DHCPOPT_ROW)
#undef DHCPOPT_ROW
    default:
        return "";
    }
}

/* The name of a kind: that of DHCPOPT_KIND_*, in small letters and with blanks. That of none is empty. */
static inline const char *dhcpopt_kind_name(uint32_t kind)
{
    switch (kind) {
    case DHCPOPT_KIND_ADDRESS:
        return "address";
    case DHCPOPT_KIND_ADDRESS_LIST:
        return "address list";
    case DHCPOPT_KIND_ADDRESS_PAIRS:
        return "address pairs";
    case DHCPOPT_KIND_FLAG:
        return "flag";
    case DHCPOPT_KIND_BYTE:
        return "byte";
    case DHCPOPT_KIND_UINT16:
        return "uint16";
    case DHCPOPT_KIND_UINT16_LIST:
        return "uint16 list";
    case DHCPOPT_KIND_UINT32:
        return "uint32";
    case DHCPOPT_KIND_INT32:
        return "int32";
    case DHCPOPT_KIND_TEXT:
        return "text";
    case DHCPOPT_KIND_OPAQUE:
        return "opaque";
    case DHCPOPT_KIND_RELAY:
        return "relay";
    case DHCPOPT_KIND_ROUTES:
        return "routes";
    default:
        return "";
    }
}

/* The rule of a reply that has the bit 0 to 7 in `broken`, in words; that of no rule is empty. */
static inline const char *dhcpopt_profile_rule_name(unsigned bit)
{
    switch (bit) {
    case 0:
        return "no lease time, or a broken one";
    case 1:
        return "no server identifier, or a broken one";
    case 2:
        return "a requested address";
    case 3:
        return "a parameter request list";
    case 4:
        return "a maximum message size";
    case 5:
        return "no subnet mask, or a broken one";
    case 6:
        return "no router, or a broken list of them";
    case 7:
        return "the router before the subnet mask";
    default:
        return "";
    }
}

/* The name of a refusal: that of DHCPOPT_REFUSED_*, in small letters and with blanks. That of none is empty. */
static inline const char *dhcpopt_refusal_name(uint32_t refusal)
{
    switch (refusal) {
    case DHCPOPT_REFUSED_TOO_SHORT:
        return "too short";
    case DHCPOPT_REFUSED_TOO_LONG:
        return "too long";
    case DHCPOPT_REFUSED_BAD_COOKIE:
        return "bad cookie";
    case DHCPOPT_REFUSED_OPTION_TRUNCATED:
        return "option truncated";
    case DHCPOPT_REFUSED_NO_END:
        return "no end";
    case DHCPOPT_REFUSED_BAD_OVERLOAD:
        return "bad overload";
    case DHCPOPT_REFUSED_DUPLICATE:
        return "duplicate";
    case DHCPOPT_REFUSED_BAD_LENGTH:
        return "bad length";
    case DHCPOPT_REFUSED_BAD_VALUE:
        return "bad value";
    case DHCPOPT_REFUSED_BAD_CODE:
        return "bad code";
    case DHCPOPT_REFUSED_NO_ROOM:
        return "no room";
    case DHCPOPT_REFUSED_RECORD_TRUNCATED:
        return "record truncated";
    case DHCPOPT_REFUSED_RECORD_TOO_LONG:
        return "record too long";
    case DHCPOPT_REFUSED_ROUTER_BEFORE_MASK:
        return "router before mask";
    case DHCPOPT_REFUSED_BAD_PERMISSION:
        return "bad permission";
    case DHCPOPT_REFUSED_SHEET_TOO_LONG:
        return "sheet too long";
    case DHCPOPT_REFUSED_ITEM_TRUNCATED:
        return "item truncated";
    case DHCPOPT_REFUSED_BAD_INDEX_COUNT:
        return "bad index count";
    case DHCPOPT_REFUSED_BAD_INDEX_ENTRY:
        return "bad index entry";
    case DHCPOPT_REFUSED_BAD_GROUP:
        return "bad group";
    case DHCPOPT_REFUSED_TOO_DEEP:
        return "too deep";
    case DHCPOPT_REFUSED_NO_WAY_BACK:
        return "no way back";
    case DHCPOPT_REFUSED_RELAY_NOT_LAST:
        return "relay not last";
    case DHCPOPT_REFUSED_CAPTURE:
        return "capture";
    case DHCPOPT_REFUSED_NO_REPLY:
        return "no reply";
    case DHCPOPT_REFUSED_BAD_ROUTE:
        return "bad route";
    default:
        return "";
    }
}

/* Whether dhcpopt_present found a code: 1 or 0. Of a refused message it found none. */
static inline int dhcpopt_has(dhcpopt_codes codes, uint8_t code)
{
    return (int)(codes.words[code / 64] >> (code % 64) & 1);
}

/*
 * A sheet in the making, in the caller's bytes. Begin with dhcpopt_sheet_begin, put the records, and look at full once: it is 1 where a
 * record did not fit. From then on nothing more is put, so what is there are the records before that one. No byte past room is written.
 */
typedef struct {
    uint8_t *bytes;
    size_t room;
    size_t size; /* how many are filled: what dhcpopt_write takes */
    uint32_t full;
} dhcpopt_sheet;

DHCPOPT_CALL static inline dhcpopt_sheet dhcpopt_sheet_begin(uint8_t *bytes, size_t room)
{
    dhcpopt_sheet empty = {bytes, room, 0, 0};
    return empty;
}

/* Appends a record's head. Gives where its data go, or null where they do not fit, or are more than 65,535 bytes. */
DHCPOPT_NONNULL(1) static inline uint8_t *dhcpopt_put_head(dhcpopt_sheet *sheet, uint8_t tag, size_t length)
{
    size_t left = sheet->size < sheet->room ? sheet->room - sheet->size : 0;
    if (sheet->full || left < 3 || length > left - 3 || length > 65535) {
        sheet->full = 1;
        return NULL;
    }
    uint8_t *at = sheet->bytes + sheet->size;
    at[0] = tag;
    at[1] = (uint8_t)(length >> 8);
    at[2] = (uint8_t)(length & 255);
    sheet->size += 3 + length;
    return at + 3;
}

/*
 * Appends a record, whatever it says: dhcpopt_write judges it. 1, or 0 where it does not fit.
 * data may be null where length is 0, and lies outside the sheet.
 */
DHCPOPT_NONNULL(1) static inline int dhcpopt_put(dhcpopt_sheet *sheet, uint8_t tag, const void *data, size_t length)
{
    uint8_t *to = dhcpopt_put_head(sheet, tag, length);
    if (to != NULL && length != 0)
        memcpy(to, data, length);
    return to != NULL;
}

/* A number of one, two or four bytes. A negative one of four, such as a clock offset west of UTC, is (uint32_t)-3600. */
DHCPOPT_NONNULL(1) static inline int dhcpopt_put_u8(dhcpopt_sheet *sheet, uint8_t tag, uint8_t number)
{
    return dhcpopt_put(sheet, tag, &number, 1);
}

DHCPOPT_NONNULL(1) static inline int dhcpopt_put_u16(dhcpopt_sheet *sheet, uint8_t tag, uint16_t number)
{
    uint8_t data[2] = {(uint8_t)(number >> 8), (uint8_t)(number & 255)};
    return dhcpopt_put(sheet, tag, data, sizeof data);
}

DHCPOPT_NONNULL(1) static inline int dhcpopt_put_u32(dhcpopt_sheet *sheet, uint8_t tag, uint32_t number)
{
    uint8_t data[4] = {(uint8_t)(number >> 24), (uint8_t)(number >> 16 & 255), (uint8_t)(number >> 8 & 255), (uint8_t)(number & 255)};
    return dhcpopt_put(sheet, tag, data, sizeof data);
}

/* One address: 192.0.2.1 is 0xC0000201. For a struct in_addr: ntohl(in.s_addr). */
DHCPOPT_NONNULL(1) static inline int dhcpopt_put_address(dhcpopt_sheet *sheet, uint8_t tag, uint32_t address)
{
    return dhcpopt_put_u32(sheet, tag, address);
}

/* A list of addresses, or of pairs: first and second by turns. addresses may be null where count is 0. */
DHCPOPT_NONNULL(1) static inline int dhcpopt_put_addresses(dhcpopt_sheet *sheet, uint8_t tag, const uint32_t *addresses, size_t count)
{
    uint8_t *to = dhcpopt_put_head(sheet, tag, count > 65535 / 4 ? 65536 : 4 * count); /* 65,536 never fits */
    for (size_t i = 0; to != NULL && i < 4 * count; i++)
        to[i] = (uint8_t)(addresses[i / 4] >> (24 - 8 * (i % 4)) & 255);
    return to != NULL;
}

/* A text that ends in a zero, without that zero. */
DHCPOPT_NONNULL(1, 3) static inline int dhcpopt_put_text(dhcpopt_sheet *sheet, uint8_t tag, const char *text)
{
    return dhcpopt_put(sheet, tag, text, strlen(text));
}

/*
 * A step over the records of a sheet: given is 1, with the tag, where the data start in the sheet, their length and the place behind
 * them; or 0, and next is the place asked for. That is size at the end of a sheet, and less where a record goes beyond it.
 */
typedef struct {
    uint32_t given;
    uint32_t tag;
    size_t start;
    size_t length;
    size_t next;
} dhcpopt_record;

DHCPOPT_CALL static inline dhcpopt_record dhcpopt_record_step(const uint8_t *sheet, size_t size, size_t at)
{
    dhcpopt_record none = {0, 0, 0, 0, at};
    if (at > size || size - at < 3)
        return none;
    size_t length = (size_t)sheet[at + 1] * 256 + sheet[at + 2];
    if (length > size - at - 3)
        return none;
    dhcpopt_record record = {1, sheet[at], at + 3, length, at + 3 + length};
    return record;
}

/* A step over address pairs, as dhcpopt_address_step over a list: given is 1, with both; or 0, and next is the place asked for. */
typedef struct {
    uint32_t given;
    uint32_t first;
    uint32_t second;
    size_t next;
} dhcpopt_address_pair;

DHCPOPT_CALL static inline dhcpopt_address_pair dhcpopt_address_pair_step(const uint8_t *list, size_t size, size_t at)
{
    dhcpopt_address_pair none = {0, 0, 0, at};
    dhcpopt_address first = dhcpopt_address_step(list, size, at);
    dhcpopt_address second = dhcpopt_address_step(list, size, first.next);
    if (!first.given || !second.given)
        return none;
    dhcpopt_address_pair pair = {1, first.address, second.address, second.next};
    return pair;
}

/* Puts a route as dhcpopt_routes_write takes it into nine bytes, whatever it says: that call judges it. */
DHCPOPT_NONNULL(1) static inline void dhcpopt_put_route(uint8_t nine[DHCPOPT_GIVEN_ROUTE], uint32_t destination, uint8_t width, uint32_t router)
{
    nine[0] = width;
    for (int i = 0; i < 4; i++) {
        nine[1 + i] = (uint8_t)(destination >> (24 - 8 * i) & 255);
        nine[5 + i] = (uint8_t)(router >> (24 - 8 * i) & 255);
    }
}

/*
 * A file of captures (libdhcpopt_captures.a): records of tag 1, two-byte length (the high byte first) and a message, end to end; one such
 * file behind another is such a file. The tally of it is kept in what the caller lends, for as long as the tally lasts: numbers (verdicts:
 * verdicts[0] the messages accepted, verdicts[n] those refused by n, 1 to 7; held[c] the accepted messages that hold the code c, 52
 * included, and bytes[c] the data bytes that it has in them, all pieces joined), a buffer for a message that comes in parts, and this
 * struct, which each call takes and gives by value.
 */
enum dhcpopt_captures_sizes {
    DHCPOPT_CAPTURES_VERDICTS = 8,
    DHCPOPT_CAPTURES_CODES = 256,
    DHCPOPT_CAPTURES_MESSAGE = 1472,
    DHCPOPT_CAPTURES_TEXT = 16384 /* no report is longer */
};

typedef struct {
    uint64_t began;    /* the place in the file of the first byte of the record that is read, or is to come */
    uint64_t messages; /* those seen, at most 1,000,000 */
    size_t size;       /* of a message of which bytes are still to come: its length, else 0 */
    size_t read;       /* and how many of its bytes were read */
    uint32_t stage;    /* 0: before a record, or in its message; 1: behind its tag; 2: behind its high length byte; 3: the record is refused */
    uint32_t leases;   /* 1 where there is a well-formed lease time (option 51) in an accepted message, else 0 */
    uint32_t smallest; /* the smallest of them, in seconds */
    uint32_t largest;  /* and the largest */
    uint8_t high;      /* at stage 2: the high length byte */
} dhcpopt_captures;

/* Begins a tally: all of the lent numbers become 0. */
DHCPOPT_CALL dhcpopt_captures dhcpopt_captures_begin(uint64_t verdicts[DHCPOPT_CAPTURES_VERDICTS], uint64_t held[DHCPOPT_CAPTURES_CODES],
                                        uint64_t bytes[DHCPOPT_CAPTURES_CODES]);

/*
 * Takes the next part of the file, of any length, also 0. However the file is cut into parts, the numbers are the same. p is what the call
 * before gave, and the lent arrays are as it left them; with any others the call is safe too, but its numbers mean nothing.
 * A record with another tag, or that of message 1,000,001, is refused (stage 3): nothing behind it is taken. No number wraps.
 */
DHCPOPT_CALL dhcpopt_captures dhcpopt_captures_feed(const uint8_t *part, size_t size, dhcpopt_captures p, uint8_t message[DHCPOPT_CAPTURES_MESSAGE],
                                       uint64_t verdicts[DHCPOPT_CAPTURES_VERDICTS], uint64_t held[DHCPOPT_CAPTURES_CODES],
                                       uint64_t bytes[DHCPOPT_CAPTURES_CODES]);

/*
 * Writes the report of all that was taken to the front of out, as lines of text, and gives its length; bytes behind it stay as they were.
 * If the file ends here inside a record, or one was refused, its last line is `refused 24 P`, P being began. docs/CAPTURES.md says what each
 * line means. More may be fed afterwards.
 */
DHCPOPT_CALL size_t dhcpopt_captures_report(dhcpopt_captures p, const uint64_t verdicts[DHCPOPT_CAPTURES_VERDICTS],
                               const uint64_t held[DHCPOPT_CAPTURES_CODES], const uint64_t bytes[DHCPOPT_CAPTURES_CODES],
                               uint8_t out[DHCPOPT_CAPTURES_TEXT]);

/* The archives are compiled for these layouts. */
#ifdef __cplusplus
#define DHCPOPT_ASSERT(what) static_assert(what, #what)
#define DHCPOPT_SIZE(type, member) sizeof(type::member)
#else
#define DHCPOPT_ASSERT(what) _Static_assert(what, #what)
#define DHCPOPT_SIZE(type, member) sizeof(((type *)0)->member)
#endif
#define DHCPOPT_MEMBER(type, member, at, bytes) \
    DHCPOPT_ASSERT(offsetof(type, member) == (at) && DHCPOPT_SIZE(type, member) == (bytes))

#if SIZE_MAX == UINT32_MAX /* DHCPOPT_RUST alone: the members are the same, and Rust lays them out as this machine's C does */
DHCPOPT_ASSERT(sizeof(void *) == 4 && sizeof(size_t) == 4);
#else
DHCPOPT_ASSERT(sizeof(void *) == 8 && sizeof(size_t) == 8);
DHCPOPT_ASSERT(sizeof(dhcpopt_answer) == 72);
DHCPOPT_MEMBER(dhcpopt_answer, status, 0, 4);
DHCPOPT_MEMBER(dhcpopt_answer, kind, 4, 4);
DHCPOPT_MEMBER(dhcpopt_answer, refusal, 8, 4);
DHCPOPT_MEMBER(dhcpopt_answer, field, 12, 4);
DHCPOPT_MEMBER(dhcpopt_answer, number, 16, 8);
DHCPOPT_MEMBER(dhcpopt_answer, place, 24, 8);
DHCPOPT_MEMBER(dhcpopt_answer, offset, 32, 8);
DHCPOPT_MEMBER(dhcpopt_answer, start, 40, 8);
DHCPOPT_MEMBER(dhcpopt_answer, length, 48, 8);
DHCPOPT_MEMBER(dhcpopt_answer, whole, 56, 8);
DHCPOPT_MEMBER(dhcpopt_answer, several, 64, 4);
DHCPOPT_ASSERT(sizeof(dhcpopt_extent) == 16);
DHCPOPT_MEMBER(dhcpopt_extent, start, 0, 8);
DHCPOPT_MEMBER(dhcpopt_extent, length, 8, 8);
DHCPOPT_ASSERT(sizeof(dhcpopt_address) == 16);
DHCPOPT_MEMBER(dhcpopt_address, given, 0, 4);
DHCPOPT_MEMBER(dhcpopt_address, address, 4, 4);
DHCPOPT_MEMBER(dhcpopt_address, next, 8, 8);
DHCPOPT_ASSERT(sizeof(dhcpopt_codes) == 56);
DHCPOPT_MEMBER(dhcpopt_codes, words, 0, 32);
DHCPOPT_MEMBER(dhcpopt_codes, count, 32, 4);
DHCPOPT_MEMBER(dhcpopt_codes, lowest, 36, 4);
DHCPOPT_MEMBER(dhcpopt_codes, refusal, 40, 4);
DHCPOPT_MEMBER(dhcpopt_codes, place, 48, 8);
DHCPOPT_ASSERT(sizeof(dhcpopt_filled) == 24);
DHCPOPT_MEMBER(dhcpopt_filled, refusal, 0, 4);
DHCPOPT_MEMBER(dhcpopt_filled, size, 8, 8);
DHCPOPT_MEMBER(dhcpopt_filled, place, 16, 8);
DHCPOPT_ASSERT(sizeof(dhcpopt_profile_answer) == 16);
DHCPOPT_MEMBER(dhcpopt_profile_answer, broken, 0, 4);
DHCPOPT_MEMBER(dhcpopt_profile_answer, refusal, 4, 4);
DHCPOPT_MEMBER(dhcpopt_profile_answer, place, 8, 8);
DHCPOPT_ASSERT(sizeof(dhcpopt_id) == 16);
DHCPOPT_MEMBER(dhcpopt_id, start, 0, 8);
DHCPOPT_MEMBER(dhcpopt_id, length, 8, 8);
DHCPOPT_ASSERT(sizeof(dhcpopt_relay) == 56);
DHCPOPT_MEMBER(dhcpopt_relay, refusal, 0, 4);
DHCPOPT_MEMBER(dhcpopt_relay, size, 8, 8);
DHCPOPT_MEMBER(dhcpopt_relay, place, 16, 8);
DHCPOPT_MEMBER(dhcpopt_relay, circuit, 24, 16);
DHCPOPT_MEMBER(dhcpopt_relay, remote, 40, 16);
DHCPOPT_ASSERT(sizeof(dhcpopt_route) == 24);
DHCPOPT_MEMBER(dhcpopt_route, given, 0, 4);
DHCPOPT_MEMBER(dhcpopt_route, destination, 4, 4);
DHCPOPT_MEMBER(dhcpopt_route, width, 8, 4);
DHCPOPT_MEMBER(dhcpopt_route, router, 12, 4);
DHCPOPT_MEMBER(dhcpopt_route, next, 16, 8);
DHCPOPT_ASSERT(sizeof(dhcpopt_ignored) == 16);
DHCPOPT_MEMBER(dhcpopt_ignored, refusal, 0, 4);
DHCPOPT_MEMBER(dhcpopt_ignored, ignored, 4, 4);
DHCPOPT_MEMBER(dhcpopt_ignored, place, 8, 8);
DHCPOPT_ASSERT(sizeof(dhcpopt_checked) == 16);
DHCPOPT_MEMBER(dhcpopt_checked, refusal, 0, 4);
DHCPOPT_MEMBER(dhcpopt_checked, place, 8, 8);
DHCPOPT_ASSERT(sizeof(dhcpopt_end) == 16);
DHCPOPT_MEMBER(dhcpopt_end, refusal, 0, 4);
DHCPOPT_MEMBER(dhcpopt_end, place, 8, 8);
DHCPOPT_ASSERT(sizeof(dhcpopt_wrote) == 16);
DHCPOPT_MEMBER(dhcpopt_wrote, refusal, 0, 4);
DHCPOPT_MEMBER(dhcpopt_wrote, plan, 4, 4);
DHCPOPT_MEMBER(dhcpopt_wrote, place, 8, 8);
DHCPOPT_ASSERT(sizeof(dhcpopt_captures) == 56);
DHCPOPT_MEMBER(dhcpopt_captures, began, 0, 8);
DHCPOPT_MEMBER(dhcpopt_captures, messages, 8, 8);
DHCPOPT_MEMBER(dhcpopt_captures, size, 16, 8);
DHCPOPT_MEMBER(dhcpopt_captures, read, 24, 8);
DHCPOPT_MEMBER(dhcpopt_captures, stage, 32, 4);
DHCPOPT_MEMBER(dhcpopt_captures, leases, 36, 4);
DHCPOPT_MEMBER(dhcpopt_captures, smallest, 40, 4);
DHCPOPT_MEMBER(dhcpopt_captures, largest, 44, 4);
DHCPOPT_MEMBER(dhcpopt_captures, high, 48, 1);
#endif

#undef DHCPOPT_MEMBER
#undef DHCPOPT_SIZE
#undef DHCPOPT_ASSERT
#undef DHCPOPT_CALL
#undef DHCPOPT_NONNULL

#ifdef __cplusplus
}
#endif

#endif
