"""The cases of relay information, sub-options to read and to write (request 09 of document 02): make.py writes them behind those of vendor information."""

# --- The reader of sub-options ------------------------------------------------------------------------------------------
# Each: why; the bytes; the room; what is to be given, in hex, or `refused N PLACE`; then, where it is given, circuit id and remote id: data's start and
# length in the bytes that are read, None where there is none.

# "sub-options of code, length, data; no pads, no END; any sub-code, in order"
CONTENT = [
    ("one sub-option", "09 01 07", 4, "09 00 01 07", None, None),
    ("no pads: 0 is a sub-code", "00 00", 3, "00 00 00", None, None),
    ("no pads: 0 between two", "09 00 00 00 09 00", 9, "09 00 00 00 00 00 09 00 00", None, None),
    ("no pads: 0 with data", "00 02 00 00", 9, "00 00 02 00 00", None, None),
    ("no END: 255 is a sub-code", "FF 00", 3, "FF 00 00", None, None),
    ("no END: what follows 255 is read", "FF 01 09 09 00", 9, "FF 00 01 09 09 00 00", None, None),
    ("52 is a sub-code like any other", "34 01 09 34 02 05 06", 9, "34 00 01 09 34 00 02 05 06", None, None),
    ("82 is a sub-code like any other", "52 02 01 00", 9, "52 00 02 01 00", None, None),
    ("in order, and again", "09 00 05 01 01 09 01 02", 12, "09 00 00 05 00 01 01 09 00 01 02", None, None),
    ("data that look like sub-options are data", "09 04 01 00 02 00", 9, "09 00 04 01 00 02 00", None, None),
    ("a longest sub-option", "09 FF 61*255", 258, "09 00 FF 61*255", None, None),
    ("two longest: a joined option 82 may have more than 255 bytes", "09 FF 61*255 0A FF 62*255", 516, "09 00 FF 61*255 0A 00 FF 62*255", None, None),
    ("1,404 bytes, the most that a message can hold", "09 FF 11*255 " * 5 + "01 75 66*117", 1500, "09 00 FF 11*255 " * 5 + "01 00 75 66*117", (1287, 117), None),
    ("any sub-code: every one", " ".join(f"{c:02X} 00" for c in range(256)), 768, " ".join(f"{c:02X} 00 00" for c in range(256)), (4, 0), (6, 0)),
    ("every sub-code, falling", " ".join(f"{c:02X} 00" for c in range(255, -1, -1)), 800, " ".join(f"{c:02X} 00 00" for c in range(255, -1, -1)), (510, 0), (508, 0)),
]

# "names circuit id (1) and remote id (2), each absent or the first of that code, as its data's start and length in the bytes given"
NAMED = [
    ("both", "01 02 0A 0B 02 03 0C 0D 0E", 20, "01 00 02 0A 0B 02 00 03 0C 0D 0E", (2, 2), (6, 3)),
    ("both, remote id first", "02 03 0C 0D 0E 01 02 0A 0B", 20, "02 00 03 0C 0D 0E 01 00 02 0A 0B", (7, 2), (2, 3)),
    ("circuit id alone", "01 01 0A", 20, "01 00 01 0A", (2, 1), None),
    ("remote id alone", "02 01 0A", 20, "02 00 01 0A", None, (2, 1)),
    ("neither", "03 01 0A", 20, "03 00 01 0A", None, None),
    ("behind others", "09 00 00 01 05 02 00 01 01 0A", 30, "09 00 00 00 00 01 05 02 00 00 01 00 01 0A", (9, 1), (7, 0)),
    ("the first of two circuit ids", "01 01 0A 01 02 0B 0C", 20, "01 00 01 0A 01 00 02 0B 0C", (2, 1), None),
    ("the first of two remote ids", "02 02 0B 0C 02 01 0A", 20, "02 00 02 0B 0C 02 00 01 0A", None, (2, 2)),
    ("the first of three, mixed", "02 01 01 01 01 02 02 00 01 00 02 00", 30, "02 00 01 01 01 00 01 02 02 00 00 01 00 00 02 00 00", (5, 1), (2, 1)),
    ("a circuit id of length 0 is there", "01 00", 20, "01 00 00", (2, 0), None),
    ("a remote id of length 0 is there", "02 00", 20, "02 00 00", None, (2, 0)),
    ("of length 0, and the first", "01 00 01 01 0A 02 00 02 01 0B", 30, "01 00 00 01 00 01 0A 02 00 00 02 00 01 0B", (2, 0), (7, 0)),
    ("at the very end, of length 0", "09 01 01 02 00 01 00", 30, "09 00 01 01 02 00 00 01 00 00", (7, 0), (5, 0)),
    ("1 and 2 as lengths and data name nothing", "09 01 01 09 02 02 02", 30, "09 00 01 01 09 00 02 02 02", None, None),
    ("257 bytes on", "09 FF 61*255 01 FF 62*255 02 01 07", 600, "09 00 FF 61*255 01 00 FF 62*255 02 00 01 07", (259, 255), (516, 1)),
    ("a record stands elsewhere: the place is one of the bytes read", "09 00 09 00 01 01 0A", 20, "09 00 00 09 00 00 01 00 01 0A", (6, 1), None),
]

# "8 at the sub-option's code stands for 17, and no sub-options at all give 8 at 0"
PAST = [
    ("8: no sub-options at all", "", 9, "refused 8 0"),
    ("8: no sub-options at all, and no room", "", 0, "refused 8 0"),
    ("8: a code alone", "01", 9, "refused 8 0"),
    ("8: 0 alone is no pad", "00", 9, "refused 8 0"),
    ("8: 255 alone is no END", "FF", 9, "refused 8 0"),
    ("8: a code behind a sub-option", "01 00 02", 9, "refused 8 2"),
    ("8: 0 behind a sub-option is no pad", "01 00 00", 9, "refused 8 2"),
    ("8: 255 behind a sub-option is no END", "01 01 09 FF", 9, "refused 8 3"),
    ("8: no data byte of one", "01 01", 9, "refused 8 0"),
    ("8: one byte is missing", "01 03 07 08", 9, "refused 8 0"),
    ("8: of 255 bytes one is missing", "01 FF 61*254", 300, "refused 8 0"),
    ("8: behind right sub-options", "01 01 07 02 00 09 02 07", 30, "refused 8 5"),
    ("8: in a long one", "01 FF 61*255 02 FF 62*255 03", 600, "refused 8 514"),
    ("8 before 11", "01 01 07 02", 0, "refused 8 3"),
    ("8 before 11, far behind what would fit", "01 00 02 00 03 05 01", 3, "refused 8 4"),
]

# "The sub-option calls refuse as Req 05's do": 11 with the sheet's length
ROOM = [
    ("11: one byte short", "01 01 07", 3, "refused 11 3"),
    ("11: no room", "01 00", 0, "refused 11 0"),
    ("11: room for the first alone", "01 00 02 00", 5, "refused 11 5"),
    ("room just enough", "01 00 02 00", 6, "01 00 00 02 00 00", (2, 0), (4, 0)),
    ("room to spare stays as it was", "01 00 02 00", 40, "01 00 00 02 00 00", (2, 0), (4, 0)),
    ("a record takes a byte more than its sub-option", "07 FD 11*253", 255, "refused 11 255"),
    ("a record takes a byte more than its sub-option, and fits", "07 FD 11*253", 256, "07 00 FD 11*253", None, None),
]

# --- The writer of sub-options ------------------------------------------------------------------------------------------

# "Written, then read with room enough, the records come back."
WRITTEN = [
    ("one record", "01 00 01 07", 3, "01 01 07"),
    ("circuit id and remote id", "01 00 02 0A 0B 02 00 01 0C", 9, "01 02 0A 0B 02 01 0C"),
    ("no END is added", "01 00 01 07", 9, "01 01 07"),
    ("a record without data", "07 00 00", 2, "07 00"),
    ("no tag is a 10: 0", "00 00 01 07", 9, "00 01 07"),
    ("no tag is a 10: 255", "FF 00 01 07", 9, "FF 01 07"),
    ("no tag is a 10: 52", "34 00 01 07", 9, "34 01 07"),
    ("no tag is a 10: 0 without data, three times", "00 00 00 00 00 00 00 00 00", 6, "00 00 00 00 00 00"),
    ("tags may repeat, order kept", "02 00 01 02 01 00 01 01 02 00 01 02", 9, "02 01 02 01 01 01 02 01 02"),
    ("any data", "01 00 03 FF 00 FF", 5, "01 03 FF 00 FF"),
    ("255 bytes are given", "01 00 FD 61*253", 255, "01 FD 61*253"),
    ("255 bytes of two records", "01 00 7D 61*125 02 00 7E 62*126", 300, "01 7D 61*125 02 7E 62*126"),
    ("255 bytes of 85 records", "11 00 01 77 " * 85, 255, "11 01 77 " * 85),
    ("127 records without data", "FF 00 00 " * 127, 254, "FF 00 " * 127),
]

# "16, record by record 12, [...] 13 (over 255), then 11"; "no sub-options at all give 8 at 0"
FAULTS = [
    ("8: no sub-options at all", "", 9, "refused 8 0"),
    ("8: no sub-options at all, and no output", "", 0, "refused 8 0"),
    ("16: 4,097 bytes", "00*4097", 9, "refused 16 4097"),
    ("4,096 bytes are no 16: one is left over", "00*4096", 9, "refused 12 4095"),
    ("12: a tag alone", "01", 9, "refused 12 0"),
    ("12: half a head", "01 00", 9, "refused 12 0"),
    ("12: no data byte of one", "01 00 01", 9, "refused 12 0"),
    ("12 behind a right record", "01 00 01 07 02 00", 9, "refused 12 4"),
    ("12: the high byte of the length counts", "01 01 00 61*255", 300, "refused 12 0"),
    ("12 before 11", "01 00 01 07 02", 0, "refused 12 4"),
    ("13: 256 bytes", "01 01 00 61*256", 300, "refused 13 0"),
    ("13: 1,024 bytes, which a settings sheet may have", "01 04 00 61*1024", 300, "refused 13 0"),
    ("13: tag 0", "00 01 00 61*256", 300, "refused 13 0"),
    ("13: tag 255, behind a right record", "FF 00 00 FF 01 00 61*256", 300, "refused 13 3"),
    ("13 before 11", "01 00 00 02 01 00 61*256", 0, "refused 13 3"),
    ("13 of an earlier record before 12", "01 01 00 61*256 02", 9, "refused 13 0"),
    ("no 7: a tag met again", "01 00 00 01 00 00", 4, "01 00 01 00"),
    ("no 14: tag 3 before tag 1", "03 00 00 01 00 00", 4, "03 00 01 00"),
    ("no 23: tag 82 before another", "52 00 00 01 00 00", 4, "52 00 01 00"),
    ("no 8 or 9 by a kind: 53 with any data", "35 00 02 FF FF", 9, "35 02 FF FF"),
]

# "11 with the output's length where the items exceed it or 255"
TOO_MUCH = [
    ("11: one byte short", "01 00 01 07", 2, "refused 11 2"),
    ("11: no output", "01 00 00", 0, "refused 11 0"),
    ("11: the second does not fit, and nothing is written", "01 00 00 02 00 00", 3, "refused 11 3"),
    ("254 bytes of data are no 13, but over 255 in all", "01 00 FE 61*254", 300, "refused 11 300"),
    ("255 bytes of data are no 13, but over 255 in all", "01 00 FF 61*255", 300, "refused 11 300"),
    ("256 bytes in all, with output enough", "01 00 7D 61*125 02 00 7F 62*127", 4000, "refused 11 4000"),
    ("over 255 in all: the place is the output's length", "01 00 FF 61*255", 0, "refused 11 0"),
    ("255 bytes, one byte short", "01 00 FD 61*253", 254, "refused 11 254"),
    ("128 records without data", "00 00 00 " * 128, 300, "refused 11 300"),
    ("4,096 bytes, all right", "01 00 FF 61*255 " * 15 + "02 00 DF 62*223", 5000, "refused 11 5000"),
]
