// Wrong variants of request 11.

const CAPTURES_VARIANTS: &[Variant] = &[
    // "for each code the accepted messages holding it and the sum of joined data bytes"
    variant!("lengths are not joined: the first piece alone", "captures.rs", &[
        ("            self.bytes[code] += met.length as u64;\n            if !met_before[code] {\n", "            if !met_before[code] {\n                self.bytes[code] += met.length as u64;\n"),
    ]),
    variant!("lengths are not joined: the last piece alone", "captures.rs", &[
        ("        let mut met_before = [false; 256];\n", "        let mut met_before = [false; 256];\n        let mut last = [0; 256];\n"),
        ("            self.bytes[code] += met.length as u64;\n", "            self.bytes[code] += met.length as u64;\n            self.bytes[code] -= last[code];\n            last[code] = met.length as u64;\n"),
    ]),
    variant!("each piece counts as a message", "captures.rs", "            if !met_before[code] {", "            if true {"),
    variant!("a code without data is not held", "captures.rs", "            if !met_before[code] {", "            if !met_before[code] && met.length > 0 {"),
    variant!("52 is left out", "captures.rs", "            let code = usize::from(met.code);\n", "            let code = usize::from(met.code);\n            if code == 52 {\n                return;\n            }\n"),
    variant!("a refused message's codes are counted", "captures.rs", "            self.refused[refusal.number as usize] += 1;\n            return;\n", "            self.refused[refusal.number as usize] += 1;\n            let _ = reading::walk(message, |met| self.held[usize::from(met.code)] += 1);\n            return;\n"),
    variant!("a refused message is accepted too", "captures.rs", "            self.refused[refusal.number as usize] += 1;\n", "            self.refused[refusal.number as usize] += 1;\n            self.accepted += 1;\n"),
    variant!("options in sname and file do not count", "captures.rs", "            let code = usize::from(met.code);\n", "            let code = usize::from(met.code);\n            if met.place < 240 {\n                return;\n            }\n"),
    // "smallest and largest lease time among well-formed ones"
    variant!("the lease time of a broken 51", "captures.rs", "        if joined.size == LEASE_SIZE {", "        if joined.size > 0 {"),
    variant!("the lease time of a 51 of more than four bytes", "captures.rs", "        if joined.size == LEASE_SIZE {", "        if joined.size >= LEASE_SIZE {"),
    variant!("a lease time in one piece alone", "captures.rs", &[
        ("struct Joined {\n", "struct Joined {\n    pieces: usize,\n"),
        ("                joined.size += met.length;\n", "                joined.size += met.length;\n                joined.pieces += 1;\n"),
        ("        if joined.size == LEASE_SIZE {", "        if joined.size == LEASE_SIZE && joined.pieces == 1 {"),
    ]),
    variant!("smallest and largest swapped", "captures.rs", "            self.lease = Some((smallest.min(joined.time), largest.max(joined.time)));", "            self.lease = Some((smallest.max(joined.time), largest.min(joined.time)));"),
    variant!("the largest is the last", "captures.rs", "largest.max(joined.time)", "(largest, joined.time).1"),
    variant!("the smallest is the first", "captures.rs", "smallest.min(joined.time)", "smallest"),
    variant!("no lease time of 0 seconds", "captures.rs", "        if joined.size == LEASE_SIZE {", "        if joined.size == LEASE_SIZE && joined.time > 0 {"),
    variant!("the lease time of a refused message", "captures.rs", "        if let Err(refusal) = judged {\n", "        if judged.is_err() && joined.size == LEASE_SIZE {\n            self.lease = Some((joined.time, joined.time));\n        }\n        if let Err(refusal) = judged {\n"),
    // "The running tally, begun empty, is the same however the reading buffer was filled."
    variant!("the tally is begun again at a new part", "captures.rs", "    pub fn feed(&mut self, mut part: &[u8]) {\n", "    pub fn feed(&mut self, mut part: &[u8]) {\n        *self = Tally { place: self.place, record: self.record, got: self.got, stopped: self.stopped, ..Tally::default() };\n"),
    variant!("a record that is begun is forgotten at a new part", "captures.rs", "    pub fn feed(&mut self, mut part: &[u8]) {\n", "    pub fn feed(&mut self, mut part: &[u8]) {\n        self.got = 0;\n"),
    variant!("a message in parts is not noted", "captures.rs", "            self.note(&record[HEAD..HEAD + size]);\n", "            let _ = &record[HEAD..HEAD + size];\n            self.messages += 1;\n"),
    // "records of tag 1, two-byte length, message"
    variant!("the low length byte first", "captures.rs", "    usize::from(head[1]) << 8 | usize::from(head[2])", "    usize::from(head[2]) << 8 | usize::from(head[1])"),
    variant!("any tag", "captures.rs", &[
        ("part.len() >= HEAD && part[0] == TAG &&", "part.len() >= HEAD &&"),
        ("(part[0] != TAG || self.messages == MOST)", "(self.messages == MOST)"),
    ]),
    variant!("a message over 1,472 bytes is not counted", "captures.rs", "            self.messages += 1;\n            self.refused[2] += 1;\n", ""),
    variant!("a message over 1,472 bytes is refused by 1", "captures.rs", "            self.refused[2] += 1;\n", "            self.refused[1] += 1;\n"),
    // "At most 1,000,000 messages": "24 for .. message 1,000,001"
    variant!("message 1,000,001 is taken", "captures.rs", "const MOST: u64 = 1_000_000;", "const MOST: u64 = 1_000_001;"),
    variant!("999,999 messages at most", "captures.rs", "const MOST: u64 = 1_000_000;", "const MOST: u64 = 999_999;"),
    variant!("24 right after 1,000,000 messages", "captures.rs", "        if self.stopped || self.got > 0 {", "        if self.stopped || self.got > 0 || self.messages == MOST {"),
    // "24 .. at that record's first byte in the file"
    variant!("24 at the byte where it was seen", "captures.rs", "writeln!(out, \"refused 24 {}\", self.place);", "writeln!(out, \"refused 24 {}\", self.place + self.got as u64);"),
    variant!("24 at the record's message", "captures.rs", "writeln!(out, \"refused 24 {}\", self.place);", "writeln!(out, \"refused 24 {}\", self.place + HEAD as u64);"),
    variant!("24 with the record's number", "captures.rs", "writeln!(out, \"refused 24 {}\", self.place);", "writeln!(out, \"refused 24 {}\", self.messages);"),
    variant!("a record cut short is the file's end", "captures.rs", "        if self.stopped || self.got > 0 {", "        if self.stopped {"),
    variant!("reading goes on behind a record that is refused", "captures.rs", "                self.stopped = true;\n                return 1;\n", "                self.stopped = true;\n                self.got = 0;\n                self.stopped = false;\n                return 1;\n"),
    variant!("places count messages' bytes alone", "captures.rs", "        self.place += (HEAD + size) as u64;", "        self.place += size as u64;"),
    // "Lines, in this order"
    variant!("lines of codes that are not held", "captures.rs", "            if *count > 0 {", "            if *count > 0 || code == 1 {"),
    variant!("lines of codes that have data alone", "captures.rs", "            if *count > 0 {", "            if self.bytes[code] > 0 {"),
    variant!("bytes before messages", "captures.rs", "writeln!(out, \"code {code} {count} {}\", self.bytes[code]);", "writeln!(out, \"code {code} {} {count}\", self.bytes[code]);"),
    variant!("refusals from 0 on", "captures.rs", ".enumerate().skip(1) {", ".enumerate() {"),
    variant!("the largest lease time first", "captures.rs", "writeln!(out, \"lease {smallest} {largest}\")", "writeln!(out, \"lease {largest} {smallest}\")"),
    variant!("no line without a lease time", "captures.rs", "            None => writeln!(out, \"lease none\"),", "            None => Ok(()),"),
];
