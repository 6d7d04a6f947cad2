// Wrong variants of the rules: in a copy of one file of src/rules one piece of
// text is taken for another. Each is to be told from the library.

struct Variant {
    name: &'static str,
    file: &'static str,
    edits: &'static [(&'static str, &'static str)],
}

macro_rules! variant {
    ($name:expr, $file:expr, $from:expr, $to:expr $(,)?) => {
        Variant { name: $name, file: $file, edits: &[($from, $to)] }
    };
    ($name:expr, $file:expr, $edits:expr $(,)?) => {
        Variant { name: $name, file: $file, edits: $edits }
    };
}

const VARIANTS: &[Variant] = &[
    // Grouped sheets.
    variant!("file of 4,100 refused", "groups.rs", "file.len() > LONGEST_FILE", "file.len() >= LONGEST_FILE"),
    variant!("sheet of 4,096 not moved", "groups.rs", "sheet.len() > LONGEST_SHEET", "sheet.len() >= LONGEST_SHEET"),
    variant!("a fifth depth taken", "groups.rs", "DEEPEST: usize = 4", "DEEPEST: usize = 5"),
    variant!("a fourth depth refused", "groups.rs", "DEEPEST: usize = 4", "DEEPEST: usize = 3"),
    variant!("other classes entered", "groups.rs", "reached && (name.is_empty() || name == self.class)", "reached"),
    variant!(
        "a name compared by its length alone",
        "groups.rs",
        "name == self.class",
        "name.len() == self.class.len()",
    ),
    variant!(
        "a name compared to the class's length",
        "groups.rs",
        "name == self.class",
        "name.starts_with(self.class)",
    ),
    variant!(
        "the outermost name ignored",
        "groups.rs",
        "reached && (name.is_empty()",
        "reached && (depth == 1 || name.is_empty()",
    ),
    variant!(
        "a group of the class reached in another class's",
        "groups.rs",
        "let reached = reached && (",
        "let reached = (",
    ),
    variant!(
        "a nested group's records out of order",
        "groups.rs",
        "_ if reached => self.sheet.extend_from_slice(&file[at..next]),",
        "_ if reached && depth > 1 => drop(self.sheet.splice(..0, file[at..next].iter().copied())),
                _ if reached => self.sheet.extend_from_slice(&file[at..next]),",
    ),
    variant!("groups that are not entered are not checked", "groups.rs", "52 | 255 => return", "52 | 255 if reached => return"),
    variant!("tag 255 taken", "groups.rs", "52 | 255 => return", "52 => return"),
    variant!("tag 52 taken", "groups.rs", "52 | 255 => return", "255 => return"),
    variant!("trailing bytes taken", "groups.rs", "if end < file.len() {", "if end + 1 < file.len() {"),
    variant!("trailing bytes at 0", "groups.rs", "return refuse(20, end);", "return refuse(20, 0);"),
    variant!("21 before 20", "groups.rs", "if rest.len() < n {", "if depth > DEEPEST {\n            return refuse(21, tag);\n        }\n        if rest.len() < n {"),
    variant!("a way back for a named group", "groups.rs", "met.named || met.groups > 1", "met.groups > 1"),
    variant!("a way back with a group inside", "groups.rs", "met.named || met.groups > 1", "met.named"),
    variant!("22 at 4", "groups.rs", "refuse(22, 0)", "refuse(22, 4)"),
    variant!("11 before 22", "groups.rs", "    if met.named || met.groups > 1 {", "    give(&file[4..], lent)?;\n    if met.named || met.groups > 1 {"),
    variant!("a length without n", "groups.rs", "let length = sheet.len() + 1;", "let length = sheet.len();"),
    variant!("tag 0 moves", "groups.rs", "0 | 52 | 255)", "52 | 255)"),
    variant!("10 before 12", "groups.rs", "let Some(next) = end_of(sheet, at, sheet.len()) else { return refuse(12, at) };\n        if matches!(sheet[at], 0 | 52 | 255) {\n            return refuse(10, at);\n        }", "if matches!(sheet[at], 0 | 52 | 255) {\n            return refuse(10, at);\n        }\n        let Some(next) = end_of(sheet, at, sheet.len()) else { return refuse(12, at) };"),
    // Reading: the frame.
    variant!("message of 240 refused", "reading.rs", "length < OPTIONS", "length <= OPTIONS"),
    variant!("message of 1472 refused", "reading.rs", "length > LONGEST", "length >= LONGEST"),
    variant!("message of 1473 read", "reading.rs", "LONGEST: usize = 1472", "LONGEST: usize = 1473"),
    variant!(
        "cookie not compared to its last byte",
        "reading.rs",
        "message[COOKIE..OPTIONS] != COOKIE_BYTES",
        "message[COOKIE..OPTIONS - 1] != COOKIE_BYTES[..3]",
    ),
    variant!("cookie's place", "reading.rs", "refuse(3, COOKIE)", "refuse(3, 0)"),
    // Reading: the fields.
    variant!("file is not read", "reading.rs", "overload & 1 != 0", "overload & 4 != 0"),
    variant!("sname is not read", "reading.rs", "overload & 2 != 0", "overload & 4 != 0"),
    variant!(
        "END in options ends the message",
        "reading.rs",
        "return Ok(overload);",
        "return Ok(0);",
    ),
    variant!(
        "file is read because it looks like options",
        "reading.rs",
        "overload & 1 != 0",
        "overload & 1 != 0 || message[FILE] == 53",
    ),
    variant!(
        "file and sname taken for each other",
        "reading.rs",
        "    if overload & 1 != 0 {\n        walk_field(message, Field::File, COOKIE",
        "    if overload & 1 != 0 {\n        walk_field(message, Field::Sname, FILE",
    ),
    variant!(
        "sname before file",
        "reading.rs",
        "    if overload & 1 != 0 {\n",
        "    if overload == 3 {\n        walk_field(message, Field::Sname, FILE, &mut meet)?;\n        \
         walk_field(message, Field::File, COOKIE, &mut meet)?;\n        return Ok(());\n    }\n    \
         if overload & 1 != 0 {\n",
    ),
    variant!("file ends a byte early", "reading.rs", "Field::File, COOKIE,", "Field::File, COOKIE - 1,"),
    variant!("file runs into the cookie", "reading.rs", "Field::File, COOKIE,", "Field::File, OPTIONS,"),
    variant!("sname ends a byte early", "reading.rs", "Field::Sname, FILE,", "Field::Sname, FILE - 1,"),
    variant!("sname runs into file", "reading.rs", "Field::Sname, FILE,", "Field::Sname, COOKIE,"),
    variant!(
        "stops at 255 in data",
        "reading.rs",
        "        meet(Met {",
        "        if data.contains(&END) {\n            return Ok(overload);\n        }\n        meet(Met {",
    ),
    variant!(
        "an unknown code's length byte skipped as a pad",
        "reading.rs",
        "if code == PAD {",
        "if code == PAD || kinds::kind_of(code).is_none() && code != END {",
    ),
    variant!(
        "options after END are read",
        "reading.rs",
        "        if code == END {\n            return Ok(overload);",
        "        if code == END {\n            if bytes[place..].iter().all(|&byte| byte == 0 || byte == END) {\n                \
         return Ok(overload);\n            }\n            place += 1;\n            continue;",
    ),
    variant!("the end of a field is an END", "reading.rs", "refuse(5, after)", "Ok(overload)"),
    variant!("place of a field without END", "reading.rs", "refuse(5, after)", "refuse(5, after - 1)"),
    variant!("place of data beyond the field", "reading.rs", "refuse(4, place)", "refuse(4, place + 1)"),
    variant!(
        "data beyond the field by one byte",
        "reading.rs",
        "if let Some(data) = bytes.get(place + 2..place + 2 + usize::from(length)) {",
        "let after = place + 2 + usize::from(length);\n        \
         if let Some(data) = bytes.get(place + 2..if after == bytes.len() + 1 { after - 1 } else { after }) {",
    ),
    variant!(
        "a code met again is refused",
        "reading.rs",
        &[
            (
                "    check_frame(message)?;\n",
                "    check_frame(message)?;\n    let mut codes = Codes::default();\n    let mut again = None;\n    \
                 let mut meet = |met: Met| {\n        if !codes.add(met.code) && again.is_none() {\n            \
                 again = Some(met.place);\n        }\n        meet(met);\n    };\n",
            ),
            (
                "    Ok(())\n}\n\n/// Meets the pieces of one field",
                "    again.map_or(Ok(()), |place| refuse(7, place))\n}\n\n/// Meets the pieces of one field",
            ),
        ],
    ),
    variant!(
        "a second 52 is joined",
        "reading.rs",
        "            if overload != 0 {\n                return refuse(7, place);\n            }\n",
        "",
    ),
    variant!("52 in file is accepted", "reading.rs", "field == Field::Options && ", ""),
    variant!("52 of length 2", "reading.rs", "[value] if field", "[value, ..] if field"),
    variant!(
        "7 before 6",
        "reading.rs",
        "            let value = overload_value(field, place, data)?;\n",
        "            if overload != 0 {\n                return refuse(7, place);\n            }\n            \
         let value = overload_value(field, place, data)?;\n",
    ),
    // Reading: where an answer comes from.
    variant!(
        "file named for sname",
        "reading.rs",
        "Origin { field: self.field,",
        "Origin { field: if self.field == Field::Sname { Field::File } else { self.field },",
    ),
    variant!(
        "options named for file",
        "reading.rs",
        "Origin { field: self.field,",
        "Origin { field: if self.field == Field::File { Field::Options } else { self.field },",
    ),
    variant!("an offset counted from the message", "reading.rs", "self.field, offset, start", "self.field, offset: self.place, start"),
    variant!("an offset of the data", "reading.rs", "self.field, offset, start", "self.field, offset: offset + 2, start"),
    variant!(
        "a start of 0 at length 0",
        "reading.rs",
        "start: first + offset + 2",
        "start: if self.length == 0 { 0 } else { first + offset + 2 }",
    ),
    variant!("a start counted in its field", "reading.rs", "start: first + offset + 2", "start: offset + 2"),
    variant!(
        "broken is a refusal",
        "reading.rs",
        "    Ok(Lookup::Found(first.origin()",
        "    if let Content::Broken(r) = content {\n        return Err(r);\n    }\n    Ok(Lookup::Found(first.origin()",
    ),
    variant!("broken's place counted in its field", "reading.rs", "place: first.place }", "place: first.origin().offset }"),
    // Reading: the calls.
    variant!("code 0 is absent", "reading.rs", "if code == PAD || code == END {", "if code == END {"),
    variant!("code 255 is absent", "reading.rs", "if code == PAD || code == END {", "if code == PAD {"),
    variant!(
        "10 after 1",
        "reading.rs",
        "if code == PAD || code == END {",
        "if (code == PAD || code == END) && message.len() >= OPTIONS {",
    ),
    variant!(
        "the known set's words in another order",
        "reading.rs",
        "if known.has(first.code)",
        "if known.has(first.code ^ 64)",
    ),
    variant!("every code is known", "reading.rs", "if known.has(first.code)", "if known.has(first.code) || true"),
    variant!(
        "52 is known always",
        "reading.rs",
        "if known.has(first.code)",
        "if known.has(first.code) || first.code == OVERLOAD",
    ),
    variant!(
        "zeros cut from data",
        "reading.rs",
        "pieces.whole > 0 => pieces.first.part(),",
        "kinds::text_length(pieces.first.data(message)) > 0 => {\n            \
         Part { start: pieces.first.place + 2, length: kinds::text_length(pieces.first.data(message)) }\n        }",
    ),
    variant!("empty data keeps its start", "reading.rs", "pieces.count == 1 && pieces.whole > 0 =>", "pieces.count == 1 =>"),
    variant!("text with its zeros", "reading.rs", "if kind == Kind::Text {", "if false {"),
    variant!(
        "text of opaque data",
        "reading.rs",
        "Content::Part(Kind::Text, length)",
        "Content::Part(Kind::Text | Kind::Opaque, length)",
    ),
    variant!(
        "left-over bytes are an address",
        "reading.rs",
        "    let bytes = list.get(at..next)?;\n",
        "    let mut bytes = [0; 4];\n    let left = list.get(at..)?;\n    \
         let count = left.len().min(4);\n    if count == 0 {\n        return None;\n    }\n    \
         bytes[..count].copy_from_slice(&left[..count]);\n",
    ),
    variant!(
        "the address walk repeats itself",
        "reading.rs",
        "    let bytes = list.get(at..next)?;\n",
        "    let bytes = list.get(at..next)?;\n    let bytes = if at > 0 { &list[at - 4.min(at)..] } else { bytes };\n",
    ),
    variant!(
        "roll call without 52",
        "reading.rs",
        "    Ok(RollCall {",
        "    codes.0[0] &= !(1 << 52);\n    Ok(RollCall {",
    ),
    variant!("roll call's count off by one", "reading.rs", "count: codes.count()", "count: codes.count().max(1)"),
    variant!(
        "roll call's lowest of the last word",
        "reading.rs",
        "lowest: codes.lowest()",
        "lowest: if codes.0[3] != 0 { 192 + codes.0[3].trailing_zeros() } else { codes.lowest() }",
    ),
    variant!(
        "records with 52",
        "reading.rs",
        "if met.code == OVERLOAD {\n            return;",
        "if false {\n            return;",
    ),
    variant!("no room for the exact sheet", "reading.rs", "sheet.get_mut(..size)", "sheet.get_mut(..size + 1)"),
    variant!(
        "rest of the lent sheet becomes zero",
        "reading.rs",
        "    Ok(size)\n",
        "    sheet[size..].fill(0);\n    Ok(size)\n",
    ),
    variant!(
        "refused sheet is begun",
        "reading.rs",
        "    let Some(mut room) = sheet",
        "    if size > sheet.len() {\n        sheet.iter_mut().take(1).for_each(|byte| *byte ^= 1);\n    }\n    \
         let Some(mut room) = sheet",
    ),
    variant!("records' place on refusal", "reading.rs", "refuse(11, sheet.len())", "refuse(11, size)"),
    variant!(
        "record lengths with the low byte first",
        "reading.rs",
        "&[code, high, low]",
        "&[code, low, high]",
    ),
    // Reading: pieces.
    variant!(
        "pieces joined in another order",
        "reading.rs",
        "            room[length..][..met.length].copy_from_slice(met.data(message));\n",
        "            room.copy_within(..length, met.length);\n            \
         room[..met.length].copy_from_slice(met.data(message));\n",
    ),
    variant!(
        "pieces joined as they stand in memory",
        "reading.rs",
        &[
            (
                "    let _ = walk(message, |met| {\n        if met.code == code {",
                "    for field in [Field::Sname, Field::File, Field::Options] {\n    \
                 let _ = walk(message, |met| {\n        if met.code == code && met.field == field {",
            ),
            ("    });\n    length\n", "    });\n    }\n    length\n"),
        ],
    ),
    variant!(
        "only the first piece is judged",
        "reading.rs",
        "Some(whole) => joined_content(message, known, first, whole)",
        "Some(_) => content(known, first, first.data(message))",
    ),
    variant!(
        "the last piece is named",
        "reading.rs",
        "            pieces.count += 1;\n",
        "            pieces.first = met;\n            pieces.count += 1;\n",
    ),
    variant!(
        "several not said for a number",
        "reading.rs",
        "pieces.several(), content))",
        "if let Content::Number(..) = content { None } else { pieces.several() }, content))",
    ),
    variant!(
        "several not said for what is broken",
        "reading.rs",
        "pieces.several(), content))",
        "if let Content::Broken(_) = content { None } else { pieces.several() }, content))",
    ),
    variant!(
        "several not said for what is unknown",
        "reading.rs",
        "pieces.several(), content))",
        "if let Content::Unknown(_) = content { None } else { pieces.several() }, content))",
    ),
    variant!("several said of one piece", "reading.rs", "(self.count > 1)", "(self.count > 0)"),
    variant!("several from three pieces on", "reading.rs", "(self.count > 1)", "(self.count > 2)"),
    variant!(
        "trailing zeros not counted in the whole",
        "reading.rs",
        "pieces.several(), content))",
        "match content {\n        Content::Part(Kind::Text, length) => pieces.several().map(|_| length),\n        \
         _ => pieces.several(),\n    }, content))",
    ),
    variant!(
        "trailing zeros of each piece are dropped",
        "reading.rs",
        "    join(message, first.code, &mut joined);\n    content(known, first, &joined[..whole])",
        "    let mut length = whole - whole;\n    let _ = walk(message, |met| {\n        if met.code == first.code {\n            \
         let data = met.data(message);\n            let text = kinds::kind_of(met.code) == Some(Kind::Text);\n            \
         let kept = if text { kinds::text_length(data) } else { data.len() };\n            \
         joined[length..][..kept].copy_from_slice(&data[..kept]);\n            length += kept;\n        }\n    });\n    \
         content(known, first, &joined[..length])",
    ),
    variant!(
        "an empty second piece is not counted",
        "reading.rs",
        "            pieces.count += 1;\n",
        "            pieces.count += usize::from(pieces.count == 0 || met.length > 0);\n",
    ),
    variant!(
        "empty pieces are not counted",
        "reading.rs",
        "            pieces.count += 1;\n",
        "            pieces.count += usize::from(met.length > 0);\n",
    ),
    variant!("data of several pieces is the first", "reading.rs", "pieces.count == 1 && pieces.whole", "pieces.whole"),
    variant!("text of several pieces", "reading.rs", "Lookup::Found(origin, None, ", "Lookup::Found(origin, _, "),
    variant!(
        "the roll call counts pieces",
        "reading.rs",
        &[
            (
                "    walk(message, |met| {\n        codes.add(met.code);",
                "    let mut pieces = 0;\n    walk(message, |met| {\n        pieces += 1;\n        codes.add(met.code);",
            ),
            ("count: codes.count()", "count: pieces"),
        ],
    ),
    variant!(
        "a record for each piece",
        "reading.rs",
        &[("MOST_RECORDS: usize = 253", "MOST_RECORDS: usize = 800"), ("if codes.add(met.code) {", "if codes.add(met.code) || true {")],
    ),
    variant!(
        "a record at the last piece's turn",
        "reading.rs",
        "            again.add(met.code);\n",
        "            again.add(met.code);\n            \
         let at = places[..count].iter().position(|&place| message[usize::from(place)] == met.code).unwrap();\n            \
         places[at..count].rotate_left(1);\n",
    ),
    variant!(
        "a record's length in one byte",
        "reading.rs",
        "let [high, low] = (length as u16).to_be_bytes();",
        "let [high, low] = [0, length as u8];",
    ),
    variant!("a record of its first piece alone", "reading.rs", "let length = if again.has(code) {", "let length = if again.has(code) && false {"),
    // Reading: the copy.
    variant!(
        "a copy writes past what it gives",
        "reading.rs",
        "    Ok(join(message, code, room))\n",
        "    let length = join(message, code, room);\n    \
         buffer[length..].iter_mut().take(1).for_each(|byte| *byte = 0);\n    Ok(length)\n",
    ),
    variant!(
        "rest of the copy's buffer becomes zero",
        "reading.rs",
        "    Ok(join(message, code, room))\n",
        "    let length = join(message, code, room);\n    buffer[length..].fill(0);\n    Ok(length)\n",
    ),
    variant!("a copy of an absent code as 0 bytes", "reading.rs", "        return refuse(11, 0);", "        return Ok(0);"),
    variant!("an absent code's place in a copy", "reading.rs", "        return refuse(11, 0);", "        return refuse(11, buffer.len());"),
    variant!("a copy's place on refusal", "reading.rs", "refuse(11, buffer.len())", "refuse(11, pieces.whole)"),
    variant!("no room for the exact copy", "reading.rs", "buffer.get_mut(..pieces.whole)", "buffer.get_mut(..pieces.whole + 1)"),
    variant!(
        "a refused copy is begun",
        "reading.rs",
        "    let Some(room) = buffer",
        "    if pieces.whole > buffer.len() {\n        buffer.iter_mut().take(1).for_each(|byte| *byte ^= 1);\n    }\n    \
         let Some(room) = buffer",
    ),
    variant!(
        "a copy of the first piece alone",
        "reading.rs",
        "    Ok(join(message, code, room))\n",
        "    room[..pieces.first.length].copy_from_slice(pieces.first.data(message));\n    Ok(pieces.first.length)\n",
    ),
    variant!(
        "a copy without trailing zeros",
        "reading.rs",
        "    Ok(join(message, code, room))\n",
        "    join(message, code, room);\n    Ok(kinds::text_length(room))\n",
    ),
    variant!(
        "one piece is not copied",
        "reading.rs",
        "    let Some(room) = buffer",
        "    if pieces.count == 1 {\n        return Ok(0);\n    }\n    let Some(room) = buffer",
    ),
    variant!(
        "52 is not copied",
        "reading.rs",
        "    let Some(room) = buffer",
        "    if code == OVERLOAD {\n        return refuse(11, 0);\n    }\n    let Some(room) = buffer",
    ),
    variant!(
        "a copy's 11 before the message's fault",
        "reading.rs",
        "    let Some(pieces) = find(message, code)? else {\n        return refuse(11, 0);",
        "    if buffer.is_empty() && code != PAD && code != END {\n        return refuse(11, 0);\n    }\n    \
         let Some(pieces) = find(message, code)? else {\n        return refuse(11, 0);",
    ),
    // Kinds.
    variant!("68 of length 0", "kinds.rs", " || code == 68)", ")"),
    variant!("lists of length 0", "kinds.rs", "(length >= 4 || code == 68)", "true"),
    variant!("61 of length 1", "kinds.rs", "if code == 61 { 2 } else { 1 }", "1"),
    variant!("text of length 0", "kinds.rs", "Kind::Text => length >= 1", "Kind::Text => true"),
    variant!("pairs by fours", "kinds.rs", "length.is_multiple_of(8)", "length.is_multiple_of(4)"),
    variant!("16-bit lists of odd length", "kinds.rs", "length.is_multiple_of(2) && ", ""),
    variant!("flags of 2", "kinds.rs", "data[0] <= 1", "data[0] <= 2"),
    variant!("23 and 37 of 0", "kinds.rs", "23 | 37 => value >= 1", "23 | 37 => true"),
    variant!("46 of 3", "kinds.rs", "1 | 2 | 4 | 8", "1 | 2 | 3 | 4 | 8"),
    variant!("53 of 9", "kinds.rs", "_ => matches!(value, 1..=8)", "_ => matches!(value, 1..=9)"),
    variant!("52 of 4", "kinds.rs", "matches!(value, 1..=3)", "matches!(value, 1..=4)"),
    variant!("22 and 57 of 575", "kinds.rs", "22 | 57 => 576", "22 | 57 => 575"),
    variant!("26 of 67", "kinds.rs", "26 => 68", "26 => 67"),
    variant!("25 of 67", "kinds.rs", "let mut last = 68;", "let mut last = 67;"),
    variant!("25 has to rise", "kinds.rs", "if value < last {", "if value < last || value == last && last > 68 {"),
    variant!("25 may fall", "kinds.rs", "        last = value;\n", ""),
    variant!("33's router is judged", "kinds.rs", "pair[..4] != [0; 4]", "pair[4..] != [0; 4]"),
    variant!("33's first pair alone is judged", "kinds.rs", "data.chunks_exact(8).all", "data.chunks_exact(8).take(1).all"),
    variant!("21 is judged as 33", "kinds.rs", "code != 33 || ", ""),
    variant!("numbers with the low byte first", "kinds.rs", "u16::from_be_bytes", "u16::from_le_bytes"),
    variant!("2 unsigned", "kinds.rs", "i64::from(number32(data) as i32)", "i64::from(number32(data))"),
    variant!("51 signed", "kinds.rs", "Some(i64::from(number32(data)))", "Some(i64::from(number32(data) as i32))"),
    variant!(
        "text cut at its first zero",
        "kinds.rs",
        "data.iter().rposition(|&byte| byte != 0).map_or(0, |last| last + 1)",
        "data.iter().position(|&byte| byte == 0).unwrap_or(data.len())",
    ),
    variant!(
        "text without its last zero alone",
        "kinds.rs",
        "data.iter().rposition(|&byte| byte != 0).map_or(0, |last| last + 1)",
        "data.len() - usize::from(data.last() == Some(&0))",
    ),
    variant!("128 is text", "kinds.rs", "matches!(byte, 1..=127)", "matches!(byte, 1..=128)"),
    variant!("127 is no text", "kinds.rs", "matches!(byte, 1..=127)", "matches!(byte, 1..=126)"),
    variant!("1 is no text", "kinds.rs", "matches!(byte, 1..=127)", "matches!(byte, 2..=127)"),
    variant!("control characters are no text", "kinds.rs", "matches!(byte, 1..=127)", "matches!(byte, 32..=127)"),
    variant!("a zero inside is text", "kinds.rs", "matches!(byte, 1..=127)", "matches!(byte, 0..=127)"),
    variant!("texts are not judged", "kinds.rs", "all(|&byte| is_text(byte))", "all(|&byte| is_text(byte) || true)"),
    variant!("a text's zeros are judged", "kinds.rs", "data[..text_length(data)].iter().all", "data.iter().all"),
    variant!("a text's first byte is not judged", "kinds.rs", "data[..text_length(data)].iter().all", "data[..text_length(data)].iter().skip(1).all"),
    variant!(
        "a text's last byte is not judged",
        "kinds.rs",
        "data[..text_length(data)].iter().all",
        "data[..text_length(data).saturating_sub(1)].iter().all",
    ),
    variant!("opaque is judged as text", "kinds.rs", "        Kind::Text => data[", "        Kind::Text | Kind::Opaque => data["),
    variant!("the first 255 bytes of a text are judged", "kinds.rs", "data[..text_length(data)].iter().all", "data[..text_length(data).min(255)].iter().all"),
    variant!(
        "9 before 8 for a text",
        "kinds.rs",
        "    if !length_fits(kind, code, data.len()) {\n        return Err(Fault::Length);",
        "    if !length_fits(kind, code, data.len()) {\n        return Err(if kind == Kind::Text { Fault::Value } else { Fault::Length });",
    ),
    variant!(
        "the first piece of a text alone is judged",
        "reading.rs",
        "    content(known, first, &joined[..whole])\n",
        "    let all = content(known, first, &joined[..whole]);\n    \
         match (all, kinds::kind_of(first.code)) {\n        \
         (Content::Broken(refusal), Some(Kind::Text)) if refusal.number == 9 && kinds::judge(Kind::Text, first.code, first.data(message)).is_ok() => {\n            \
         Content::Part(Kind::Text, kinds::text_length(&joined[..whole]))\n        }\n        \
         (all, _) => all,\n    }\n",
    ),
    variant!(
        "a broken text has its part",
        "reading.rs",
        "        Ok(Lookup::Found(origin, None, Content::Part(Kind::Text, length))) if length > 0 => {\n            \
         Part { start: origin.start, length }\n        }\n",
        "        Ok(Lookup::Found(origin, None, Content::Part(Kind::Text, length))) if length > 0 => {\n            \
         Part { start: origin.start, length }\n        }\n        \
         Ok(Lookup::Found(_, None, Content::Broken(_))) if kinds::kind_of(code) == Some(Kind::Text) => data(message, code),\n",
    ),
    variant!("77 is a list", "kinds.rs", "69..=76", "69..=77"),
    variant!("8 keeps its row", "kinds.rs", "3..=7 | 9", "3..=7 | 8 | 9"),
    variant!("10 keeps its row", "kinds.rs", "9 | 11", "9 | 10 | 11"),
    variant!("34 keeps its row", "kinds.rs", "31 | 36", "31 | 34 | 36"),
    variant!("9 is retired", "kinds.rs", "3..=7 | 9", "3..=7"),
    variant!("63 is opaque", "kinds.rs", "60 | 61 => Some(Kind::Opaque)", "60 | 61 | 63 => Some(Kind::Opaque)"),
    variant!("62 has a row", "kinds.rs", "64 | 66 | 67 => Some(Kind::Text)", "62 | 64 | 66 | 67 => Some(Kind::Text)"),
    // Writing: the checks.
    variant!("buffer of 1473 is written", "writing.rs", "length > LONGEST", "length > LONGEST + 1"),
    variant!("permission 4", "writing.rs", "permission > 3", "permission > 4"),
    variant!(
        "15 before 1",
        "writing.rs",
        "    let length = buffer.len();\n    if length < OPTIONS",
        "    let length = buffer.len();\n    if permission > 3 {\n        return refuse(15, 0);\n    }\n    if length < OPTIONS",
    ),
    variant!(
        "16 before 15",
        "writing.rs",
        "    if permission > 3 {",
        "    if sheet.len() > LONGEST_SHEET {\n        return refuse(16, sheet.len());\n    }\n    if permission > 3 {",
    ),
    variant!("sheet of 4096 refused", "writing.rs", "sheet.len() > LONGEST_SHEET", "sheet.len() >= LONGEST_SHEET"),
    variant!("sheet of 4097 written", "writing.rs", "LONGEST_SHEET: usize = 4096", "LONGEST_SHEET: usize = 4097"),
    variant!("a cut head ends the sheet", "writing.rs", "while !rest.is_empty() {", "while rest.len() >= 3 {"),
    variant!(
        "10 before 12",
        "writing.rs",
        "    let Some((record, rest)) = split_record(sheet) else {",
        "    if matches!(sheet[0], PAD | OVERLOAD | END) {\n        return refuse(10, place);\n    }\n    \
         let Some((record, rest)) = split_record(sheet) else {",
    ),
    variant!(
        "13 before 12",
        "writing.rs",
        "    let Some((record, rest)) = split_record(sheet) else {",
        "    if sheet.len() >= 3 && u16::from_be_bytes([sheet[1], sheet[2]]) > 1024 {\n        return refuse(13, place);\n    }\n    \
         let Some((record, rest)) = split_record(sheet) else {",
    ),
    variant!(
        "13 before 10",
        "writing.rs",
        "    if matches!(record.tag",
        "    if record.data.len() > LONGEST_RECORD {\n        return refuse(13, place);\n    }\n    if matches!(record.tag",
    ),
    variant!(
        "7 before 13",
        "writing.rs",
        "    if record.data.len() > LONGEST_RECORD {",
        "    if tags.has(record.tag) {\n        return refuse(7, place);\n    }\n    if record.data.len() > LONGEST_RECORD {",
    ),
    variant!(
        "8 and 9 before 7",
        "writing.rs",
        "    if !tags.add(record.tag) {",
        "    if let Some(kind) = kinds::kind_of(record.tag) {\n        \
         if let Err(fault) = kinds::judge(kind, record.tag, record.data) {\n            \
         return refuse(fault.number(), place);\n        }\n    }\n    if !tags.add(record.tag) {",
    ),
    variant!("tag 52 is written", "writing.rs", "PAD | OVERLOAD | END", "PAD | END"),
    variant!("1,025 bytes of data", "writing.rs", "LONGEST_RECORD: usize = 1024", "LONGEST_RECORD: usize = 1025"),
    variant!("1,024 bytes of data refused", "writing.rs", "LONGEST_RECORD: usize = 1024", "LONGEST_RECORD: usize = 1023"),
    variant!("256 bytes of data refused", "writing.rs", "LONGEST_RECORD: usize = 1024", "LONGEST_RECORD: usize = 255"),
    variant!(
        "kinds judge the first 255 bytes",
        "writing.rs",
        "kinds::judge(kind, record.tag, record.data)",
        "kinds::judge(kind, record.tag, &record.data[..record.data.len().min(255)])",
    ),
    variant!("repeated tags are written", "writing.rs", "if !tags.add(record.tag) {", "if false && !tags.add(record.tag) {"),
    variant!(
        "kinds are not judged",
        "writing.rs",
        "if let Some(kind) = kinds::kind_of(record.tag) {",
        "if let (Some(kind), true) = (kinds::kind_of(record.tag), false) {",
    ),
    variant!("14 is not checked", "writing.rs", "1 => tag_3_before_1 = tag_3,", "1 => (),"),
    variant!(
        "14 as soon as it is met",
        "writing.rs",
        "1 => tag_3_before_1 = tag_3,",
        "1 if tag_3.is_some() => return refuse(14, tag_3.unwrap()),",
    ),
    variant!("14 without tag 1", "writing.rs", "= tag_3_before_1 {", "= tag_3_before_1.or(tag_3) {"),
    variant!(
        "14 at tag 1",
        "writing.rs",
        "1 => tag_3_before_1 = tag_3,",
        "1 => tag_3_before_1 = tag_3.map(|_| place),",
    ),
    // Writing: the plans.
    variant!("plans tried falling", "writing.rs", "_ => &[1, 2, 3]", "_ => &[3, 2, 1]"),
    variant!("plan 2 before 1", "writing.rs", "_ => &[1, 2, 3]", "_ => &[2, 1, 3]"),
    variant!("plan 3 is not tried", "writing.rs", "_ => &[1, 2, 3]", "_ => &[1, 2]"),
    variant!("permission 3 without plan 1", "writing.rs", "_ => &[1, 2, 3]", "_ => &[2, 3]"),
    variant!("permission 2 without plan 2", "writing.rs", "2 => &[2]", "2 => &[]"),
    variant!("plan 0 is not tried", "writing.rs", "OPTIONS + size < length", "OPTIONS + size < length && permission == 0"),
    variant!("permission 0 permits 1", "writing.rs", "0 => &[]", "0 => &[1]"),
    variant!("permission 2 permits 1", "writing.rs", "2 => &[2]", "2 => &[1]"),
    variant!(
        "no byte kept for END",
        "writing.rs",
        &[
            ("OPTIONS + size < length", "OPTIONS + size <= length"),
            ("used + size + 1 > room", "used + size > room"),
            ("    room[used] = END;\n", "    room[used..].iter_mut().take(1).for_each(|byte| *byte = END);\n"),
            ("room[used + 1..].fill(0)", "room[used..].iter_mut().skip(1).for_each(|byte| *byte = 0)"),
        ],
    ),
    variant!("a byte more kept", "writing.rs", "used + size + 1 > room", "used + size + 2 > room"),
    variant!("plan 0 needs a byte more", "writing.rs", "OPTIONS + size < length", "OPTIONS + size + 1 < length"),
    variant!(
        "empty sheet in 240 bytes",
        "writing.rs",
        &[
            ("OPTIONS + size < length", "OPTIONS + size < length || size == 0"),
            ("    room[used] = END;\n", "    room[used..].iter_mut().take(1).for_each(|byte| *byte = END);\n"),
            ("room[used + 1..].fill(0)", "room[used..].iter_mut().skip(1).for_each(|byte| *byte = 0)"),
        ],
    ),
    variant!(
        "52 without END in 243 bytes",
        "writing.rs",
        &[
            ("OVERLOADED >= length", "OVERLOADED > length"),
            ("    room[used] = END;\n", "    room[used..].iter_mut().take(1).for_each(|byte| *byte = END);\n"),
            ("room[used + 1..].fill(0)", "room[used..].iter_mut().skip(1).for_each(|byte| *byte = 0)"),
        ],
    ),
    variant!("overloading needs 245 bytes", "writing.rs", "OVERLOADED >= length", "OVERLOADED + 1 >= length"),
    variant!("options takes no record when overloaded", "writing.rs", "length - OVERLOADED,", "length - length,"),
    variant!("file takes a byte less", "writing.rs", "fill(left, COOKIE - FILE,", "fill(left, COOKIE - FILE - 1,"),
    variant!("file takes a byte more", "writing.rs", "fill(left, COOKIE - FILE,", "fill(left, COOKIE - FILE + 1,"),
    variant!("sname takes a byte less", "writing.rs", "fill(left, FILE - SNAME,", "fill(left, FILE - SNAME - 1,"),
    variant!("sname takes a byte more", "writing.rs", "fill(left, FILE - SNAME,", "fill(left, FILE - SNAME + 1,"),
    // Of a plan that is used, options alone can be without a record.
    variant!(
        "a field of the plan without a record gets no END",
        "writing.rs",
        "    room[used] = END;\n",
        "    if used > 0 || sheet.records.is_empty() {\n        room[used] = END;\n    }\n",
    ),
    variant!("rest is not made zero", "writing.rs", "    room[used + 1..].fill(0);\n", ""),
    variant!("cookie is not written", "writing.rs", "    buffer[COOKIE..OPTIONS].copy_from_slice(&COOKIE_BYTES);\n", ""),
    variant!(
        "unused fields become zero",
        "writing.rs",
        "    // \"The cookie is written.\"\n",
        "    if plan == 0 {\n        buffer[SNAME..COOKIE].fill(0);\n    }\n",
    ),
    variant!(
        "header becomes zero",
        "writing.rs",
        "    // \"The cookie is written.\"\n",
        "    buffer[..SNAME].fill(0);\n",
    ),
    variant!(
        "52 last",
        "writing.rs",
        "        put_field(left, &mut buffer[SNAME..FILE]);\n    }\n",
        "        put_field(left, &mut buffer[SNAME..FILE]);\n    }\n    \
         let (_, used) = fill(sheet, buffer.len() - OVERLOADED, |_, _| ());\n    \
         buffer[OPTIONS..OVERLOADED + used].rotate_left(3);\n",
    ),
    variant!(
        "sname is filled before file",
        "writing.rs",
        "    if plan & 1 != 0 {\n        left = put_field",
        "    if plan == 3 {\n        left = put_field(left, &mut buffer[SNAME..FILE]);\n        \
         put_field(left, &mut buffer[FILE..COOKIE]);\n        return;\n    }\n    \
         if plan & 1 != 0 {\n        left = put_field",
    ),
    variant!(
        "going back to an earlier field",
        "writing.rs",
        &[
            (
                "fn takes(plan: u8, mut left: Left) -> bool {\n",
                "fn lay(sheet: Left, plan: u8, buffer: &mut [u8]) -> bool {
    let mut rooms = vec![(OVERLOADED, buffer.len()), (FILE, COOKIE), (SNAME, FILE)];
    if plan & 2 == 0 {
        rooms.remove(2);
    }
    if plan & 1 == 0 {
        rooms.remove(1);
    }
    let mut left = sheet;
    while let Some((record, rest)) = split_piece(left) {
        let size = 2 + record.data.len();
        let Some(room) = rooms.iter_mut().find(|room| room.0 + size < room.1) else {
            return false;
        };
        put_option(&record, &mut buffer[room.0..]);
        room.0 += size;
        left = rest;
    }
    for (free, after) in rooms {
        buffer[free] = END;
        buffer[free + 1..after].fill(0);
    }
    true
}

fn takes(plan: u8, mut left: Left) -> bool {
",
            ),
            ("plans.find(|&plan| takes(plan, left))", "plans.find(|&plan| lay(Left { records: sheet, put: 0 }, plan, &mut [0; LONGEST][..length]))"),
            (
                "    let mut left = put_field(sheet, &mut buffer[OVERLOADED..]);\n",
                "    if lay(sheet, plan, buffer) {\n        return;\n    }\n    \
                 let mut left = put_field(sheet, &mut buffer[OVERLOADED..]);\n",
            ),
        ],
    ),
    variant!("place when nothing fits", "writing.rs", "refuse(11, buffer.len())", "refuse(11, size)"),
    // Writing: pieces.
    variant!("pieces of 256", "writing.rs", "LONGEST_PIECE: usize = 255", "LONGEST_PIECE: usize = 256"),
    variant!("pieces of 254", "writing.rs", "LONGEST_PIECE: usize = 255", "LONGEST_PIECE: usize = 254"),
    variant!(
        "a last piece of 0 bytes",
        "writing.rs",
        &[
            ("data.len() > LONGEST_PIECE", "data.len() >= LONGEST_PIECE"),
            ("length.div_ceil(LONGEST_PIECE).max(1)", "length / LONGEST_PIECE + 1"),
        ],
    ),
    variant!(
        "the short piece first",
        "writing.rs",
        &[
            (
                "        let put = left.put + LONGEST_PIECE;\n",
                "        let size = if data.len() % LONGEST_PIECE > 0 { data.len() % LONGEST_PIECE } else { LONGEST_PIECE };\n        \
                 let put = left.put + size;\n",
            ),
            ("data: &data[..LONGEST_PIECE]", "data: &data[..size]"),
        ],
    ),
    variant!(
        "pieces in another order",
        "writing.rs",
        &[
            (
                "    let data = &data[left.put..];\n",
                "    let from = data.len() - left.put;\n    let all = data;\n    let data = &data[left.put..];\n",
            ),
            ("data: &data[..LONGEST_PIECE]", "data: &all[from - LONGEST_PIECE..from]"),
            ("    Some((Record { tag, data }, Left", "    Some((Record { tag, data: &all[..from] }, Left"),
        ],
    ),
    variant!(
        "all pieces of a record in one field",
        "writing.rs",
        "        let size = 2 + piece.data.len();\n        if used + size + 1 > room {",
        "        let size = 2 + piece.data.len();\n        \
         let whole = split_record(left.records).map_or(0, |(record, _)| record.data.len());\n        \
         if left.put == 0 && used + whole + 2 * piece_count(whole) + 1 > room || used + size + 1 > room {",
    ),
    variant!(
        "a record is cut where its field ends",
        "writing.rs",
        "        if used + size + 1 > room {\n            break;",
        "        if used + size + 1 > room {\n            if used + 4 <= room {\n                \
         let part = room - used - 3;\n                \
         put(used, &Record { tag: piece.tag, data: &piece.data[..part] });\n                \
         used += 2 + part;\n                left.put += part;\n            }\n            break;",
    ),
    variant!("a record counts one head", "writing.rs", "2 * piece_count(record.data.len())", "2"),
    variant!(
        "later pieces of 120 bytes",
        "writing.rs",
        "    let data = &data[left.put..];\n    if data.len() > LONGEST_PIECE {",
        "    let data = &data[left.put..];\n    if data.len() > 120 && left.put > 0 {\n        \
         return Some((Record { tag, data: &data[..120] }, Left { put: left.put + 120, ..left }));\n    }\n    \
         if data.len() > LONGEST_PIECE {",
    ),
    // Vendor information.
    variant!("vendor: END is needed", "vendor.rs", "    Ok(())\n}\n\n/// \"The reader lists", "    refuse(17, at)\n}\n\n/// \"The reader lists"),
    variant!("vendor: stops at 255 in data", "vendor.rs", "        meet(code, data);\n", "        meet(code, data);\n        if data.contains(&END) {\n            break;\n        }\n"),
    variant!("vendor: pads given as records", "vendor.rs", "            at += 1;\n            continue;", "            meet(PAD, &[]);\n            at += 1;\n            continue;"),
    variant!("vendor: 0 ends", "vendor.rs", "        if code == END {\n            break;", "        if code == END || code == PAD {\n            break;"),
    variant!(
        "vendor: an item cut short is taken",
        "vendor.rs",
        "rest.get(..usize::from(n))) else",
        "Some(&rest[..usize::from(n).min(rest.len())])) else",
    ),
    variant!("vendor: a lone code at the end is passed over", "vendor.rs", "            return refuse(17, at);", "            if at + 1 == bytes.len() {\n                break;\n            }\n            return refuse(17, at);"),
    variant!("vendor: place of an item that runs past", "vendor.rs", "refuse(17, at)", "refuse(17, at + 1)"),
    variant!("vendor: 52 is refused", "vendor.rs", "        meet(code, data);\n", "        if code == 52 {\n            return refuse(6, at);\n        }\n        meet(code, data);\n"),
    variant!(
        "vendor: what follows END is judged",
        "vendor.rs",
        "        if code == END {\n            break;",
        "        if code == END {\n            if bytes.len() == at + 2 {\n                return refuse(17, at + 1);\n            }\n            break;",
    ),
    variant!("vendor: 11 before 17", "vendor.rs", "    let mut size = 0;\n    walk(bytes", "    if sheet.is_empty() && !bytes.is_empty() {\n        return refuse(11, 0);\n    }\n    let mut size = 0;\n    walk(bytes"),
    variant!("vendor: a repeated code is dropped", "vendor.rs", "    let mut at = 0;\n    walk(bytes, |code, data| {\n", "    let mut at = 0;\n    let mut before = 0;\n    walk(bytes, |code, data| {\n        if code == before {\n            return;\n        }\n        before = code;\n"),
    variant!("vendor: the writer's END", "vendor.rs", "        to += 2 + data.len();\n    }\n    Ok(size)", "        to += 2 + data.len();\n    }\n    if let Some(byte) = output.get_mut(to) {\n        *byte = END;\n    }\n    Ok(size)"),
    variant!("vendor: 256 bytes given", "vendor.rs", "MOST: usize = 255", "MOST: usize = 256"),
    variant!("vendor: 254 bytes given", "vendor.rs", "MOST: usize = 255", "MOST: usize = 254"),
    variant!("vendor: 13 over 254 bytes", "vendor.rs", "LONGEST_DATA: usize = 255", "LONGEST_DATA: usize = 254"),
    variant!("vendor: 13 over 1,024 bytes", "vendor.rs", "LONGEST_DATA: usize = 255", "LONGEST_DATA: usize = 1024"),
    variant!("vendor: tag 52 is a 10", "vendor.rs", "if tag == PAD || tag == END {", "if tag == PAD || tag == END || tag == 52 {"),
    variant!("vendor: tag 0 is written", "vendor.rs", "if tag == PAD || tag == END {", "if tag == END {"),
    variant!("vendor: 13 before 10", "vendor.rs", "        if tag == PAD || tag == END {\n            return refuse(10, at);\n        }\n", "        if data.len() <= LONGEST_DATA && (tag == PAD || tag == END) {\n            return refuse(10, at);\n        }\n"),
    variant!("vendor: 11 with what is needed", "vendor.rs", "refuse(11, output.len())", "refuse(11, size.min(MOST))"),
    variant!("vendor: sheet of 4,097 bytes", "vendor.rs", "LONGEST_SHEET: usize = 4096", "LONGEST_SHEET: usize = 4097"),
    // An index.
    variant!("index: a code in pieces has its last place", "index.rs", "if *entry == ABSENT { met.place as u16 } else { IN_PIECES }", "met.place as u16"),
    variant!("index: a code in pieces has its first place", "index.rs", "else { IN_PIECES }", "else { *entry }"),
    variant!("index: the place of the data", "index.rs", "met.place as u16", "met.place as u16 + 2"),
    variant!("index: 52 has no entry", "index.rs", "        let entry = &mut entries", "        if met.code == 52 {\n            return;\n        }\n        let entry = &mut entries"),
    variant!("index: the entry of 255 is 65,535", "index.rs", "    index.copy_from_slice(&entries);", "    entries[255] = IN_PIECES;\n    index.copy_from_slice(&entries);"),
    variant!("index: old numbers are left", "index.rs", "    index.copy_from_slice(&entries);", "    for (old, new) in index.iter_mut().zip(entries) {\n        if new != ABSENT {\n            *old = new;\n        }\n    }"),
    variant!("index: a refused build fills", "index.rs", "    let mut entries = [ABSENT; COUNT];", "    index.fill(ABSENT);\n    let mut entries = [ABSENT; COUNT];"),
    variant!("index: building gives 256", "index.rs", "Ok(2 * COUNT)", "Ok(COUNT)"),
    variant!("index: 257 numbers", "index.rs", &[("if count != COUNT {", "if count < COUNT {"), ("    index.copy_from_slice(&entries);", "    index[..COUNT].copy_from_slice(&entries);")]),
    variant!("index: 18 with the count of bytes", "index.rs", "refuse(18, count)", "refuse(18, 2 * count)"),
    variant!("index: 18 before 1, 2 and 3", "index.rs", "    reading::check_frame(message)?;\n    if count != COUNT {\n        return refuse(18, count);\n    }\n    Ok(())", "    if count != COUNT {\n        return refuse(18, count);\n    }\n    reading::check_frame(message)"),
    variant!("index: the cookie is not asked", "index.rs", "    reading::check_frame(message)?;\n    if count", "    if message.len() < OPTIONS || message.len() > reading::LONGEST {\n        reading::check_frame(message)?;\n    }\n    if count"),
    variant!("index: 18 before 10", "index.rs", "    if code == PAD || code == END {\n", "    if index.len() == COUNT && (code == PAD || code == END) {\n"),
    variant!("index: 0 is walked", "index.rs", "        return Ok(Lookup::Absent);", "        return reading::lookup(message, known, code);"),
    variant!("index: 65,535 says absent", "index.rs", "        return reading::lookup(message, known, code);", "        return Ok(Lookup::Absent);"),
    variant!("index: 65,535 is unusable", "index.rs", "if entry == IN_PIECES {", "if entry == IN_PIECES - 1 {"),
    variant!("index: an unusable entry says absent", "index.rs", "        return refuse(19, usize::from(entry));", "        return Ok(Lookup::Absent);"),
    variant!("index: an unusable entry is walked", "index.rs", "        return refuse(19, usize::from(entry));", "        return reading::lookup(message, known, code);"),
    variant!("index: 19 with the code", "index.rs", "refuse(19, usize::from(entry))", "refuse(19, usize::from(code))"),
    variant!("index: another code is used", "index.rs", "    if bytes[place] != code {", "    if bytes[place] == PAD {"),
    variant!("index: data run out of the field", "index.rs", "    if place + 2 + length > after {", "    if place + 2 + length > message.len() {"),
    variant!("index: data end with the field", "index.rs", "    if place + 2 + length > after {", "    if place + 2 + length >= after {"),
    variant!("index: sname's entries are not used", "index.rs", "(SNAME..FILE).contains(&place)", "(FILE..FILE).contains(&place)"),
    variant!("index: sname's first byte is not in it", "index.rs", "(SNAME..FILE)", "(SNAME + 1..FILE)"),
    variant!("index: file's first byte is not in it", "index.rs", "(FILE..COOKIE)", "(FILE + 1..COOKIE)"),
    variant!("index: the first byte of options is not in it", "index.rs", "(OPTIONS..message", "(OPTIONS + 1..message"),
    variant!("index: data run into the cookie", "index.rs", "(Field::File, COOKIE)", "(Field::File, OPTIONS)"),
    variant!("index: a faulty message is refused first", "index.rs", "    let entry = index[usize::from(code)];", "    reading::walk(message, |_| ())?;\n    let entry = index[usize::from(code)];"),
    variant!("index: options alone has entries", "index.rs", "        let entry = &mut entries", "        if met.field != Field::Options {\n            return;\n        }\n        let entry = &mut entries"),
    variant!("index: the offset in the field", "index.rs", "met.place as u16", "met.origin().offset as u16"),
    variant!("index: the low byte of a place", "index.rs", "met.place as u16", "u16::from(met.place as u8)"),
    variant!("index: two pieces have the entry 0", "index.rs", "else { IN_PIECES }", "else { ABSENT }"),
    variant!("index: 18 after the faults of the message", "index.rs", "    check(message, index.len())?;\n    let mut entries", "    reading::walk(message, |_| ())?;\n    check(message, index.len())?;\n    let mut entries"),
    variant!("index: 255 numbers, which have every code", "index.rs", "    check(message, index.len())?;\n    let entry", "    if index.len() != COUNT - 1 {\n        check(message, index.len())?;\n    }\n    reading::check_frame(message)?;\n    let entry"),
    variant!("index: 1 says absent", "index.rs", "    if entry == ABSENT {", "    if entry <= 1 {"),
    variant!("index: 65,534 is walked", "index.rs", "if entry == IN_PIECES {", "if entry >= IN_PIECES - 1 {"),
    variant!("index: an entry past the message says absent", "index.rs", "    if entry == ABSENT {", "    if entry == ABSENT || (usize::from(entry) >= message.len() && entry != IN_PIECES) {"),
    variant!("index: an entry in the header is used", "index.rs", "(SNAME..FILE).contains", "(1..FILE).contains"),
    variant!("index: an entry in the cookie is used", "index.rs", "(OPTIONS..message.len()).contains", "(COOKIE..message.len()).contains"),
    variant!("index: the last byte of sname is in file", "index.rs", &[("(SNAME..FILE).contains", "(SNAME..FILE - 1).contains"), ("(FILE..COOKIE).contains", "(FILE - 1..COOKIE).contains")]),
    variant!("index: data run from sname into file", "index.rs", "(Field::Sname, FILE)", "(Field::Sname, COOKIE)"),
    variant!("index: the length byte may stand behind the field", "index.rs", &[("*bytes.get(place + 1)?", "*message.get(place + 1)?"), ("    if place + 2", "    if length > 0 && place + 2")]),
    variant!("index: data run a byte past the field", "index.rs", "length > after {", "length > (after + 1).min(message.len()) {"),
    variant!("index: only what the walk meets is used", "index.rs", "    if bytes[place] != code {", "    let mut met = false;\n    let _ = reading::walk(message, |other| met |= other.place == place);\n    if bytes[place] != code || !met {"),
    variant!("index: only active fields are used", "index.rs", "    if bytes[place] != code {", "    let mut active = field == Field::Options;\n    let _ = reading::walk(message, |other| active |= other.field == field);\n    if bytes[place] != code || !active {"),
    variant!("index: one piece of several is joined", "index.rs", "    let content = reading::content(known", "    let mut pieces = 0;\n    let walked = reading::walk(message, |other| pieces += usize::from(other.code == code));\n    if pieces > 1 && walked.is_ok() {\n        return reading::lookup(message, known, code);\n    }\n    let content = reading::content(known"),
    variant!("index: the known set is not asked", "index.rs", "reading::content(known,", "reading::content(Codes([u64::MAX; 4]),"),
    variant!("index: one piece with its whole length", "index.rs", "met.origin(), None, content", "met.origin(), Some(met.length), content"),
];
