//! The heads of the data files with recorded answers: what a line is, and how its fields are written.

/// Of a call that is lent a text or a log.
pub const STATE: &str = "\
A line is a call with all that it is lent, '>', and all that it answers and leaves:
    NAME TEXT RECORDS TEXTS BUF NEW LEN CURSOR UR UT RR RT LEVEL ARGUMENT* > TEXT RECORDS TEXTS NUMBER FROM TO LEN CURSOR UR UT RR RT LEVEL
TEXT, RECORDS and TEXTS are the whole lent buffers, LEN and CURSOR the line, UR and UT the used lengths of the undo
list's records and texts, RR and RT those of the redo list, LEVEL the group level. BUF is the text that the call is
handed, and of the log's replace the old one with NEW the new one; the other arguments stand in the order of the
call's parameters. Of a buffer that a call is not lent nothing is written, '-', and 0 of a state.
Behind '>' TEXT, RECORDS and TEXTS are the used parts that are left; '=' where no byte of the whole buffer may change.
";

/// Of a call that is lent a ring.
pub const RING: &str = "\
A line is a call with all that it is lent, '>', and all that it answers and leaves:
    NAME SLOTS LENS TEXT SIZE COUNT INDEX ACTION YANKED ARGUMENT* > SLOTS LENS NUMBER SLOT SIZE SIZE COUNT INDEX ACTION YANKED
SLOTS and LENS are the whole lent buffers, TEXT is the text that the call is handed, SIZE to YANKED the ring's record.
Behind '>' SLOTS are the texts of the slots in use, one behind the other, and LENS their lengths; '=' where no byte of
the whole buffer may change. The first SIZE there is the size before, which yank_pop answers.
";

/// Of a key.
pub const KEY: &str = "\
A line is a key with all that it is lent, '>', and all that it answers and leaves:
    NAME TEXT RECORDS TEXTS SLOTS LENS KEY LEN CURSOR UR UT RR RT LEVEL SIZE COUNT INDEX ACTION YANKED > \
TEXT RECORDS TEXTS SLOTS LENS NUMBER FROM TO LEN CURSOR UR UT RR RT LEVEL SIZE COUNT INDEX ACTION YANKED
TEXT to LENS are the whole lent buffers, KEY is the key's bytes, LEN and CURSOR the line, UR and UT the used lengths of
the undo list's records and texts, RR and RT those of the redo list, LEVEL the group level, SIZE to YANKED the ring's
record. Behind '>' TEXT, RECORDS and TEXTS are the used parts that are left, SLOTS the texts of the slots in use, one
behind the other, and LENS their lengths; '=' where no byte of the whole buffer may change. 13 is the harness's reading
of order 1, as are the two calls that a key stands for.
";

/// Of a slip.
pub const SLIP: &str = "\
A line is a slip with all that it is lent, '>', and all that it answers and leaves:
    NAME TEXT PAGE > PAGE NUMBER VALUE
TEXT is the lent text, PAGE the whole lent page. Behind '>' PAGE is the whole page too, the slip at its front and what
stands behind it; '=' where no byte of it may change. The Rust has no such call: number, value and page are the
harness's reading of order 2, with the Rust's clusters and columns.
";

/// Of every file.
pub const HEAD: &str = "\
Texts are in hexadecimal, '-' where there is none; '*' and a decimal number behind it say how often the byte before it
stands there in all, and a comma begins the next bytes: 0a61*3,62 is 0a61616162. Numbers are decimal. Where more than 8
bytes stand behind the used part of a buffer, each of them is written as 9f: no answer depends on them.
";

/// Of every file but that of slips.
pub const ANSWERS: &str = "\
0 and 1 with places, text, cursor, lists and slots are the Rust's answers. From 2 on the Rust has none: number and
what is left are the harness's reading of document 01, and so are cancel, redo's cursor and, where undo, redo or
cancel is stopped by 9 or 12, the number. A line move that measures U+0009 or \\r is the Rust's on a text that has a
letter for each of them, as document 01 counts them.
";
