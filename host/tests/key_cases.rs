//! The worked examples of order 1, through the entry itself: the head of their file says what a line is.
use tulofewa::ffi::{self, KeyAnswer, Line, Log, Ring, Used};

const CASES: &str = include_str!("../../crates/test_answers/data/key_cases.txt");

/// Bytes as the file has them: hexadecimal, `*` with a count for a byte that is repeated, then a comma.
fn bytes(field: &str) -> Vec<u8> {
    let mut all = Vec::new();
    for part in field.split(',').filter(|part| *part != "-") {
        let (hex, count) = part.split_once('*').unwrap_or((part, "1"));
        all.extend((0..hex.len()).step_by(2).map(|at| u8::from_str_radix(&hex[at..at + 2], 16).unwrap()));
        let last = *all.last().unwrap();
        all.resize(all.len() + count.parse::<usize>().unwrap() - 1, last);
    }
    all
}

/// The numbers of the fields that are left.
fn states<'a>(fields: impl Iterator<Item = &'a str>) -> (Vec<usize>, Line, Log, Ring) {
    let mut numbers: Vec<usize> = fields.map(|field| field.parse().unwrap()).collect();
    let states = numbers.split_off(numbers.len() - 12);
    let [len, cursor, ur, ut, rr, rt, level, size, count, index, action, yanked] = states.try_into().unwrap();
    let log = Log { undo: Used { records: ur, texts: ut }, redo: Used { records: rr, texts: rt }, level };
    (numbers, Line { len, cursor }, log, Ring { size, count, index, action, yanked })
}

/// The used part of a buffer, by the states of an answer; of the slots their texts, one behind the other.
fn used(which: usize, buffers: &[Vec<u8>; 5], answer: &KeyAnswer) -> Vec<u8> {
    let KeyAnswer { line, log, ring, .. } = answer;
    let length = |slot: usize| usize::from(u16::from_le_bytes([buffers[4][2 * slot], buffers[4][2 * slot + 1]]));
    match which {
        0 => buffers[0][..line.len].to_vec(),
        1 => buffers[1][..log.undo.records + log.redo.records].to_vec(),
        2 => buffers[2][..log.undo.texts + log.redo.texts].to_vec(),
        3 => (0..ring.count).flat_map(|slot| buffers[3][4_096 * slot..][..length(slot)].to_vec()).collect(),
        _ => buffers[4][..2 * ring.count].to_vec(),
    }
}

fn press(buffers: &mut [Vec<u8>; 5], (line, log, ring): (Line, Log, Ring), key: &[u8]) -> KeyAnswer {
    let [text, records, texts, slots, lens] = buffers.each_mut().map(|buffer| (buffer.as_mut_ptr(), buffer.len()));
    // SAFETY: five buffers, allocations of their own, each with its length; the key is another.
    unsafe {
        ffi::tlf_line_key(
            text.0,
            text.1,
            records.0,
            records.1,
            texts.0,
            texts.1,
            slots.0,
            slots.1,
            lens.0,
            lens.1,
            line,
            log,
            ring,
            key.as_ptr(),
            key.len(),
        )
    }
}

#[test]
fn the_worked_examples() {
    let mut what = "";
    let mut count = 0;
    for row in CASES.lines() {
        if row.starts_with('#') {
            what = row;
            continue;
        }
        let (lent, due) = row.split_once(" > ").unwrap();
        let mut fields = lent.split(' ').skip(1);
        let before: [Vec<u8>; 5] = std::array::from_fn(|_| bytes(fields.next().unwrap()));
        let key = bytes(fields.next().unwrap());
        let (_, line, log, ring) = states(fields);
        let mut fields = due.split(' ');
        let left: [&str; 5] = std::array::from_fn(|_| fields.next().unwrap());
        let (answer, line_due, log_due, ring_due) = states(fields);
        let [number, from, to] = answer.try_into().unwrap();
        let wanted =
            KeyAnswer { number: number.try_into().unwrap(), from, to, line: line_due, log: log_due, ring: ring_due };

        let mut buffers = before.clone();
        assert_eq!(press(&mut buffers, (line, log, ring), &key), wanted, "{what}");
        for (which, due) in left.into_iter().enumerate() {
            match due {
                "=" => assert!(buffers[which] == before[which], "{what}: a byte of buffer {which}"),
                due => assert_eq!(used(which, &buffers, &wanted), bytes(due), "{what}: buffer {which}"),
            }
        }
        count += 1;
    }
    assert_eq!(count, 116);
}
