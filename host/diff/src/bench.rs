//! The bench: strict reassembly, the splitter, the transmit check. The original's texts are read back as document 01's numbers.
use crate::ids::TOO_WIDE;
use crate::rng::Rng;
use crate::tally::answered;
use port::oracle::{self as ours, Frames};
use port::raw;
use reference::oracle::{check_tx, fast_packet_frames, reassemble, Frame};

/// A frame's eight bytes, and its length; the original keeps as many bytes as the length says.
type Row = Vec<(u32, [u8; 8], usize)>;

/// A refusal: its number, and what it carries, then zeros.
type Refused = (u32, [u64; 5]);

fn rows(row: &Row) -> (Vec<Frame>, Frames) {
    let mut p = Frames::default();
    let o = row
        .iter()
        .map(|&(id, data, len)| {
            p.push(id, data, len);
            Frame { id, data: data.iter().copied().cycle().take(len.min(64)).collect() }
        })
        .collect();
    (o, p)
}

/// The numbers in a text, in order; words of hexadecimal digits in brackets or before "instead of FF" are asked for by name.
fn decimal(text: &str) -> Vec<u64> {
    text.split(|c: char| !c.is_ascii_digit()).filter(|w| !w.is_empty()).map(|w| w.parse().unwrap()).collect()
}

/// The original's text as a refusal. `len` gives the DLC that the text says in full.
fn numbered(text: &str) -> Refused {
    let five = |number, values: &[u64]| {
        let mut carried = [0; 5];
        carried[..values.len()].copy_from_slice(values);
        (number, carried)
    };
    if let Some(rest) = text.strip_prefix("frame ") {
        let n: u64 = rest.split(' ').next().unwrap().parse().unwrap();
        let what = rest.split_once("): ").unwrap().1;
        let x = decimal(what);
        return match what {
            _ if what.starts_with("DLC ") => five(20, &[n, x[0]]),
            _ if what.starts_with("new message") => five(21, &[n]),
            _ if what.starts_with("announced") => five(22, &[n, x[0]]),
            _ if what.starts_with("continuation") => five(23, &[n]),
            _ if what.starts_with("sequence") => five(24, &[n, x[0], x[1], x[2], x[3]]),
            _ if what.starts_with("padding byte ") => five(25, &[n, u64::from_str_radix(&what[13..15], 16).unwrap()]),
            _ => panic!("{text}"),
        };
    }
    let x = decimal(text);
    match text {
        _ if text.starts_with("message of ") => five(26, &[x[0]]),
        _ if text.starts_with("expected message count") => five(30, &[]),
        _ if text.starts_with("no address claim") => five(32, &[]),
        _ if text.contains("messages of 127489") => five(33, &[x[0]]),
        _ if text.contains("bytes instead of 26") => five(34, &[x[0]]),
        _ if text.contains("engine hours") => five(35, &[x[0]]),
        _ if text.contains("differs from the firmware pattern") => five(36, &[x[0]]),
        _ if text.contains(": sequence ") => five(37, &[x[0]]),
        _ => panic!("{text}"),
    }
}

/// The entry of strict reassembly, put over what stood there: beside a number of messages stand zeros.
fn reassembled(p: &Frames, source: u8, pgn: u32, list: &mut [usize], arena: &mut [u8]) -> Result<usize, Refused> {
    let mut values = [0xEE; 5];
    let number = raw::reassemble(p, source, pgn, list, arena, &mut values);
    answered("reassemble", number);
    if number == 0 {
        assert_eq!(values[1..], [0; 4]);
        Ok(values[0] as usize)
    } else {
        Err((number, values))
    }
}

/// The same of the transmit check.
fn checked(p: &Frames, source: u8, expected: usize, base: u32) -> Result<(), Refused> {
    let mut values = [0xEE; 5];
    let number = raw::check_tx(p, source, expected, base, &mut values);
    answered("check", number);
    if number == 0 {
        assert_eq!(values, [0; 5]);
        Ok(())
    } else {
        Err((number, values))
    }
}

/// The same of the splitter: 0 frames beside a refusal.
fn laid(id: u32, sequence: u8, payload: &[u8], row: &mut Frames) -> Result<usize, u32> {
    let mut frames = 0xEE;
    let number = raw::fast_packet_frames(id, sequence, payload, row, &mut frames);
    answered("split", number);
    if number == 0 {
        Ok(frames)
    } else {
        assert_eq!(frames, 0);
        Err(number)
    }
}

/// The first frame whose identifier is too wide. A row without one is held to the original; with one, document 02's No. 4 decides.
fn first_wide(row: &Row) -> Option<u32> {
    row.iter().position(|&(id, ..)| id >= TOO_WIDE).map(|n| n as u32)
}

/// 29, and what it carries.
fn wide_at(n: u32) -> Refused {
    (29, [n as u64, 0, 0, 0, 0])
}

/// A row as it is lent.
fn lent(n: usize) -> Frames {
    Frames { ids: vec![0xEEEE_EEEE; n], bytes: vec![0xEE; 8 * n], lens: vec![0xEE; n] }
}

/// Strict reassembly, with `short` numbers of the list and bytes of the arena missing from what is needed.
pub fn judge(row: &Row, source: u8, pgn: u32, list_room: usize, arena_room: usize) -> u32 {
    let (o, p) = rows(row);
    let (mut list, mut arena) = (vec![0xEE; list_room], vec![0xEE; arena_room]);
    let (list0, arena0) = (list.clone(), arena.clone());
    let got = reassembled(&p, source, pgn, &mut list, &mut arena);
    let mut safe = (list0.clone(), arena0.clone());
    assert_eq!(ours::reassemble(&p, source, pgn, &mut safe.0, &mut safe.1).map_err(|e| (e.number(), e.carried())), got);
    assert_eq!((&safe.0, &safe.1), (&list, &arena), "the safe call");
    if let Some(n) = first_wide(row) {
        assert_eq!(got, Err(wide_at(n)), "before every other test");
        assert_eq!((list, arena), (list0, arena0), "a refusal changes no lent memory");
        return 29;
    }
    match reassemble(&o, source, pgn) {
        Err(text) => {
            let want = numbered(&text);
            assert_eq!(got, Err(want), "{text}");
            assert_eq!((list, arena), (list0, arena0), "a refusal changes no lent memory");
            want.0
        }
        Ok(messages) => {
            let bytes: usize = messages.iter().map(|m| m.payload.len()).sum();
            if messages.len() > list_room / 3 || bytes > arena_room {
                assert_eq!(got, Err((27, [0; 5])));
                assert_eq!((list, arena), (list0, arena0), "a refusal changes no lent memory");
                return 27;
            }
            assert_eq!(got, Ok(messages.len()));
            let (mut want_list, mut want_arena) = (list0, arena0);
            let mut at = 0;
            for (k, m) in messages.iter().enumerate() {
                want_list[3 * k..3 * k + 3].copy_from_slice(&[m.sequence as usize, at, m.payload.len()]);
                want_arena[at..at + m.payload.len()].copy_from_slice(&m.payload);
                at += m.payload.len();
            }
            assert_eq!((list, arena), (want_list, want_arena));
            0
        }
    }
}

/// The transmit check. Document 01 gives 31, before 32 to 37, where the original would trap or give those; 29 stands between them.
pub fn transmit(row: &Row, source: u8, expected: usize, base: u32) -> u32 {
    let (o, p) = rows(row);
    let got = checked(&p, source, expected, base);
    assert_eq!(ours::check_tx(&p, source, expected, base).map_err(|e| (e.number(), e.carried())), got);
    if expected > 0 && base as u128 + expected as u128 - 1 > u32::MAX as u128 {
        assert_eq!(got, Err((31, [0; 5])));
        return 31;
    }
    if let (Some(n), 1..) = (first_wide(row), expected) {
        assert_eq!(got, Err(wide_at(n)), "after 30 and 31, before 32");
        return 29;
    }
    let want = check_tx(&o, source, expected, base).map_err(|t| numbered(&t));
    assert_eq!(got, want, "source {source}, {expected} messages from {base}");
    want.err().map_or(0, |r| r.0)
}

/// The splitter, into a row of `room` frames.
pub fn split(id: u32, sequence: u8, payload: &[u8], room: usize) -> u32 {
    let mut row = lent(room);
    let before = row.clone();
    let got = laid(id, sequence, payload, &mut row);
    let mut safe = before.clone();
    assert_eq!(ours::fast_packet_frames(id, sequence, payload, &mut safe).map_err(|e| e.number()), got);
    assert_eq!(safe, row, "the safe call");
    if payload.is_empty() || payload.len() > 223 || sequence > 7 {
        assert_eq!((got, row), (Err(28), before), "28 where the original traps");
        return 28;
    }
    if id >= TOO_WIDE {
        assert_eq!((got, row), (Err(8), before), "8 after 28, before 27");
        return 8;
    }
    let want = fast_packet_frames(id, sequence, payload);
    if room < want.len() {
        assert_eq!((got, row), (Err(27), before));
        return 27;
    }
    assert_eq!(got, Ok(want.len()));
    let mut after = before;
    for (k, f) in want.iter().enumerate() {
        after.ids[k] = f.id;
        after.bytes[8 * k..8 * k + 8].copy_from_slice(&f.data);
        after.lens[k] = 8;
    }
    assert_eq!(row, after);
    0
}

/// Every payload length and sequence, and rows that are one too short, just long enough and longer.
pub fn every_split() -> u64 {
    let mut steps = 0;
    for (ids, bytes, lens) in (0..9).flat_map(|a| (0..70).flat_map(move |b| (0..9).map(move |c| (a, b, c)))) {
        let rows = Frames { ids: vec![0; ids], bytes: vec![0; bytes], lens: vec![0; lens] };
        assert_eq!((raw::hf_frame_count(ids, bytes, lens), rows.len()), (ids.min(bytes / 8).min(lens), ids.min(bytes / 8).min(lens)), "the shortest row decides");
        steps += 1;
    }
    let payload: Vec<u8> = (0..300).map(|i| (i * 11 + 3) as u8).collect();
    for len in 0..=300 {
        for sequence in [0, 1, 7, 8, 255] {
            for room in [0, len / 7, len / 7 + 1, 50] {
                split(0x19F2_0123 ^ len as u32, sequence, &payload[..len], room);
                steps += 1;
            }
        }
    }
    steps
}

/// Every announced length with every last byte count: one message, whole, cut and padded wrongly.
pub fn every_message() -> u64 {
    let mut steps = 0;
    let payload: Vec<u8> = (0..223).map(|i| (i * 5 + 9) as u8).collect();
    for len in 1..=223usize {
        for sequence in 0..8 {
            let frames = fast_packet_frames(0x19F2_0123, sequence, &payload[..len]);
            let row: Row = frames.iter().map(|f| (f.id, f.data.clone().try_into().unwrap(), 8)).collect();
            for (list, arena) in [(3, len), (2, len), (3, len - 1), (9, 300)] {
                judge(&row, 35, 127_489, list, arena);
                steps += 1;
            }
            judge(&row[..row.len() - 1].to_vec(), 35, 127_489, 3, 223);
            for at in 0..8 {
                let mut bad = row.clone();
                bad.last_mut().unwrap().1[at] ^= 0x10;
                judge(&bad, 35, 127_489, 3, 223);
            }
            steps += 9;
        }
    }
    steps
}

const IDS: [u32; 5] = [0x19F2_0123, 0x05F2_0123, 0x19F2_0124, 0x18EE_FF23, 0x0DED_1023];

/// A driver's flags, one of them or more.
const FLAGS: [u32; 4] = [0x2000_0000, 0x4000_0000, 0x8000_0000, 0xE000_0000];

/// A capture: messages of one source and PGN, and other frames between them; `spoil` bends some frames.
fn capture(r: &mut Rng, spoil: u64) -> (Row, u8, u32) {
    let mut row: Row = vec![];
    let other = |r: &mut Rng, row: &mut Row| {
        if r.one_in(3) {
            row.push((r.pick(&IDS[2..]), r.bytes(), r.below(9) as usize));
        }
    };
    for _ in 0..r.below(5) {
        let len = if r.one_in(2) { r.pick(&[1, 5, 6, 7, 13, 14, 26, 222, 223]) } else { 1 + r.below(223) as usize };
        let payload = r.vec(len);
        let id = r.pick(&IDS[..2]);
        for f in fast_packet_frames(id, r.below(8) as u8, &payload) {
            other(r, &mut row);
            row.push((id, f.data.try_into().unwrap(), 8));
        }
    }
    other(r, &mut row);
    if spoil > 0 && !row.is_empty() {
        for _ in 0..r.below(spoil + 1) {
            let k = r.below(row.len() as u64) as usize;
            match r.below(7) {
                0 => row[k].2 = r.pick(&[0, 1, 7, 9, 15, 16]),
                1 => row[k].1[0] = r.byte(),
                2 => row[k].1[1] = r.pick(&[0, 1, 6, 7, 223, 224, 255]),
                3 => row[k].1[r.below(8) as usize] = r.byte(),
                4 => {
                    row.remove(k);
                    if row.is_empty() {
                        break;
                    }
                }
                5 => row.insert(k, row[k]),
                _ => row[k].0 = if r.one_in(3) { row[k].0 | r.pick(&FLAGS) } else { r.next() as u32 >> 3 },
            }
        }
    }
    (row, 35, r.pick(&[127_489, 127_489, 127_489, 60_928]))
}

/// The firmware's 26-byte message.
fn engine(hours: u32) -> Vec<u8> {
    let mut p = vec![0; 26];
    p[19] = 0xFF;
    p[11..15].copy_from_slice(&hours.to_le_bytes());
    p
}

/// A transmit capture, mostly right, with one thing bent or more.
fn transmission(r: &mut Rng) -> (Row, u8, usize, u32) {
    let mut row: Row = vec![];
    let base = r.pick(&[0, 1, 1000, u32::MAX - 2, u32::MAX, 0x0102_0304]);
    let count = r.below(5) as usize;
    if !r.one_in(6) {
        row.push((0x18EE_FF23, r.bytes(), if r.one_in(6) { r.below(9) as usize } else { 8 }));
    }
    let mut sequence = r.below(8) as u8;
    for i in 0..count {
        let mut p = engine(base.wrapping_add(i as u32));
        match r.below(12) {
            0 => p[r.below(26) as usize] ^= 1 << r.below(8),
            1 => p.truncate(1 + r.below(25) as usize),
            2 => p.extend_from_slice(&[0; 7]),
            _ => {}
        }
        for f in fast_packet_frames(0x19F2_0123, sequence, &p) {
            row.push((f.id, f.data.try_into().unwrap(), 8));
        }
        if r.one_in(8) {
            row.push((r.pick(&IDS[1..]), r.bytes(), 8));
        }
        sequence = (sequence + if r.one_in(10) { 2 } else { 1 }) % 8;
    }
    if r.one_in(10) {
        row.push((0x18EE_FF23, r.bytes(), 8));
    }
    if r.one_in(6) && !row.is_empty() {
        let k = r.below(row.len() as u64) as usize;
        match r.below(4) {
            0 => row[k].1[r.below(8) as usize] = r.byte(),
            1 => row[k].2 = r.below(17) as usize,
            2 => row[k].0 |= r.pick(&FLAGS),
            _ => {
                row.remove(k);
            }
        }
    }
    let expected = match r.below(10) {
        0 => 0,
        1 => r.below(7) as usize,
        2 => r.next() as usize,
        _ => count,
    };
    (row, 35, expected, base)
}

/// A flag at every frame of a transmission, in turn and at two frames at once, with every frame spoiled or none, and with too little room: the first flag is
/// told whatever else is wrong, and 30, 31 and 28 before it.
pub fn every_wide() -> u64 {
    let mut good: Row = vec![(0x18EE_FF23, [0xFF; 8], 8), (0x19F2_0124, [0; 8], 3)];
    for (sequence, hours) in [(3, 1000), (4, 1001)] {
        good.extend(fast_packet_frames(0x19F2_0123, sequence, &engine(hours)).into_iter().map(|f| (f.id, f.data.try_into().unwrap(), 8)));
    }
    let mut steps = 0;
    for (wide, flag) in (0..good.len()).flat_map(|k| FLAGS.map(|flag| (k, flag))) {
        for (spoiled, second) in (0..=good.len()).flat_map(|j| (0..good.len()).map(move |k| (j, k))) {
            let mut row = good.clone();
            if let Some(frame) = row.get_mut(spoiled) {
                frame.2 = 7;
            }
            row[wide].0 |= flag;
            row[second].0 |= 0x4000_0000;
            for (list, arena) in [(6, 52), (5, 52), (6, 51), (0, 0)] {
                assert_eq!(judge(&row, 35, 127_489, list, arena), 29);
            }
            for (source, pgn) in [(36, 127_489), (35, 60_928), (255, 0)] {
                assert_eq!(judge(&row, source, pgn, 6, 52), 29);
            }
            for (source, expected, base, want) in [(35, 2, 1000, 29), (36, 2, 1000, 29), (35, 3, 7, 29), (35, 0, 1000, 30), (35, 2, u32::MAX, 31)] {
                assert_eq!(transmit(&row, source, expected, base), want);
            }
            steps += 12;
        }
        let id = good[wide].0 | flag;
        for (sequence, len, room, want) in [(0, 26, 4, 8), (0, 26, 3, 8), (7, 1, 0, 8), (8, 26, 4, 28), (0, 0, 4, 28), (0, 224, 40, 28)] {
            assert_eq!(split(id, sequence, &[7; 224][..len], room), want);
            steps += 1;
        }
    }
    steps
}

/// Rows of unequal lengths: the same answers and the same lent memory as the rows cut to the shortest, which are held to the original.
fn unequal(r: &mut Rng, row: &Row, source: u8, pgn: u32) {
    let (_, p) = rows(row);
    let mut long = p.clone();
    for _ in 0..r.below(3) {
        long.ids.push(r.pick(&[0x19F2_0123, 0x99F2_0123]));
    }
    let more = r.below(20) as usize;
    long.bytes.extend(r.vec(more));
    long.lens.resize(p.lens.len() + r.below(3) as usize, 8);
    match r.below(3) {
        0 => long.ids.truncate(p.ids.len()),
        1 => long.bytes.truncate(p.bytes.len() + 7),
        _ => long.lens.truncate(p.lens.len()),
    }
    let ((mut list, mut arena), (mut list1, mut arena1)) = ((vec![0xEE; 30], vec![0xEE; 1200]), (vec![0xEE; 30], vec![0xEE; 1200]));
    assert_eq!(reassembled(&long, source, pgn, &mut list1, &mut arena1), reassembled(&p, source, pgn, &mut list, &mut arena));
    assert_eq!((list1, arena1), (list, arena), "the shortest row decides");
    let (expected, base) = (r.below(4) as usize, r.pick(&[0, 1000]));
    assert_eq!(checked(&long, source, expected, base), checked(&p, source, expected, base), "the shortest row decides");
    // the splitter lays into the shortest, and leaves the rest of the others
    let len = 1 + r.below(223) as usize;
    let payload = r.vec(len);
    let (mut short, mut over) = (lent(p.len()), Frames { ids: vec![0xEEEE_EEEE; long.ids.len()], bytes: vec![0xEE; long.bytes.len()], lens: vec![0xEE; long.lens.len()] });
    assert_eq!(laid(5, 3, &payload, &mut over), laid(5, 3, &payload, &mut short), "the shortest row decides");
    let n = p.len();
    assert_eq!((&over.ids[..n], &over.bytes[..8 * n], &over.lens[..n]), (&short.ids[..], &short.bytes[..], &short.lens[..]));
    assert!(over.ids[n..].iter().all(|&x| x == 0xEEEE_EEEE) && over.bytes[8 * n..].iter().all(|&x| x == 0xEE) && over.lens[n..].iter().all(|&x| x == 0xEE));
}

/// Rows of unequal lengths, at random.
pub fn unequal_rows(seed: u64, steps: u64) -> u64 {
    let mut r = Rng::new(seed);
    for _ in 0..steps {
        let spoil = r.below(2);
        let (row, source, pgn) = if r.one_in(3) { let (row, source, _, _) = transmission(&mut r); (row, source, 127_489) } else { capture(&mut r, spoil) };
        unequal(&mut r, &row, source, pgn);
    }
    steps
}

/// Random captures, transmissions and payloads.
pub fn random(seed: u64, steps: u64) -> u64 {
    let mut r = Rng::new(seed);
    for _ in 0..steps {
        match r.below(8) {
            0..=3 => {
                let spoil = r.below(3);
                let (row, source, pgn) = capture(&mut r, spoil);
                let (list, arena) = (r.pick(&[0, 2, 3, 5, 9, 12, 40]), r.pick(&[0, 1, 26, 223, 446, 2000, 2000]));
                judge(&row, source, pgn, list, arena)
            }
            4..=6 => {
                let (row, source, expected, base) = transmission(&mut r);
                transmit(&row, source, expected, base)
            }
            _ => {
                let len = if r.one_in(4) { r.pick(&[0, 1, 6, 7, 222, 223, 224, 300]) } else { r.below(240) as usize };
                let payload = r.vec(len);
                split(r.next() as u32 >> r.pick(&[0, 3, 3, 3]), r.below(9) as u8, &payload, r.below(40) as usize)
            }
        };
    }
    steps
}
