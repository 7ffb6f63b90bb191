//! Single rules that no other file probes: lengths with high bytes, voice names, types above
//! 31, every table under both rules, kinds of entries, whole records read, edited and written.

mod common;

use common::{at_positions, entries_of, m, plain_record};
use second::body::{read_body, read_group};
use second::edit::edit;
use second::gen::cntts::{at_position, position, with_cntt};
use second::place::place_note;
use second::plays::who_plays;
use second::record::{First, Record};
use second::style::find;
use second::voice::voice_name;
use second::write::{chunk, group_bytes, write_group};

fn number_of(body: &[u8]) -> (u8, usize) {
    match read_body(body) {
        Ok(_) => (0, 0),
        Err(refusal) => (refusal.number, refusal.place),
    }
}

/// A plain record with every byte different from the plain ones where its range allows it.
fn other_record() -> Record {
    Record::First(First {
        bytes: [
            3, b'O', b't', b'h', b'e', b'r', b' ', b' ', b'!', 0x0F, 1, 0x0A, 0x55, 0x06, 1, 2, 3,
            4, 11, 0x21, 1, 5, 7, 9, 8, 5,
        ],
        second_table: Some(0x80),
        position: 1,
    })
}

#[test]
fn lengths_with_high_bytes() {
    let group = group_bytes(b"A", &[other_record()]);
    for (place, tag) in [(4, 0), (12, 8), (21, 17), (56, 52)] {
        for (byte, high) in [(0, 0x01), (0, 0x80), (0, 0xFF), (1, 0x01), (2, 0x80)] {
            let mut body = group.clone();
            body[place + byte] = high;
            assert_eq!(number_of(&body), (2, tag), "{place} {byte} {high}");
        }
    }
    let mut file = chunk(*b"MThd", &[0; 6]);
    file.extend(chunk(*b"MTrk", b""));
    file.extend(chunk(*b"CASM", b""));
    assert!(find(&file).is_ok());
    for high in [0x01, 0x80, 0xFF] {
        for (place, refusal) in [(4, (1, 0)), (18, (1, 0)), (26, (2, 22))] {
            let mut damaged = file.clone();
            damaged[place] = high;
            let answer = find(&damaged).unwrap_err();
            assert_eq!((answer.number, answer.place), refusal);
        }
    }
}

#[test]
fn own_lengths() {
    let ctab = [plain_record().bytes(), &[0, 0]].concat();
    let with = |child: &[u8]| {
        let ctab = chunk(*b"Ctab", &ctab[..27]);
        number_of(&chunk(
            *b"CSEG",
            &[&chunk(*b"Sdec", b"A"), &ctab[..], child].concat(),
        ))
    };
    assert_eq!(with(&[]), (0, 0));
    for length in [0, 1, 26, 28] {
        assert_eq!(with(&chunk(*b"Ctab", &ctab[..length])), (7, 52));
    }
    assert_eq!(with(&chunk(*b"Cntt", &[3, 0x81])), (0, 0));
    for length in [0, 1, 3] {
        assert_eq!(with(&chunk(*b"Cntt", &[3, 0x81, 0][..length])), (7, 52));
    }
}

#[test]
fn voice_names() {
    let names: [(&[u8; 8], &[u8]); 8] = [
        (b"Piano   ", b"Piano"),
        (b"        ", b""),
        (b"       x", b"       x"),
        (b"x       ", b"x"),
        (b" x      ", b" x"),
        (b"Nul    \0", b"Nul    \0"),
        (b"Nul\0    ", b"Nul\0"),
        (b"CSEGCtab", b"CSEGCtab"),
    ];
    for (held, shown) in names {
        let mut record = plain_record();
        record[1..9].copy_from_slice(held);
        let body = [m(), group_bytes(b"B", &[other_but(1), record])].concat();
        assert_eq!(voice_name(&body, 1, 3), Ok(shown));
    }
}

/// The other record with another source channel.
fn other_but(channel: u8) -> Record {
    let mut record = other_record();
    record[0] = channel;
    record
}

#[test]
fn every_type_alone() {
    for bit in 0..35u64 {
        let mut record = plain_record();
        record[13..18].copy_from_slice(&(1u64 << bit).to_be_bytes()[3..]);
        let body = group_bytes(b"A", &[record]);
        for chord_type in 0..34u8 {
            let expected = if bit == u64::from(chord_type) {
                vec![3]
            } else {
                vec![]
            };
            assert_eq!(who_plays(&body, b"A", 4, chord_type), Ok(expected));
        }
    }
}

#[test]
fn every_table_under_both_rules() {
    let answer = |rule: u8, table: u8, cntt: Option<u8>| {
        let mut record = plain_record();
        record[20] = rule;
        record[21] = table;
        place_note(&with_cntt(record, cntt), 4, 60).map_err(|refusal| refusal.number)
    };
    assert_eq!(answer(0, 0, None), Ok(60));
    assert_eq!(answer(1, 0, None), Ok(60));
    for table in 1..=5 {
        assert_eq!(answer(0, table, None), Ok(64));
        assert_eq!(answer(1, table, None), Err(17));
    }
    for table in 0..=5 {
        assert_eq!(answer(0, table, Some(0x80)), Ok(60));
        assert_eq!(answer(1, table, Some(0x80)), Ok(60));
        for value in [0x04, 0x06, 0x0A, 0x81, 0x83, 0x8A] {
            assert_eq!(answer(0, table, Some(value)), Ok(64));
            assert_eq!(answer(1, table, Some(value)), Err(17));
        }
    }
}

#[test]
fn every_kind_of_entry() {
    let two = group_bytes(b"A", &[plain_record(), other_but(1)]);
    assert_eq!(two.len(), 97);
    let with = |place: usize, value: u8| {
        let mut body = two.clone();
        body[place] = value;
        entries_of(&body)
    };
    assert_eq!(with(0, b'C'), [(0, 97, 0)]);
    assert_eq!(with(7, 90), [(0, 97, 2)]);
    assert_eq!(with(17, b'X'), [(0, 97, 6)]);
    assert_eq!(with(24, 26), [(0, 97, 7)]);
    assert_eq!(with(16, b','), [(0, 97, 8)]);
    assert_eq!(with(95, 16), [(0, 97, 9)]);
    assert_eq!(with(60, 3), [(0, 97, 10)]);
    assert_eq!(with(95, 2), [(0, 97, 11)]);
    assert_eq!(with(7, 9 + 70), [(0, 87, 0), (87, 10, 6)]);
}

#[test]
fn whole_records() {
    let body = group_bytes(b"A", &[plain_record(), other_but(1)]);
    let mut table = [other_but(9); 2];
    assert_eq!(read_group(&body, 0, &mut table), Ok((2, &b"A"[..])));
    assert_eq!(table, [plain_record(), other_but(1)]);
    let mut buffer = [0; 97];
    assert_eq!(write_group(b"A", &table, 2, &mut buffer), Ok(97));
    assert_eq!(buffer[..], body[..]);
    assert_eq!(buffer[87..], *b"Cntt\0\0\0\x02\x01\x80");
    let mut edited = body.clone();
    assert_eq!(edit(&mut edited, 0, 3, &other_record(), false), Ok(()));
    assert_eq!(&edited[25..51], other_record().bytes());
    assert_eq!(edited[51..], body[51..]);
    assert_eq!(edited[..25], body[..25]);
}

/// Ctabs 9, 8 and 12 as parts stand, Cntts by channel number (document 02, §1).
#[test]
fn cntts_by_channel_number() {
    let three = [other_but(9), other_but(8), other_but(12)];
    let table = at_positions(&three, &[2, 1, 3]);
    let mut buffer = [0xAA; 153];
    assert_eq!(write_group(b"A", &table, 3, &mut buffer), Ok(152));
    let cntts = b"Cntt\0\0\0\x02\x08\x80Cntt\0\0\0\x02\x09\x80Cntt\0\0\0\x02\x0C\x80";
    assert_eq!(buffer[122..152], *cntts);
    assert_eq!(buffer[152], 0xAA);
    let mut back = [plain_record(); 3];
    assert_eq!(read_group(&buffer[..152], 0, &mut back), Ok((3, &b"A"[..])));
    assert_eq!(back[..], table[..]);
    let in_ctab_order = at_positions(&three, &[1, 2, 3]);
    let body = group_bytes(b"A", &in_ctab_order);
    assert_eq!(body[..122], buffer[..122]);
    assert_ne!(body[122..], buffer[122..152]);
}

/// Every order of three Cntts: the position is the Cntt's number, whatever its Ctab's.
#[test]
fn every_order_of_three_cntts() {
    let channels = [9, 8, 12];
    let ctabs: Vec<u8> = channels
        .iter()
        .flat_map(|&channel| chunk(*b"Ctab", &[other_but(channel).bytes(), &[0]].concat()))
        .collect();
    for order in [
        [0, 1, 2],
        [0, 2, 1],
        [1, 0, 2],
        [1, 2, 0],
        [2, 0, 1],
        [2, 1, 0],
    ] {
        let cntts: Vec<u8> = order
            .iter()
            .flat_map(|&row| chunk(*b"Cntt", &[channels[row], 0x80 + row as u8]))
            .collect();
        let body = chunk(
            *b"CSEG",
            &[chunk(*b"Sdec", b"A"), ctabs.clone(), cntts].concat(),
        );
        let mut table = [plain_record(); 3];
        assert_eq!(read_group(&body, 0, &mut table), Ok((3, &b"A"[..])));
        for (number, &row) in order.iter().enumerate() {
            let expected = with_cntt(other_but(channels[row]), Some(0x80 + row as u8));
            let expected = at_position(expected, number as u8 + 1);
            assert_eq!(table[row], expected, "{order:?}");
        }
        let mut buffer = vec![0; body.len()];
        assert_eq!(write_group(b"A", &table, 3, &mut buffer), Ok(body.len()));
        assert_eq!(buffer, body);
        assert_eq!(entries_of(&body), [(0, body.len(), 0)]);
    }
}

/// Records without a Cntt have position 0 and take no number.
#[test]
fn positions_count_cntts_alone() {
    let ctabs =
        [4, 7, 2, 11].map(|channel| chunk(*b"Ctab", &[other_but(channel).bytes(), &[0]].concat()));
    let cntts = [chunk(*b"Cntt", &[11, 6]), chunk(*b"Cntt", &[7, 4])];
    let sdec = chunk(*b"Sdec", b"A");
    let body = chunk(*b"CSEG", &[sdec, ctabs.concat(), cntts.concat()].concat());
    let mut table = [plain_record(); 5];
    table[4] = at_position(table[4], 77);
    assert_eq!(read_group(&body, 0, &mut table), Ok((4, &b"A"[..])));
    assert_eq!(table.map(|record| position(&record)), [0, 2, 0, 1, 77]);
    let values = table.map(|record| record.second_table());
    assert_eq!(values, [None, Some(4), None, Some(6), None]);
}
