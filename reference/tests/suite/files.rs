//! The station file: document 01, "Station file" and the file refusals. Here it
//! is of form 1; form 2 is in `forms`.

use crate::kit::*;
use reference::sheet::of_levels;
use reference::station::{read, read_into, write, write_into, Counts};
use reference::{Input, Station};

/// Two words, two entries, two records.
fn sample() -> Station {
    Station {
        rom: vec![0xE805, 0x6001],
        sheet: vec![0, 0, 15, 15],
        inputs: vec![
            Input { pins: [1, 2, 3, 4, 5], directions: [6, 7, 8, 9, 10], release: 1 },
            quiet(),
        ],
    }
}

fn bytes() -> Vec<u8> {
    let mut file = vec![0, 1, 0, 2, 0xE8, 0x05, 0x60, 0x01, 0, 2, 0, 15, 0, 2];
    file.extend([1, 2, 3, 4, 5, 6, 7, 8, 9, 10, 1]);
    file.extend([0; 11]);
    file
}

/// The sample with one byte changed.
fn changed(at: usize, byte: u8) -> Vec<u8> {
    with_bytes(bytes(), &[(at, byte)])
}

#[test]
fn reading_and_writing() {
    assert_eq!(read(&bytes()), Ok(sample()));
    assert_eq!(write(&sample()), Ok(bytes()));
    let least = Station { rom: vec![0xFFFF], sheet: vec![], inputs: vec![] };
    assert_eq!(write(&least), Ok(vec![0, 1, 0, 1, 0xFF, 0xFF, 0, 0, 0, 0]));
    assert_eq!(read(&write(&least).unwrap()), Ok(least));
}

#[test]
fn twenty_for_the_form() {
    for file in [changed(0, 1), changed(1, 0), changed(1, 3)] {
        assert_eq!(read(&file), Err(20));
    }
    assert_eq!(read(&[0, 3]), Err(20));
}

/// Every cut of a good file; an unfinished count or word is 21 as well.
#[test]
fn twenty_one_for_a_cut_file() {
    for length in 0..bytes().len() {
        assert_eq!(read(&bytes()[..length]), Err(21), "{length} bytes");
    }
    assert_eq!(read(&[9]), Err(21));
    assert_eq!(read(&[0, 1, 9]), Err(21));
}

#[test]
fn twenty_two_for_a_count() {
    for count in [[0, 0], [4, 1], [255, 255]] {
        assert_eq!(read(&[0, 1, count[0], count[1]]), Err(22));
    }
    for count in [1, 3, 255] {
        assert_eq!(read(&changed(9, count)), Err(22));
        assert_eq!(read(&changed(9, count)[..10]), Err(22));
    }
    // 4,096 records are one too many; 4,095 are allowed, but not there.
    assert_eq!(read(&changed(12, 0x10)), Err(22));
    let mut many = changed(12, 0x0F);
    many[13] = 0xFF;
    assert_eq!(read(&many), Err(21));
}

#[test]
fn twenty_three_for_an_entry() {
    for entry in (6..15).chain(16..=255) {
        assert_eq!(read(&changed(10, entry)), Err(23));
        assert_eq!(read(&changed(10, entry)[..11]), Err(23));
        assert_eq!(read(&changed(11, entry)), Err(23));
    }
    for place in 14..36 {
        let release = place == 24 || place == 35;
        let bad = if release { 2 } else { 16 };
        assert_eq!(read(&changed(place, bad)), Err(23));
        assert_eq!(read(&changed(place, bad)[..=place]), Err(23), "cut after {place}");
        assert_eq!(read(&changed(place, bad)[..place]), Err(21), "cut before {place}");
        assert!(read(&changed(place, bad - 1)).is_ok());
    }
}

/// What is wrong further back does not count, however far.
#[test]
fn the_first_fault_is_given() {
    let two = |front, back| with_bytes(bytes(), &[back, front]);
    assert_eq!(read(&two((1, 3), (3, 0))), Err(20), "form, then count of words");
    assert_eq!(read(&two((2, 9), (10, 6))), Err(22), "count of words, then entry");
    assert_eq!(read(&two((9, 1), (10, 6))), Err(22), "count of entries, then entry");
    assert_eq!(read(&two((10, 6), (12, 0x10))), Err(23), "entry, then count of inputs");
    assert_eq!(read(&two((12, 0x10), (14, 16))), Err(22), "count of inputs, then pin");
    for place in 14..36 {
        let mut file = changed(place, 255);
        for length in place + 1..36 {
            assert_eq!(read(&file[..length]), Err(23), "{place} and then cut to {length}");
        }
        file.extend([0; 40]);
        assert_eq!(read(&file), Err(23), "{place} and then too long");
    }
}

#[test]
fn twenty_four_for_more_bytes() {
    let mut file = bytes();
    file.push(0);
    assert_eq!(read(&file), Err(24));
    // A fault further to the front is given first.
    file[35] = 2;
    assert_eq!(read(&file), Err(23));
}

#[test]
fn twenty_five_for_lent_buffers() {
    let (rom0, sheet0) = ([7_u16; 4], [7_u8; 6]);
    let inputs0 = [Input { release: 9, ..quiet() }; 4];
    for (words, room, inputs) in [(1, 4, 2), (2, 3, 2), (2, 2, 2), (2, 4, 1), (0, 0, 0)] {
        let (mut rom, mut sheet, mut list) = (rom0, sheet0, inputs0);
        let answer =
            read_into(&bytes(), &mut rom[..words], &mut sheet[..room], &mut list[..inputs]);
        assert_eq!(answer, Err(25));
        // 25 comes last, and nothing is written.
        let bad = read_into(&changed(35, 2), &mut rom[..words], &mut sheet, &mut list);
        assert_eq!(bad, Err(23));
        assert_eq!((rom, sheet, list), (rom0, sheet0, inputs0));
    }
    let (mut rom, mut sheet, mut list) = (rom0, sheet0, inputs0);
    let answer = read_into(&bytes(), &mut rom, &mut sheet, &mut list);
    assert_eq!(answer, Ok(Counts { words: 2, entries: 2, inputs: 2 }));
    // Places past what is written stay.
    assert_eq!(rom, [0xE805, 0x6001, 7, 7]);
    assert_eq!(sheet, [0, 0, 15, 15, 7, 7]);
    assert_eq!(list[..2], sample().inputs);
    assert_eq!(list[2..], inputs0[2..]);
}

#[test]
fn writing_into_a_lent_buffer() {
    goes_whole_or_not_at_all(&sample(), &bytes());
}

/// The writer tests its station in file order, then room.
#[test]
fn writing_is_refused_in_file_order() {
    let bad_input = Input { release: 2, ..quiet() };
    let cases: [(Station, u8); 9] = [
        (Station { rom: vec![], ..sample() }, 22),
        (Station { rom: vec![0; 1025], ..sample() }, 22),
        (Station { sheet: vec![0; 2], ..sample() }, 22),
        (Station { sheet: vec![0; 6], ..sample() }, 22),
        (Station { sheet: vec![0, 0, 6, 6], ..sample() }, 23),
        (Station { inputs: vec![quiet(); 4096], ..sample() }, 22),
        (Station { inputs: vec![bad_input], ..sample() }, 23),
        // A bad entry of the sheet stands before the count of inputs,
        (Station { sheet: vec![0, 0, 6, 6], inputs: vec![quiet(); 4096], ..sample() }, 23),
        // and that count before the inputs' bytes.
        (Station { inputs: vec![bad_input; 4096], ..sample() }, 22),
    ];
    for (station, number) in cases {
        assert_eq!(write(&station), Err(number));
        let mut out = [0xAA; 4];
        assert_eq!(write_into(&station, &mut out), Err(number));
        assert_eq!(out, [0xAA; 4]);
    }
    for port in 0..5 {
        let (mut pin, mut direction) = (quiet(), quiet());
        pin.pins[port] = 16;
        direction.directions[port] = 16;
        for input in [pin, direction] {
            assert_eq!(write(&Station { inputs: vec![quiet(), input], ..sample() }), Err(23));
        }
    }
}

#[test]
fn the_largest_station() {
    let station = Station {
        rom: vec![0xFFFF; 1024],
        sheet: vec![5; 2048],
        inputs: vec![Input { pins: [15; 5], directions: [15; 5], release: 1 }; 4095],
    };
    let file = write(&station).unwrap();
    assert_eq!(file.len(), 2 + 2 + 2048 + 2 + 1024 + 2 + 45_045);
    assert_eq!(read(&file), Ok(station));
}

#[test]
fn stations_go_round() {
    let mut random = Random::new(3);
    for _ in 0..200 {
        let words = 1 + random.below(40) as usize;
        let sheet = if random.below(2) == 0 { 0 } else { words };
        let levels: Vec<u8> =
            (0..sheet).map(|_| [0, 1, 2, 3, 4, 5, 15][random.below(7) as usize]).collect();
        let station = Station {
            rom: (0..words).map(|_| random.word()).collect(),
            sheet: of_levels(&levels),
            inputs: (0..random.below(20)).map(|_| random.input()).collect(),
        };
        let file = write(&station).unwrap();
        assert_eq!(read(&file).as_ref(), Ok(&station));
        assert_eq!(write(&station), Ok(file));
    }
}

/// Whatever bytes come, a file of form 1 that is read is written back the same.
#[test]
fn mangled_files() {
    let mut random = Random::new(4);
    for _ in 0..20_000 {
        let mut file = bytes();
        for _ in 0..=random.below(2) {
            let place = random.below(file.len() as u64) as usize;
            file[place] = random.below(20) as u8;
        }
        file.truncate(file.len() - random.below(3) as usize);
        if file[1] == 2 {
            continue;
        }
        if let Ok(station) = read(&file) {
            assert_eq!(write(&station), Ok(file));
        }
    }
}
