//! The two forms of a station file: document 02, E5. Form 2 has two bytes for
//! each entry of the sheet.

use crate::kit::*;
use reference::sheet::of_levels;
use reference::station::{read, read_into, write, write_into, Counts};
use reference::Instruction::*;
use reference::{transcript, Input, Station};

/// Two words, two entries, two records.
fn sample() -> Station {
    Station {
        rom: vec![0xE805, 0x6001],
        sheet: vec![0, 3, 15, 15],
        inputs: vec![
            Input { pins: [1, 2, 3, 4, 5], directions: [6, 7, 8, 9, 10], release: 1 },
            quiet(),
        ],
    }
}

/// The sample's file with another sheet, whatever that is.
fn with_sheet(form: u8, count: u8, sheet: &[u8]) -> Vec<u8> {
    let mut file = vec![0, form, 0, 2, 0xE8, 0x05, 0x60, 0x01, 0, count];
    file.extend(sheet);
    file.extend([0, 2]);
    file.extend([1, 2, 3, 4, 5, 6, 7, 8, 9, 10, 1]);
    file.extend([0; 11]);
    file
}

fn bytes() -> Vec<u8> {
    with_sheet(2, 2, &[0, 3, 15, 15])
}

/// The sample's file with one byte changed.
fn changed(at: usize, byte: u8) -> Vec<u8> {
    with_bytes(bytes(), &[(at, byte)])
}

fn is_level(byte: u8) -> bool {
    byte <= 5
}

/// A range of levels, or never reached.
fn is_entry(lowest: u8, highest: u8) -> bool {
    is_level(highest) && lowest <= highest || (lowest, highest) == (15, 15)
}

#[test]
fn reading_and_writing() {
    assert_eq!(read(&bytes()), Ok(sample()));
    assert_eq!(write(&sample()), Ok(bytes()));
}

/// Form 1 is read as lowest equal to highest, and written where all are equal.
#[test]
fn form_1() {
    let station = Station { sheet: vec![4, 4, 15, 15], ..sample() };
    let file = with_sheet(1, 2, &[4, 15]);
    assert_eq!(read(&file).as_ref(), Ok(&station));
    assert_eq!(write(&station), Ok(file));
    for (sheet, form) in [([4, 4, 15, 15], 1), ([4, 4, 3, 4], 2), ([3, 4, 4, 4], 2), ([0; 4], 1)] {
        let file = write(&Station { sheet: sheet.to_vec(), ..sample() }).unwrap();
        assert_eq!(file[..2], [0, form], "{sheet:?}");
        assert_eq!(read(&file).map(|station| station.sheet), Ok(sheet.to_vec()));
    }
}

/// A form 2 file that form 1 could hold is read, and not written back as it was.
#[test]
fn form_2_without_need() {
    let equal = read(&with_sheet(2, 2, &[4, 4, 15, 15])).unwrap();
    assert_eq!(equal.sheet, [4, 4, 15, 15]);
    assert_eq!(write(&equal), Ok(with_sheet(1, 2, &[4, 15])));
    let none = read(&with_sheet(2, 0, &[])).unwrap();
    assert_eq!(none, Station { sheet: vec![], ..sample() });
    assert_eq!(write(&none), Ok(with_sheet(1, 0, &[])));
}

/// 20: neither 1 nor 2.
#[test]
fn twenty_for_the_form() {
    for form in 0..=u16::MAX {
        let mut file = bytes();
        file[..2].copy_from_slice(&form.to_be_bytes());
        match form {
            // The last entry then is the count of inputs, and a release is 9.
            1 => assert_eq!(read(&file), Err(23)),
            2 => assert_eq!(read(&file), Ok(sample())),
            _ => assert_eq!(read(&file), Err(20)),
        }
    }
    assert_eq!(read(&[0, 2]), Err(21));
}

/// Every cut of a good file, an entry's second half lacking too.
#[test]
fn twenty_one_for_a_cut_file() {
    for length in 0..bytes().len() {
        assert_eq!(read(&bytes()[..length]), Err(21), "{length} bytes");
    }
}

/// The count is one of entries, 0 or the ROM's.
#[test]
fn twenty_two_for_a_count() {
    for count in (0..=255).filter(|count| ![0, 2].contains(count)) {
        assert_eq!(read(&changed(9, count)), Err(22));
        assert_eq!(read(&changed(9, count)[..10]), Err(22));
    }
}

/// 23 for what is no entry, in each place and whatever comes after it.
#[test]
fn twenty_three_for_an_entry() {
    for pair in 0..=u16::MAX {
        let [lowest, highest] = pair.to_be_bytes();
        for sheet in [[lowest, highest, 0, 1], [0, 1, lowest, highest]] {
            let file = with_sheet(2, 2, &sheet);
            if is_entry(lowest, highest) {
                let station = Station { sheet: sheet.to_vec(), ..sample() };
                assert_eq!(write(&station).as_ref(), Ok(&file), "{sheet:?}");
                assert_eq!(read(&file), Ok(station), "{sheet:?}");
            } else {
                assert_eq!(read(&file), Err(23), "{sheet:?}");
                assert_eq!(read(&[&file[..], &[0; 9]].concat()), Err(23), "{sheet:?}");
            }
        }
    }
}

/// An entry is read byte by byte: a bad first half is 23 though the second is
/// lacking, and a good one 21.
#[test]
fn cut_entries() {
    for half in 0..=255 {
        let cut = if is_level(half) || half == 15 { 21 } else { 23 };
        for front in [&[][..], &[0, 1]] {
            let sheet = [front, &[half]].concat();
            let file = with_sheet(2, 2, &sheet);
            assert_eq!(read(&file[..10 + sheet.len()]), Err(cut), "{sheet:?}");
        }
        // A bad second half is seen before the file's end.
        for lowest in [0, 1, 5, 15] {
            let number = if is_entry(lowest, half) { 21 } else { 23 };
            let file = with_sheet(2, 2, &[lowest, half]);
            assert_eq!(read(&file[..12]), Err(number), "{lowest} {half}");
        }
        // An entry that is none comes before the cut of a later one.
        let file = with_sheet(2, 2, &[2, 1, half]);
        assert_eq!(read(&file[..13]), Err(23));
    }
}

/// Refused by the first fault from the front.
#[test]
fn the_first_fault_is_given() {
    let two = |front, back| with_bytes(bytes(), &[back, front]);
    assert_eq!(read(&two((1, 3), (9, 1))), Err(20), "form, then count of entries");
    assert_eq!(read(&two((9, 4), (10, 6))), Err(22), "count of entries, then entry");
    assert_eq!(read(&two((10, 4), (14, 0x10))), Err(23), "entry, then count of inputs");
    assert_eq!(read(&two((14, 0x10), (16, 16))), Err(22), "count of inputs, then pin");
    assert_eq!(read(&two((10, 4), (16, 16))), Err(23), "entry, then pin");
    for place in 16..38 {
        assert_eq!(read(&changed(place, 255)[..=place]), Err(23), "cut after {place}");
        assert_eq!(read(&changed(place, 255)[..place]), Err(21), "cut before {place}");
    }
    let mut long = bytes();
    long.push(0);
    assert_eq!(read(&long), Err(24));
}

/// The lent sheet takes two bytes an entry from either form, and 25 comes last.
#[test]
fn twenty_five_for_the_sheet() {
    for (file, sheet) in [(bytes(), [0, 3, 15, 15]), (with_sheet(1, 2, &[4, 15]), [4, 4, 15, 15])] {
        for room in 0..8 {
            let (mut words, mut out, mut inputs) = ([7; 2], vec![7; room], [quiet(); 2]);
            let answer = read_into(&file, &mut words, &mut out, &mut inputs);
            if room < 4 {
                assert_eq!(answer, Err(25));
                assert_eq!((words, out), ([7; 2], vec![7; room]));
                assert_eq!(inputs, [quiet(); 2]);
            } else {
                assert_eq!(answer, Ok(Counts { words: 2, entries: 2, inputs: 2 }));
                assert_eq!(out[..4], sheet);
                assert!(out[4..].iter().all(|&place| place == 7));
            }
            let (mut bad, mut out) = (file.clone(), vec![7; room]);
            *bad.last_mut().unwrap() = 2;
            assert_eq!(read_into(&bad, &mut words, &mut out, &mut inputs), Err(23));
            assert_eq!(out, vec![7; room]);
        }
        // The other buffers are asked as before.
        let mut out = [7; 4];
        assert_eq!(read_into(&file, &mut [7; 1], &mut out, &mut [quiet(); 2]), Err(25));
        assert_eq!(read_into(&file, &mut [7; 2], &mut out, &mut [quiet(); 1]), Err(25));
        assert_eq!(out, [7; 4]);
    }
}

#[test]
fn writing_into_a_lent_buffer() {
    goes_whole_or_not_at_all(&sample(), &bytes());
}

/// 22 for a sheet that is neither empty nor two bytes a word, 23 for an entry.
#[test]
fn writing_is_refused() {
    for words in 0..4 {
        for length in 0..9 {
            let station = Station { rom: vec![0; words], sheet: vec![0; length], inputs: vec![] };
            let good = words > 0 && (length == 0 || length == 2 * words);
            assert_eq!(write(&station).err(), if good { None } else { Some(22) });
        }
    }
    for pair in 0..=u16::MAX {
        let [lowest, highest] = pair.to_be_bytes();
        let station = Station { sheet: vec![0, 0, lowest, highest], ..sample() };
        let good = is_entry(lowest, highest);
        assert_eq!(write(&station).err(), if good { None } else { Some(23) });
    }
    // In file order: the sheet's length, its entries, then the inputs.
    let bad_input = Input { release: 2, ..quiet() };
    let turned = vec![1, 0, 0, 0];
    let cases = [
        (Station { sheet: vec![9; 5], inputs: vec![bad_input], ..sample() }, 22),
        (Station { sheet: turned.clone(), inputs: vec![quiet(); 4096], ..sample() }, 23),
        (Station { inputs: vec![bad_input; 4096], ..sample() }, 22),
        (Station { inputs: vec![bad_input], ..sample() }, 23),
    ];
    for (station, number) in cases {
        assert_eq!(write(&station), Err(number));
        assert_eq!(write_into(&station, &mut []), Err(number));
    }
}

/// 49,149 bytes, and one more is 24.
#[test]
fn the_longest_file() {
    let station = Station {
        rom: vec![0xFFFF; 1024],
        sheet: [0, 5].repeat(1024),
        inputs: vec![Input { pins: [15; 5], directions: [15; 5], release: 1 }; 4095],
    };
    let mut file = write(&station).unwrap();
    assert_eq!(file.len(), 49_149);
    assert_eq!(read(&file).as_ref(), Ok(&station));
    assert!(transcript(&file).starts_with("SHEET PASS\n1 000 FFFF 001 0 0\n"));
    file.push(0);
    assert_eq!(read(&file), Err(24));
    assert_eq!(transcript(&file), "FILE 24\n");
    file.resize(100_000, 0);
    assert_eq!(transcript(&file), "FILE 24\n");
}

/// A station has the same text from either form.
#[test]
fn texts() {
    let program = [Call { addr: 4 }, Call { addr: 3 }, Br { addr: 0 }, Call { addr: 4 }, Ret];
    // The routine at 4 is called from 0 and 3; 3 falls into it as well.
    let text = |sheet: &[u8]| {
        let station = Station { rom: rom(&program), sheet: sheet.to_vec(), inputs: vec![quiet()] };
        transcript(&write(&station).unwrap())
    };
    let rest = "1 000 E004 004 1 0\nEND 1 1 0\n";
    assert_eq!(text(&[]), format!("SHEET NONE\n{rest}"));
    assert_eq!(text(&[0, 0, 0, 0, 0, 0, 1, 1, 1, 2]), format!("SHEET PASS\n{rest}"));
    assert_eq!(text(&[0, 0, 0, 0, 0, 0, 1, 1, 1, 1]), format!("SHEET FAIL 003 5\n{rest}"));
    assert_eq!(text(&[0, 0, 0, 0, 0, 0, 1, 1, 0, 2]), format!("SHEET FAIL 004 6\n{rest}"));
    assert_eq!(text(&[1, 2, 0, 0, 0, 0, 1, 1, 1, 2]), format!("SHEET FAIL 000 1\n{rest}"));
    assert_eq!(text(&[15; 10]), format!("SHEET FAIL 000 1\n{rest}"));
    for (sheet, number) in [([0, 3, 1, 0], 23), ([0, 15, 0, 0], 23), ([15, 0, 0, 0], 23)] {
        assert_eq!(transcript(&with_sheet(2, 2, &sheet)), format!("FILE {number}\n"));
    }
    let (one, two) = (with_sheet(1, 2, &[0, 0]), with_sheet(2, 2, &[0; 4]));
    assert_eq!(transcript(&one), transcript(&two));
    assert_eq!(transcript(&changed(1, 3)), "FILE 20\n");
}

/// Stations with ranges or single levels go round, each in its form.
#[test]
fn stations_go_round() {
    let mut random = Random::new(13);
    for _ in 0..2_000 {
        let words = 1 + random.below(40) as usize;
        let entries = if random.below(4) == 0 { 0 } else { words };
        let wide = random.below(2);
        let mut entry = || match random.below(7) as u8 {
            6 => [15, 15],
            lowest => [lowest, (lowest + (wide * random.below(2)) as u8).min(5)],
        };
        let sheet = (0..entries).flat_map(|_| entry()).collect::<Vec<u8>>();
        let equal = sheet.chunks(2).all(|entry| entry[0] == entry[1]);
        let station = Station {
            rom: (0..words).map(|_| random.word()).collect(),
            sheet,
            inputs: (0..random.below(20)).map(|_| random.input()).collect(),
        };
        let file = write(&station).unwrap();
        let form = if equal { 1 } else { 2 };
        assert_eq!(file[..2], [0, form]);
        let length = 8 + 2 * words + usize::from(form) * entries + 11 * station.inputs.len();
        assert_eq!(file.len(), length);
        assert_eq!(read(&file), Ok(station));
    }
}

/// Whatever bytes come: what is read is written, and read again. The file's
/// bytes come back but where form 2 had no need.
#[test]
fn mangled_files() {
    let mut random = Random::new(14);
    let (mut same, mut shorter) = (0, 0);
    for _ in 0..100_000 {
        let mut file = bytes();
        for _ in 0..=random.below(2) {
            let place = random.below(file.len() as u64) as usize;
            file[place] = random.below(17) as u8;
        }
        if random.below(8) == 0 {
            file[11] = file[10];
        }
        file.truncate(file.len() - (random.below(60) / 58) as usize);
        let Ok(station) = read(&file) else {
            continue;
        };
        let written = write(&station).unwrap();
        assert_eq!(read(&written), Ok(station.clone()));
        let levels: Vec<u8> = station.sheet.chunks(2).map(|entry| entry[0]).collect();
        if file[1] == 2 && of_levels(&levels) == station.sheet {
            assert_eq!(written[1], 1);
            assert_eq!(written.len(), file.len() - levels.len());
            shorter += 1;
        } else {
            assert_eq!(written, file);
            same += 1;
        }
    }
    assert!(same > 1_000 && shorter > 1_000, "{same} the same, {shorter} shorter");
}
