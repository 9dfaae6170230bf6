//! W1's series in small cases worked out by hand, each read by the library and by the second program.
use twin::calls::{Call, Tariff};
use twin::encoding::length;
use twin::pair::Pair;
use twin::plain_series::{self, Answer};
use twin::random::Random;
use twin::readers::compare;
use twin::readings::Readings;
use twin::recordings::{image_of, Recording, Written};
use twin::series::{read, Places};

const MARK: i32 = i32::MIN;

/// What both programs read, or the report; a difference between them ends the test.
fn both(client: u32, series: u32, image: &[u8]) -> Result<Places, u8> {
    if let Err(what) = compare(client, series, image, &mut Readings::default()) {
        panic!("a difference: {what}");
    }
    read(client, series, image).map_err(|report| report as u8)
}

/// A block of client 3's series 7 with these samples, the rest of its slots marked.
fn block(sequence: u32, samples: &[i32]) -> Written {
    let mut all = [MARK; 128];
    all[..samples.len()].copy_from_slice(samples);
    let count = samples.len() as u8;
    Written {
        count,
        ..Written::full(3, 7, sequence, all)
    }
}

fn of_blocks(blocks: &[Written]) -> Result<Places, u8> {
    both(3, 7, &image_of(8, blocks))
}

/// The report where one byte of client 3's only block is another; the block is number 0 of 8.
fn with_byte(at: usize, byte: u8) -> Option<u8> {
    let mut image = image_of(8, &[block(2, &[5, -5])]);
    image[at] = byte;
    both(3, 7, &image).err()
}

#[test]
fn bytes_as_the_document_has_them() {
    let mut pair = Pair::of(&vec![0; length(8)]);
    let mut bytes = [7, 0, 0, 0, 0, 0, 0, 0, 4, 0, 0, 0, 0, 0, 0, 0].to_vec();
    bytes.extend([1, 0, 0, 0, 0xff, 0xff, 0xff, 0xff, 0, 0, 0, 0x80, 0, 0, 0x10, 0]);
    bytes.extend([0, 0, 0, 0x80].repeat(124));
    #[rustfmt::skip]
    let calls = [Call::Format { n: 8 }, Call::Create { client: 3, expiry: 500, now: 100 }];
    for call in calls {
        let answer = pair.call(&call, &Tariff::default(), &bytes);
        assert_eq!(answer.map(|answer| answer.report), Ok(0));
    }
    let places = both(3, 7, pair.image()).unwrap();
    assert_eq!(places[..4], [Some(1), Some(-1), None, Some(1_048_576)]);
    assert_eq!(places[4..], [None; 124]);
}

#[test]
fn a_block_that_is_not_there_is_128_gaps() {
    let full = Written::full(3, 7, 0, [1; 128]);
    let places = of_blocks(&[block(2, &[9, MARK, 0]), full]).unwrap();
    assert_eq!(places.len(), 384);
    assert_eq!(places[..128], [Some(1); 128]);
    assert_eq!(places[128..256], [None; 128]);
    assert_eq!(places[256..259], [Some(9), None, Some(0)]);
    assert_eq!(places[259..], [None; 125]);
}

#[test]
fn sequence_4095_is_the_last() {
    let places = of_blocks(&[block(4095, &[-3])]).unwrap();
    assert_eq!((places.len(), places[524_160]), (524_288, Some(-3)));
    assert_eq!(places.iter().flatten().count(), 1);
    assert_eq!(of_blocks(&[block(4096, &[-3])]), Err(14));
}

#[test]
fn samples_at_the_limits_and_past_them() {
    for (sample, report) in [
        (1_048_576, None),
        (-1_048_576, None),
        (1_048_577, Some(14)),
        (-1_048_577, Some(14)),
        (MARK, None),
        (MARK + 1, Some(14)),
        (i32::MAX, Some(14)),
    ] {
        assert_eq!(of_blocks(&[block(0, &[0, sample])]).err(), report, "{sample}");
    }
}

#[test]
fn one_to_128_samples_and_marks_after_them() {
    for (count, report) in [(0, Some(14)), (1, None), (128, None), (129, Some(14)), (255, Some(14))] {
        let written = Written { count, ..block(0, &[]) };
        assert_eq!(of_blocks(&[written]).err(), report, "{count} samples, none taken");
    }
    let mut written = block(0, &[1, 2, 3]);
    written.count = 2;
    assert_eq!(of_blocks(&[written]), Err(14));
}

/// The tag is at 32 of the header: series, sequence, number of samples, zeros. The data is at 64 · 8 + 1024.
#[test]
fn each_byte_of_a_tag() {
    for at in 32..36 {
        assert_eq!(with_byte(at, 8), Some(13), "byte {at} of the series");
    }
    assert_eq!(with_byte(37, 15), None);
    for (at, byte) in [(37, 16), (38, 1), (39, 1), (40, 0), (40, 1), (40, 129)] {
        assert_eq!(with_byte(at, byte), Some(14), "byte {at}");
    }
    assert_eq!(with_byte(40, 3), None);
    (41..48).for_each(|at| assert_eq!(with_byte(at, 1), Some(14), "zero byte {at}"));
    let third = 64 * 8 + 1024 + 8;
    (0..3).for_each(|i| assert_eq!(with_byte(third + i, 1), Some(14), "byte {i} of a mark"));
    assert_eq!(with_byte(third + 3, 0), Some(14));
}

#[test]
fn only_the_client_s_own_blocks_of_the_series_are_judged() {
    let bad = |owner, series| Written {
        owner,
        series,
        ..block(5000, &[1 << 30])
    };
    let own = [bad(4, 7), block(0, &[1]), bad(3, 8), bad(3, 7 << 8)];
    assert_eq!(of_blocks(&own).map(|places| places.len()), Ok(128));
    let image = image_of(8, &own);
    assert_eq!((both(4, 7, &image), both(3, 8, &image)), (Err(14), Err(14)));
    assert_eq!((both(4, 8, &image), both(0, 0, &image)), (Err(13), Err(13)));
}

#[test]
fn one_sequence_twice() {
    let (first, second) = (block(5, &[1]), block(5, &[2]));
    assert_eq!(of_blocks(&[first.clone(), second.clone()]), Err(15));
    assert_eq!(
        of_blocks(&[first.clone(), second.clone(), block(1, &[1 << 30])]),
        Err(14)
    );
    assert_eq!(of_blocks(&[block(4096, &[1]), block(4096, &[1])]), Err(14));
    let other = Written { owner: 4, ..second };
    assert_eq!(of_blocks(&[first, other]).map(|places| places.len()), Ok(768));
}

#[test]
fn the_lowest_report_first() {
    let twice = [block(5, &[1]), block(5, &[1])];
    let mut image = image_of(8, &twice);
    assert_eq!(
        (both(3, 7, &image), both(3, 8, &image), both(64, 7, &image)),
        (Err(15), Err(13), Err(2))
    );
    image[64 * 7 + 63] = 1;
    assert_eq!(
        (both(3, 7, &image), both(3, 8, &image), both(64, 7, &image)),
        (Err(9), Err(9), Err(2))
    );
    image[length(8) - 1] = 0;
    assert_eq!(
        (both(3, 7, &image), both(64, 7, &image), both(3, 7, &[])),
        (Err(1), Err(1), Err(1))
    );
}

/// A wrong count and a spare bit of the map make an image that is not sound, but no header of it bad.
#[test]
fn counts_and_spare_bits_are_not_looked_at() {
    let mut image = image_of(8, &[block(0, &[1])]);
    image[64 * 8 + 1] = 1;
    image[64 * 8 + 512 + 8 * 3] = 9;
    assert!(!zolvortug::check(&image));
    assert_eq!(both(3, 7, &image).map(|places| places.len()), Ok(128));
}

/// The plain reader that the library is timed against gives what the second program reads.
#[test]
fn the_plain_reader_reads_the_same() {
    for seed in 0..600 {
        let recording = Recording::random(&mut Random::new(seed));
        let (client, series) = recording.asked[0];
        let mut table = [0; 4096];
        let opened = plain_series::open(client, series, &recording.image, &mut table);
        let places = opened.map_err(|report| report as u8).map(|mut reader| {
            let steps = std::iter::from_fn(|| match reader.step() {
                Answer::Ended => None,
                Answer::Phase(phase) => Some(Some(phase as i32)),
                Answer::Gap => Some(None),
            });
            steps.collect::<Places>()
        });
        let read = read(client, series, &recording.image).map_err(|report| report as u8);
        assert!(places == read, "seed {seed}");
    }
}
