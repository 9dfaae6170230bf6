//! The reader of a series and the blocks that a series is written as, by the safe face and by C's interface.
use zolvortug::{series_block, sys, Client, Reader, Report, Sample, Store, Tag, Tariff, Tick};
use zolvortug::{BLOCK, LARGEST, NOT_TAKEN, SAMPLES, SEQUENCES};

const ME: Client = Client(3);

/// A store of 16 blocks with these blocks of clients.
fn stored(blocks: &[(Client, [u8; BLOCK])]) -> Store<Vec<u8>> {
    let mut image = vec![0; zolvortug::size_of_image(16).unwrap()];
    zolvortug::format(16, &mut image).unwrap();
    let mut store = Store::new(image, Tariff::default());
    for ((client, block), now) in blocks.iter().zip(100..) {
        store.create(*client, Tick(500), block, Tick(now)).unwrap();
    }
    store
}

fn block(series: u32, sequence: u32, samples: &[Option<i32>]) -> [u8; BLOCK] {
    series_block(series, sequence, samples).unwrap()
}

/// A right block with one byte changed.
fn harmed(at: usize, byte: u8) -> [u8; BLOCK] {
    let mut block = block(9, 2, &[Some(7), None]);
    assert_ne!(block[at], byte);
    block[at] = byte;
    block
}

fn report(store: &Store<Vec<u8>>, client: u32, series: u32) -> Report {
    store.series(Client(client), series).unwrap_err()
}

#[test]
fn a_block_of_a_series() {
    let mut wanted = [0; BLOCK];
    wanted[..9].copy_from_slice(&[0x78, 0x56, 0x34, 0x12, 0xff, 0x0f, 0, 0, 3]);
    wanted[16..].copy_from_slice(&NOT_TAKEN.to_le_bytes().repeat(SAMPLES));
    wanted[16..20].copy_from_slice(&(-LARGEST).to_le_bytes());
    wanted[24..28].copy_from_slice(&LARGEST.to_le_bytes());
    let samples = [Some(-LARGEST), None, Some(LARGEST)];
    assert_eq!(series_block(0x12345678, 4095, &samples), Some(wanted));
    let tag = Tag {
        series: 0x12345678,
        sequence: 4095,
        samples: 3,
    };
    assert_eq!(tag.bytes().unwrap(), wanted[..16]);
    assert_eq!((LARGEST, NOT_TAKEN, SEQUENCES), (1_048_576, -2_147_483_648, 4096));
    assert_eq!(series_block(9, 4095, &[Some(0); 128]).unwrap()[8], 128);
    for (sequence, samples) in [
        (4096, &[Some(0); 1][..]),
        (0, &[]),
        (0, &[Some(0); 129]),
        (0, &[Some(0), Some(LARGEST + 1)]),
        (0, &[Some(-LARGEST - 1)]),
        (0, &[Some(NOT_TAKEN)]),
    ] {
        assert_eq!(series_block(9, sequence, samples), None, "{sequence} {samples:?}");
    }
}

/// Every place once, in order: sequence 2 stands before sequence 0 in the image, 1 is not there, and other clients' and
/// other series' blocks, which no rule fits, are passed over.
#[test]
fn every_place() {
    let full: [Option<i32>; SAMPLES] = std::array::from_fn(|i| Some(LARGEST - i as i32));
    let store = stored(&[
        (ME, [7; BLOCK]),
        (Client(4), harmed(8, 0)),
        (ME, block(9, 2, &full)),
        (ME, block(8, 5, &[Some(1)])),
        (ME, block(9, 0, &[Some(-LARGEST), None, Some(0), Some(-1)])),
    ]);
    let mut wanted = vec![Sample::Gap; 384];
    for (place, phase) in [(0, -1_048_576.0), (2, 0.0), (3, -1.0)] {
        wanted[place] = Sample::Phase(phase);
    }
    for i in 0..SAMPLES {
        wanted[256 + i] = Sample::Phase(1_048_576.0 - i as f64);
    }
    let reader = store.series(ME, 9).unwrap();
    assert_eq!(reader.clone().collect::<Vec<Sample>>(), wanted);
    let mut other = Reader::open(store.image(), ME, 9).unwrap();
    assert_eq!(other.nth(256), Some(wanted[256]));
    let zero = reader.clone().nth(2).unwrap();
    assert!(matches!(zero, Sample::Phase(phase) if phase.to_bits() == 0));
}

#[test]
fn an_iterator_that_knows_its_place() {
    let store = stored(&[(ME, block(9, 1, &[Some(5)]))]);
    let mut reader = store.series(ME, 9).unwrap();
    for place in 0..256 {
        assert_eq!((reader.places(), reader.place()), (256, place));
        let left = 256 - place as usize;
        assert_eq!((reader.len(), reader.size_hint()), (left, (left, Some(left))));
        let kept = reader.clone();
        assert!(reader.next().is_some());
        assert_eq!(kept.place(), place);
    }
    for _ in 0..3 {
        assert_eq!((reader.next(), reader.len(), reader.place()), (None, 0, 256));
    }
    assert!(format!("{reader:?}").len() < 300, "{reader:?}");
}

#[test]
fn refusals() {
    let right = block(9, 2, &[Some(7), None]);
    let mut store = stored(&[(ME, right), (Client(4), right), (ME, block(9, 3, &[None]))]);
    assert_eq!(report(&store, 3, 8), Report::NoSeries);
    assert_eq!(report(&store, 5, 9), Report::NoSeries);
    assert_eq!(report(&store, 64, 9), Report::BadUser);
    assert!(store.series(ME, 9).is_ok());
    store.create(ME, Tick(1), &right, Tick(200)).unwrap();
    assert_eq!(report(&store, 3, 9), Report::SequenceTwice);
    for (at, byte) in [
        (5, 16),
        (6, 1),
        (7, 1),
        (8, 0),
        (8, 129),
        (9, 1),
        (15, 1),
        (18, 17),
        (27, 0),
        (527, 0),
    ] {
        let bad = stored(&[(ME, right), (ME, right), (ME, harmed(at, byte))]);
        assert_eq!(report(&bad, 3, 9), Report::BadTag, "{at} {byte}");
    }
    let mut image = store.into_inner();
    image[64 * 15] = 1;
    let store = Store::new(image, Tariff::default());
    assert_eq!(report(&store, 3, 9), Report::Damaged);
    assert_eq!(report(&store, 3, 8), Report::Damaged);
    assert_eq!(report(&store, 64, 8), Report::BadUser);
    let mut image = store.into_inner();
    assert_eq!(Reader::open(&image[1..], Client(64), 9).unwrap_err(), Report::BadImage);
    let end = image.len();
    image[end - 1] = 0;
    assert_eq!(report(&Store::new(image, Tariff::default()), 64, 9), Report::BadImage);
}

/// A block that has expired and still stands is read; one that is gone is 128 gaps.
#[test]
fn what_stands_is_read() {
    let mut store = stored(&[(ME, block(9, 0, &[Some(7)])), (ME, block(9, 1, &[Some(8)]))]);
    let phases = |store: &Store<Vec<u8>>| {
        let reader = store.series(ME, 9).unwrap();
        reader.filter(|sample| *sample != Sample::Gap).collect::<Vec<Sample>>()
    };
    store.create(Client(1), Tick(0), &[0; BLOCK], Tick(900)).unwrap();
    assert_eq!(phases(&store), [Sample::Phase(7.0), Sample::Phase(8.0)]);
    let mut ids = [zolvortug::Id(0); 64];
    let id = store.walk(ME, 1).step(&store, &mut ids).unwrap().value[0];
    store.destroy(ME, id, Tick(901)).unwrap();
    assert_eq!(phases(&store), [Sample::Phase(8.0)]);
    assert_eq!(store.series(ME, 9).unwrap().places(), 256);
}

fn open(client: u32, series: u32, image: &[u8]) -> sys::Place {
    unsafe { sys::zolvortug_series_open(client, series, image.as_ptr(), image.len()) }
}

/// A step, and the place after it.
fn step(mut place: sys::Place, image: &[u8]) -> (sys::Sampled, sys::Place) {
    (place.step(image), place)
}

/// By C's interface: zeros after a refused opening, and the end after it; no number where there is no phase.
#[test]
fn every_field() {
    let store = stored(&[(ME, block(9, 0, &[Some(7)]))]);
    let image = store.image();
    for (client, series, report) in [(64, 9, 2), (3, 8, 13)] {
        let refused = open(client, series, image);
        let zeros = sys::Place {
            n: 0,
            client: 0,
            series: 0,
            block: 0,
            sequence: 0,
            slot: 0,
            at: 0,
            end: 0,
            report,
        };
        assert_eq!(refused, zeros);
        let (ended, after) = step(refused, image);
        assert_eq!((ended.answer, after, ended.phase.is_nan()), (0, zeros, true));
    }
    let opened = open(3, 9, image);
    assert_eq!((opened.report, opened.at, opened.end), (0, 0, 128));
    for other in [&image[..0], &image[..3], &image[..64 * 8 + 1024 + 3]] {
        let (ended, after) = step(opened, other);
        assert_eq!((ended.answer, after, ended.phase.is_nan()), (0, opened, true));
    }
    let mut words = [8, 3, 9, 0, 0, 64 * 8 + 1024, 0, 128, 0, 0];
    for length in [0, 8, 10] {
        let ended = unsafe { sys::zolvortug_series_step(words.as_mut_ptr(), length, image.as_ptr(), image.len()) };
        assert_eq!((ended.answer, words[6], ended.phase.is_nan()), (0, 0, true));
    }
    let (first, after) = step(opened, image);
    assert_eq!((first.answer, first.phase, after.at), (1, 7.0, 1));
    let (second, after) = step(after, image);
    assert_eq!((second.answer, second.phase.is_nan(), after.at), (2, true, 2));
    let (last, at_end) = (2..128).fold((second, after), |(_, place), _| step(place, image));
    let (ended, after) = step(at_end, image);
    assert_eq!((last.answer, ended.answer, ended.phase.is_nan()), (2, 0, true));
    assert_eq!((after, after.at), (at_end, 128));
}
