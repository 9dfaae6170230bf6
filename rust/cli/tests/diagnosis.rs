//! The reasons that the command gives are held against the proved check: none where it says yes, some where it says no.
use zolvortug::{Client, Id, Store, Tariff, Tick};
use zolvortug_cli::diagnosis::{faults, readable};
use zolvortug_cli::time::LAST;

/// An image of so many blocks with a few stored: by clients 0, 5, 10 and so on; the first never expires.
fn image(blocks: u32, stored: u32) -> Vec<u8> {
    let mut image = vec![0; zolvortug::size_of_image(blocks).unwrap()];
    zolvortug::format(blocks, &mut image).unwrap();
    let mut store = Store::new(&mut image[..], Tariff::default());
    for i in 0..u64::from(stored) {
        let client = Client(5 * i as u32 % 64);
        let expiry = if i == 0 { LAST } else { Tick(1000 + i) };
        store.create(client, expiry, &[i as u8; 528], Tick(100 + i)).unwrap();
    }
    image
}

/// Those of the blocks of the sound image that the store still finds by their ids.
fn stands(image: &[u8], all: &[(usize, Client, Id)]) -> Vec<(usize, Client, Id)> {
    let store = Store::new(image, Tariff::default());
    let told = |(block, _, id): &(usize, Client, Id)| {
        let info = store.status(Client(0), *id).ok()?;
        Some((*block, info.value.owner, *id))
    };
    all.iter().filter_map(told).collect()
}

/// Every byte of an image that is not data, with every bit changed: the two agree.
#[test]
fn agrees_with_the_check() {
    for (blocks, stored) in [(8, 3), (8, 8), (64, 13)] {
        let mut image = image(blocks, stored);
        assert_eq!(faults(&image), [""; 0]);
        let (n, ids) = (blocks as usize, readable(&image));
        assert_eq!(ids.len(), stored as usize);
        let (data, trailer) = (64 * n + 1024, image.len() - 512);
        let mut no = 0;
        for at in (0..data).chain(trailer..image.len()) {
            for bit in 0..8 {
                image[at] ^= 1 << bit;
                let sound = zolvortug::check(&image);
                assert_eq!(
                    faults(&image).is_empty(),
                    sound,
                    "byte {at}, bit {bit}: {:?}",
                    faults(&image)
                );
                assert_eq!(readable(&image), stands(&image, &ids), "byte {at}, bit {bit}");
                no += usize::from(!sound);
                image[at] ^= 1 << bit;
            }
        }
        assert!(no > 8 * 512, "{no}");
    }
}

/// What is said of each kind of fault.
#[test]
fn says_what_is_wrong() {
    let right = image(16, 3);
    let trailer = right.len() - 512;
    let cases: [(&[(usize, u8)], &str); 16] = [
        (&[(trailer, 8)], "trailer: N is 8, and by the length it is 16"),
        (
            &[(trailer + 4, 21)],
            "trailer: the distance to the headers is 21, and by the length it is 20",
        ),
        (&[(trailer + 20, 1)], "trailer: a byte that is to be zero is not"),
        (
            &[(trailer + 29, 1)],
            "trailer: the clock, 1099511627878, is above 2^40 - 1",
        ),
        (
            &[(trailer + 511, 0)],
            "trailer: its last four bytes are not 50 52 36 32",
        ),
        (&[(64 * 2, 7)], "block 2: its first byte is 7, and neither 0 nor 1"),
        (
            &[(64 * 5 + 63, 1)],
            "block 5: unused, and yet its header is not all zero",
        ),
        (
            &[(64 + 2, 1)],
            "block 1: a byte of its header that is to be zero is not",
        ),
        (&[(64 + 1, 64)], "block 1: its owner, 64, is no client"),
        (
            &[(64 + 16, 103)],
            "block 1: created at 2020-01-01T00:00:00.103Z, and the clock is 2020-01-01T00:00:00.102Z",
        ),
        (
            &[(64 + 24, 0), (64 + 25, 0)],
            "block 1: it expires at 2020-01-01T00:00:00.000Z, which is no time",
        ),
        (&[(64 + 16, 100)], "block 1: its id is "),
        (&[(1024, 0xf9)], "block 0: used, and the map has it as free"),
        (&[(1024, 0xf0)], "block 3: unused, and the map has it as used"),
        (&[(1024 + 2, 1)], "map: a bit above the last block is set"),
        (
            &[(1536 + 8 * 5, 2)],
            "counts: client 5 has 2, and 1 used headers are its",
        ),
    ];
    for (bytes, what) in cases {
        let mut harmed = right.clone();
        for (at, byte) in bytes {
            assert_ne!(harmed[*at], *byte, "{what}");
            harmed[*at] = *byte;
        }
        let said = faults(&harmed);
        assert!(said.iter().any(|s| s.starts_with(what)), "{what}: {said:?}");
    }
    let mut harmed = right.clone();
    harmed[64..128].fill(0xff);
    harmed[64] = 1;
    assert_eq!(
        faults(&harmed)
            .iter()
            .filter(|fault| fault.starts_with("block 1: "))
            .count(),
        5
    );
    assert_eq!(faults(&right[1..]), ["the length is no image's"]);
}
