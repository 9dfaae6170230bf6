//! Places of a reader that no opening gave, and images to step on that they do not go with.
use crate::calls::Place;
use crate::encoding::{is_size, length};
use crate::random::Random;

/// A place made from a real one over n blocks: any of its fields another, or all of them.
pub fn forged_place(random: &mut Random, real: Place, n: u32) -> Place {
    let (mut place, rare) = (real, random.pick(&[1, 2, 4, 8]));
    let any = [(); 8].map(|()| random.number() as u32);
    let places = real.end.max(128 * n);
    let fields = [
        (&mut place.n, vec![0, 8, 12, n, n, n + 8, 4096, 4104, u32::MAX]),
        (&mut place.client, vec![0, 63, 64, 255, u32::MAX]),
        (&mut place.series, vec![0, u32::MAX]),
        (
            &mut place.block,
            vec![0, n - 1, n, n + 1, 4096, 65_535, 1 << 26, u32::MAX],
        ),
        (&mut place.sequence, vec![0, 1, 4095, 4096, 1 << 25, u32::MAX]),
        (
            &mut place.slot,
            vec![0, 1, 4, 64 * n + 1024, 576 * n + 1532, 1 << 31, u32::MAX - 3, u32::MAX],
        ),
        (
            &mut place.at,
            vec![
                0,
                127,
                128,
                real.end,
                real.end / 2,
                524_287,
                u32::MAX - 1,
                any[0] % places,
            ],
        ),
        (&mut place.end, vec![0, 1, 524_288, places, u32::MAX, any[1] % places]),
    ];
    for ((field, edges), any) in fields.into_iter().zip(any) {
        if random.one_in(rare) {
            let edge = random.pick(&edges);
            *field = if random.one_in(6) { any } else { edge };
        }
    }
    if random.one_in(rare) {
        place.report = random.pick(&[0, 0, 0, 1, 13, 15, 16, 255]);
    }
    place
}

/// An image to step on where the place says that it has n blocks: the bytes as they are or any bytes; in their own
/// length, that of n blocks, or another.
pub fn forged_image(random: &mut Random, n: u32, image: &[u8]) -> Vec<u8> {
    let mut other = image.to_vec();
    if random.one_in(3) {
        random.fill(&mut other);
    }
    let (len, small) = (image.len(), is_size(n) && n < 256);
    let of_n = if small { length(n) } else { len };
    let lengths = [
        len,
        len,
        len,
        of_n,
        of_n,
        0,
        511,
        6144,
        len.saturating_sub(1),
        len + 1,
        len + 4608,
    ];
    other.resize(random.pick(&lengths), random.number() as u8);
    other
}
