//! MD5 (RFC 1321), with all its constants in place: as many instructions a block as the toolchain's own.

#[rustfmt::skip]
const SINES: [u32; 64] = [
    0xd76aa478, 0xe8c7b756, 0x242070db, 0xc1bdceee, 0xf57c0faf, 0x4787c62a, 0xa8304613, 0xfd469501,
    0x698098d8, 0x8b44f7af, 0xffff5bb1, 0x895cd7be, 0x6b901122, 0xfd987193, 0xa679438e, 0x49b40821,
    0xf61e2562, 0xc040b340, 0x265e5a51, 0xe9b6c7aa, 0xd62f105d, 0x02441453, 0xd8a1e681, 0xe7d3fbc8,
    0x21e1cde6, 0xc33707d6, 0xf4d50d87, 0x455a14ed, 0xa9e3e905, 0xfcefa3f8, 0x676f02d9, 0x8d2a4c8a,
    0xfffa3942, 0x8771f681, 0x6d9d6122, 0xfde5380c, 0xa4beea44, 0x4bdecfa9, 0xf6bb4b60, 0xbebfbc70,
    0x289b7ec6, 0xeaa127fa, 0xd4ef3085, 0x04881d05, 0xd9d4d039, 0xe6db99e5, 0x1fa27cf8, 0xc4ac5665,
    0xf4292244, 0x432aff97, 0xab9423a7, 0xfc93a039, 0x655b59c3, 0x8f0ccc92, 0xffeff47d, 0x85845dd1,
    0x6fa87e4f, 0xfe2ce6e0, 0xa3014314, 0x4e0811a1, 0xf7537e82, 0xbd3af235, 0x2ad7d2bb, 0xeb86d391,
];

const SHIFTS: [[u32; 4]; 4] = [[7, 12, 17, 22], [5, 9, 14, 20], [4, 11, 16, 23], [6, 10, 15, 21]];

#[inline(always)]
fn mixed(turn: usize, b: u32, c: u32, d: u32) -> u32 {
    match turn / 16 {
        0 => d ^ (b & (c ^ d)),
        1 => c ^ (d & (b ^ c)),
        2 => b ^ c ^ d,
        _ => c ^ (b | !d),
    }
}

#[inline(always)]
fn place(turn: usize) -> usize {
    [turn, 5 * turn + 1, 3 * turn + 5, 7 * turn][turn / 16] % 16
}

#[inline(never)]
fn block(state: &mut [u32; 4], bytes: &[u8; 64]) {
    let mut words = [0u32; 16];
    for (to, from) in words.iter_mut().zip(bytes.chunks_exact(4)) {
        *to = u32::from_le_bytes(from.try_into().unwrap());
    }
    let [mut a, mut b, mut c, mut d] = *state;
    // Written out, so that each turn's constants are known where it stands.
    macro_rules! turns {
        ($($turn:literal)*) => {
            $(
                let sum = a
                    .wrapping_add(mixed($turn, b, c, d))
                    .wrapping_add(words[place($turn)].wrapping_add(SINES[$turn]));
                (a, d, c, b) = (d, c, b, b.wrapping_add(sum.rotate_left(SHIFTS[$turn / 16][$turn % 4])));
            )*
        };
    }
    turns!(0 1 2 3 4 5 6 7 8 9 10 11 12 13 14 15 16 17 18 19 20 21 22 23 24 25 26 27 28 29 30 31);
    turns!(32 33 34 35 36 37 38 39 40 41 42 43 44 45 46 47 48 49 50 51 52 53 54 55 56 57 58 59 60 61 62 63);
    for (was, now) in state.iter_mut().zip([a, b, c, d]) {
        *was = was.wrapping_add(now);
    }
}

/// The digest of a cookie, which has at most 255 bytes, and of a challenge's digits behind it.
pub fn md5(cookie: &[u8], digits: &[u8]) -> [u8; 16] {
    let mut state = [0x67452301, 0xefcdab89, 0x98badcfe, 0x10325476];
    let size = cookie.len() + digits.len();
    let mut room = [0u8; 320];
    room[..cookie.len()].copy_from_slice(cookie);
    room[cookie.len()..size].copy_from_slice(digits);
    room[size] = 0x80;
    let whole = (size + 9).next_multiple_of(64);
    room[whole - 8..whole].copy_from_slice(&(8 * size as u64).to_le_bytes());
    for bytes in room[..whole].chunks_exact(64) {
        block(&mut state, bytes.try_into().unwrap());
    }
    let mut digest = [0; 16];
    for (to, word) in digest.chunks_exact_mut(4).zip(state) {
        to.copy_from_slice(&word.to_le_bytes());
    }
    digest
}
