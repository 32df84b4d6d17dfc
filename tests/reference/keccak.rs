//! SHA-3 and SHAKE, written from FIPS 202. Each run checks them against the published digests of the empty message, and over several blocks by
//! the known keys that are made with them.

/// The lane (x, y) is at place y of column x.
type State = [[u64; 5]; 5];

const LANES: State = [[0; 5]; 5];

const ROUNDS: usize = 24;

/// θ: each bit gains the parities of two columns.
fn theta(a: State) -> State {
    let c = a.map(|column| column.iter().fold(0, |parity, lane| parity ^ lane));
    let mut out = a;
    for x in 0..5 {
        let d = c[(x + 4) % 5] ^ c[(x + 1) % 5].rotate_left(1);
        out[x] = a[x].map(|lane| lane ^ d);
    }
    out
}

/// ρ: the lanes are turned, each but (0, 0) by another number.
fn rho(a: State) -> State {
    let (mut out, mut x, mut y) = (a, 1, 0);
    for t in 0..24 {
        out[x][y] = a[x][y].rotate_left((t + 1) * (t + 2) / 2 % 64);
        (x, y) = (y, (2 * x + 3 * y) % 5);
    }
    out
}

/// π: the lanes change places.
fn pi(a: State) -> State {
    let mut out = LANES;
    for x in 0..5 {
        for y in 0..5 {
            out[x][y] = a[(x + 3 * y) % 5][x];
        }
    }
    out
}

/// χ: each bit gains the product of two others of its row.
fn chi(a: State) -> State {
    let mut out = LANES;
    for x in 0..5 {
        for y in 0..5 {
            out[x][y] = a[x][y] ^ (!a[(x + 1) % 5][y] & a[(x + 2) % 5][y]);
        }
    }
    out
}

/// rc(t), Algorithm 5. Bit i of the register is R[i] of the standard.
fn round_bit(t: usize) -> u64 {
    let mut register = 1;
    for _ in 0..t % 255 {
        register <<= 1;
        if register >> 8 == 1 {
            register ^= 1 << 8 | 1 << 6 | 1 << 5 | 1 << 4 | 1;
        }
    }
    register & 1
}

/// ι: lane (0, 0) gains the round's constant.
fn iota(mut a: State, round: usize) -> State {
    for j in 0..=6 {
        a[0][0] ^= round_bit(j + 7 * round) << ((1 << j) - 1);
    }
    a
}

fn permuted(state: State) -> State {
    (0..ROUNDS).fold(state, |a, round| iota(chi(pi(rho(theta(a)))), round))
}

/// The sponge with a rate in bytes: so many bytes out of the message and the bits that go behind it, the first of the padding among them.
fn sponge(rate: usize, message: &[u8], behind: u8, count: usize) -> Vec<u8> {
    let mut padded = message.to_vec();
    padded.push(behind);
    while padded.len() % rate != 0 {
        padded.push(0);
    }
    *padded.last_mut().expect("a padded message") |= 1 << 7;
    let mut state = LANES;
    for block in padded.chunks_exact(rate) {
        for (i, lane) in block.chunks_exact(8).enumerate() {
            state[i % 5][i / 5] ^= u64::from_le_bytes(lane.try_into().expect("eight bytes"));
        }
        state = permuted(state);
    }
    let mut out = Vec::new();
    while out.len() < count {
        out.extend((0..rate / 8).flat_map(|i| state[i % 5][i / 5].to_le_bytes()));
        state = permuted(state);
    }
    out.truncate(count);
    out
}

pub fn sha3_256(message: &[u8]) -> Vec<u8> {
    sponge(136, message, 0b110, 32)
}

pub fn sha3_512(message: &[u8]) -> Vec<u8> {
    sponge(72, message, 0b110, 64)
}

pub fn shake_128(message: &[u8], count: usize) -> Vec<u8> {
    sponge(168, message, 0b11111, count)
}

pub fn shake_256(message: &[u8], count: usize) -> Vec<u8> {
    sponge(136, message, 0b11111, count)
}

/// The bytes of digits in hex.
pub fn from_hex(digits: &str) -> Vec<u8> {
    let byte = |place| u8::from_str_radix(&digits[place..place + 2], 16).expect("two digits in hex");
    (0..digits.len()).step_by(2).map(byte).collect()
}

/// The published digests of the empty message.
pub fn check() {
    let digests = [
        (sha3_256(&[]), "A7FFC6F8BF1ED76651C14756A061D662F580FF4DE43B49FA82D80A4B80F8434A"),
        (
            sha3_512(&[]),
            "A69F73CCA23A9AC5C8B567DC185A756E97C982164FE25859E0D1DCC1475C80A615B2123AF1F5F94C11E3E9402C3AC558F500199D95B6D3E301758586281DCD26",
        ),
        (shake_128(&[], 32), "7F9C2BA4E88F827D616045507605853ED73B8093F6EFBC88EB1A6EACFA66EF26"),
        (shake_256(&[], 32), "46B9DD2B0BA88D13233B3FEB743EEB243FCD52EA62B81B82B50C27646ED5762F"),
    ];
    for (found, want) in digests {
        assert_eq!(found, from_hex(want), "a digest of the empty message");
    }
}
