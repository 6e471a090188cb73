//! CTR, OFB and CFB, cut at random, beside the definitions of NIST SP 800-38A over single blocks. Known calls have published values.

use crate::common::*;
use cukvashe_des::stream::*;
use cukvashe_des::*;

const IV: Block = [0x12, 0x34, 0x56, 0x78, 0x90, 0xab, 0xcd, 0xef];

const SEGMENTS: [(Segment, u32); 9] = [
    (Segment::Bits1, 1),
    (Segment::Bits8, 8),
    (Segment::Bits16, 16),
    (Segment::Bits24, 24),
    (Segment::Bits32, 32),
    (Segment::Bits40, 40),
    (Segment::Bits48, 48),
    (Segment::Bits56, 56),
    (Segment::Bits64, 64),
];

/// Each mode, of CFB with the bits of a segment.
fn modes() -> impl Iterator<Item = (Mode, u32)> {
    let cfb = SEGMENTS.into_iter().map(|(segment, bits)| (Mode::Cfb(segment), bits));
    [(Mode::Ctr, 64), (Mode::Ofb, 64)].into_iter().chain(cfb)
}

fn encrypted(cipher: &impl BlockCipher, register: u64) -> u64 {
    let mut block = register.to_be_bytes();
    cipher.encrypt_block(&mut block);
    u64::from_be_bytes(block)
}

/// What the definition makes of a text, bit by bit: `bits` of an output block for a segment, and then the next register.
fn defined(cipher: &impl BlockCipher, (mode, bits): (Mode, u32), iv: &Block, data: &[u8], encrypts: bool) -> Vec<u8> {
    let (mut register, mut answer) = (u64::from_be_bytes(*iv), data.to_vec());
    let (mut output, mut fed, mut used) = (0_u64, 0_u64, bits);
    for at in 0..8 * data.len() {
        if used == bits {
            if at > 0 {
                register = match mode {
                    Mode::Ctr => register.wrapping_add(1),
                    Mode::Ofb => output,
                    _ if bits == 64 => fed,
                    _ => register << bits | fed & ((1 << bits) - 1),
                };
            }
            (output, used) = (encrypted(cipher, register), 0);
        }
        let given = data[at / 8] >> (7 - at % 8) & 1;
        let made = given ^ (output >> (63 - used) & 1) as u8;
        answer[at / 8] = answer[at / 8] & !(0x80 >> (at % 8)) | made << (7 - at % 8);
        fed = fed << 1 | u64::from(if encrypts { made } else { given });
        used += 1;
    }
    answer
}

/// Random numbers, the same each time (splitmix64).
struct Random(u64);

impl Random {
    fn next(&mut self) -> u64 {
        self.0 = self.0.wrapping_add(0x9e3779b97f4a7c15);
        let mut z = self.0;
        z = (z ^ z >> 30).wrapping_mul(0xbf58476d1ce4e5b9);
        z = (z ^ z >> 27).wrapping_mul(0x94d049bb133111eb);
        z ^ z >> 31
    }

    fn below(&mut self, end: usize) -> usize {
        (self.next() % end as u64) as usize
    }

    fn bytes(&mut self, length: usize) -> Vec<u8> {
        (0..length).map(|_| self.next() as u8).collect()
    }
}

/// A stream by its type, or by the calls of its cipher.
enum Any<C> {
    Ctr(Ctr<C>),
    Ofb(Ofb<C>),
    CfbEncryptor(CfbEncryptor<C>),
    CfbDecryptor(CfbDecryptor<C>),
    Apart(C, Stream, bool),
}

impl<C: BlockCipher> Any<C> {
    fn new(cipher: C, mode: Mode, iv: &Block, is_apart: bool, encrypts: bool) -> Self {
        match mode {
            _ if is_apart => Any::Apart(cipher, Stream::new(mode, iv), encrypts),
            Mode::Ctr => Any::Ctr(Ctr::new(cipher, iv)),
            Mode::Ofb => Any::Ofb(Ofb::new(cipher, iv)),
            Mode::Cfb(segment) if encrypts => Any::CfbEncryptor(CfbEncryptor::new(cipher, iv, segment)),
            Mode::Cfb(segment) => Any::CfbDecryptor(CfbDecryptor::new(cipher, iv, segment)),
            mode => panic!("{mode:?}"),
        }
    }

    fn apply(&mut self, data: &mut [u8]) {
        match self {
            Any::Ctr(ctr) => ctr.apply_keystream(data),
            Any::Ofb(ofb) => ofb.apply_keystream(data),
            Any::CfbEncryptor(cfb) => cfb.encrypt(data),
            Any::CfbDecryptor(cfb) => cfb.decrypt(data),
            Any::Apart(cipher, stream, true) => cipher.encrypt_stream(stream, data),
            Any::Apart(cipher, stream, false) => cipher.decrypt_stream(stream, data),
        }
    }
}

#[test]
fn random_texts_are_as_defined() {
    let mut random = Random(2026);
    let mut ciphers = vec![];
    for _ in 0..16 {
        for size in [8, 16, 24] {
            let key = random.bytes(size);
            ciphers.push(Cipher::new_from_slice(&key).unwrap());
            ciphers.push(Cipher::new_no_tables_from_slice(&key).unwrap());
        }
    }
    let modes: Vec<_> = modes().collect();
    for number in 0..20_000 {
        let cipher = &ciphers[random.below(ciphers.len())];
        let mode = match random.below(3) {
            2 => modes[2 + random.below(9)],
            at => modes[at],
        };
        let longest = [20, 20, 60, if number % 16 == 0 { 1200 } else { 24 }][random.below(4)];
        let length = random.below(longest);
        let (data, encrypts) = (random.bytes(length), random.below(2) == 0);
        let iv: Block = random.bytes(8).try_into().unwrap();
        let expected = defined(cipher, mode, &iv, &data, encrypts);
        let mut answer = data.clone();
        if number % 3 == 0 {
            if encrypts {
                cipher.encrypt_mode(mode.0, &iv, &mut answer);
            } else {
                cipher.decrypt_mode(mode.0, &iv, &mut answer);
            }
        } else {
            let mut stream = Any::new(cipher.clone(), mode.0, &iv, number % 3 == 1, encrypts);
            let mut rest = &mut answer[..];
            while !rest.is_empty() {
                let at = random.below(rest.len() + 1);
                let (piece, others) = rest.split_at_mut(at);
                stream.apply(piece);
                rest = others;
            }
        }
        assert_eq!(answer, expected, "{number}: {mode:?}, {length}, {encrypts}");
    }
}

#[test]
fn places_are_found() {
    let cipher = TdesEde3::new(&KEY);
    let mut whole = [0; 100];
    cipher.encrypt_mode(Mode::Ctr, &IV, &mut whole);
    let mut ctr = Ctr::new(cipher.clone(), &IV);
    for at in (0..100).chain([3, 99, 0, 8, 7]) {
        ctr.seek(at);
        let mut other = ctr.clone();
        let mut rest = vec![0; 100 - at as usize];
        other.apply_keystream(&mut rest);
        assert_eq!(rest, whole[at as usize..]);
        rest.fill(0);
        ctr.apply_keystream(&mut rest);
        assert_eq!(rest, whole[at as usize..]);
    }
    for (counter, blocks) in [(IV, 5), ([0xff; 8], 1), ([0; 8], u64::MAX)] {
        let (mut one, mut other) = ([0; 24], [0; 24]);
        cipher.encrypt_stream(&mut Stream::ctr_at(&counter, blocks), &mut one);
        let first = u64::from_be_bytes(counter).wrapping_add(blocks).to_be_bytes();
        cipher.encrypt_mode(Mode::Ctr, &first, &mut other);
        assert_eq!(one, other);
    }
    ctr.seek(u64::MAX);
    let mut byte = [0];
    ctr.apply_keystream(&mut byte);
    let mut block = u64::from_be_bytes(IV).wrapping_add(u64::MAX / 8).to_be_bytes();
    cipher.encrypt_block(&mut block);
    assert_eq!(byte[0], block[7]);
}

#[test]
fn bits_are_those_of_the_whole() {
    let cipher = TdesEde3::new(&KEY);
    let bits_of =
        |bytes: &[u8]| -> Vec<bool> { (0..8 * bytes.len()).map(|at| bytes[at / 8] << (at % 8) & 0x80 != 0).collect() };
    let bytes_of = |bits: &[bool]| -> Vec<u8> {
        bits.chunks(8)
            .map(|byte| (0..8).fold(0, |all, at| all << 1 | u8::from(*byte.get(at).unwrap_or(&true))))
            .collect()
    };
    let mut answer = TEXT[..5].to_vec();
    cipher.encrypt_mode(Mode::Cfb(Segment::Bits1), &IV, &mut answer);
    let (plain, answer) = (bits_of(&TEXT[..5]), bits_of(&answer));
    for cut in 0..=40 {
        for (given, wanted, encrypts) in [(&plain, &answer, true), (&answer, &plain, false)] {
            let mut encryptor = CfbEncryptor::new(cipher.clone(), &IV, Segment::Bits1);
            let mut decryptor = CfbDecryptor::new(cipher.clone(), &IV, Segment::Bits1);
            for (given, wanted) in [(&given[..cut], &wanted[..cut]), (&given[cut..], &wanted[cut..])] {
                let mut data = bytes_of(given);
                let made = if encrypts {
                    encryptor.encrypt_bits(&mut data, given.len())
                } else {
                    decryptor.decrypt_bits(&mut data, given.len())
                };
                assert_eq!((made, &data), (Ok(()), &bytes_of(wanted)));
            }
        }
    }
    for (segment, bits) in SEGMENTS {
        let mut data = [9; 3];
        let mut encryptor = CfbEncryptor::new(cipher.clone(), &IV, segment);
        let mut decryptor = CfbDecryptor::new(cipher.clone(), &IV, segment);
        let wrong = if bits == 1 { Ok(()) } else { Err(BitsError::Segment) };
        for count in [25, 32, usize::MAX] {
            assert_eq!(encryptor.encrypt_bits(&mut data, count), Err(BitsError::TooFew));
            assert_eq!(decryptor.decrypt_bits(&mut data, count), Err(BitsError::TooFew));
        }
        assert_eq!(data, [9; 3]);
        assert_eq!((encryptor.encrypt_bits(&mut data, 24), data == [9; 3]), (wrong, bits != 1));
    }
    for mode in [Mode::Ctr, Mode::Ofb] {
        assert_eq!(cipher.encrypt_stream_bits(&mut Stream::new(mode, &IV), &mut [9; 3], 3), Err(BitsError::Segment));
    }
}

/// A stream goes on under whatever cipher it is given.
#[test]
fn streams_are_no_cipher() {
    let (one, other) = (TdesEde3::new(&KEY), Des::new(&[7; 8]));
    for (mode, bits) in modes() {
        let (mut data, mut stream) = (*TEXT, Stream::new(mode, &IV));
        one.encrypt_stream(&mut stream, &mut data[..8]);
        let mut next = IV;
        match mode {
            Mode::Ctr => next = (u64::from_be_bytes(IV) + 1).to_be_bytes(),
            Mode::Ofb => one.encrypt_block(&mut next),
            _ => next.copy_from_slice(&data[..8]),
        }
        // Segments of these sizes end with a block.
        if 64 % bits == 0 {
            let expected = defined(&other, (mode, bits), &next, &TEXT[8..], true);
            other.encrypt_stream(&mut stream, &mut data[8..]);
            assert_eq!(data[8..], expected, "{mode:?}");
        }
    }
}
