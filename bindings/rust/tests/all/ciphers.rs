//! The ciphers: one table over all of them, beside known answers.

use crate::common::*;
use cukvashe_des::*;

/// The first byte is 0, which the end of a text would be.
const CBC_IV: Block = [0x00, 0x34, 0x56, 0x78, 0x90, 0xab, 0xcd, 0xef];

/// Makes `answer` of `plain`, and takes it back, by each call of a cipher for single blocks.
fn electronic_codebook(cipher: &impl BlockCipher, plain: &[u8], answer: &[u8]) {
    let mut data = plain.to_vec();
    assert_eq!(cipher.encrypt_ecb(&mut data), Ok(()));
    assert_eq!(data, answer);
    assert_eq!(cipher.decrypt_ecb(&mut data), Ok(()));
    assert_eq!(data, plain);

    let mut other = vec![0x5a; plain.len()];
    assert_eq!(cipher.encrypt_ecb_to(plain, &mut other), Ok(()));
    assert_eq!(other, answer);
    assert_eq!(cipher.decrypt_ecb_to(answer, &mut other), Ok(()));
    assert_eq!(other, plain);

    let mut blocks = blocks_of(plain);
    cipher.encrypt_blocks(&mut blocks);
    assert_eq!(blocks, blocks_of(answer));
    cipher.clone().decrypt_blocks(&mut blocks);
    assert_eq!(blocks, blocks_of(plain));
    blocks.iter_mut().for_each(|block| cipher.encrypt_block(block));
    assert_eq!(blocks, blocks_of(answer));
    blocks.iter_mut().for_each(|block| cipher.decrypt_block(block));
    assert_eq!(blocks, blocks_of(plain));
}

/// Checks each call for CBC so, whole and in pieces.
fn cbc(cipher: &impl BlockCipher, iv: &Block, plain: &[u8], answer: &[u8]) {
    let last = blocks_of(answer).last().copied().unwrap_or(*iv);
    for cut in [0, 8, plain.len() / 16 * 8, plain.len()].into_iter().filter(|&cut| cut <= plain.len()) {
        let (mut vector, mut data) = (*iv, plain.to_vec());
        assert_eq!(cipher.encrypt_cbc(&mut vector, &mut data[..cut]), Ok(()));
        assert_eq!(cipher.encrypt_cbc(&mut vector, &mut data[cut..]), Ok(()));
        assert_eq!((&vector, &data[..]), (&last, answer));
        vector = *iv;
        assert_eq!(cipher.decrypt_cbc(&mut vector, &mut data[..cut]), Ok(()));
        assert_eq!(cipher.decrypt_cbc(&mut vector, &mut data[cut..]), Ok(()));
        assert_eq!((&vector, &data[..]), (&last, plain));

        let (mut vector, mut other) = (*iv, vec![0x5a; plain.len()]);
        assert_eq!(cipher.encrypt_cbc_to(&mut vector, &plain[..cut], &mut other[..cut]), Ok(()));
        assert_eq!(cipher.encrypt_cbc_to(&mut vector, &plain[cut..], &mut other[cut..]), Ok(()));
        assert_eq!((&vector, &other[..]), (&last, answer));
        vector = *iv;
        assert_eq!(cipher.decrypt_cbc_to(&mut vector, &answer[..cut], &mut other[..cut]), Ok(()));
        assert_eq!(cipher.decrypt_cbc_to(&mut vector, &answer[cut..], &mut other[cut..]), Ok(()));
        assert_eq!((&vector, &other[..]), (&last, plain));
    }
    let (mut vector, mut blocks) = (*iv, blocks_of(plain));
    cipher.encrypt_blocks_cbc(&mut vector, &mut blocks);
    assert_eq!((vector, &blocks), (last, &blocks_of(answer)));
    vector = *iv;
    cipher.decrypt_blocks_cbc(&mut vector, &mut blocks);
    assert_eq!((vector, &blocks), (last, &blocks_of(plain)));
}

/// Known answers of one cipher, made by a call, alone and in lists: the published blocks, again and again. CBC decrypts their
/// ciphertexts to each block xor the answer before it, so its encryption gives the answers back.
fn answers<C: BlockCipher>(name: &str, new: fn(&[u8]) -> C) {
    for list in ciphertexts(name) {
        electronic_codebook(&new(&list.key), &list.plain, &list.answer);
    }
    let text = ciphertexts(name).into_iter().find(|list| list.plain == TEXT).unwrap();
    let cipher = new(&text.key);
    for count in COUNTS {
        let plain: Vec<u8> = text.plain.iter().copied().cycle().take(8 * count).collect();
        let answer: Vec<u8> = text.answer.iter().copied().cycle().take(8 * count).collect();
        electronic_codebook(&cipher, &plain, &answer);
        let before = CBC_IV.iter().chain(&answer);
        let by_cbc: Vec<u8> = plain.iter().zip(before).map(|(byte, other)| byte ^ other).collect();
        cbc(&cipher, &CBC_IV, &by_cbc, &answer);
    }
}

fn cbc_lists<C: BlockCipher>(name: &str, new: fn(&[u8]) -> C) {
    for list in ciphertexts(name) {
        cbc(&new(&list.key), &list.iv.unwrap(), &list.plain, &list.answer);
    }
}

/// The cipher of a key of the cipher's size, and the one without tables.
fn with_tables<C: BlockCipher>(key: &[u8]) -> C {
    C::new_from_slice(key).unwrap()
}

fn no_tables<C: BlockCipher>(key: &[u8]) -> C {
    C::new_no_tables_from_slice(key).unwrap()
}

#[test]
fn ciphers_answer() {
    answers::<Des>("des", with_tables);
    answers::<TdesEde2>("ede2", with_tables);
    answers::<TdesEde3>("ede3", with_tables);
    cbc_lists::<Des>("des-cbc", with_tables);
    cbc_lists::<TdesEde3>("ede3-cbc", with_tables);
}

#[test]
fn ciphers_without_tables_answer() {
    answers::<Des>("des", no_tables);
    answers::<TdesEde2>("ede2", no_tables);
    answers::<TdesEde3>("ede3", no_tables);
    cbc_lists::<Des>("des-cbc", no_tables);
    cbc_lists::<TdesEde3>("ede3-cbc", no_tables);
}

/// The key's length chooses the cipher.
#[test]
fn chosen_ciphers_answer() {
    for new in [with_tables::<Cipher>, no_tables::<Cipher>] {
        ["des", "ede2", "ede3"].into_iter().for_each(|name| answers(name, new));
        ["des-cbc", "ede3-cbc"].into_iter().for_each(|name| cbc_lists(name, new));
    }
}

/// A cipher of an array is that of the slice.
#[test]
fn ciphers_of_arrays_answer() {
    fn same<C: BlockCipher, const SIZE: usize>(new: fn(&[u8; SIZE]) -> C) {
        let key: [u8; SIZE] = KEY[..SIZE].try_into().unwrap();
        let mut answer = *TEXT;
        C::new_from_slice(&key).unwrap().encrypt_ecb(&mut answer).unwrap();
        electronic_codebook(&new(&key), TEXT, &answer);
    }
    same(Des::new);
    same(Des::new_no_tables);
    same(TdesEde2::new);
    same(TdesEde2::new_no_tables);
    same(TdesEde3::new);
    same(TdesEde3::new_no_tables);
}

fn refuses_keys<C: BlockCipher>(sizes: &[usize]) {
    for length in LENGTHS.chain([48, 64]).chain(sizes.iter().map(|size| 256 + size)) {
        let (key, refused) = (vec![1; length], (!sizes.contains(&length)).then_some(InvalidLength));
        assert_eq!(C::new_from_slice(&key).err(), refused);
        assert_eq!(C::new_no_tables_from_slice(&key).err(), refused);
    }
}

#[test]
fn lengths_of_keys_are_refused() {
    assert_eq!([Des::KEY_SIZE, TdesEde2::KEY_SIZE, TdesEde3::KEY_SIZE], [8, 16, 24]);
    refuses_keys::<Des>(&[8]);
    refuses_keys::<TdesEde2>(&[16]);
    refuses_keys::<TdesEde3>(&[24]);
    refuses_keys::<Cipher>(&[8, 16, 24]);
}

/// A refused call changes neither data nor vector.
fn refuses_data(cipher: &impl BlockCipher) {
    for length in LENGTHS.chain([1023, 1025, 2047, 4801]).filter(|length| length % 8 != 0) {
        let before = vec![0x5a; length];
        let mut data = before.clone();
        assert_eq!(cipher.encrypt_ecb(&mut data), Err(DataError::NotBlocks));
        assert_eq!(cipher.decrypt_ecb(&mut data), Err(DataError::NotBlocks));
        let mut iv = CBC_IV;
        assert_eq!(cipher.encrypt_cbc(&mut iv, &mut data), Err(DataError::NotBlocks));
        assert_eq!(cipher.decrypt_cbc(&mut iv, &mut data), Err(DataError::NotBlocks));
        let input = vec![0x11; length];
        assert_eq!(cipher.encrypt_ecb_to(&input, &mut data), Err(DataError::NotBlocks));
        assert_eq!(cipher.decrypt_ecb_to(&input, &mut data), Err(DataError::NotBlocks));
        assert_eq!(cipher.encrypt_cbc_to(&mut iv, &input, &mut data), Err(DataError::NotBlocks));
        assert_eq!(cipher.decrypt_cbc_to(&mut iv, &input, &mut data), Err(DataError::NotBlocks));
        assert_eq!((iv, &data), (CBC_IV, &before));
    }
}

/// A call from one slice to another, of single blocks and of CBC.
type Single<C> = fn(&C, &[u8], &mut [u8]) -> Result<(), DataError>;
type CbcTo<C> = fn(&C, &mut Block, &[u8], &mut [u8]) -> Result<(), DataError>;

/// Two lengths are refused, whichever is the shorter one, and no byte is written, neither in the output nor behind it.
fn refuses_two_lengths<C: BlockCipher>(cipher: &C) {
    let single: [Single<C>; 2] = [C::encrypt_ecb_to, C::decrypt_ecb_to];
    let by_cbc: [CbcTo<C>; 2] = [C::encrypt_cbc_to, C::decrypt_cbc_to];
    for (from, to) in
        [(8, 0), (0, 8), (16, 8), (8, 16), (2400, 8), (8, 2400), (1032, 1024), (1024, 1032), (8, 7), (7, 8)]
    {
        let (input, mut output, mut iv) = (vec![0x11; from], vec![0x5a; 4800], CBC_IV);
        for call in single {
            assert_eq!(call(cipher, &input, &mut output[..to]), Err(DataError::LengthsDiffer));
        }
        for call in by_cbc {
            assert_eq!(call(cipher, &mut iv, &input, &mut output[..to]), Err(DataError::LengthsDiffer));
        }
        assert_eq!((iv, output), (CBC_IV, vec![0x5a; 4800]));
    }
}

#[test]
fn lengths_of_data_are_refused() {
    refuses_data(&Des::new_from_slice(&KEY[..8]).unwrap());
    refuses_data(&TdesEde2::new_from_slice(&KEY[..16]).unwrap());
    refuses_data(&TdesEde3::new(&KEY));
    refuses_data(&Cipher::new_from_slice(&KEY).unwrap());
    refuses_two_lengths(&Des::new_from_slice(&KEY[..8]).unwrap());
    refuses_two_lengths(&TdesEde2::new_from_slice(&KEY[..16]).unwrap());
    refuses_two_lengths(&TdesEde3::new(&KEY));
    refuses_two_lengths(&Cipher::new_from_slice(&KEY).unwrap());
}
