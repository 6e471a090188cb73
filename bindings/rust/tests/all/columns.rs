//! Columns of MariaDB, PostgreSQL and Jasypt, and which values of a column can't be read.

use crate::common::bytes_of;
use cukvashe_des::columns::*;
use cukvashe_des::{BlockCipher, TdesEde3};

/// What a call reads of one column, of values of any lengths.
fn read(
    values: &[&[u8]],
    call: impl for<'c> FnOnce(Column<'c>, Buffers<'c>) -> Result<Texts<'c>, ColumnError>,
) -> Result<Vec<Result<Vec<u8>, ValueError>>, ColumnError> {
    let (bytes, lengths): (Vec<u8>, Vec<usize>) = (values.concat(), values.iter().map(|value| value.len()).collect());
    let (mut texts, mut sizes) = (vec![0x55; bytes.len() + 1], vec![0x55; lengths.len()]);
    let mut statuses = vec![Status::default(); lengths.len()];
    let buffers = Buffers { texts: &mut texts, lengths: &mut sizes, statuses: &mut statuses };
    let read = call(Column::new(&bytes, &lengths).unwrap(), buffers)?;
    let found: Vec<_> = read.iter().map(|text| text.map(<[u8]>::to_vec)).collect();
    let faults: Vec<_> =
        found.iter().enumerate().filter_map(|(place, text)| Some((place, *text.as_ref().err()?))).collect();
    assert_eq!(read.faults().collect::<Vec<_>>(), faults);
    Ok(found)
}

#[test]
fn values_of_mariadb() {
    for (key, text, digits) in [
        (&b"secret key"[..], &b"4111111111111111"[..], "FF761CE2F3FCEDDD8A59A88A58A8C312F3722AED0D3FFC72C8"),
        (b"secret key", b"12345678", "FFA3B355AF8C509A975B3C4BB286B70D4C"),
        (b"secret key", b"", ""),
        (b"k", b"abcdefg", "FFF0F19FAD283C9714"),
        (b"k", b"abcdefgh", "FF0CEC8A9D3373AE6BFA4D2EB4055DE21B"),
        (b"k", b"xxxxxxxxxxxxxxxxxxxx", "FF02731A6A0A4CF8035BDF098EBB4FE2938BED7DC10B8AABDC"),
        (b"", b"\x00\xff", "FF137F1306ADB26457"),
    ] {
        let value = bytes_of(digits);
        let texts = read(&[&value, &value], |values, buffers| mysql_decrypt(key, values, buffers));
        assert_eq!(texts, Ok(vec![Ok(text.to_vec()); 2]));
    }
    // Under a key of the server's file.
    let value = bytes_of("81FDBFE045C327A5F2");
    let texts = read(&[&value], |values, buffers| mysql_decrypt(b"another key", values, buffers));
    assert_eq!(texts, Ok(vec![Ok(b"abc".to_vec())]));
}

#[test]
fn values_of_pgcrypto() {
    for (cipher, key, iv, text, digits) in [
        ("3des", "0123456789abcdef01234567", "", "hello world", "5548aa9afc0bf656bae4a844accf0674"),
        ("3DES-ECB", "0123456789abcdef01234567", "", "hello world", "5548aa9afc0bf6569d9d5e0d89ab4535"),
        ("3des-cbc", "0123456789abcdef", "", "hello world", "5edd30c020f618ff180b53afd62efef9"),
        ("3des", "short key", "", "hello world", "ce1252c01a55ff49ca7c3db7617f8e96"),
        ("3des", "kkkkkkkkkkkkkkkkkkkkkkkkkkkkkk", "", "hello world", "14f1dc714b9a4453af5180b08e561e04"),
        ("3des", "0123456789abcdef01234567", "12345678", "hello world", "90aaa5a2eb3a74905ebbd8bc8355164f"),
        ("des", "01234567", "", "hello world", "9a02b43b244034e9c9c44c1d26b778af"),
        ("des", "123456789", "", "hello world", "28dba02eb5f6dd4778407276c7967fb2"),
        ("des", "1234", "", "hello world", "a158a37495c57fa513fb8177bff54c46"),
        ("des/pad:pkcs", "01234567", "1234", "hello world", "71696c4b5f4e3176f806b75d4508f5a9"),
        ("des-ecb/pad:none", "01234567", "", "hello wo", "9a02b43b244034e9"),
        ("des", "01234567", "", "", "08bb5db6b37c06d7"),
    ] {
        let value = bytes_of(digits);
        let texts = read(&[&value, &value], |values, buffers| {
            pgcrypto_decrypt(cipher, key.as_bytes(), iv.as_bytes(), values, buffers)
        });
        assert_eq!(texts, Ok(vec![Ok(text.into()); 2]));
    }
}

#[test]
fn strings_of_jasypt() {
    for (algorithm, string) in [
        (Pbe::Md5AndDes, "XFI3GkOHuvaUreHPZLAFn+zx81+pE+jN"),
        (Pbe::Md5AndTripleDes, "+34RBE07LtEN82W7f6UWaHttfv/kGSJv"),
        (Pbe::Sha1AndDesEde, "AM7XwsOzxflFDMNvCTJm5cjZuLZa/GEf"),
    ] {
        let around = format!("ENC({string})");
        let spaced = format!("\t ENC( {}\r\n{}\x0c) \n", &string[..5], &string[5..]);
        let texts = read(&[string.as_bytes(), around.as_bytes(), spaced.as_bytes()], |values, buffers| {
            jasypt_decrypt(algorithm, 1000, b"secret", values, buffers)
        });
        assert_eq!(texts, Ok(vec![Ok(b"jdbc password 1".to_vec()); 3]));
    }
    let of = |algorithm, iterations| {
        read(&[], |values, buffers| jasypt_decrypt(algorithm, iterations, b"secret", values, buffers))
    };
    assert_eq!(of(Pbe::Sha1AndDes, 1000), Err(ColumnError::Algorithm));
    assert_eq!(of(Pbe::ShaAnd2KeyTripleDes, 1000), Err(ColumnError::Algorithm));
    assert_eq!(of(Pbe::Md5AndDes, 0), Err(ColumnError::NoIteration));
}

/// Two strings of one column, by their salts; and texts of some lengths, which are read back.
#[test]
fn strings_for_jasypt() {
    for (algorithm, salt, string) in [
        (Pbe::Md5AndDes, "5c52371a4387baf6", "XFI3GkOHuvaUreHPZLAFn+zx81+pE+jN"),
        (Pbe::Md5AndTripleDes, "fb7e11044d3b2ed1", "+34RBE07LtEN82W7f6UWaHttfv/kGSJv"),
        (Pbe::Sha1AndDesEde, "00ced7c2c3b3c5f9", "AM7XwsOzxflFDMNvCTJm5cjZuLZa/GEf"),
    ] {
        let salts = [bytes_of(salt).try_into().unwrap(), *b"saltsalt"];
        let texts = Column::new(b"jdbc password 1jdbc password 1", &[15, 15]).unwrap();
        let mut strings = [0x55; 64];
        jasypt_encrypt(algorithm, 1000, b"secret", &salts, texts, &mut strings).unwrap();
        assert_eq!(&strings[..32], string.as_bytes());
        let read = read(&[&strings[..32], &strings[32..]], |values, buffers| {
            jasypt_decrypt(algorithm, 1000, b"secret", values, buffers)
        });
        assert_eq!(read, Ok(vec![Ok(b"jdbc password 1".to_vec()); 2]));
        assert_ne!(&strings[..32], &strings[32..]);
    }
    for length in 0..40 {
        let (text, mut string) = (vec![0x61; length], vec![0x55; jasypt_length(length)]);
        let texts = Column::new(&text, std::slice::from_ref(&length)).unwrap();
        jasypt_encrypt(Pbe::Md5AndDes, 3, b"secret", &[[7; 8]], texts, &mut string).unwrap();
        let read = read(&[&string], |values, buffers| jasypt_decrypt(Pbe::Md5AndDes, 3, b"secret", values, buffers));
        assert_eq!(read, Ok(vec![Ok(text)]));
    }
}

/// A value of the JDK whose salt has two equal halves.
#[test]
fn keys_of_passwords() {
    let (salt, mut made) = (bytes_of("0102030401020304"), [0; 32]);
    Pbe::Md5AndTripleDes.write_bytes(20, b"secret", &salt, &mut made).unwrap();
    let mut data = bytes_of("0a6ddec322c99c34");
    let cipher = TdesEde3::new_from_slice(&made[..24]).unwrap();
    cipher.decrypt_cbc(&mut made[24..].try_into().unwrap(), &mut data).unwrap();
    assert_eq!(data, b"abc\x05\x05\x05\x05\x05");
    for (algorithm, length) in [(Pbe::Sha1AndDes, 16), (Pbe::ShaAnd2KeyTripleDes, 24), (Pbe::Sha1AndDesEde, 32)] {
        assert_eq!(algorithm.write_bytes(1, b"secret", &salt, &mut made[..length]), Ok(()));
        assert_eq!(algorithm.write_bytes(1, b"secret", &salt, &mut made[..length - 1]), Err(PbeError::KeyLength));
        assert_eq!(algorithm.write_bytes(0, b"secret", &salt, &mut made[..length]), Err(PbeError::NoIteration));
    }
    assert_eq!(Pbe::Md5AndTripleDes.write_bytes(1, b"secret", &salt[1..], &mut made), Err(PbeError::SaltLength));
}

#[test]
fn values_that_cannot_be_read() {
    let good = bytes_of("FF0CEC8A9D3373AE6BFA4D2EB4055DE21B");
    let column = [&b"\xff\x00"[..], &good, b"\xff\0\0\0\0\0\0\0\0", b"", &good[1..]];
    let texts = read(&column, |values, buffers| mysql_decrypt(b"k", values, buffers)).unwrap();
    let (not, padding) = (Err(ValueError::NotEncrypted), Err(ValueError::Padding));
    assert_eq!(texts, [not.clone(), Ok(b"abcdefgh".to_vec()), padding.clone(), Ok(vec![]), not]);
    let value = bytes_of("5548aa9afc0bf656bae4a844accf0674");
    let blocks = Err(ValueError::NotBlocks);
    let texts = read(&[&value[..8], &value, b"", &value[..9]], |values, buffers| {
        pgcrypto_decrypt("3des", b"0123456789abcdef01234567", b"", values, buffers)
    });
    assert_eq!(texts.unwrap(), [padding.clone(), Ok(b"hello world".to_vec()), blocks.clone(), blocks.clone()]);
    let (not, cut) = (Err(ValueError::NotBase64), Err(ValueError::SaltCut));
    for (string, text) in [
        ("ENC", not.clone()),
        ("XFI3GkOHuva*", not.clone()),
        ("XFI3GkOHuv==AAAA", not.clone()),
        ("XFI3GkOHuR==", not.clone()),
        ("====", not),
        ("", cut.clone()),
        ("XFI3GkOH", cut.clone()),
        ("XFI3GkOHuQ==", cut),
        ("XFI3GkOHuvY=", blocks.clone()),
        ("XFI3GkOHuvaU", blocks.clone()),
        ("ENC(XFI3GkOHuvaUreHPZLA=)", blocks),
        ("XFI3GkOHuvaUreHPZLAFn+zx81+pEAAA", padding),
        ("XFI3GkOHuvaUreHPZLAFn+zx81+pE+jN", Ok(b"jdbc password 1".to_vec())),
    ] {
        let texts = read(&[string.as_bytes()], |values, buffers| {
            jasypt_decrypt(Pbe::Md5AndDes, 1000, b"secret", values, buffers)
        });
        assert_eq!(texts, Ok(vec![text]), "{string}");
    }
}

#[test]
fn what_is_refused_writes_nothing() {
    assert!(Column::new(b"abc", &[1, 1]).is_err() && Column::new(b"abc", &[usize::MAX, 4]).is_err());
    let values = bytes_of("FF0CEC8A9D3373AE6BFA4D2EB4055DE21B");
    let column = Column::new(&values, &[17]).unwrap();
    let (mut texts, mut sizes, mut statuses) = ([0x55; 16], [0x55; 2], [Status::default(); 2]);
    for (count, places, capacity, error) in [
        (1, 1, 16, ColumnError::BufferTooSmall),
        (2, 1, 16, ColumnError::CountsDiffer),
        (1, 2, 16, ColumnError::CountsDiffer),
    ] {
        let buffers =
            Buffers { texts: &mut texts[..capacity], lengths: &mut sizes[..count], statuses: &mut statuses[..places] };
        assert_eq!(mysql_decrypt(b"k", column, buffers).err(), Some(error));
    }
    let mut long = [0x55; 17];
    let buffers = Buffers { texts: &mut long, lengths: &mut sizes[..1], statuses: &mut statuses[..1] };
    assert_eq!(pgcrypto_decrypt("aes", b"k", b"", column, buffers).err(), Some(ColumnError::Algorithm));
    assert_eq!((texts, sizes, long), ([0x55; 16], [0x55; 2], [0x55; 17]));
    let mut strings = [0x55; 45];
    for (algorithm, iterations, salts, capacity, error) in [
        (Pbe::Sha1AndDes, 1, 1, 44, ColumnError::Algorithm),
        (Pbe::Md5AndDes, 0, 1, 44, ColumnError::NoIteration),
        (Pbe::Md5AndDes, 1, 0, 44, ColumnError::CountsDiffer),
        (Pbe::Md5AndDes, 1, 2, 44, ColumnError::CountsDiffer),
        (Pbe::Md5AndDes, 1, 1, 43, ColumnError::CountsDiffer),
        (Pbe::Md5AndDes, 1, 1, 45, ColumnError::CountsDiffer),
    ] {
        let (salts, strings) = (&[[7; 8]; 2][..salts], &mut strings[..capacity]);
        assert_eq!(jasypt_encrypt(algorithm, iterations, b"k", salts, column, strings), Err(error));
    }
    assert_eq!(strings, [0x55; 45]);
}
