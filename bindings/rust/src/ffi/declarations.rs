//! The declarations of `cukvashe_des.h`: made of it by `bindings/describe`.
// All are here, also those that no call of this crate takes.
#![allow(dead_code)]

use super::Context;
use core::ffi::{c_char, c_int, c_void};

pub const VERSION_MAJOR: c_int = 0;
pub const VERSION_MINOR: c_int = 1;
pub const VERSION_PATCH: c_int = 0;
pub const PKCS7: c_int = 11;
pub const ISO7816: c_int = 12;
pub const MD5: c_int = 21;
pub const SHA1: c_int = 22;
pub const SHA256: c_int = 23;
pub const CTR: c_int = 31;
pub const OFB: c_int = 32;
pub const CFB1: c_int = 40;
pub const CFB8: c_int = 41;
pub const CFB64: c_int = 48;
pub const MAC_PADDING_1: c_int = 1;
pub const MAC_PADDING_2: c_int = 2;

pub type Des = Context<17>;
pub type TdesEde2 = Context<33>;
pub type TdesEde3 = Context<49>;
pub type Stream = Context<4>;
pub type CbcMacDes = Context<21>;
pub type CbcMacTdesEde2 = Context<37>;
pub type CbcMacTdesEde3 = Context<53>;
pub type RetailMacDes = Context<38>;
pub type CmacTdesEde2 = Context<37>;
pub type CmacTdesEde3 = Context<53>;

#[repr(C)]
#[derive(Clone, Copy)]
pub struct Message {
    pub bytes: *const u8,
    pub length: usize,
}

#[repr(C)]
pub struct DukptTerminal {
    pub serial: [u8; 10],
    pub keys: [[u8; 16]; 21],
}

#[repr(C)]
pub struct PinTranslation {
    pub incoming_key: *const u8,
    pub incoming_key_length: usize,
    pub incoming_format: c_int,
    pub outgoing_key: *const u8,
    pub outgoing_key_length: usize,
    pub account: *const c_char,
    pub account_length: usize,
    pub fill: *const u8,
}

#[repr(C)]
#[derive(Clone, Copy)]
pub struct DecimalTable {
    pub digits: [u8; 16],
}

#[repr(C)]
#[derive(Clone, Copy)]
pub struct KeyBlockFields {
    pub version: u8,
    pub usage: [u8; 3],
    pub algorithm: u8,
    pub mode: u8,
    pub key_version: [u8; 3],
    pub exportability: u8,
}

#[repr(C)]
pub struct KeyBlockParts {
    pub protection: *const u8,
    pub protection_length: usize,
    pub header: KeyBlockFields,
    pub optional: *const c_char,
    pub optional_length: usize,
    pub key: *const u8,
    pub key_length: usize,
    pub padding: *const u8,
    pub padding_length: usize,
}

extern "C" {
    pub fn cukvashe_is_supported() -> bool;
    pub fn cukvashe_version() -> *const c_char;
    pub fn cukvashe_strerror(status: c_int) -> *const c_char;
    pub fn cukvashe_wipe(pointer: *mut c_void, size: usize);
    pub fn cukvashe_des_init(context: *mut Des, key: *const u8, key_length: usize) -> c_int;
    pub fn cukvashe_tdes_ede2_init(context: *mut TdesEde2, key: *const u8, key_length: usize) -> c_int;
    pub fn cukvashe_tdes_ede3_init(context: *mut TdesEde3, key: *const u8, key_length: usize) -> c_int;
    pub fn cukvashe_des_init_no_tables(context: *mut Des, key: *const u8, key_length: usize) -> c_int;
    pub fn cukvashe_tdes_ede2_init_no_tables(context: *mut TdesEde2, key: *const u8, key_length: usize) -> c_int;
    pub fn cukvashe_tdes_ede3_init_no_tables(context: *mut TdesEde3, key: *const u8, key_length: usize) -> c_int;
    pub fn cukvashe_des_encrypt_ecb(context: *const Des, data: *mut u8, length: usize) -> c_int;
    pub fn cukvashe_des_decrypt_ecb(context: *const Des, data: *mut u8, length: usize) -> c_int;
    pub fn cukvashe_des_encrypt_ecb_to(context: *const Des, input: *const u8, output: *mut u8, length: usize) -> c_int;
    pub fn cukvashe_des_decrypt_ecb_to(context: *const Des, input: *const u8, output: *mut u8, length: usize) -> c_int;
    pub fn cukvashe_tdes_ede2_encrypt_ecb(context: *const TdesEde2, data: *mut u8, length: usize) -> c_int;
    pub fn cukvashe_tdes_ede2_decrypt_ecb(context: *const TdesEde2, data: *mut u8, length: usize) -> c_int;
    pub fn cukvashe_tdes_ede2_encrypt_ecb_to(
        context: *const TdesEde2,
        input: *const u8,
        output: *mut u8,
        length: usize,
    ) -> c_int;
    pub fn cukvashe_tdes_ede2_decrypt_ecb_to(
        context: *const TdesEde2,
        input: *const u8,
        output: *mut u8,
        length: usize,
    ) -> c_int;
    pub fn cukvashe_tdes_ede3_encrypt_ecb(context: *const TdesEde3, data: *mut u8, length: usize) -> c_int;
    pub fn cukvashe_tdes_ede3_decrypt_ecb(context: *const TdesEde3, data: *mut u8, length: usize) -> c_int;
    pub fn cukvashe_tdes_ede3_encrypt_ecb_to(
        context: *const TdesEde3,
        input: *const u8,
        output: *mut u8,
        length: usize,
    ) -> c_int;
    pub fn cukvashe_tdes_ede3_decrypt_ecb_to(
        context: *const TdesEde3,
        input: *const u8,
        output: *mut u8,
        length: usize,
    ) -> c_int;
    pub fn cukvashe_des_encrypt_cbc(context: *const Des, iv: *mut [u8; 8], data: *mut u8, length: usize) -> c_int;
    pub fn cukvashe_des_decrypt_cbc(context: *const Des, iv: *mut [u8; 8], data: *mut u8, length: usize) -> c_int;
    pub fn cukvashe_des_encrypt_cbc_to(
        context: *const Des,
        iv: *mut [u8; 8],
        input: *const u8,
        output: *mut u8,
        length: usize,
    ) -> c_int;
    pub fn cukvashe_des_decrypt_cbc_to(
        context: *const Des,
        iv: *mut [u8; 8],
        input: *const u8,
        output: *mut u8,
        length: usize,
    ) -> c_int;
    pub fn cukvashe_tdes_ede2_encrypt_cbc(
        context: *const TdesEde2,
        iv: *mut [u8; 8],
        data: *mut u8,
        length: usize,
    ) -> c_int;
    pub fn cukvashe_tdes_ede2_decrypt_cbc(
        context: *const TdesEde2,
        iv: *mut [u8; 8],
        data: *mut u8,
        length: usize,
    ) -> c_int;
    pub fn cukvashe_tdes_ede2_encrypt_cbc_to(
        context: *const TdesEde2,
        iv: *mut [u8; 8],
        input: *const u8,
        output: *mut u8,
        length: usize,
    ) -> c_int;
    pub fn cukvashe_tdes_ede2_decrypt_cbc_to(
        context: *const TdesEde2,
        iv: *mut [u8; 8],
        input: *const u8,
        output: *mut u8,
        length: usize,
    ) -> c_int;
    pub fn cukvashe_tdes_ede3_encrypt_cbc(
        context: *const TdesEde3,
        iv: *mut [u8; 8],
        data: *mut u8,
        length: usize,
    ) -> c_int;
    pub fn cukvashe_tdes_ede3_decrypt_cbc(
        context: *const TdesEde3,
        iv: *mut [u8; 8],
        data: *mut u8,
        length: usize,
    ) -> c_int;
    pub fn cukvashe_tdes_ede3_encrypt_cbc_to(
        context: *const TdesEde3,
        iv: *mut [u8; 8],
        input: *const u8,
        output: *mut u8,
        length: usize,
    ) -> c_int;
    pub fn cukvashe_tdes_ede3_decrypt_cbc_to(
        context: *const TdesEde3,
        iv: *mut [u8; 8],
        input: *const u8,
        output: *mut u8,
        length: usize,
    ) -> c_int;
    pub fn cukvashe_des_encrypt_mode(
        context: *const Des,
        mode: c_int,
        iv: *const [u8; 8],
        data: *mut u8,
        length: usize,
    ) -> c_int;
    pub fn cukvashe_des_decrypt_mode(
        context: *const Des,
        mode: c_int,
        iv: *const [u8; 8],
        data: *mut u8,
        length: usize,
    ) -> c_int;
    pub fn cukvashe_tdes_ede2_encrypt_mode(
        context: *const TdesEde2,
        mode: c_int,
        iv: *const [u8; 8],
        data: *mut u8,
        length: usize,
    ) -> c_int;
    pub fn cukvashe_tdes_ede2_decrypt_mode(
        context: *const TdesEde2,
        mode: c_int,
        iv: *const [u8; 8],
        data: *mut u8,
        length: usize,
    ) -> c_int;
    pub fn cukvashe_tdes_ede3_encrypt_mode(
        context: *const TdesEde3,
        mode: c_int,
        iv: *const [u8; 8],
        data: *mut u8,
        length: usize,
    ) -> c_int;
    pub fn cukvashe_tdes_ede3_decrypt_mode(
        context: *const TdesEde3,
        mode: c_int,
        iv: *const [u8; 8],
        data: *mut u8,
        length: usize,
    ) -> c_int;
    pub fn cukvashe_stream_begin(stream: *mut Stream, mode: c_int, iv: *const [u8; 8]) -> c_int;
    pub fn cukvashe_stream_begin_ctr_at(stream: *mut Stream, counter: *const [u8; 8], blocks: u64);
    pub fn cukvashe_des_encrypt_stream(context: *const Des, stream: *mut Stream, data: *mut u8, length: usize) -> c_int;
    pub fn cukvashe_des_decrypt_stream(context: *const Des, stream: *mut Stream, data: *mut u8, length: usize) -> c_int;
    pub fn cukvashe_tdes_ede2_encrypt_stream(
        context: *const TdesEde2,
        stream: *mut Stream,
        data: *mut u8,
        length: usize,
    ) -> c_int;
    pub fn cukvashe_tdes_ede2_decrypt_stream(
        context: *const TdesEde2,
        stream: *mut Stream,
        data: *mut u8,
        length: usize,
    ) -> c_int;
    pub fn cukvashe_tdes_ede3_encrypt_stream(
        context: *const TdesEde3,
        stream: *mut Stream,
        data: *mut u8,
        length: usize,
    ) -> c_int;
    pub fn cukvashe_tdes_ede3_decrypt_stream(
        context: *const TdesEde3,
        stream: *mut Stream,
        data: *mut u8,
        length: usize,
    ) -> c_int;
    pub fn cukvashe_des_encrypt_stream_bits(
        context: *const Des,
        stream: *mut Stream,
        data: *mut u8,
        bits: usize,
    ) -> c_int;
    pub fn cukvashe_des_decrypt_stream_bits(
        context: *const Des,
        stream: *mut Stream,
        data: *mut u8,
        bits: usize,
    ) -> c_int;
    pub fn cukvashe_tdes_ede2_encrypt_stream_bits(
        context: *const TdesEde2,
        stream: *mut Stream,
        data: *mut u8,
        bits: usize,
    ) -> c_int;
    pub fn cukvashe_tdes_ede2_decrypt_stream_bits(
        context: *const TdesEde2,
        stream: *mut Stream,
        data: *mut u8,
        bits: usize,
    ) -> c_int;
    pub fn cukvashe_tdes_ede3_encrypt_stream_bits(
        context: *const TdesEde3,
        stream: *mut Stream,
        data: *mut u8,
        bits: usize,
    ) -> c_int;
    pub fn cukvashe_tdes_ede3_decrypt_stream_bits(
        context: *const TdesEde3,
        stream: *mut Stream,
        data: *mut u8,
        bits: usize,
    ) -> c_int;
    pub fn cukvashe_stream_position(stream: *const Stream, iv: *mut [u8; 8], used: *mut usize);
    pub fn cukvashe_cms_wrap_key(
        protection: *const u8,
        protection_length: usize,
        iv: *const [u8; 8],
        key: *const u8,
        key_length: usize,
        wrapped: *mut u8,
        capacity: usize,
        wrapped_length: *mut usize,
    ) -> c_int;
    pub fn cukvashe_cms_unwrap_key(
        protection: *const u8,
        protection_length: usize,
        wrapped: *const u8,
        wrapped_length: usize,
        key: *mut u8,
        capacity: usize,
        key_length: *mut usize,
    ) -> c_int;
    pub fn cukvashe_tkw_wrap_key(
        protection: *const u8,
        protection_length: usize,
        key: *const u8,
        key_length: usize,
        wrapped: *mut u8,
        capacity: usize,
        wrapped_length: *mut usize,
    ) -> c_int;
    pub fn cukvashe_tkw_unwrap_key(
        protection: *const u8,
        protection_length: usize,
        wrapped: *const u8,
        wrapped_length: usize,
        key: *mut u8,
        capacity: usize,
        key_length: *mut usize,
    ) -> c_int;
    pub fn cukvashe_des_encrypt_each(keys: *const u8, count: usize, blocks: *mut u8, length: usize) -> c_int;
    pub fn cukvashe_des_decrypt_each(keys: *const u8, count: usize, blocks: *mut u8, length: usize) -> c_int;
    pub fn cukvashe_tdes_ede2_encrypt_each(keys: *const u8, count: usize, blocks: *mut u8, length: usize) -> c_int;
    pub fn cukvashe_tdes_ede2_decrypt_each(keys: *const u8, count: usize, blocks: *mut u8, length: usize) -> c_int;
    pub fn cukvashe_tdes_ede3_encrypt_each(keys: *const u8, count: usize, blocks: *mut u8, length: usize) -> c_int;
    pub fn cukvashe_tdes_ede3_decrypt_each(keys: *const u8, count: usize, blocks: *mut u8, length: usize) -> c_int;
    pub fn cukvashe_des_encrypt_cbc_records(
        context: *const Des,
        vectors: *mut u8,
        vectors_length: usize,
        counts: *const usize,
        records_count: usize,
        bytes: *mut u8,
        length: usize,
    ) -> c_int;
    pub fn cukvashe_des_decrypt_cbc_records(
        context: *const Des,
        vectors: *mut u8,
        vectors_length: usize,
        counts: *const usize,
        records_count: usize,
        bytes: *mut u8,
        length: usize,
    ) -> c_int;
    pub fn cukvashe_tdes_ede2_encrypt_cbc_records(
        context: *const TdesEde2,
        vectors: *mut u8,
        vectors_length: usize,
        counts: *const usize,
        records_count: usize,
        bytes: *mut u8,
        length: usize,
    ) -> c_int;
    pub fn cukvashe_tdes_ede2_decrypt_cbc_records(
        context: *const TdesEde2,
        vectors: *mut u8,
        vectors_length: usize,
        counts: *const usize,
        records_count: usize,
        bytes: *mut u8,
        length: usize,
    ) -> c_int;
    pub fn cukvashe_tdes_ede3_encrypt_cbc_records(
        context: *const TdesEde3,
        vectors: *mut u8,
        vectors_length: usize,
        counts: *const usize,
        records_count: usize,
        bytes: *mut u8,
        length: usize,
    ) -> c_int;
    pub fn cukvashe_tdes_ede3_decrypt_cbc_records(
        context: *const TdesEde3,
        vectors: *mut u8,
        vectors_length: usize,
        counts: *const usize,
        records_count: usize,
        bytes: *mut u8,
        length: usize,
    ) -> c_int;
    pub fn cukvashe_pad(
        buffer: *mut u8,
        length: usize,
        capacity: usize,
        method: c_int,
        padded_length: *mut usize,
    ) -> c_int;
    pub fn cukvashe_unpad(buffer: *const u8, length: usize, method: c_int, unpadded_length: *mut usize) -> c_int;
    pub fn cukvashe_weak_key_test(key: *const u8, key_length: usize) -> c_int;
    pub fn cukvashe_set_odd_parity(key: *mut u8, key_length: usize);
    pub fn cukvashe_equal_but_parity(first: *const u8, second: *const u8, key_length: usize) -> bool;
    pub fn cukvashe_cbc_mac_des_init(
        context: *mut CbcMacDes,
        key: *const u8,
        key_length: usize,
        method: c_int,
    ) -> c_int;
    pub fn cukvashe_cbc_mac_tdes_ede2_init(
        context: *mut CbcMacTdesEde2,
        key: *const u8,
        key_length: usize,
        method: c_int,
    ) -> c_int;
    pub fn cukvashe_cbc_mac_tdes_ede3_init(
        context: *mut CbcMacTdesEde3,
        key: *const u8,
        key_length: usize,
        method: c_int,
    ) -> c_int;
    pub fn cukvashe_retail_mac_des_init(
        context: *mut RetailMacDes,
        key: *const u8,
        key_length: usize,
        method: c_int,
    ) -> c_int;
    pub fn cukvashe_cmac_tdes_ede2_init(context: *mut CmacTdesEde2, key: *const u8, key_length: usize) -> c_int;
    pub fn cukvashe_cmac_tdes_ede3_init(context: *mut CmacTdesEde3, key: *const u8, key_length: usize) -> c_int;
    pub fn cukvashe_cbc_mac_des_init_no_tables(
        context: *mut CbcMacDes,
        key: *const u8,
        key_length: usize,
        method: c_int,
    ) -> c_int;
    pub fn cukvashe_cbc_mac_tdes_ede2_init_no_tables(
        context: *mut CbcMacTdesEde2,
        key: *const u8,
        key_length: usize,
        method: c_int,
    ) -> c_int;
    pub fn cukvashe_cbc_mac_tdes_ede3_init_no_tables(
        context: *mut CbcMacTdesEde3,
        key: *const u8,
        key_length: usize,
        method: c_int,
    ) -> c_int;
    pub fn cukvashe_retail_mac_des_init_no_tables(
        context: *mut RetailMacDes,
        key: *const u8,
        key_length: usize,
        method: c_int,
    ) -> c_int;
    pub fn cukvashe_cmac_tdes_ede2_init_no_tables(
        context: *mut CmacTdesEde2,
        key: *const u8,
        key_length: usize,
    ) -> c_int;
    pub fn cukvashe_cmac_tdes_ede3_init_no_tables(
        context: *mut CmacTdesEde3,
        key: *const u8,
        key_length: usize,
    ) -> c_int;
    pub fn cukvashe_cbc_mac_des_update(context: *mut CbcMacDes, message: *const u8, length: usize) -> c_int;
    pub fn cukvashe_cbc_mac_tdes_ede2_update(context: *mut CbcMacTdesEde2, message: *const u8, length: usize) -> c_int;
    pub fn cukvashe_cbc_mac_tdes_ede3_update(context: *mut CbcMacTdesEde3, message: *const u8, length: usize) -> c_int;
    pub fn cukvashe_retail_mac_des_update(context: *mut RetailMacDes, message: *const u8, length: usize) -> c_int;
    pub fn cukvashe_cmac_tdes_ede2_update(context: *mut CmacTdesEde2, message: *const u8, length: usize) -> c_int;
    pub fn cukvashe_cmac_tdes_ede3_update(context: *mut CmacTdesEde3, message: *const u8, length: usize) -> c_int;
    pub fn cukvashe_cbc_mac_des_final(context: *const CbcMacDes, tag: *mut [u8; 8]) -> c_int;
    pub fn cukvashe_cbc_mac_tdes_ede2_final(context: *const CbcMacTdesEde2, tag: *mut [u8; 8]) -> c_int;
    pub fn cukvashe_cbc_mac_tdes_ede3_final(context: *const CbcMacTdesEde3, tag: *mut [u8; 8]) -> c_int;
    pub fn cukvashe_retail_mac_des_final(context: *const RetailMacDes, tag: *mut [u8; 8]) -> c_int;
    pub fn cukvashe_cmac_tdes_ede2_final(context: *const CmacTdesEde2, tag: *mut [u8; 8]) -> c_int;
    pub fn cukvashe_cmac_tdes_ede3_final(context: *const CmacTdesEde3, tag: *mut [u8; 8]) -> c_int;
    pub fn cukvashe_cbc_mac_des_verify(context: *const CbcMacDes, tag: *const u8, tag_length: usize) -> c_int;
    pub fn cukvashe_cbc_mac_tdes_ede2_verify(
        context: *const CbcMacTdesEde2,
        tag: *const u8,
        tag_length: usize,
    ) -> c_int;
    pub fn cukvashe_cbc_mac_tdes_ede3_verify(
        context: *const CbcMacTdesEde3,
        tag: *const u8,
        tag_length: usize,
    ) -> c_int;
    pub fn cukvashe_retail_mac_des_verify(context: *const RetailMacDes, tag: *const u8, tag_length: usize) -> c_int;
    pub fn cukvashe_cmac_tdes_ede2_verify(context: *const CmacTdesEde2, tag: *const u8, tag_length: usize) -> c_int;
    pub fn cukvashe_cmac_tdes_ede3_verify(context: *const CmacTdesEde3, tag: *const u8, tag_length: usize) -> c_int;
    pub fn cukvashe_cbc_mac_des_is_tag(context: *const CbcMacDes, tag: *const u8, tag_length: usize) -> bool;
    pub fn cukvashe_cbc_mac_tdes_ede2_is_tag(context: *const CbcMacTdesEde2, tag: *const u8, tag_length: usize) -> bool;
    pub fn cukvashe_cbc_mac_tdes_ede3_is_tag(context: *const CbcMacTdesEde3, tag: *const u8, tag_length: usize) -> bool;
    pub fn cukvashe_retail_mac_des_is_tag(context: *const RetailMacDes, tag: *const u8, tag_length: usize) -> bool;
    pub fn cukvashe_cmac_tdes_ede2_is_tag(context: *const CmacTdesEde2, tag: *const u8, tag_length: usize) -> bool;
    pub fn cukvashe_cmac_tdes_ede3_is_tag(context: *const CmacTdesEde3, tag: *const u8, tag_length: usize) -> bool;
    pub fn cukvashe_cbc_mac_des_macs(
        key: *const u8,
        key_length: usize,
        method: c_int,
        messages: *const Message,
        tags: *mut u8,
        tags_length: usize,
        count: usize,
    ) -> c_int;
    pub fn cukvashe_cbc_mac_des_macs_each(
        keys: *const u8,
        keys_length: usize,
        method: c_int,
        messages: *const Message,
        tags: *mut u8,
        tags_length: usize,
        count: usize,
    ) -> c_int;
    pub fn cukvashe_cbc_mac_tdes_ede2_macs(
        key: *const u8,
        key_length: usize,
        method: c_int,
        messages: *const Message,
        tags: *mut u8,
        tags_length: usize,
        count: usize,
    ) -> c_int;
    pub fn cukvashe_cbc_mac_tdes_ede2_macs_each(
        keys: *const u8,
        keys_length: usize,
        method: c_int,
        messages: *const Message,
        tags: *mut u8,
        tags_length: usize,
        count: usize,
    ) -> c_int;
    pub fn cukvashe_cbc_mac_tdes_ede3_macs(
        key: *const u8,
        key_length: usize,
        method: c_int,
        messages: *const Message,
        tags: *mut u8,
        tags_length: usize,
        count: usize,
    ) -> c_int;
    pub fn cukvashe_cbc_mac_tdes_ede3_macs_each(
        keys: *const u8,
        keys_length: usize,
        method: c_int,
        messages: *const Message,
        tags: *mut u8,
        tags_length: usize,
        count: usize,
    ) -> c_int;
    pub fn cukvashe_retail_mac_des_macs(
        key: *const u8,
        key_length: usize,
        method: c_int,
        messages: *const Message,
        tags: *mut u8,
        tags_length: usize,
        count: usize,
    ) -> c_int;
    pub fn cukvashe_retail_mac_des_macs_each(
        keys: *const u8,
        keys_length: usize,
        method: c_int,
        messages: *const Message,
        tags: *mut u8,
        tags_length: usize,
        count: usize,
    ) -> c_int;
    pub fn cukvashe_cmac_tdes_ede2_macs(
        key: *const u8,
        key_length: usize,
        messages: *const Message,
        tags: *mut u8,
        tags_length: usize,
        count: usize,
    ) -> c_int;
    pub fn cukvashe_cmac_tdes_ede2_macs_each(
        keys: *const u8,
        keys_length: usize,
        messages: *const Message,
        tags: *mut u8,
        tags_length: usize,
        count: usize,
    ) -> c_int;
    pub fn cukvashe_cmac_tdes_ede3_macs(
        key: *const u8,
        key_length: usize,
        messages: *const Message,
        tags: *mut u8,
        tags_length: usize,
        count: usize,
    ) -> c_int;
    pub fn cukvashe_cmac_tdes_ede3_macs_each(
        keys: *const u8,
        keys_length: usize,
        messages: *const Message,
        tags: *mut u8,
        tags_length: usize,
        count: usize,
    ) -> c_int;
    pub fn cukvashe_compare_tags(
        tags: *const u8,
        tags_length: usize,
        expected: *const u8,
        expected_length: usize,
        right: *mut bool,
        count: usize,
    ) -> c_int;
    pub fn cukvashe_des_check_value(key: *const u8, key_length: usize, value: *mut [u8; 3]) -> c_int;
    pub fn cukvashe_tdes_ede2_check_value(key: *const u8, key_length: usize, value: *mut [u8; 3]) -> c_int;
    pub fn cukvashe_tdes_ede3_check_value(key: *const u8, key_length: usize, value: *mut [u8; 3]) -> c_int;
    pub fn cukvashe_key_check_value(key: *const u8, key_length: usize, value: *mut [u8; 3]) -> c_int;
    pub fn cukvashe_short_key_check_value(key: *const u8, key_length: usize, value: *mut [u8; 2]) -> c_int;
    pub fn cukvashe_des_check_values(
        keys: *const u8,
        keys_length: usize,
        values: *mut u8,
        values_length: usize,
        count: usize,
    ) -> c_int;
    pub fn cukvashe_tdes_ede2_check_values(
        keys: *const u8,
        keys_length: usize,
        values: *mut u8,
        values_length: usize,
        count: usize,
    ) -> c_int;
    pub fn cukvashe_tdes_ede3_check_values(
        keys: *const u8,
        keys_length: usize,
        values: *mut u8,
        values_length: usize,
        count: usize,
    ) -> c_int;
    pub fn cukvashe_combine_8(
        first: *const [u8; 8],
        second: *const [u8; 8],
        others: *const u8,
        others_length: usize,
        others_count: usize,
        key: *mut [u8; 8],
    ) -> c_int;
    pub fn cukvashe_combine_16(
        first: *const [u8; 16],
        second: *const [u8; 16],
        others: *const u8,
        others_length: usize,
        others_count: usize,
        key: *mut [u8; 16],
    ) -> c_int;
    pub fn cukvashe_combine_24(
        first: *const [u8; 24],
        second: *const [u8; 24],
        others: *const u8,
        others_length: usize,
        others_count: usize,
        key: *mut [u8; 24],
    ) -> c_int;
    pub fn cukvashe_dukpt_is_usable(serial: *const [u8; 10]) -> bool;
    pub fn cukvashe_dukpt_next_serial(serial: *const [u8; 10], next: *mut [u8; 10]) -> c_int;
    pub fn cukvashe_dukpt_initial_key(base: *const [u8; 16], serial: *const [u8; 10], key: *mut [u8; 16]);
    pub fn cukvashe_dukpt_transaction_key(initial: *const [u8; 16], serial: *const [u8; 10], key: *mut [u8; 16]);
    pub fn cukvashe_dukpt_transaction_keys_from_base(
        base: *const [u8; 16],
        serials: *const u8,
        serials_length: usize,
        keys: *mut u8,
        keys_length: usize,
        count: usize,
    ) -> c_int;
    pub fn cukvashe_dukpt_pin_key(transaction: *const [u8; 16], key: *mut [u8; 16]);
    pub fn cukvashe_dukpt_mac_key(transaction: *const [u8; 16], is_response: bool, key: *mut [u8; 16]);
    pub fn cukvashe_dukpt_data_key(transaction: *const [u8; 16], is_response: bool, key: *mut [u8; 16]);
    pub fn cukvashe_dukpt_data_variant(transaction: *const [u8; 16], is_response: bool, key: *mut [u8; 16]);
    pub fn cukvashe_dukpt_terminal_init(
        terminal: *mut DukptTerminal,
        initial: *const [u8; 16],
        serial: *const [u8; 10],
    );
    pub fn cukvashe_dukpt_terminal_next_key(
        terminal: *mut DukptTerminal,
        serial: *mut [u8; 10],
        key: *mut [u8; 16],
    ) -> c_int;
    pub fn cukvashe_pin_encode_0(
        pin: *const c_char,
        pin_length: usize,
        account: *const c_char,
        account_length: usize,
        block: *mut [u8; 8],
    ) -> c_int;
    pub fn cukvashe_pin_encode_1(
        pin: *const c_char,
        pin_length: usize,
        transaction: *const [u8; 10],
        block: *mut [u8; 8],
    ) -> c_int;
    pub fn cukvashe_pin_encode_2(pin: *const c_char, pin_length: usize, block: *mut [u8; 8]) -> c_int;
    pub fn cukvashe_pin_encode_3(
        pin: *const c_char,
        pin_length: usize,
        account: *const c_char,
        account_length: usize,
        fill: *const [u8; 10],
        block: *mut [u8; 8],
    ) -> c_int;
    pub fn cukvashe_pin_decode_0(
        block: *const [u8; 8],
        account: *const c_char,
        account_length: usize,
        pin: *mut [u8; 13],
    ) -> c_int;
    pub fn cukvashe_pin_decode_1(block: *const [u8; 8], pin: *mut [u8; 13]) -> c_int;
    pub fn cukvashe_pin_decode_2(block: *const [u8; 8], pin: *mut [u8; 13]) -> c_int;
    pub fn cukvashe_pin_decode_3(
        block: *const [u8; 8],
        account: *const c_char,
        account_length: usize,
        pin: *mut [u8; 13],
    ) -> c_int;
    pub fn cukvashe_pin_translate_to_0(
        translation: *const PinTranslation,
        block: *const [u8; 8],
        translated: *mut [u8; 8],
    ) -> c_int;
    pub fn cukvashe_pin_translate_to_1(
        translation: *const PinTranslation,
        block: *const [u8; 8],
        translated: *mut [u8; 8],
    ) -> c_int;
    pub fn cukvashe_pin_translate_to_3(
        translation: *const PinTranslation,
        block: *const [u8; 8],
        translated: *mut [u8; 8],
    ) -> c_int;
    pub fn cukvashe_pvv(
        key: *const [u8; 16],
        account: *const c_char,
        account_length: usize,
        index: c_int,
        pin: *const c_char,
        pin_length: usize,
        value: *mut [u8; 5],
    ) -> c_int;
    pub fn cukvashe_pvv_verify(
        key: *const [u8; 16],
        account: *const c_char,
        account_length: usize,
        index: c_int,
        pin: *const c_char,
        pin_length: usize,
        value: *const c_char,
        value_length: usize,
    ) -> c_int;
    pub fn cukvashe_pvv_is_pin(
        key: *const [u8; 16],
        account: *const c_char,
        account_length: usize,
        index: c_int,
        pin: *const c_char,
        pin_length: usize,
        value: *const c_char,
        value_length: usize,
    ) -> bool;
    pub fn cukvashe_decimal_table_init(table: *mut DecimalTable, digits: *const c_char, length: usize) -> c_int;
    pub fn cukvashe_decimal_table_init_any(table: *mut DecimalTable, digits: *const c_char, length: usize) -> c_int;
    pub fn cukvashe_natural_pin(
        key: *const u8,
        key_length: usize,
        table: *const DecimalTable,
        validation: *const [u8; 8],
        pin_length: usize,
        pin: *mut [u8; 13],
    ) -> c_int;
    pub fn cukvashe_pin_offset(
        key: *const u8,
        key_length: usize,
        table: *const DecimalTable,
        validation: *const [u8; 8],
        pin: *const c_char,
        pin_length: usize,
        offset: *mut [u8; 13],
    ) -> c_int;
    pub fn cukvashe_pin_offset_verify(
        key: *const u8,
        key_length: usize,
        table: *const DecimalTable,
        validation: *const [u8; 8],
        pin: *const c_char,
        pin_length: usize,
        offset: *const c_char,
        offset_length: usize,
    ) -> c_int;
    pub fn cukvashe_pin_offset_is_pin(
        key: *const u8,
        key_length: usize,
        table: *const DecimalTable,
        validation: *const [u8; 8],
        pin: *const c_char,
        pin_length: usize,
        offset: *const c_char,
        offset_length: usize,
    ) -> bool;
    pub fn cukvashe_cvv(
        key: *const [u8; 16],
        account: *const c_char,
        account_length: usize,
        expiry: *const c_char,
        expiry_length: usize,
        service: *const c_char,
        service_length: usize,
        value: *mut [u8; 4],
    ) -> c_int;
    pub fn cukvashe_emv_card_key(
        issuer: *const [u8; 16],
        account: *const c_char,
        account_length: usize,
        sequence: *const c_char,
        sequence_length: usize,
        key: *mut [u8; 16],
    ) -> c_int;
    pub fn cukvashe_emv_card_key_b(
        issuer: *const [u8; 16],
        account: *const c_char,
        account_length: usize,
        sequence: *const c_char,
        sequence_length: usize,
        key: *mut [u8; 16],
    ) -> c_int;
    pub fn cukvashe_emv_application_key(card: *const [u8; 16], counter: *const [u8; 2], key: *mut [u8; 16]);
    pub fn cukvashe_emv_session_key(card: *const [u8; 16], block: *const [u8; 8], key: *mut [u8; 16]);
    pub fn cukvashe_emv_application_cryptogram(
        session: *const [u8; 16],
        data: *const u8,
        length: usize,
        cryptogram: *mut [u8; 8],
    );
    pub fn cukvashe_emv_response_1(
        session: *const [u8; 16],
        cryptogram: *const [u8; 8],
        code: *const [u8; 2],
        response: *mut [u8; 8],
    );
    pub fn cukvashe_emv_response_2(
        session: *const [u8; 16],
        cryptogram: *const [u8; 8],
        status: *const [u8; 4],
        data: *const u8,
        length: usize,
        response: *mut [u8; 4],
    ) -> c_int;
    pub fn cukvashe_key_block_unwrap(
        protection: *const u8,
        protection_length: usize,
        block: *const c_char,
        block_length: usize,
        header: *mut KeyBlockFields,
        key: *mut [u8; 24],
        key_length: *mut usize,
    ) -> c_int;
    pub fn cukvashe_key_block_wrap(
        parts: *const KeyBlockParts,
        block: *mut c_char,
        capacity: usize,
        length: *mut usize,
    ) -> c_int;
    pub fn cukvashe_key_block_header(block: *const c_char, block_length: usize, header: *mut KeyBlockFields) -> c_int;
    pub fn cukvashe_key_block_context(block: *const c_char, block_length: usize, context: *mut c_char) -> c_int;
    pub fn cukvashe_key_block_optional_block(
        block: *const c_char,
        block_length: usize,
        place: usize,
        name: *mut [u8; 3],
        offset: *mut usize,
        length: *mut usize,
    ) -> c_int;
    pub fn cukvashe_pbkdf2(
        hash: c_int,
        iterations: usize,
        password: *const u8,
        password_length: usize,
        salt: *const u8,
        salt_length: usize,
        key: *mut u8,
        key_length: usize,
    ) -> c_int;
    pub fn cukvashe_bytes_to_key(
        hash: c_int,
        password: *const u8,
        password_length: usize,
        salt: *const u8,
        salt_length: usize,
        key: *mut u8,
        key_length: usize,
    ) -> c_int;
    pub fn cukvashe_des_open_salted(
        hash: c_int,
        iterations: usize,
        password: *const u8,
        password_length: usize,
        bytes: *const u8,
        length: usize,
        plain: *mut u8,
        capacity: usize,
        plain_length: *mut usize,
    ) -> c_int;
    pub fn cukvashe_tdes_ede2_open_salted(
        hash: c_int,
        iterations: usize,
        password: *const u8,
        password_length: usize,
        bytes: *const u8,
        length: usize,
        plain: *mut u8,
        capacity: usize,
        plain_length: *mut usize,
    ) -> c_int;
    pub fn cukvashe_tdes_ede3_open_salted(
        hash: c_int,
        iterations: usize,
        password: *const u8,
        password_length: usize,
        bytes: *const u8,
        length: usize,
        plain: *mut u8,
        capacity: usize,
        plain_length: *mut usize,
    ) -> c_int;
    pub fn cukvashe_mysql_decrypt_values(
        password: *const u8,
        password_length: usize,
        values: *const u8,
        length: usize,
        lengths: *const usize,
        values_count: usize,
        texts: *mut u8,
        text_lengths: *mut usize,
        statuses: *mut c_int,
    ) -> c_int;
    pub fn cukvashe_mysql_decrypt_values_by_file(
        keys: *const u8,
        keys_length: usize,
        values: *const u8,
        length: usize,
        lengths: *const usize,
        values_count: usize,
        texts: *mut u8,
        text_lengths: *mut usize,
        statuses: *mut c_int,
    ) -> c_int;
    pub fn cukvashe_pgcrypto_decrypt_values(
        algorithm: *const c_char,
        algorithm_length: usize,
        key: *const u8,
        key_length: usize,
        iv: *const u8,
        iv_length: usize,
        values: *const u8,
        length: usize,
        lengths: *const usize,
        values_count: usize,
        texts: *mut u8,
        text_lengths: *mut usize,
        statuses: *mut c_int,
    ) -> c_int;
    pub fn cukvashe_mysql_encrypt_values(
        password: *const u8,
        password_length: usize,
        number: usize,
        texts: *const u8,
        length: usize,
        lengths: *const usize,
        texts_count: usize,
        values: *mut u8,
        values_length: usize,
    ) -> c_int;
    pub fn cukvashe_pgcrypto_encrypt_values(
        algorithm: *const c_char,
        algorithm_length: usize,
        key: *const u8,
        key_length: usize,
        iv: *const u8,
        iv_length: usize,
        texts: *const u8,
        length: usize,
        lengths: *const usize,
        texts_count: usize,
        values: *mut u8,
        values_length: usize,
    ) -> c_int;
    pub fn cukvashe_pbe_key(
        algorithm: *const c_char,
        algorithm_length: usize,
        iterations: usize,
        password: *const u8,
        password_length: usize,
        salt: *const u8,
        salt_length: usize,
        key: *mut u8,
        key_length: usize,
    ) -> c_int;
    pub fn cukvashe_jasypt_decrypt_values(
        algorithm: *const c_char,
        algorithm_length: usize,
        iterations: usize,
        password: *const u8,
        password_length: usize,
        values: *const u8,
        length: usize,
        lengths: *const usize,
        values_count: usize,
        texts: *mut u8,
        text_lengths: *mut usize,
        statuses: *mut c_int,
    ) -> c_int;
    pub fn cukvashe_jasypt_encrypt_values(
        algorithm: *const c_char,
        algorithm_length: usize,
        iterations: usize,
        password: *const u8,
        password_length: usize,
        salts: *const u8,
        salts_length: usize,
        texts: *const u8,
        length: usize,
        lengths: *const usize,
        texts_count: usize,
        values: *mut u8,
        values_length: usize,
    ) -> c_int;
    pub fn cukvashe_des_size() -> usize;
    pub fn cukvashe_tdes_ede2_size() -> usize;
    pub fn cukvashe_tdes_ede3_size() -> usize;
    pub fn cukvashe_stream_size() -> usize;
    pub fn cukvashe_cbc_mac_des_size() -> usize;
    pub fn cukvashe_cbc_mac_tdes_ede2_size() -> usize;
    pub fn cukvashe_cbc_mac_tdes_ede3_size() -> usize;
    pub fn cukvashe_retail_mac_des_size() -> usize;
    pub fn cukvashe_cmac_tdes_ede2_size() -> usize;
    pub fn cukvashe_cmac_tdes_ede3_size() -> usize;
    pub fn cukvashe_message_size() -> usize;
    pub fn cukvashe_dukpt_terminal_size() -> usize;
    pub fn cukvashe_pin_translation_size() -> usize;
    pub fn cukvashe_decimal_table_size() -> usize;
    pub fn cukvashe_key_block_fields_size() -> usize;
    pub fn cukvashe_key_block_parts_size() -> usize;
    pub fn cukvashe_version_major() -> c_int;
    pub fn cukvashe_version_minor() -> c_int;
    pub fn cukvashe_version_patch() -> c_int;
    pub fn cukvashe_block_size() -> usize;
    pub fn cukvashe_tag_size() -> usize;
    pub fn cukvashe_des_key_size() -> usize;
    pub fn cukvashe_tdes_ede2_key_size() -> usize;
    pub fn cukvashe_tdes_ede3_key_size() -> usize;
    pub fn cukvashe_cbc_mac_des_key_size() -> usize;
    pub fn cukvashe_cbc_mac_tdes_ede2_key_size() -> usize;
    pub fn cukvashe_cbc_mac_tdes_ede3_key_size() -> usize;
    pub fn cukvashe_retail_mac_des_key_size() -> usize;
    pub fn cukvashe_cmac_tdes_ede2_key_size() -> usize;
    pub fn cukvashe_cmac_tdes_ede3_key_size() -> usize;
    pub fn cukvashe_check_value_size() -> usize;
    pub fn cukvashe_short_check_value_size() -> usize;
    pub fn cukvashe_dukpt_key_size() -> usize;
    pub fn cukvashe_dukpt_serial_size() -> usize;
    pub fn cukvashe_fill_size() -> usize;
    pub fn cukvashe_pin_size() -> usize;
    pub fn cukvashe_cvv_size() -> usize;
    pub fn cukvashe_pvv_size() -> usize;
    pub fn cukvashe_key_data_size() -> usize;
    pub fn cukvashe_key_block_size() -> usize;
    pub fn cukvashe_pkcs7() -> c_int;
    pub fn cukvashe_iso7816() -> c_int;
    pub fn cukvashe_md5() -> c_int;
    pub fn cukvashe_sha1() -> c_int;
    pub fn cukvashe_sha256() -> c_int;
    pub fn cukvashe_ctr() -> c_int;
    pub fn cukvashe_ofb() -> c_int;
    pub fn cukvashe_cfb1() -> c_int;
    pub fn cukvashe_cfb8() -> c_int;
    pub fn cukvashe_cfb64() -> c_int;
    pub fn cukvashe_mac_padding_1() -> c_int;
    pub fn cukvashe_mac_padding_2() -> c_int;
}
