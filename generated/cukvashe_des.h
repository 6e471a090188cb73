/*
 * Cukvashe: DES and triple DES (FIPS 46-3), for C99 and C++11
 *
 * The exports that do the work are proved. Most calls of this header are lines of C over them, tested and not proved
 * (see WHAT IS PROVED).
 *
 * Link with -lcukvashe_des. The library is for Linux on aarch64, riscv64 and x86-64-v2 (SSE4.2), and for Windows on
 * x86-64-v2. No call allocates memory, prints, or keeps a pointer. All state is in what you pass: threads may make any
 * calls at the same time, as long as none writes what another uses.
 *
 * LENGTHS
 *
 * Every length and size is in bytes, every count in elements: keys, messages, records, or blocks of 8 bytes. A call of
 * lists takes both, and refuses what does not agree (CUKVASHE_ERR_COUNTS). Bit 1 of FIPS 46-3 is the highest bit of
 * the first byte. Bytes and texts may stand at any address, all else at any that suits its type. Texts that you pass
 * need no zero byte; after those that calls write stands one, which no length counts.
 *
 * POINTERS
 *
 * A pointer may be null if the length, count or size beside it is 0, or the capacity if it has one; no other may be.
 * What a call writes must not overlap any other argument, but `input` and `output` of a call named _to may be one
 * pointer.
 *
 * STATUSES
 *
 * A call that can refuse its arguments returns CUKVASHE_OK, or a CUKVASHE_ERR_.., and then it has changed nothing,
 * except that a wrong wrapped key leaves zeros (see KEY WRAP), and that CUKVASHE_ERR_VALUES comes with the values that
 * can be read (see OLD RECORDS). Each section names its errors in order: the first that applies is returned. CUKVASHE_OK
 * is 0, so an `if` on verify is true for a wrong tag or PIN: use is_tag or is_pin, which are true for the right one
 * alone.
 *
 * WHAT YOU MUST UPHOLD
 *
 * Behaviour is undefined if a pointer is not good for its length, if arguments overlap that must not, or if anything but
 * calls changed a part of a context after its init: they look at its mark alone (see CIPHERS). You may copy, move and
 * overwrite whole contexts. Weak keys are accepted (see KEYS). No mode here authenticates. Use an initialization vector
 * that is fresh and that nobody can foresee. Wipe contexts, terminals, keys, passwords and PINs after use
 * (cukvashe_wipe).
 *
 * SECRETS AND TIME
 *
 * The calls of a context of init may read tables, those of one of init_no_tables read none; the results are the same,
 * and a copy is of its kind. With tables, these read them at addresses that depend on the key and the data: MACs, CBC
 * and CFB encryption, OFB and CFB1, which go block by block; ECB, CTR, and CBC and CFB decryption if the number of
 * blocks modulo 128 is 1 to 31: in CTR with one that has begun, in CFB each segment is one, in CFB8 each byte. Without
 * tables no call does, and these take up to four times as long. Take contexts without tables if others run programs on
 * the processor.
 *
 * Other calls, and those of records, read none. Calls branch on lengths, on the status that they return, and on account
 * and key serial numbers, dates, codes, fill digits and decimalization tables, which are not secret here; on anything
 * else only where the section says so. This is not proved: most calls are tested with valgrind on x86-64 with Linux, the
 * others were read in the source. Elsewhere nothing is claimed of addresses and branches, and nowhere of time.
 *
 * SECRETS ON THE STACK
 *
 * A call with an argument of one of these names is given or gives a key, a password or a PIN, and writes zeros over the
 * stack that it used:
 *
 *     base, card, first, initial, issuer, key, keys, parts, password, pin, protection, session, terminal, transaction,
 *     translation
 *
 * Calls with a context, except init and init_no_tables, do not: they may leave round keys and parts of blocks there.
 * Calls without arguments, and these, are given nothing of that kind:
 *
 *     compare_tags, decimal_table_init, decimal_table_init_any, dukpt_is_usable, dukpt_next_serial, key_block_context,
 *     key_block_header, key_block_optional_block, pad, strerror, unpad, wipe
 *
 * Registers are not wiped: a signal may store parts of keys, and so may lazy binding, so link the static library with
 * -z now. Tests on Linux see the zeros, and that no call uses more bytes of the stack than this:
 *
 *      6,000   any that is not named below
 *      7,000   cms_
 *     27,000   _ecb, _ecb_to, _cbc, _cbc_to, _each, _check_values, _open_salted, key_block_
 *     32,000   _mode, _stream, _stream_bits
 *     46,000   _macs, _macs_each, _values, _values_by_file, dukpt_transaction_keys_from_base
 *     66,000   _cbc_records, mysql_encrypt_values, pgcrypto_encrypt_values
 *
 * WHAT IS PROVED
 *
 * The exports are proved safe, and proved to do what this header says, if you uphold the above: by FIPS 46-3, FIPS 81
 * (CBC, CFB, OFB) and the standards named below. bytes_to_key and open_salted follow OpenSSL. No standard defines the
 * calls of KEYS, check values, components, PIN verification and card verification values: their rules are the words
 * below. The proof is for Linux on x86-64 and aarch64; code for riscv64 and Windows is compiled from that for x86-64,
 * and tested.
 *
 * cukvashe_stream_begin, _begin_ctr_at and _position, cukvashe_unpad, cukvashe_dukpt_is_usable,
 * cukvashe_dukpt_next_serial, cukvashe_decimal_table_init and _init_any, and cukvashe_key_block_header, _context and
 * _optional_block are such exports. wipe, strerror and calls without arguments are C. Others are C over hidden exports:
 * it chooses the width of vectors, says which cipher or MAC is meant, reorders arguments, takes them out of a struct,
 * counts the blocks of a length, compares counts with lengths, and wipes the stack.
 */
#ifndef CUKVASHE_DES_H
#define CUKVASHE_DES_H

#include <stdbool.h>
#include <stddef.h>
#include <stdint.h>

#ifdef __cplusplus
extern "C" {
#endif

/* The version of this header; cukvashe_version() has that of the library. */
#define CUKVASHE_VERSION "0.1.0"
#define CUKVASHE_VERSION_MAJOR 0
#define CUKVASHE_VERSION_MINOR 1
#define CUKVASHE_VERSION_PATCH 0

/* What a call that returns a status is declared with. Define it yourself, as empty, if you want no warnings. */
#ifndef CUKVASHE_CHECK
#if defined(__GNUC__) || defined(__clang__)
#define CUKVASHE_CHECK __attribute__((warn_unused_result))
#else
#define CUKVASHE_CHECK
#endif
#endif

/* The library shows the calls of this header and hides its own. */
#if defined(__ELF__) || defined(__MACH__)
#pragma GCC visibility push(default)
#endif

/* Statuses, each with the sentence that cukvashe_strerror gives. Calls return them as int. */
enum cukvashe_status {
  CUKVASHE_OK = 0,                         /* success */
  CUKVASHE_ERR_KEY_LENGTH = 1,             /* the key does not have a length that the call takes */
  CUKVASHE_ERR_BLOCKS = 2,                 /* the length is not a multiple of 8 bytes */
  CUKVASHE_ERR_WEAK_KEY = 3,               /* the key is weak, or two of its parts are one key */
  CUKVASHE_ERR_PADDING_METHOD = 4,         /* the padding method is not one that the call takes */
  CUKVASHE_ERR_TAG = 5,                    /* the tag is not that of the message */
  CUKVASHE_ERR_NO_SERIAL = 6,              /* there is no next key serial number */
  CUKVASHE_ERR_FORMAT = 7,                 /* the first digit of the PIN block is not that of the format */
  CUKVASHE_ERR_PIN_LENGTH = 8,             /* the PIN does not have 4 to 12 digits */
  CUKVASHE_ERR_PIN_DIGIT = 9,              /* a character of the PIN is not a digit */
  CUKVASHE_ERR_ACCOUNT_LENGTH = 10,        /* the account number does not have 8 to 19 digits, for a PVV or a CVV 12
                                              to 19 */
  CUKVASHE_ERR_ACCOUNT_DIGIT = 11,         /* a character of the account number is not a digit */
  CUKVASHE_ERR_FILL = 12,                  /* a fill digit is not one that the format allows */
  CUKVASHE_ERR_EXPIRY_LENGTH = 13,         /* the expiry date does not have four digits */
  CUKVASHE_ERR_EXPIRY_DIGIT = 14,          /* a character of the expiry date is not a digit */
  CUKVASHE_ERR_SERVICE_LENGTH = 15,        /* the service code does not have three digits */
  CUKVASHE_ERR_SERVICE_DIGIT = 16,         /* a character of the service code is not a digit */
  CUKVASHE_ERR_PADDING = 17,               /* the data do not end with the padding */
  CUKVASHE_ERR_CAPACITY = 18,              /* the buffer is too small for all that the call would write */
  CUKVASHE_ERR_COUNTS = 19,                /* the numbers of elements do not agree: a count, or a sum of counts, and
                                              a length */
  CUKVASHE_ERR_KEY_INDEX = 20,             /* the index of the key pair is not 1 to 6 */
  CUKVASHE_ERR_TABLE_LENGTH = 21,          /* the decimalization table does not have sixteen digits */
  CUKVASHE_ERR_TABLE_DIGIT = 22,           /* a character of the decimalization table is not a digit */
  CUKVASHE_ERR_TABLE_VARIETY = 23,         /* the decimalization table has fewer than eight different digits */
  CUKVASHE_ERR_WRONG_PIN = 24,             /* the PIN is wrong */
  CUKVASHE_ERR_FORMATS = 25,               /* there is no translation of PIN blocks from this format, only from 0, 1
                                              and 3 */
  CUKVASHE_ERR_PIN_BLOCK = 26,             /* decrypted, the PIN block is not one of its format and account number */
  CUKVASHE_ERR_SEQUENCE_LENGTH = 27,       /* the sequence number does not have two digits */
  CUKVASHE_ERR_SEQUENCE_DIGIT = 28,        /* a character of the sequence number is not a digit */
  CUKVASHE_ERR_DATA_LENGTH = 29,           /* the issuer's data have more than 8 bytes */
  CUKVASHE_ERR_PROTECTION_KEY_LENGTH = 30, /* the protection key does not have 16 or 24 bytes */
  CUKVASHE_ERR_KEY_BLOCK_LENGTH = 31,      /* the key block is not as long as its header says, longer than 9999
                                              characters, or too long for its buffer */
  CUKVASHE_ERR_VERSION = 32,               /* the version of the key block is not one that the call takes */
  CUKVASHE_ERR_HEADER = 33,                /* the header does not end with two digits, 0, 1 or 2, and 0, or a field
                                              to be written is not letters and digits */
  CUKVASHE_ERR_OPTIONAL_BLOCK = 34,        /* the optional blocks can't be read or written: a wrong length, name,
                                              content or PB, an end off a multiple of eight, or more than 99 */
  CUKVASHE_ERR_KEY_DATA_LENGTH = 35,       /* the encrypted key data do not have a length that they can have */
  CUKVASHE_ERR_KEY_BLOCK_DIGIT = 36,       /* a character of the encrypted key data or the MAC is not 0 to 9 or A to
                                              F */
  CUKVASHE_ERR_KEY_BLOCK_MAC = 37,         /* the MAC is not that of the key block */
  CUKVASHE_ERR_PADDING_LENGTH = 38,        /* the padding of the key does not have 6, 14 or 22 bytes, or has more
                                              than 30 with the key */
  CUKVASHE_ERR_NO_OPTIONAL_BLOCK = 39,     /* the key block has no optional block at this place */
  CUKVASHE_ERR_HASH = 40,                  /* the hash function is not one that the call takes */
  CUKVASHE_ERR_ITERATIONS = 41,            /* the number of iterations is not 1 to 2^32 - 1 */
  CUKVASHE_ERR_NOT_SALTED = 42,            /* the bytes do not begin with Salted__ */
  CUKVASHE_ERR_SALT_LENGTH = 43,           /* the bytes end within the salt, or it does not have 0 or 8 bytes */
  CUKVASHE_ERR_CONTEXT = 44,               /* the context is not one that the init of this type made */
  CUKVASHE_ERR_MODE = 45,                  /* the mode is not one that the call takes */
  CUKVASHE_ERR_STREAM = 46,                /* the stream is not one that was begun */
  CUKVASHE_ERR_WRAPPED_LENGTH = 47,        /* the wrapped key does not have 24 bytes or more, a multiple of 8 (CMS), or 12
                                              or more, a multiple of 4 (TKW) */
  CUKVASHE_ERR_WRAPPED_KEY = 48,           /* the bytes are no key wrapped under the protection key, or were changed */
  CUKVASHE_ERR_NOT_ENCRYPTED = 49,         /* the value is none that MySQL encrypted */
  CUKVASHE_ERR_VALUES = 50,                /* some values can't be read: their statuses say why */
  CUKVASHE_ERR_ALGORITHM = 51,             /* the algorithm is not one that the call takes */
  CUKVASHE_ERR_BASE64 = 52,                /* the value is not Base64 */
  CUKVASHE_ERR_KEY_NUMBER = 53,            /* the number is not 0 to 9, or the file has no key of that number */
  CUKVASHE_ERR_OVERLAP = 54,               /* what the call would write overlaps what it reads */
};

/* Sizes, in bytes. */
#define CUKVASHE_BLOCK_SIZE 8
#define CUKVASHE_TAG_SIZE 8
#define CUKVASHE_DES_KEY_SIZE 8
#define CUKVASHE_TDES_EDE2_KEY_SIZE 16
#define CUKVASHE_TDES_EDE3_KEY_SIZE 24
#define CUKVASHE_CBC_MAC_DES_KEY_SIZE 8
#define CUKVASHE_CBC_MAC_TDES_EDE2_KEY_SIZE 16
#define CUKVASHE_CBC_MAC_TDES_EDE3_KEY_SIZE 24
#define CUKVASHE_RETAIL_MAC_DES_KEY_SIZE 16
#define CUKVASHE_CMAC_TDES_EDE2_KEY_SIZE 16
#define CUKVASHE_CMAC_TDES_EDE3_KEY_SIZE 24
#define CUKVASHE_CHECK_VALUE_SIZE 3
#define CUKVASHE_SHORT_CHECK_VALUE_SIZE 2
#define CUKVASHE_DUKPT_KEY_SIZE 16
#define CUKVASHE_DUKPT_SERIAL_SIZE 10
#define CUKVASHE_FILL_SIZE 10 /* the fill digits of a PIN block, one in a byte */
#define CUKVASHE_PIN_SIZE 13  /* a PIN of up to 12 digits, and a zero byte */
#define CUKVASHE_CVV_SIZE 4   /* three digits, and a zero byte */
#define CUKVASHE_PVV_SIZE 5   /* four digits, and a zero byte */
#define CUKVASHE_KEY_DATA_SIZE 32     /* two bytes, a key and padding that hides its length */
#define CUKVASHE_KEY_BLOCK_SIZE 10000 /* the longest key block, and a zero byte */

/* The padding methods of cukvashe_pad: PKCS#7 (RFC 5652, 6.3), and ISO/IEC 7816-4. */
#define CUKVASHE_PKCS7 11
#define CUKVASHE_ISO7816 12

/* The hash functions of keys from passwords: MD5 (RFC 1321), and SHA-1 and SHA-256 (FIPS 180-4). */
#define CUKVASHE_MD5 21
#define CUKVASHE_SHA1 22
#define CUKVASHE_SHA256 23

/* The modes without padding. Cipher feedback with segments of n bytes, 1 to 8, has the number CUKVASHE_CFB1 + n. */
#define CUKVASHE_CTR 31
#define CUKVASHE_OFB 32
#define CUKVASHE_CFB1 40
#define CUKVASHE_CFB8 41
#define CUKVASHE_CFB64 48

/* The padding methods of MACs (ISO/IEC 9797-1:2011, 6.3): zeros; and a one bit, then zeros. */
#define CUKVASHE_MAC_PADDING_1 1
#define CUKVASHE_MAC_PADDING_2 2

/*
 * THE LIBRARY ITSELF
 *
 * version returns the version of the library; CUKVASHE_VERSION is that of the header. CUKVASHE_VERSION_MAJOR, _MINOR
 * and _PATCH are its three numbers.
 *
 * strerror returns a constant sentence for each status, and for other numbers. wipe writes zeros over `size` bytes,
 * and no compiler leaves that out.
 *
 * is_supported says whether this processor has all that the library's code needs: on x86-64 the features of x86-64-v2,
 * elsewhere always. If it is false, call nothing but version, strerror and wipe: other calls would end the program at an
 * instruction that the processor does not have.
 */
bool cukvashe_is_supported(void);
const char *cukvashe_version(void);
const char *cukvashe_strerror(int status);
void cukvashe_wipe(void *pointer, size_t size);

/*
 * CIPHERS
 *
 * NAME below is one of
 *
 *     des         DES                                                         a key of  8 bytes
 *     tdes_ede2   triple DES (encrypt, decrypt, encrypt), first part again    a key of 16 bytes, two parts of 8
 *     tdes_ede3   triple DES (encrypt, decrypt, encrypt)                      a key of 24 bytes, three parts of 8
 *
 * A context holds the round keys: it is as secret as the key. At its end init writes a mark, by which a call tells a
 * context of its type from all else: from zeros, and from a context of another type or of a MAC.
 */
typedef struct {
  uint64_t words[17];
} cukvashe_des;

typedef struct {
  uint64_t words[33];
} cukvashe_tdes_ede2;

typedef struct {
  uint64_t words[49];
} cukvashe_tdes_ede3;

/*
 * int cukvashe_NAME_init(cukvashe_NAME *context, const uint8_t *key, size_t key_length)
 * int cukvashe_NAME_init_no_tables(cukvashe_NAME *context, const uint8_t *key, size_t key_length)
 *
 * Makes the context of a key, with or without tables (see SECRETS AND TIME). Parity bits, the lowest of each byte, are
 * ignored. Errors: CUKVASHE_ERR_KEY_LENGTH.
 */
CUKVASHE_CHECK int cukvashe_des_init(cukvashe_des *context, const uint8_t *key, size_t key_length);
CUKVASHE_CHECK int cukvashe_tdes_ede2_init(cukvashe_tdes_ede2 *context, const uint8_t *key, size_t key_length);
CUKVASHE_CHECK int cukvashe_tdes_ede3_init(cukvashe_tdes_ede3 *context, const uint8_t *key, size_t key_length);
CUKVASHE_CHECK int cukvashe_des_init_no_tables(cukvashe_des *context, const uint8_t *key, size_t key_length);
CUKVASHE_CHECK int cukvashe_tdes_ede2_init_no_tables(cukvashe_tdes_ede2 *context, const uint8_t *key, size_t key_length);
CUKVASHE_CHECK int cukvashe_tdes_ede3_init_no_tables(cukvashe_tdes_ede3 *context, const uint8_t *key, size_t key_length);

/*
 * ECB
 *
 * int cukvashe_NAME_encrypt_ecb(const cukvashe_NAME *context, uint8_t *data, size_t length)
 * int cukvashe_NAME_decrypt_ecb(const cukvashe_NAME *context, uint8_t *data, size_t length)
 * int cukvashe_NAME_encrypt_ecb_to(const cukvashe_NAME *context, const uint8_t *input, uint8_t *output, size_t length)
 * int cukvashe_NAME_decrypt_ecb_to(const cukvashe_NAME *context, const uint8_t *input, uint8_t *output, size_t length)
 *
 * Encrypts or decrypts each block of `length` bytes by itself, in place or from `input` to `output` (arguments in this
 * order). Nothing is padded (see PADDING). Errors: CUKVASHE_ERR_CONTEXT, _BLOCKS.
 */
CUKVASHE_CHECK int cukvashe_des_encrypt_ecb(const cukvashe_des *context, uint8_t *data, size_t length);
CUKVASHE_CHECK int cukvashe_des_decrypt_ecb(const cukvashe_des *context, uint8_t *data, size_t length);
CUKVASHE_CHECK int cukvashe_des_encrypt_ecb_to(const cukvashe_des *context, const uint8_t *input, uint8_t *output,
                                               size_t length);
CUKVASHE_CHECK int cukvashe_des_decrypt_ecb_to(const cukvashe_des *context, const uint8_t *input, uint8_t *output,
                                               size_t length);
CUKVASHE_CHECK int cukvashe_tdes_ede2_encrypt_ecb(const cukvashe_tdes_ede2 *context, uint8_t *data, size_t length);
CUKVASHE_CHECK int cukvashe_tdes_ede2_decrypt_ecb(const cukvashe_tdes_ede2 *context, uint8_t *data, size_t length);
CUKVASHE_CHECK int cukvashe_tdes_ede2_encrypt_ecb_to(const cukvashe_tdes_ede2 *context, const uint8_t *input,
                                                     uint8_t *output, size_t length);
CUKVASHE_CHECK int cukvashe_tdes_ede2_decrypt_ecb_to(const cukvashe_tdes_ede2 *context, const uint8_t *input,
                                                     uint8_t *output, size_t length);
CUKVASHE_CHECK int cukvashe_tdes_ede3_encrypt_ecb(const cukvashe_tdes_ede3 *context, uint8_t *data, size_t length);
CUKVASHE_CHECK int cukvashe_tdes_ede3_decrypt_ecb(const cukvashe_tdes_ede3 *context, uint8_t *data, size_t length);
CUKVASHE_CHECK int cukvashe_tdes_ede3_encrypt_ecb_to(const cukvashe_tdes_ede3 *context, const uint8_t *input,
                                                     uint8_t *output, size_t length);
CUKVASHE_CHECK int cukvashe_tdes_ede3_decrypt_ecb_to(const cukvashe_tdes_ede3 *context, const uint8_t *input,
                                                     uint8_t *output, size_t length);

/*
 * CBC
 *
 * int cukvashe_NAME_encrypt_cbc(const cukvashe_NAME *context, uint8_t iv[8], uint8_t *data, size_t length)
 * int cukvashe_NAME_decrypt_cbc(const cukvashe_NAME *context, uint8_t iv[8], uint8_t *data, size_t length)
 * int cukvashe_NAME_encrypt_cbc_to(const cukvashe_NAME *context, uint8_t iv[8], const uint8_t *input, uint8_t *output,
 *                                  size_t length)
 * int cukvashe_NAME_decrypt_cbc_to(const cukvashe_NAME *context, uint8_t iv[8], const uint8_t *input, uint8_t *output,
 *                                  size_t length)
 *
 * Encrypts or decrypts whole blocks by cipher block chaining (FIPS 81) from the initialization vector. `iv` becomes the
 * last ciphertext block, the vector of the record's next piece; if `length` is 0, it is unchanged. Keep a copy if you
 * need it again. Errors: CUKVASHE_ERR_CONTEXT, _BLOCKS.
 */
CUKVASHE_CHECK int cukvashe_des_encrypt_cbc(const cukvashe_des *context, uint8_t iv[8], uint8_t *data, size_t length);
CUKVASHE_CHECK int cukvashe_des_decrypt_cbc(const cukvashe_des *context, uint8_t iv[8], uint8_t *data, size_t length);
CUKVASHE_CHECK int cukvashe_des_encrypt_cbc_to(const cukvashe_des *context, uint8_t iv[8], const uint8_t *input,
                                               uint8_t *output, size_t length);
CUKVASHE_CHECK int cukvashe_des_decrypt_cbc_to(const cukvashe_des *context, uint8_t iv[8], const uint8_t *input,
                                               uint8_t *output, size_t length);
CUKVASHE_CHECK int cukvashe_tdes_ede2_encrypt_cbc(const cukvashe_tdes_ede2 *context, uint8_t iv[8], uint8_t *data,
                                                  size_t length);
CUKVASHE_CHECK int cukvashe_tdes_ede2_decrypt_cbc(const cukvashe_tdes_ede2 *context, uint8_t iv[8], uint8_t *data,
                                                  size_t length);
CUKVASHE_CHECK int cukvashe_tdes_ede2_encrypt_cbc_to(const cukvashe_tdes_ede2 *context, uint8_t iv[8],
                                                     const uint8_t *input, uint8_t *output, size_t length);
CUKVASHE_CHECK int cukvashe_tdes_ede2_decrypt_cbc_to(const cukvashe_tdes_ede2 *context, uint8_t iv[8],
                                                     const uint8_t *input, uint8_t *output, size_t length);
CUKVASHE_CHECK int cukvashe_tdes_ede3_encrypt_cbc(const cukvashe_tdes_ede3 *context, uint8_t iv[8], uint8_t *data,
                                                  size_t length);
CUKVASHE_CHECK int cukvashe_tdes_ede3_decrypt_cbc(const cukvashe_tdes_ede3 *context, uint8_t iv[8], uint8_t *data,
                                                  size_t length);
CUKVASHE_CHECK int cukvashe_tdes_ede3_encrypt_cbc_to(const cukvashe_tdes_ede3 *context, uint8_t iv[8],
                                                     const uint8_t *input, uint8_t *output, size_t length);
CUKVASHE_CHECK int cukvashe_tdes_ede3_decrypt_cbc_to(const cukvashe_tdes_ede3 *context, uint8_t iv[8],
                                                     const uint8_t *input, uint8_t *output, size_t length);

/*
 * MODES WITHOUT PADDING
 *
 * Counter mode (CTR), output feedback (OFB) and cipher feedback (CFB) by NIST SP 800-38A and FIPS 81: they take any
 * number of bytes, and make as many. `mode` is one of
 *
 *     CUKVASHE_CTR     counter mode: `iv` is the first counter block, which goes up by 1 modulo 2^64
 *     CUKVASHE_OFB     output feedback of 64 bits
 *     CUKVASHE_CFB64   cipher feedback of 64 bits: "CFB" in OpenSSL, libgcrypt and the Python package cryptography
 *     CUKVASHE_CFB8    cipher feedback of 8 bits: "CFB" in PyCryptodome
 *     CUKVASHE_CFB1    cipher feedback of 1 bit
 *
 * or CUKVASHE_CFB1 + n: cipher feedback with segments of n bytes, 1 to 8.
 *
 * Never use a vector or a counter block twice under a key: two texts then reveal their xor. In CTR begin the next text
 * after the last counter block of this one. These modes authenticate nothing. In CTR and OFB, an attacker who knows a
 * text can turn its ciphertext into that of any other text of its length. In CFB, he can change any bits of a segment,
 * and the next 8 bytes become garbage.
 *
 * int cukvashe_NAME_encrypt_mode(const cukvashe_NAME *context, int mode, const uint8_t iv[8], uint8_t *data,
 *                                size_t length)
 * int cukvashe_NAME_decrypt_mode(const cukvashe_NAME *context, int mode, const uint8_t iv[8], uint8_t *data,
 *                                size_t length)
 *
 * Encrypts or decrypts a whole text in place. Unlike in CBC, `iv` is unchanged: a second call with it uses the same key
 * stream again. If a text comes in pieces, take a stream. Errors of encrypt_mode and decrypt_mode:
 * CUKVASHE_ERR_CONTEXT, _MODE.
 *
 * int cukvashe_stream_begin(cukvashe_stream *stream, int mode, const uint8_t iv[8])
 * void cukvashe_stream_begin_ctr_at(cukvashe_stream *stream, const uint8_t counter[8], uint64_t blocks)
 *
 * Begins a text that comes in pieces. begin_ctr_at begins `blocks` blocks of 8 bytes into the text whose first counter
 * block is `counter`, to decrypt a part without what stands before it. A stream is as secret as its text. Errors of
 * stream_begin: CUKVASHE_ERR_MODE.
 *
 * int cukvashe_NAME_encrypt_stream(const cukvashe_NAME *context, cukvashe_stream *stream, uint8_t *data, size_t length)
 * int cukvashe_NAME_decrypt_stream(const cukvashe_NAME *context, cukvashe_stream *stream, uint8_t *data, size_t length)
 *
 * Encrypts or decrypts the next bytes in place, any number of them: pieces become what the whole text becomes. Give a
 * stream one context and one direction. Errors of encrypt_stream and decrypt_stream: CUKVASHE_ERR_CONTEXT,
 * _STREAM.
 *
 * int cukvashe_NAME_encrypt_stream_bits(const cukvashe_NAME *context, cukvashe_stream *stream, uint8_t *data,
 *                                       size_t bits)
 * int cukvashe_NAME_decrypt_stream_bits(const cukvashe_NAME *context, cukvashe_stream *stream, uint8_t *data,
 *                                       size_t bits)
 *
 * The same for the first `bits` bits at `data`, from the highest bit of the first byte on, in a stream of CUKVASHE_CFB1;
 * the other bits of the last byte are unchanged. Errors of encrypt_stream_bits and decrypt_stream_bits:
 * CUKVASHE_ERR_CONTEXT, _STREAM; _MODE if the stream is of another mode.
 *
 * void cukvashe_stream_position(const cukvashe_stream *stream, uint8_t iv[8], size_t *used)
 *
 * Writes where a stream stands: in CTR the counter block, in OFB the last output block, in CFB the last 64 bits of the
 * vector followed by the ciphertext; and how many bytes of the current output block are used. If `used` is 0, a stream
 * that begins with this `iv` goes on from there.
 */
typedef struct {
  uint64_t words[4];
} cukvashe_stream;

CUKVASHE_CHECK int cukvashe_des_encrypt_mode(const cukvashe_des *context, int mode, const uint8_t iv[8], uint8_t *data,
                                             size_t length);
CUKVASHE_CHECK int cukvashe_des_decrypt_mode(const cukvashe_des *context, int mode, const uint8_t iv[8], uint8_t *data,
                                             size_t length);
CUKVASHE_CHECK int cukvashe_tdes_ede2_encrypt_mode(const cukvashe_tdes_ede2 *context, int mode, const uint8_t iv[8],
                                                   uint8_t *data, size_t length);
CUKVASHE_CHECK int cukvashe_tdes_ede2_decrypt_mode(const cukvashe_tdes_ede2 *context, int mode, const uint8_t iv[8],
                                                   uint8_t *data, size_t length);
CUKVASHE_CHECK int cukvashe_tdes_ede3_encrypt_mode(const cukvashe_tdes_ede3 *context, int mode, const uint8_t iv[8],
                                                   uint8_t *data, size_t length);
CUKVASHE_CHECK int cukvashe_tdes_ede3_decrypt_mode(const cukvashe_tdes_ede3 *context, int mode, const uint8_t iv[8],
                                                   uint8_t *data, size_t length);
CUKVASHE_CHECK int cukvashe_stream_begin(cukvashe_stream *stream, int mode, const uint8_t iv[8]);
void cukvashe_stream_begin_ctr_at(cukvashe_stream *stream, const uint8_t counter[8], uint64_t blocks);
CUKVASHE_CHECK int cukvashe_des_encrypt_stream(const cukvashe_des *context, cukvashe_stream *stream, uint8_t *data,
                                               size_t length);
CUKVASHE_CHECK int cukvashe_des_decrypt_stream(const cukvashe_des *context, cukvashe_stream *stream, uint8_t *data,
                                               size_t length);
CUKVASHE_CHECK int cukvashe_tdes_ede2_encrypt_stream(const cukvashe_tdes_ede2 *context, cukvashe_stream *stream,
                                                     uint8_t *data, size_t length);
CUKVASHE_CHECK int cukvashe_tdes_ede2_decrypt_stream(const cukvashe_tdes_ede2 *context, cukvashe_stream *stream,
                                                     uint8_t *data, size_t length);
CUKVASHE_CHECK int cukvashe_tdes_ede3_encrypt_stream(const cukvashe_tdes_ede3 *context, cukvashe_stream *stream,
                                                     uint8_t *data, size_t length);
CUKVASHE_CHECK int cukvashe_tdes_ede3_decrypt_stream(const cukvashe_tdes_ede3 *context, cukvashe_stream *stream,
                                                     uint8_t *data, size_t length);
CUKVASHE_CHECK int cukvashe_des_encrypt_stream_bits(const cukvashe_des *context, cukvashe_stream *stream, uint8_t *data,
                                                    size_t bits);
CUKVASHE_CHECK int cukvashe_des_decrypt_stream_bits(const cukvashe_des *context, cukvashe_stream *stream, uint8_t *data,
                                                    size_t bits);
CUKVASHE_CHECK int cukvashe_tdes_ede2_encrypt_stream_bits(const cukvashe_tdes_ede2 *context, cukvashe_stream *stream,
                                                          uint8_t *data, size_t bits);
CUKVASHE_CHECK int cukvashe_tdes_ede2_decrypt_stream_bits(const cukvashe_tdes_ede2 *context, cukvashe_stream *stream,
                                                          uint8_t *data, size_t bits);
CUKVASHE_CHECK int cukvashe_tdes_ede3_encrypt_stream_bits(const cukvashe_tdes_ede3 *context, cukvashe_stream *stream,
                                                          uint8_t *data, size_t bits);
CUKVASHE_CHECK int cukvashe_tdes_ede3_decrypt_stream_bits(const cukvashe_tdes_ede3 *context, cukvashe_stream *stream,
                                                          uint8_t *data, size_t bits);
void cukvashe_stream_position(const cukvashe_stream *stream, uint8_t iv[8], size_t *used);

/*
 * KEY WRAP
 *
 * A key encrypted with an integrity check under a protection key, one of triple DES of 16 or 24 bytes: by the key wrap
 * of CMS (RFC 3217, of keys of any number of blocks), and by TKW (NIST SP 800-38F, 7), whose check is of 32 bits. Parity
 * bits are neither changed nor tested. No call reads a table (see SECRETS AND TIME).
 *
 * int cukvashe_cms_wrap_key(const uint8_t *protection, size_t protection_length, const uint8_t iv[8],
 *                           const uint8_t *key, size_t key_length, uint8_t *wrapped, size_t capacity,
 *                           size_t *wrapped_length)
 * int cukvashe_tkw_wrap_key(const uint8_t *protection, size_t protection_length, const uint8_t *key,
 *                           size_t key_length, uint8_t *wrapped, size_t capacity, size_t *wrapped_length)
 *
 * Writes the wrapped key, which is 16 bytes longer in CMS and 4 bytes in TKW, and its length to `wrapped_length`. `iv`
 * is random. CMS takes keys of 8 bytes or a multiple, TKW keys of 8 bytes or more, a multiple of 4 below 2^30. No call
 * of this section works in place. Errors of cms_wrap_key: CUKVASHE_ERR_OVERLAP if `wrapped` overlaps `key`; then
 * _PROTECTION_KEY_LENGTH; _BLOCKS also if `key_length` is 0; _CAPACITY. Errors of tkw_wrap_key: CUKVASHE_ERR_OVERLAP if
 * `wrapped` overlaps `key`; then _PROTECTION_KEY_LENGTH, _KEY_LENGTH, _CAPACITY.
 *
 * int cukvashe_cms_unwrap_key(const uint8_t *protection, size_t protection_length, const uint8_t *wrapped,
 *                             size_t wrapped_length, uint8_t *key, size_t capacity, size_t *key_length)
 * int cukvashe_tkw_unwrap_key(const uint8_t *protection, size_t protection_length, const uint8_t *wrapped,
 *                             size_t wrapped_length, uint8_t *key, size_t capacity, size_t *key_length)
 *
 * Writes the key, and its length to `key_length`. Errors of cms_unwrap_key: CUKVASHE_ERR_OVERLAP if `key` overlaps
 * `wrapped`; then _PROTECTION_KEY_LENGTH, _WRAPPED_LENGTH, _CAPACITY; _WRAPPED_KEY, and then zeros stand where the key
 * would. Errors of tkw_unwrap_key: CUKVASHE_ERR_OVERLAP if `key` overlaps `wrapped`; then _PROTECTION_KEY_LENGTH,
 * _WRAPPED_LENGTH, _CAPACITY; _WRAPPED_KEY, and then zeros stand where the key would.
 */
CUKVASHE_CHECK int cukvashe_cms_wrap_key(const uint8_t *protection, size_t protection_length, const uint8_t iv[8],
                                         const uint8_t *key, size_t key_length, uint8_t *wrapped, size_t capacity,
                                         size_t *wrapped_length);
CUKVASHE_CHECK int cukvashe_cms_unwrap_key(const uint8_t *protection, size_t protection_length, const uint8_t *wrapped,
                                           size_t wrapped_length, uint8_t *key, size_t capacity, size_t *key_length);
CUKVASHE_CHECK int cukvashe_tkw_wrap_key(const uint8_t *protection, size_t protection_length, const uint8_t *key,
                                         size_t key_length, uint8_t *wrapped, size_t capacity, size_t *wrapped_length);
CUKVASHE_CHECK int cukvashe_tkw_unwrap_key(const uint8_t *protection, size_t protection_length, const uint8_t *wrapped,
                                           size_t wrapped_length, uint8_t *key, size_t capacity, size_t *key_length);

/*
 * BLOCKS UNDER KEYS OF THEIR OWN
 *
 * int cukvashe_NAME_encrypt_each(const uint8_t *keys, size_t count, uint8_t *blocks, size_t length)
 * int cukvashe_NAME_decrypt_each(const uint8_t *keys, size_t count, uint8_t *blocks, size_t length)
 *
 * Encrypts or decrypts each block of `length` bytes in place under the key at its place: `keys` are `count` keys of the
 * cipher, one after the other. Errors: CUKVASHE_ERR_BLOCKS; _COUNTS if `count` is not `length` / 8.
 */
CUKVASHE_CHECK int cukvashe_des_encrypt_each(const uint8_t *keys, size_t count, uint8_t *blocks, size_t length);
CUKVASHE_CHECK int cukvashe_des_decrypt_each(const uint8_t *keys, size_t count, uint8_t *blocks, size_t length);
CUKVASHE_CHECK int cukvashe_tdes_ede2_encrypt_each(const uint8_t *keys, size_t count, uint8_t *blocks, size_t length);
CUKVASHE_CHECK int cukvashe_tdes_ede2_decrypt_each(const uint8_t *keys, size_t count, uint8_t *blocks, size_t length);
CUKVASHE_CHECK int cukvashe_tdes_ede3_encrypt_each(const uint8_t *keys, size_t count, uint8_t *blocks, size_t length);
CUKVASHE_CHECK int cukvashe_tdes_ede3_decrypt_each(const uint8_t *keys, size_t count, uint8_t *blocks, size_t length);

/*
 * RECORDS
 *
 * int cukvashe_NAME_encrypt_cbc_records(const cukvashe_NAME *context, uint8_t *vectors, size_t vectors_length,
 *                                       const size_t *counts, size_t records_count, uint8_t *bytes, size_t length)
 * int cukvashe_NAME_decrypt_cbc_records(const cukvashe_NAME *context, uint8_t *vectors, size_t vectors_length,
 *                                       const size_t *counts, size_t records_count, uint8_t *bytes, size_t length)
 *
 * Encrypts or decrypts `records_count` records by CBC under one key, in place, each from a vector of its own. `bytes`
 * has them one after the other, `length` bytes in all: record k has `counts[k]` blocks of 8 bytes, or none, and its
 * vector is the k-th of `vectors`, of 8 bytes each, which becomes its last ciphertext block. For speed, sort records of
 * very different lengths. Errors: CUKVASHE_ERR_COUNTS if `vectors_length` is not that of `records_count` vectors; then
 * _CONTEXT, _BLOCKS; _COUNTS if the sum of the counts is not `length` / 8.
 */
CUKVASHE_CHECK int cukvashe_des_encrypt_cbc_records(const cukvashe_des *context, uint8_t *vectors,
                                                    size_t vectors_length, const size_t *counts, size_t records_count,
                                                    uint8_t *bytes, size_t length);
CUKVASHE_CHECK int cukvashe_des_decrypt_cbc_records(const cukvashe_des *context, uint8_t *vectors,
                                                    size_t vectors_length, const size_t *counts, size_t records_count,
                                                    uint8_t *bytes, size_t length);
CUKVASHE_CHECK int cukvashe_tdes_ede2_encrypt_cbc_records(const cukvashe_tdes_ede2 *context, uint8_t *vectors,
                                                          size_t vectors_length, const size_t *counts,
                                                          size_t records_count, uint8_t *bytes, size_t length);
CUKVASHE_CHECK int cukvashe_tdes_ede2_decrypt_cbc_records(const cukvashe_tdes_ede2 *context, uint8_t *vectors,
                                                          size_t vectors_length, const size_t *counts,
                                                          size_t records_count, uint8_t *bytes, size_t length);
CUKVASHE_CHECK int cukvashe_tdes_ede3_encrypt_cbc_records(const cukvashe_tdes_ede3 *context, uint8_t *vectors,
                                                          size_t vectors_length, const size_t *counts,
                                                          size_t records_count, uint8_t *bytes, size_t length);
CUKVASHE_CHECK int cukvashe_tdes_ede3_decrypt_cbc_records(const cukvashe_tdes_ede3 *context, uint8_t *vectors,
                                                          size_t vectors_length, const size_t *counts,
                                                          size_t records_count, uint8_t *bytes, size_t length);

/*
 * PADDING
 *
 * `method` is CUKVASHE_PKCS7 or CUKVASHE_ISO7816. pad writes 1 to 8 bytes of padding after the first `length` bytes of
 * a buffer of `capacity` bytes, and the length with padding, a multiple of 8, to `padded_length`; 8 bytes to spare are
 * enough. Errors of pad: CUKVASHE_ERR_PADDING_METHOD, _CAPACITY.
 *
 * unpad writes to `unpadded_length` how many of `length` bytes stand before the padding. The time taken may show which
 * byte of the last block decides. Errors of unpad: CUKVASHE_ERR_PADDING_METHOD, _BLOCKS; _PADDING also if `length` is 0.
 * An attacker who learns whether unpad accepts what he sent can decrypt CBC without the key (a padding oracle): verify a
 * MAC of the ciphertext first, and report all faults alike.
 */
CUKVASHE_CHECK int cukvashe_pad(uint8_t *buffer, size_t length, size_t capacity, int method, size_t *padded_length);
CUKVASHE_CHECK int cukvashe_unpad(const uint8_t *buffer, size_t length, int method, size_t *unpadded_length);

/*
 * KEYS
 *
 * weak_key_test takes a key of 8, 16 or 24 bytes, and branches on it. Errors: CUKVASHE_ERR_KEY_LENGTH; _WEAK_KEY if a
 * part of it has few different round keys (4 weak, 12 semi-weak and 48 more keys), or two of its parts are equal but
 * for parity.
 *
 * set_odd_parity sets the lowest bit of each byte so that the number of ones in the byte is odd. equal_but_parity says
 * whether two keys of one length, a multiple of 8, agree in all bits but the lowest of each byte; false for any other
 * length. It branches on which parts of 8 bytes differ.
 */
CUKVASHE_CHECK int cukvashe_weak_key_test(const uint8_t *key, size_t key_length);
void cukvashe_set_odd_parity(uint8_t *key, size_t key_length);
CUKVASHE_CHECK bool cukvashe_equal_but_parity(const uint8_t *first, const uint8_t *second, size_t key_length);

/*
 * MESSAGE AUTHENTICATION CODES
 *
 * MAC below is one of
 *
 *     cbc_mac_des         CBC-MAC (ISO/IEC 9797-1:2011, algorithm 1) over DES    a key of  8 bytes
 *     cbc_mac_tdes_ede2   CBC-MAC over triple DES                                a key of 16 bytes
 *     cbc_mac_tdes_ede3   CBC-MAC over triple DES                                a key of 24 bytes
 *     retail_mac_des      the retail MAC (algorithm 3) over DES                  a key of 16 bytes, two keys of DES
 *     cmac_tdes_ede2      CMAC (NIST SP 800-38B) over triple DES                 a key of 16 bytes
 *     cmac_tdes_ede3      CMAC over triple DES                                   a key of 24 bytes
 *
 * CBC-MAC is safe only if every message under a key has one length, which both sides know. Padding method 1 hides zeros
 * at the end of a message. Tags have 64 bits: use a key for far fewer than 2^32 messages. A context holds round keys,
 * the mark of its MAC and bytes of the message; a copy is independent.
 */
typedef struct {
  uint64_t words[21];
} cukvashe_cbc_mac_des;

typedef struct {
  uint64_t words[37];
} cukvashe_cbc_mac_tdes_ede2;

typedef struct {
  uint64_t words[53];
} cukvashe_cbc_mac_tdes_ede3;

typedef struct {
  uint64_t words[38];
} cukvashe_retail_mac_des;

typedef struct {
  uint64_t words[37];
} cukvashe_cmac_tdes_ede2;

typedef struct {
  uint64_t words[53];
} cukvashe_cmac_tdes_ede3;

/*
 * int cukvashe_MAC_init(cukvashe_MAC *context, const uint8_t *key, size_t key_length, int method)
 * int cukvashe_MAC_init_no_tables(cukvashe_MAC *context, const uint8_t *key, size_t key_length, int method)
 *
 * Makes the context of a key and an empty message, with or without tables. `method` is the sender's,
 * CUKVASHE_MAC_PADDING_1 or _2: the other makes a different tag. CMAC takes none. Errors: CUKVASHE_ERR_KEY_LENGTH,
 * _PADDING_METHOD.
 */
CUKVASHE_CHECK int cukvashe_cbc_mac_des_init(cukvashe_cbc_mac_des *context, const uint8_t *key, size_t key_length,
                                             int method);
CUKVASHE_CHECK int cukvashe_cbc_mac_tdes_ede2_init(cukvashe_cbc_mac_tdes_ede2 *context, const uint8_t *key,
                                                   size_t key_length, int method);
CUKVASHE_CHECK int cukvashe_cbc_mac_tdes_ede3_init(cukvashe_cbc_mac_tdes_ede3 *context, const uint8_t *key,
                                                   size_t key_length, int method);
CUKVASHE_CHECK int cukvashe_retail_mac_des_init(cukvashe_retail_mac_des *context, const uint8_t *key, size_t key_length,
                                                int method);
CUKVASHE_CHECK int cukvashe_cmac_tdes_ede2_init(cukvashe_cmac_tdes_ede2 *context, const uint8_t *key,
                                                size_t key_length);
CUKVASHE_CHECK int cukvashe_cmac_tdes_ede3_init(cukvashe_cmac_tdes_ede3 *context, const uint8_t *key,
                                                size_t key_length);
CUKVASHE_CHECK int cukvashe_cbc_mac_des_init_no_tables(cukvashe_cbc_mac_des *context, const uint8_t *key,
                                                       size_t key_length, int method);
CUKVASHE_CHECK int cukvashe_cbc_mac_tdes_ede2_init_no_tables(cukvashe_cbc_mac_tdes_ede2 *context, const uint8_t *key,
                                                             size_t key_length, int method);
CUKVASHE_CHECK int cukvashe_cbc_mac_tdes_ede3_init_no_tables(cukvashe_cbc_mac_tdes_ede3 *context, const uint8_t *key,
                                                             size_t key_length, int method);
CUKVASHE_CHECK int cukvashe_retail_mac_des_init_no_tables(cukvashe_retail_mac_des *context, const uint8_t *key,
                                                          size_t key_length, int method);
CUKVASHE_CHECK int cukvashe_cmac_tdes_ede2_init_no_tables(cukvashe_cmac_tdes_ede2 *context, const uint8_t *key,
                                                          size_t key_length);
CUKVASHE_CHECK int cukvashe_cmac_tdes_ede3_init_no_tables(cukvashe_cmac_tdes_ede3 *context, const uint8_t *key,
                                                          size_t key_length);

/*
 * int cukvashe_MAC_update(cukvashe_MAC *context, const uint8_t *message, size_t length)
 *
 * Adds `length` bytes to the message, which may come in pieces of any length. Errors: CUKVASHE_ERR_CONTEXT.
 */
CUKVASHE_CHECK int cukvashe_cbc_mac_des_update(cukvashe_cbc_mac_des *context, const uint8_t *message, size_t length);
CUKVASHE_CHECK int cukvashe_cbc_mac_tdes_ede2_update(cukvashe_cbc_mac_tdes_ede2 *context, const uint8_t *message,
                                                     size_t length);
CUKVASHE_CHECK int cukvashe_cbc_mac_tdes_ede3_update(cukvashe_cbc_mac_tdes_ede3 *context, const uint8_t *message,
                                                     size_t length);
CUKVASHE_CHECK int cukvashe_retail_mac_des_update(cukvashe_retail_mac_des *context, const uint8_t *message,
                                                  size_t length);
CUKVASHE_CHECK int cukvashe_cmac_tdes_ede2_update(cukvashe_cmac_tdes_ede2 *context, const uint8_t *message,
                                                  size_t length);
CUKVASHE_CHECK int cukvashe_cmac_tdes_ede3_update(cukvashe_cmac_tdes_ede3 *context, const uint8_t *message,
                                                  size_t length);

/*
 * int cukvashe_MAC_final(const cukvashe_MAC *context, uint8_t tag[8])
 *
 * Writes the tag of the message, which may go on. To check a tag call is_tag: memcmp may stop at the first wrong byte.
 * Errors: CUKVASHE_ERR_CONTEXT.
 */
CUKVASHE_CHECK int cukvashe_cbc_mac_des_final(const cukvashe_cbc_mac_des *context, uint8_t tag[8]);
CUKVASHE_CHECK int cukvashe_cbc_mac_tdes_ede2_final(const cukvashe_cbc_mac_tdes_ede2 *context, uint8_t tag[8]);
CUKVASHE_CHECK int cukvashe_cbc_mac_tdes_ede3_final(const cukvashe_cbc_mac_tdes_ede3 *context, uint8_t tag[8]);
CUKVASHE_CHECK int cukvashe_retail_mac_des_final(const cukvashe_retail_mac_des *context, uint8_t tag[8]);
CUKVASHE_CHECK int cukvashe_cmac_tdes_ede2_final(const cukvashe_cmac_tdes_ede2 *context, uint8_t tag[8]);
CUKVASHE_CHECK int cukvashe_cmac_tdes_ede3_final(const cukvashe_cmac_tdes_ede3 *context, uint8_t tag[8]);

/*
 * bool cukvashe_MAC_is_tag(const cukvashe_MAC *context, const uint8_t *tag, size_t tag_length)
 * int cukvashe_MAC_verify(const cukvashe_MAC *context, const uint8_t *tag, size_t tag_length)
 *
 * is_tag is true, and verify CUKVASHE_OK, which is 0, for the tag of the message and for its first 4 to 7 bytes; for
 * all else is_tag is false, and verify CUKVASHE_ERR_TAG. Every byte is compared. Give the `tag_length` that both sides
 * agreed on, not the one that was sent: a forger sends 4 bytes, of which one guess in 2^32 is right. (In Python, Rust,
 * Go and JavaScript verify takes whole tags alone, and another call cut ones.) Errors: CUKVASHE_ERR_CONTEXT, _TAG.
 */
CUKVASHE_CHECK int cukvashe_cbc_mac_des_verify(const cukvashe_cbc_mac_des *context, const uint8_t *tag,
                                               size_t tag_length);
CUKVASHE_CHECK int cukvashe_cbc_mac_tdes_ede2_verify(const cukvashe_cbc_mac_tdes_ede2 *context, const uint8_t *tag,
                                                     size_t tag_length);
CUKVASHE_CHECK int cukvashe_cbc_mac_tdes_ede3_verify(const cukvashe_cbc_mac_tdes_ede3 *context, const uint8_t *tag,
                                                     size_t tag_length);
CUKVASHE_CHECK int cukvashe_retail_mac_des_verify(const cukvashe_retail_mac_des *context, const uint8_t *tag,
                                                  size_t tag_length);
CUKVASHE_CHECK int cukvashe_cmac_tdes_ede2_verify(const cukvashe_cmac_tdes_ede2 *context, const uint8_t *tag,
                                                  size_t tag_length);
CUKVASHE_CHECK int cukvashe_cmac_tdes_ede3_verify(const cukvashe_cmac_tdes_ede3 *context, const uint8_t *tag,
                                                  size_t tag_length);
CUKVASHE_CHECK bool cukvashe_cbc_mac_des_is_tag(const cukvashe_cbc_mac_des *context, const uint8_t *tag,
                                                size_t tag_length);
CUKVASHE_CHECK bool cukvashe_cbc_mac_tdes_ede2_is_tag(const cukvashe_cbc_mac_tdes_ede2 *context, const uint8_t *tag,
                                                      size_t tag_length);
CUKVASHE_CHECK bool cukvashe_cbc_mac_tdes_ede3_is_tag(const cukvashe_cbc_mac_tdes_ede3 *context, const uint8_t *tag,
                                                      size_t tag_length);
CUKVASHE_CHECK bool cukvashe_retail_mac_des_is_tag(const cukvashe_retail_mac_des *context, const uint8_t *tag,
                                                   size_t tag_length);
CUKVASHE_CHECK bool cukvashe_cmac_tdes_ede2_is_tag(const cukvashe_cmac_tdes_ede2 *context, const uint8_t *tag,
                                                   size_t tag_length);
CUKVASHE_CHECK bool cukvashe_cmac_tdes_ede3_is_tag(const cukvashe_cmac_tdes_ede3 *context, const uint8_t *tag,
                                                   size_t tag_length);

/*
 * MESSAGE AUTHENTICATION CODES OF MANY MESSAGES
 *
 * int cukvashe_MAC_macs(const uint8_t *key, size_t key_length, int method, const cukvashe_message *messages,
 *                       uint8_t *tags, size_t tags_length, size_t count)
 * int cukvashe_MAC_macs_each(const uint8_t *keys, size_t keys_length, int method, const cukvashe_message *messages,
 *                            uint8_t *tags, size_t tags_length, size_t count)
 *
 * Writes the tags, of 8 bytes each, of `count` messages. `macs` takes one key for all, `macs_each` a key of the MAC's
 * key size for each message, one after the other. CMAC takes no `method`. Errors: CUKVASHE_ERR_KEY_LENGTH of macs alone;
 * _COUNTS if `keys_length` or `tags_length` is not that of `count` keys or tags; _PADDING_METHOD.
 *
 * int cukvashe_compare_tags(const uint8_t *tags, size_t tags_length, const uint8_t *expected, size_t expected_length,
 *                           bool *right, size_t count)
 *
 * Writes for each of `count` whole tags whether it is the one at its place in `expected`, which macs or macs_each made.
 * Look at `right`: CUKVASHE_OK does not say that a tag is. Errors of compare_tags: CUKVASHE_ERR_COUNTS if `tags_length`
 * or `expected_length` is not that of `count` tags.
 */
typedef struct {
  const uint8_t *bytes;
  size_t length;
} cukvashe_message;

CUKVASHE_CHECK int cukvashe_cbc_mac_des_macs(const uint8_t *key, size_t key_length, int method,
                                             const cukvashe_message *messages, uint8_t *tags, size_t tags_length,
                                             size_t count);
CUKVASHE_CHECK int cukvashe_cbc_mac_des_macs_each(const uint8_t *keys, size_t keys_length, int method,
                                                  const cukvashe_message *messages, uint8_t *tags, size_t tags_length,
                                                  size_t count);
CUKVASHE_CHECK int cukvashe_cbc_mac_tdes_ede2_macs(const uint8_t *key, size_t key_length, int method,
                                                   const cukvashe_message *messages, uint8_t *tags, size_t tags_length,
                                                   size_t count);
CUKVASHE_CHECK int cukvashe_cbc_mac_tdes_ede2_macs_each(const uint8_t *keys, size_t keys_length, int method,
                                                        const cukvashe_message *messages, uint8_t *tags,
                                                        size_t tags_length, size_t count);
CUKVASHE_CHECK int cukvashe_cbc_mac_tdes_ede3_macs(const uint8_t *key, size_t key_length, int method,
                                                   const cukvashe_message *messages, uint8_t *tags, size_t tags_length,
                                                   size_t count);
CUKVASHE_CHECK int cukvashe_cbc_mac_tdes_ede3_macs_each(const uint8_t *keys, size_t keys_length, int method,
                                                        const cukvashe_message *messages, uint8_t *tags,
                                                        size_t tags_length, size_t count);
CUKVASHE_CHECK int cukvashe_retail_mac_des_macs(const uint8_t *key, size_t key_length, int method,
                                                const cukvashe_message *messages, uint8_t *tags, size_t tags_length,
                                                size_t count);
CUKVASHE_CHECK int cukvashe_retail_mac_des_macs_each(const uint8_t *keys, size_t keys_length, int method,
                                                     const cukvashe_message *messages, uint8_t *tags,
                                                     size_t tags_length, size_t count);
CUKVASHE_CHECK int cukvashe_cmac_tdes_ede2_macs(const uint8_t *key, size_t key_length, const cukvashe_message *messages,
                                                uint8_t *tags, size_t tags_length, size_t count);
CUKVASHE_CHECK int cukvashe_cmac_tdes_ede2_macs_each(const uint8_t *keys, size_t keys_length,
                                                     const cukvashe_message *messages, uint8_t *tags,
                                                     size_t tags_length, size_t count);
CUKVASHE_CHECK int cukvashe_cmac_tdes_ede3_macs(const uint8_t *key, size_t key_length, const cukvashe_message *messages,
                                                uint8_t *tags, size_t tags_length, size_t count);
CUKVASHE_CHECK int cukvashe_cmac_tdes_ede3_macs_each(const uint8_t *keys, size_t keys_length,
                                                     const cukvashe_message *messages, uint8_t *tags,
                                                     size_t tags_length, size_t count);
CUKVASHE_CHECK int cukvashe_compare_tags(const uint8_t *tags, size_t tags_length, const uint8_t *expected,
                                         size_t expected_length, bool *right, size_t count);

/*
 * CHECK VALUES AND COMPONENTS
 *
 * int cukvashe_NAME_check_value(const uint8_t *key, size_t key_length, uint8_t value[3])
 *
 * The key check value (KCV) of a key or component: the first three bytes of the block of zeros, encrypted under it by
 * NAME. Errors: CUKVASHE_ERR_KEY_LENGTH.
 */
CUKVASHE_CHECK int cukvashe_des_check_value(const uint8_t *key, size_t key_length, uint8_t value[3]);
CUKVASHE_CHECK int cukvashe_tdes_ede2_check_value(const uint8_t *key, size_t key_length, uint8_t value[3]);
CUKVASHE_CHECK int cukvashe_tdes_ede3_check_value(const uint8_t *key, size_t key_length, uint8_t value[3]);

/*
 * The check value of a key or component, by its length: by DES of 8 bytes, by triple DES (EDE) of 16 or 24. Errors:
 * CUKVASHE_ERR_KEY_LENGTH.
 */
CUKVASHE_CHECK int cukvashe_key_check_value(const uint8_t *key, size_t key_length, uint8_t value[3]);

/*
 * The first two bytes of the check value of a key or component of 8, 16 or 24 bytes, which some systems show. Errors:
 * CUKVASHE_ERR_KEY_LENGTH.
 */
CUKVASHE_CHECK int cukvashe_short_key_check_value(const uint8_t *key, size_t key_length, uint8_t value[2]);

/*
 * int cukvashe_NAME_check_values(const uint8_t *keys, size_t keys_length, uint8_t *values, size_t values_length,
 *                                size_t count)
 *
 * The check values, of 3 bytes each, of `count` keys of the cipher, one after the other. Errors of check_values:
 * CUKVASHE_ERR_COUNTS if `keys_length` or `values_length` is not that of `count` keys or values.
 *
 * int cukvashe_combine_SIZE(const uint8_t first[SIZE], const uint8_t second[SIZE], const uint8_t *others,
 *                           size_t others_length, size_t others_count, uint8_t key[SIZE])
 *
 * The key of SIZE bytes, 8, 16 or 24, that two or more components make: their xor, with odd parity. `others` are
 * `others_count` more components, one after the other. Branches on the key. Errors of combine: CUKVASHE_ERR_COUNTS if
 * `others_length` is not that of `others_count` components; _WEAK_KEY.
 */
CUKVASHE_CHECK int cukvashe_des_check_values(const uint8_t *keys, size_t keys_length, uint8_t *values,
                                             size_t values_length, size_t count);
CUKVASHE_CHECK int cukvashe_tdes_ede2_check_values(const uint8_t *keys, size_t keys_length, uint8_t *values,
                                                   size_t values_length, size_t count);
CUKVASHE_CHECK int cukvashe_tdes_ede3_check_values(const uint8_t *keys, size_t keys_length, uint8_t *values,
                                                   size_t values_length, size_t count);
CUKVASHE_CHECK int cukvashe_combine_8(const uint8_t first[8], const uint8_t second[8], const uint8_t *others,
                                      size_t others_length, size_t others_count, uint8_t key[8]);
CUKVASHE_CHECK int cukvashe_combine_16(const uint8_t first[16], const uint8_t second[16], const uint8_t *others,
                                       size_t others_length, size_t others_count, uint8_t key[16]);
CUKVASHE_CHECK int cukvashe_combine_24(const uint8_t first[24], const uint8_t second[24], const uint8_t *others,
                                       size_t others_length, size_t others_count, uint8_t key[24]);

/*
 * KEYS OF A TRANSACTION (DUKPT)
 *
 * DUKPT with triple DES (ANSI X9.24-1:2009), the host's side. Keys have 16 bytes, key serial numbers (KSN) ten, of
 * which the last 21 bits are the transaction counter. Before a shorter one put bytes FF.
 *
 * A transaction's counter is not 0 and has at most ten one bits: is_usable says whether that holds. The other counters
 * have keys here too, counter 0 the initial key itself: so ask is_usable of each key serial number that you are sent.
 * next_serial writes the next usable one. Errors of next_serial: CUKVASHE_ERR_NO_SERIAL.
 */
CUKVASHE_CHECK bool cukvashe_dukpt_is_usable(const uint8_t serial[10]);
CUKVASHE_CHECK int cukvashe_dukpt_next_serial(const uint8_t serial[10], uint8_t next[10]);

/*
 * The initial key (IK, IPEK) of a terminal, from the base derivation key (BDK) and any of the terminal's key serial
 * numbers (KSN), whose counter plays no part.
 */
void cukvashe_dukpt_initial_key(const uint8_t base[16], const uint8_t serial[10], uint8_t key[16]);

/*
 * The key of a transaction, which encrypts nothing itself, from the terminal's initial key (IK, IPEK), not the base
 * derivation key (BDK), and the transaction's key serial number (KSN). It takes every counter: ask first whether a
 * transaction has this one.
 */
void cukvashe_dukpt_transaction_key(const uint8_t initial[16], const uint8_t serial[10], uint8_t key[16]);

/*
 * transaction_keys_from_base takes the base derivation key (BDK), not the initial key (IK, IPEK), and writes for each
 * of `count` key serial numbers (KSN), one after the other, what transaction_key makes of initial_key. Errors:
 * CUKVASHE_ERR_COUNTS if `serials_length` or `keys_length` is not that of `count` key serial numbers or keys.
 */
CUKVASHE_CHECK int cukvashe_dukpt_transaction_keys_from_base(const uint8_t base[16], const uint8_t *serials,
                                                             size_t serials_length, uint8_t *keys, size_t keys_length,
                                                             size_t count);

/*
 * The key that encrypts PIN blocks, from the transaction's key.
 */
void cukvashe_dukpt_pin_key(const uint8_t transaction[16], uint8_t key[16]);

/*
 * The key that authenticates the request, or the response, from the transaction's key.
 */
void cukvashe_dukpt_mac_key(const uint8_t transaction[16], bool is_response, uint8_t key[16]);

/*
 * The key that encrypts the data of the request, or of the response, from the transaction's key.
 */
void cukvashe_dukpt_data_key(const uint8_t transaction[16], bool is_response, uint8_t key[16]);

/*
 * The key that encrypts the data, made without the last step: some terminals take it. It reveals the transaction's other
 * keys.
 */
void cukvashe_dukpt_data_variant(const uint8_t transaction[16], bool is_response, uint8_t key[16]);

/*
 * KEYS OF A TRANSACTION IN THE TERMINAL (DUKPT)
 *
 * The terminal's side of DUKPT (ANSI X9.24-1:2009, A.2 and A.4). Its state is the key serial number of the last
 * transaction and 21 future keys, which make the keys of all transactions to come: keep it secret. You may store its
 * bytes, and go on from them: store them before you use a key, or it is used twice.
 *
 * init makes the state from the initial key (IK, IPEK) and any of the terminal's key serial numbers (KSN): the first
 * transaction has counter 1. next_key writes the next transaction's key serial number, and its key, that of
 * cukvashe_dukpt_transaction_key, and clears it in the state. Errors: CUKVASHE_ERR_NO_SERIAL after the last
 * transaction, the 1,048,575th. A state without future keys, as one of zeros, has the same error.
 */
typedef struct {
  uint8_t serial[10];
  uint8_t keys[21][16];
} cukvashe_dukpt_terminal;

void cukvashe_dukpt_terminal_init(cukvashe_dukpt_terminal *terminal, const uint8_t initial[16],
                                  const uint8_t serial[10]);
CUKVASHE_CHECK int cukvashe_dukpt_terminal_next_key(cukvashe_dukpt_terminal *terminal, uint8_t serial[10],
                                                    uint8_t key[16]);

/*
 * PIN BLOCKS
 *
 * PIN blocks (ISO 9564-1, formats 0 to 3), which are not encrypted here: that is one ECB call, and none for format 2,
 * which goes to a card in clear. A PIN is a text of 4 to 12 ASCII digits, an account number (PAN) one of 8 to 19, the
 * last the check digit.
 *
 * `transaction` and `fill` are ten digits, one in a byte: 0 to 15 in `transaction`, 10 to 15 in `fill`. All ten are
 * checked; the block uses as many as fit, in order.
 *
 * encode writes the block. Errors of encode: CUKVASHE_ERR_PIN_LENGTH, _PIN_DIGIT, _ACCOUNT_LENGTH, _ACCOUNT_DIGIT; then
 * _FILL of encode_1 and encode_3 alone.
 *
 * decode takes only blocks that encode makes. It writes the digits of the PIN and then zero bytes, 13 bytes in all, and
 * branches on the PIN's length. Errors of decode: CUKVASHE_ERR_ACCOUNT_LENGTH, _ACCOUNT_DIGIT, _FORMAT, _PIN_LENGTH,
 * _PIN_DIGIT, _FILL. They reveal something of the PIN: show them to nobody.
 */
CUKVASHE_CHECK int cukvashe_pin_encode_0(const char *pin, size_t pin_length, const char *account, size_t account_length,
                                         uint8_t block[8]);
CUKVASHE_CHECK int cukvashe_pin_encode_1(const char *pin, size_t pin_length, const uint8_t transaction[10],
                                         uint8_t block[8]);
CUKVASHE_CHECK int cukvashe_pin_encode_2(const char *pin, size_t pin_length, uint8_t block[8]);
CUKVASHE_CHECK int cukvashe_pin_encode_3(const char *pin, size_t pin_length, const char *account, size_t account_length,
                                         const uint8_t fill[10], uint8_t block[8]);
CUKVASHE_CHECK int cukvashe_pin_decode_0(const uint8_t block[8], const char *account, size_t account_length,
                                         char pin[13]);
CUKVASHE_CHECK int cukvashe_pin_decode_1(const uint8_t block[8], char pin[13]);
CUKVASHE_CHECK int cukvashe_pin_decode_2(const uint8_t block[8], char pin[13]);
CUKVASHE_CHECK int cukvashe_pin_decode_3(const uint8_t block[8], const char *account, size_t account_length,
                                         char pin[13]);

/*
 * TRANSLATION OF PIN BLOCKS (ISO 9564-1)
 *
 * Decrypts a PIN block under the incoming key, makes the block of format 0, 1 or 3 of its PIN, and encrypts that under
 * the outgoing key; the PIN does not come out. Keys have 8, 16 or 24 bytes: DES, or triple DES (EDE). The account
 * number, that of both blocks, and `fill` are as for PIN blocks. Set the fields by name: what you leave out is 0 or
 * null, which is format 0, and otherwise refused by a call that looks at it.
 *
 * Errors of pin_translate_to_0 and _to_3: CUKVASHE_ERR_KEY_LENGTH, _FORMATS, _ACCOUNT_LENGTH, _ACCOUNT_DIGIT; _FILL of
 * _to_3 alone; then _PIN_BLOCK, whatever is wrong with the block. pin_translate_to_1 keeps the transaction digits.
 * Errors of pin_translate_to_1: CUKVASHE_ERR_FORMATS if `incoming_format` is not 1; _KEY_LENGTH, _PIN_BLOCK.
 */
typedef struct {
  const uint8_t *incoming_key;
  size_t incoming_key_length;
  int incoming_format; /* 0, 1 or 3 */
  const uint8_t *outgoing_key;
  size_t outgoing_key_length;
  const char *account; /* pin_translate_to_1 does not look at it */
  size_t account_length;
  const uint8_t *fill; /* ten fill digits: pin_translate_to_3 alone looks at them */
} cukvashe_pin_translation;

CUKVASHE_CHECK int cukvashe_pin_translate_to_0(const cukvashe_pin_translation *translation, const uint8_t block[8],
                                               uint8_t translated[8]);
CUKVASHE_CHECK int cukvashe_pin_translate_to_1(const cukvashe_pin_translation *translation, const uint8_t block[8],
                                               uint8_t translated[8]);
CUKVASHE_CHECK int cukvashe_pin_translate_to_3(const cukvashe_pin_translation *translation, const uint8_t block[8],
                                               uint8_t translated[8]);

/*
 * PIN VERIFICATION
 *
 * Count wrong PINs: unlimited guesses find the right one.
 *
 * cukvashe_pvv writes the PIN verification value (PVV), four ASCII digits, of an account number of 12 to 19 digits and
 * the first four digits of a PIN, under a pair of keys with an index from 1 to 6. The block of the eleven rightmost
 * digits of the account number without its check digit, the index and the digits of the PIN is encrypted by triple DES
 * (EDE); of the sixteen digits of the ciphertext those from 0 to 9 are taken in order, then the others in order, less
 * ten: the first four are the value. Errors of pvv and pvv_verify: CUKVASHE_ERR_PIN_LENGTH, _PIN_DIGIT, _ACCOUNT_LENGTH,
 * _ACCOUNT_DIGIT, _KEY_INDEX; then _WRONG_PIN of pvv_verify alone, if `value` is not that of the PIN.
 * cukvashe_pvv_is_pin and cukvashe_pin_offset_is_pin are true for the right PIN, and false for a wrong one and for every
 * error.
 *
 * The other calls are by the method of the IBM 3624. Validation data, sixteen digits in 8 bytes that the issuer
 * chooses, are encrypted under a key as for translation. Each digit of the ciphertext becomes the one at its place in
 * the decimalization table, and the first ones, as many as the PIN has, are the natural PIN. The offset, which the
 * host keeps, is digit by digit, modulo ten, the PIN less the natural PIN.
 *
 * cukvashe_decimal_table_init takes the table as a text of sixteen ASCII digits, those that stand for 0 to 15 in this
 * order. An attacker who chooses the table finds PINs out. decimal_table_init_any takes any variety, for old systems.
 * Errors of decimal_table_init and _init_any: CUKVASHE_ERR_TABLE_LENGTH, _TABLE_DIGIT; _TABLE_VARIETY of
 * decimal_table_init alone.
 *
 * cukvashe_natural_pin writes `pin_length` digits, 4 to 12, of the natural PIN, cukvashe_pin_offset the offset of a
 * PIN; zero bytes follow, 13 bytes in all. Errors of natural_pin: CUKVASHE_ERR_TABLE_DIGIT if no init wrote the table;
 * _KEY_LENGTH, _PIN_LENGTH. Errors of pin_offset: CUKVASHE_ERR_PIN_LENGTH, _PIN_DIGIT, _TABLE_DIGIT, _KEY_LENGTH.
 * Errors of pin_offset_verify: CUKVASHE_ERR_PIN_LENGTH, _PIN_DIGIT of the PIN; _PIN_LENGTH of the offset, _PIN_DIGIT of
 * the offset; _TABLE_DIGIT, _KEY_LENGTH; then _WRONG_PIN, if the PIN is not the sum of natural PIN and offset.
 */
typedef struct {
  char digits[16];
} cukvashe_decimal_table;

CUKVASHE_CHECK int cukvashe_pvv(const uint8_t key[16], const char *account, size_t account_length, int index,
                                const char *pin, size_t pin_length, char value[5]);
CUKVASHE_CHECK int cukvashe_pvv_verify(const uint8_t key[16], const char *account, size_t account_length, int index,
                                       const char *pin, size_t pin_length, const char *value, size_t value_length);
CUKVASHE_CHECK bool cukvashe_pvv_is_pin(const uint8_t key[16], const char *account, size_t account_length, int index,
                                        const char *pin, size_t pin_length, const char *value, size_t value_length);
CUKVASHE_CHECK int cukvashe_decimal_table_init(cukvashe_decimal_table *table, const char *digits, size_t length);
CUKVASHE_CHECK int cukvashe_decimal_table_init_any(cukvashe_decimal_table *table, const char *digits, size_t length);
CUKVASHE_CHECK int cukvashe_natural_pin(const uint8_t *key, size_t key_length, const cukvashe_decimal_table *table,
                                        const uint8_t validation[8], size_t pin_length, char pin[13]);
CUKVASHE_CHECK int cukvashe_pin_offset(const uint8_t *key, size_t key_length, const cukvashe_decimal_table *table,
                                       const uint8_t validation[8], const char *pin, size_t pin_length,
                                       char offset[13]);
CUKVASHE_CHECK int cukvashe_pin_offset_verify(const uint8_t *key, size_t key_length,
                                              const cukvashe_decimal_table *table, const uint8_t validation[8],
                                              const char *pin, size_t pin_length, const char *offset,
                                              size_t offset_length);
CUKVASHE_CHECK bool cukvashe_pin_offset_is_pin(const uint8_t *key, size_t key_length,
                                               const cukvashe_decimal_table *table, const uint8_t validation[8],
                                               const char *pin, size_t pin_length, const char *offset,
                                               size_t offset_length);

/*
 * CARD VERIFICATION VALUES
 *
 * The card verification value (CVV), three ASCII digits, under a key pair of 16 bytes, of an account number (PAN) of
 * 12 to 19 digits, an expiry date of four, in the order that the issuer takes, and a service code of three. Errors:
 * CUKVASHE_ERR_ACCOUNT_LENGTH, _ACCOUNT_DIGIT, _EXPIRY_LENGTH, _EXPIRY_DIGIT, _SERVICE_LENGTH, _SERVICE_DIGIT.
 *
 * The account number, the date and the code are texts as those of PIN blocks.
 */
CUKVASHE_CHECK int cukvashe_cvv(const uint8_t key[16], const char *account, size_t account_length, const char *expiry,
                                size_t expiry_length, const char *service, size_t service_length, char value[4]);

/*
 * CARD CRYPTOGRAMS (EMV)
 *
 * The issuer's side of EMV 4.3, Book 2, with triple DES. Keys have 16 bytes. Account and sequence numbers are texts as
 * those of PIN blocks.
 */

/*
 * The key of a card (A1.4.1, option A), with odd parity, from the issuer's master key (IMK), an account number (PAN) of
 * 8 to 19 digits and a sequence number (PSN) of two, `00` if the card has none. Errors: CUKVASHE_ERR_ACCOUNT_LENGTH,
 * _ACCOUNT_DIGIT, _SEQUENCE_LENGTH, _SEQUENCE_DIGIT.
 */
CUKVASHE_CHECK int cukvashe_emv_card_key(const uint8_t issuer[16], const char *account, size_t account_length,
                                         const char *sequence, size_t sequence_length, uint8_t key[16]);

/*
 * The key of a card by option B (A1.4.2), which differs if the account number (PAN) has more than sixteen digits: use
 * it if the card scheme asks for it. Errors: CUKVASHE_ERR_ACCOUNT_LENGTH, _ACCOUNT_DIGIT, _SEQUENCE_LENGTH,
 * _SEQUENCE_DIGIT.
 */
CUKVASHE_CHECK int cukvashe_emv_card_key_b(const uint8_t issuer[16], const char *account, size_t account_length,
                                           const char *sequence, size_t sequence_length, uint8_t key[16]);

/*
 * The session key for application cryptograms, from the card's key and the application transaction counter (ATC), two
 * bytes.
 */
void cukvashe_emv_application_key(const uint8_t card[16], const uint8_t counter[2], uint8_t key[16]);

/*
 * The session key for other uses (A1.3), from the card's key and eight bytes that are different for each session: for
 * secure messaging the application cryptogram (ARQC). The third of them plays no part.
 */
void cukvashe_emv_session_key(const uint8_t card[16], const uint8_t block[8], uint8_t key[16]);

/*
 * The application cryptogram (ARQC, TC or AAC; 8.1.2), 8 bytes, under a session key, of the data that the card scheme
 * names: the retail MAC with padding method 2.
 *
 * To check one that a card sent, give the data to a context of retail_mac_des, and ask cukvashe_retail_mac_des_is_tag.
 */
void cukvashe_emv_application_cryptogram(const uint8_t session[16], const uint8_t *data, size_t length,
                                         uint8_t cryptogram[8]);

/*
 * The issuer's response (ARPC) by method 1 (8.2.1), 8 bytes, to an application cryptogram (ARQC), with a response code
 * of two ASCII characters.
 */
void cukvashe_emv_response_1(const uint8_t session[16], const uint8_t cryptogram[8], const uint8_t code[2],
                             uint8_t response[8]);

/*
 * The issuer's response (ARPC) by method 2 (8.2.2), 4 bytes, to an application cryptogram (ARQC), with a card status
 * update of four bytes and at most 8 bytes of the issuer's. Errors: CUKVASHE_ERR_DATA_LENGTH.
 */
CUKVASHE_CHECK int cukvashe_emv_response_2(const uint8_t session[16], const uint8_t cryptogram[8],
                                           const uint8_t status[4], const uint8_t *data, size_t length,
                                           uint8_t response[4]);

/*
 * KEY BLOCKS
 *
 * Key blocks (ANSI X9.143, ASC X9 TR-31) of versions B and C, and of A, which is only read: ASCII texts with a header
 * that says what a key is for, optional blocks, and the key, of 8, 16 or 24 bytes, encrypted and authenticated under a
 * protection key (KBPK) of 16 or 24.
 *
 * unwrap writes the header, the key and then zeros to 24 bytes, and into `key_length` how many bytes the key has. Look
 * at the header before you use the key: no call compares it with what you do, or with the key's length. Fields and
 * optional blocks are read whatever characters they have. Once the MAC is right, it branches on the key's length.
 * Errors of unwrap: CUKVASHE_ERR_PROTECTION_KEY_LENGTH, _KEY_BLOCK_LENGTH, _VERSION, _HEADER, _OPTIONAL_BLOCK,
 * _KEY_DATA_LENGTH, _KEY_BLOCK_DIGIT, _KEY_BLOCK_MAC, _KEY_LENGTH.
 *
 * wrap writes the block of its parts and a zero byte, and into `length` how many characters the block has: without
 * optional blocks at most 96. `capacity` is the number of bytes at `block`, for the zero byte too. `padding` are random
 * bytes of yours, new each time: CUKVASHE_KEY_DATA_SIZE - 2 - key_length of them hide how long the key is. Set the
 * parts by name: what you leave out is 0 or null, which is refused except for `optional`.
 *
 * `optional` are the optional blocks, one after the other. Each is a name of two letters or digits, its whole length in
 * two hexadecimal digits in upper case, as KS1800604B120F9292800000, and its content, of printable ASCII, 0x20 to 0x7E;
 * one that is longer than 255 characters has 0002 and four digits instead of two. Each is written with the shorter form
 * of its length. If they do not end at a multiple of eight characters, a block `PB` of zeros is added; a `PB` of yours
 * is taken only as the last, if they end there with it.
 *
 * Errors of wrap: CUKVASHE_ERR_VERSION; _OPTIONAL_BLOCK, if `optional` can't be read, or holds more than 99;
 * _PROTECTION_KEY_LENGTH; _HEADER; _KEY_LENGTH; _PADDING_LENGTH; _OPTIONAL_BLOCK, if a name or a content has other
 * characters; _KEY_BLOCK_LENGTH, if the optional blocks have more than 9999 characters; _OPTIONAL_BLOCK, if a `PB` is
 * not taken, or they are more than 99 with one that is added; _KEY_BLOCK_LENGTH, if the block has more, or `capacity`
 * is too small.
 *
 * header writes the fields of a block's header. context writes where the key may be, character 15 of the header: '0' in
 * storage and exchange, as wrap writes it, '1' in storage only, '2' in exchange only. optional_block writes the name of
 * the optional block at a place, from 0, into `offset` where in the block its content begins, and into `length` the
 * content's length. None takes a key: what they write is not authenticated. Errors of header, context and
 * optional_block: CUKVASHE_ERR_KEY_BLOCK_LENGTH, _VERSION, _HEADER, _OPTIONAL_BLOCK, _KEY_DATA_LENGTH; then
 * _NO_OPTIONAL_BLOCK of optional_block alone.
 */
typedef struct {
  char version;        /* A, B or C */
  char usage[3];       /* as P0, for keys that encrypt PIN blocks */
  char algorithm;      /* as T, for triple DES */
  char mode;           /* as E, for encryption alone */
  char key_version[3]; /* 00: no versions; c and a character: a component of a key, not the key; else the version */
  char exportability;  /* E: exportable under a KEK in a form that complies with X9.24; N: not exportable;
                          S: sensitive, exportable in other forms too */
} cukvashe_key_block_fields;

typedef struct {
  const uint8_t *protection;
  size_t protection_length;
  cukvashe_key_block_fields header;
  const char *optional;
  size_t optional_length;
  const uint8_t *key;
  size_t key_length;
  const uint8_t *padding;
  size_t padding_length;
} cukvashe_key_block_parts;

CUKVASHE_CHECK int cukvashe_key_block_unwrap(const uint8_t *protection, size_t protection_length, const char *block,
                                             size_t block_length, cukvashe_key_block_fields *header, uint8_t key[24],
                                             size_t *key_length);
CUKVASHE_CHECK int cukvashe_key_block_wrap(const cukvashe_key_block_parts *parts, char *block, size_t capacity,
                                           size_t *length);
CUKVASHE_CHECK int cukvashe_key_block_header(const char *block, size_t block_length, cukvashe_key_block_fields *header);
CUKVASHE_CHECK int cukvashe_key_block_context(const char *block, size_t block_length, char *context);
CUKVASHE_CHECK int cukvashe_key_block_optional_block(const char *block, size_t block_length, size_t place, char name[3],
                                                     size_t *offset, size_t *length);

/*
 * PASSWORDS
 *
 * To read what others wrote: MD5 and SHA-1 are broken, and passwords are quick to guess by bytes_to_key. `hash` is
 * CUKVASHE_SHA1 or CUKVASHE_SHA256, and without PBKDF2 also CUKVASHE_MD5, no number of OpenSSL's. -1 is no length,
 * though OpenSSL's PKCS5_PBKDF2_HMAC takes it for strlen: the call would read past the password.
 *
 * pbkdf2 writes the key of a password and a salt by PBKDF2 (RFC 8018, 5.2) with HMAC over the hash function. Errors of
 * pbkdf2: CUKVASHE_ERR_HASH, _ITERATIONS; _KEY_LENGTH if the key is longer than 2^32 - 1 digests.
 *
 * bytes_to_key writes the key, and after it the vector, that OpenSSL's EVP_BytesToKey makes with one iteration: ask for
 * both together, 32 bytes for a key of 24. The password stands before the salt, unlike in EVP_BytesToKey. The salt has
 * 8 bytes, without Salted__, or none (`-nosalt`). Errors of bytes_to_key: CUKVASHE_ERR_SALT_LENGTH, _HASH.
 *
 * int cukvashe_NAME_open_salted(int hash, size_t iterations, const uint8_t *password, size_t password_length,
 *                               const uint8_t *bytes, size_t length, uint8_t *plain, size_t capacity,
 *                               size_t *plain_length)
 *
 * Decrypts what openssl enc encrypted under a password by `-des-cbc` (des), `-des-ede-cbc` (tdes_ede2), or `-des3` or
 * `-des-ede3-cbc` (tdes_ede3). It writes the plaintext without padding, and into `plain_length` how many bytes it has;
 * `capacity` is the number of bytes at `plain`: `length` - 16 are always enough. `bytes` are the whole file: Salted__,
 * a salt of 8 bytes and the ciphertext, not Base64 (`-a`). `hash` is that of `-md`: by default CUKVASHE_SHA256, before
 * OpenSSL 1.1.0 CUKVASHE_MD5. `iterations` is that of `-iter`; 10000 if only `-pbkdf2` was given; 0, not 1, if neither
 * was: then bytes_to_key is used, and otherwise PBKDF2.
 *
 * It branches on the padding. Errors of open_salted: CUKVASHE_ERR_HASH, _NOT_SALTED, _SALT_LENGTH, _ITERATIONS, _BLOCKS,
 * _PADDING, _CAPACITY. A wrong password, hash function or number of iterations is _PADDING, except for one in 256, which
 * gives CUKVASHE_OK and wrong bytes: nothing here authenticates. Tell nobody who sends you files which error they gave.
 */
CUKVASHE_CHECK int cukvashe_pbkdf2(int hash, size_t iterations, const uint8_t *password, size_t password_length,
                                   const uint8_t *salt, size_t salt_length, uint8_t *key, size_t key_length);
CUKVASHE_CHECK int cukvashe_bytes_to_key(int hash, const uint8_t *password, size_t password_length, const uint8_t *salt,
                                         size_t salt_length, uint8_t *key, size_t key_length);
CUKVASHE_CHECK int cukvashe_des_open_salted(int hash, size_t iterations, const uint8_t *password,
                                            size_t password_length, const uint8_t *bytes, size_t length, uint8_t *plain,
                                            size_t capacity, size_t *plain_length);
CUKVASHE_CHECK int cukvashe_tdes_ede2_open_salted(int hash, size_t iterations, const uint8_t *password,
                                                  size_t password_length, const uint8_t *bytes, size_t length,
                                                  uint8_t *plain, size_t capacity, size_t *plain_length);
CUKVASHE_CHECK int cukvashe_tdes_ede3_open_salted(int hash, size_t iterations, const uint8_t *password,
                                                  size_t password_length, const uint8_t *bytes, size_t length,
                                                  uint8_t *plain, size_t capacity, size_t *plain_length);

/*
 * OLD RECORDS
 *
 * To read what databases and frameworks encrypted, a column at a time, and to write it for what reads nothing else.
 * Nothing here authenticates: check the texts, tell nobody who sends you values which status they have, and encrypt them
 * again by something else.
 *
 * `values` are `values_count` values, one after the other, `length` bytes in all: value k has `lengths[k]` bytes. `texts`
 * has as many bytes, and text k begins where value k does. It has `text_lengths[k]` bytes; those after it are zeros.
 * `statuses[k]` is CUKVASHE_OK, or why value k can't be read, and then its text is empty. If there is such a value, the
 * call returns CUKVASHE_ERR_VALUES, and has read the others. The calls branch on the padding. Many values go together: a
 * column under one key takes about as long as its bytes in one text.
 *
 * To write, `texts` are `texts_count` texts, `length` bytes in all, and text k has `lengths[k]` bytes. Their values go into
 * `values`, one after the other, which has exactly as many bytes, `values_length`, as a call says. After an error it is
 * unchanged.
 */

/*
 * Reads what DES_ENCRYPT of MySQL, up to 5.7, and of MariaDB wrote under a key string. An empty value is an empty text.
 * Statuses of values: CUKVASHE_ERR_NOT_ENCRYPTED, if the server would return the value unchanged; _PADDING, if it would
 * return NULL, as mostly under a wrong key. Errors: CUKVASHE_ERR_COUNTS if the sum of the lengths is not `length`;
 * _VALUES.
 */
CUKVASHE_CHECK int cukvashe_mysql_decrypt_values(const uint8_t *password, size_t password_length, const uint8_t *values,
                                                 size_t length, const size_t *lengths, size_t values_count,
                                                 uint8_t *texts, size_t *text_lengths, int *statuses);

/*
 * Reads what DES_ENCRYPT wrote under keys of the server's file (des-key-file), each value under the key that its first
 * byte names. `keys` are the bytes of that file, read as the server reads it: the last line of a number counts, a line
 * without its end does not, and lines that are no key are passed over. This branches on the bytes of the file. Statuses
 * of values: CUKVASHE_ERR_NOT_ENCRYPTED; _KEY_NUMBER, if the file has no key of the value's number, as for a value under
 * a key string; _PADDING. All else is as for cukvashe_mysql_decrypt_values. Errors: CUKVASHE_ERR_COUNTS if the sum of
 * the lengths is not `length`; _VALUES.
 */
CUKVASHE_CHECK int cukvashe_mysql_decrypt_values_by_file(const uint8_t *keys, size_t keys_length, const uint8_t *values,
                                                         size_t length, const size_t *lengths, size_t values_count,
                                                         uint8_t *texts, size_t *text_lengths, int *statuses);

/*
 * Reads what encrypt and encrypt_iv of PostgreSQL's pgcrypto wrote. `algorithm` is theirs, in any case of letters: des,
 * 3des, or one of these with -cbc or -ecb, and then perhaps /pad:pkcs or /pad:none, as 3des-ecb/pad:none. Without these
 * it is -cbc and /pad:pkcs. Key and vector have any length, as there: they are cut, or filled with zeros, so that a key
 * of 16 bytes of 3des is none of two parts; encrypt has an `iv` of no bytes. Statuses of values: CUKVASHE_ERR_BLOCKS,
 * also for an empty value with padding; _PADDING, as mostly under a wrong key. Errors: CUKVASHE_ERR_ALGORITHM; _COUNTS
 * if the sum of the lengths is not `length`; _VALUES.
 */
CUKVASHE_CHECK int cukvashe_pgcrypto_decrypt_values(const char *algorithm, size_t algorithm_length, const uint8_t *key,
                                                    size_t key_length, const uint8_t *iv, size_t iv_length,
                                                    const uint8_t *values, size_t length, const size_t *lengths,
                                                    size_t values_count, uint8_t *texts, size_t *text_lengths,
                                                    int *statuses);

/*
 * Writes what DES_ENCRYPT of MySQL and MariaDB does: under a key string, with the number 127, or under the string of a key
 * of the server's file, with that key's number, 0 to 9, which the first byte of each value says. A text of n bytes has a
 * value of (n / 8 + 1) * 8 + 1, and an empty text an empty value. Errors: CUKVASHE_ERR_KEY_NUMBER; _COUNTS if the sum of
 * the lengths is not `length`, or that of the values' lengths not `values_length`.
 */
CUKVASHE_CHECK int cukvashe_mysql_encrypt_values(const uint8_t *password, size_t password_length, size_t number,
                                                 const uint8_t *texts, size_t length, const size_t *lengths,
                                                 size_t texts_count, uint8_t *values, size_t values_length);

/*
 * Writes what encrypt and encrypt_iv of pgcrypto do, by an algorithm, a key and a vector as for pgcrypto_decrypt_values.
 * A text of n bytes has a value of (n / 8 + 1) * 8, and with /pad:none one of n. Errors: CUKVASHE_ERR_ALGORITHM; _COUNTS
 * if the sum of the lengths is not `length`, or that of the values' lengths not `values_length`; _BLOCKS if there is no
 * padding and a text is not whole blocks of 8 bytes.
 */
CUKVASHE_CHECK int cukvashe_pgcrypto_encrypt_values(const char *algorithm, size_t algorithm_length, const uint8_t *key,
                                                    size_t key_length, const uint8_t *iv, size_t iv_length,
                                                    const uint8_t *texts, size_t length, const size_t *lengths,
                                                    size_t texts_count, uint8_t *values, size_t values_length);

/*
 * The key of a password and a salt, and the vector after it, by password-based encryption: `key_length` is that of both,
 * 16 for DES, 24 for two keys, 32 for triple DES. Decrypt by CBC with them, and take the padding off by CUKVASHE_PKCS7.
 * `algorithm` is, in any case of letters,
 *
 *     PBEWithMD5AndDES or pbeWithMD5AndDES-CBC, PBEWithSHA1AndDES or pbeWithSHA1AndDES-CBC      PKCS #5 (RFC 8018, 6.1)
 *     PBEWithSHA1AndDESede or pbeWithSHAAnd3-KeyTripleDES-CBC, pbeWithSHAAnd2-KeyTripleDES-CBC  PKCS #12 (RFC 7292, B)
 *     PBEWithMD5AndTripleDES                                                                    Java's own rule
 *
 * For PKCS #12 the password is UTF-8, otherwise bytes. Errors: CUKVASHE_ERR_ALGORITHM, _KEY_LENGTH, _ITERATIONS;
 * _SALT_LENGTH if Java's rule has a salt of other than 8 bytes.
 */
CUKVASHE_CHECK int cukvashe_pbe_key(const char *algorithm, size_t algorithm_length, size_t iterations,
                                    const uint8_t *password, size_t password_length, const uint8_t *salt,
                                    size_t salt_length, uint8_t *key, size_t key_length);

/*
 * Reads strings of Jasypt, as settings have them inside ENC( and ): Base64 of a salt of 8 bytes, and of what was padded
 * and encrypted by CBC. The values are text, with ENC( and ) or without; white space around these and within does not
 * count. `algorithm` and the password are as for pbe_key. Jasypt's own are PBEWithMD5AndDES and 1,000 iterations. The
 * key of each value is derived by itself, which takes most of the time. Statuses of values: CUKVASHE_ERR_BASE64;
 * _SALT_LENGTH if the value ends within the salt; _BLOCKS, also if nothing is encrypted; _PADDING, as mostly under a
 * wrong password. Errors: CUKVASHE_ERR_ALGORITHM, _ITERATIONS; _COUNTS if the sum of the lengths is not `length`;
 * _VALUES.
 */
CUKVASHE_CHECK int cukvashe_jasypt_decrypt_values(const char *algorithm, size_t algorithm_length, size_t iterations,
                                                  const uint8_t *password, size_t password_length,
                                                  const uint8_t *values, size_t length, const size_t *lengths,
                                                  size_t values_count, uint8_t *texts, size_t *text_lengths,
                                                  int *statuses);

/*
 * Writes strings of Jasypt, without ENC( and ) around, by an algorithm, iterations and a password as for
 * jasypt_decrypt_values: text k from the k-th of `salts`, of 8 bytes each, which are to be random. A text of n bytes has
 * a value of ((n / 8 + 2) * 8 + 2) / 3 * 4. Errors: CUKVASHE_ERR_COUNTS if `salts_length` is not that of `texts_count`
 * salts; then _ALGORITHM, _ITERATIONS; _COUNTS if the sum of the lengths is not `length`, or that of the values' lengths
 * not `values_length`.
 */
CUKVASHE_CHECK int cukvashe_jasypt_encrypt_values(const char *algorithm, size_t algorithm_length, size_t iterations,
                                                  const uint8_t *password, size_t password_length,
                                                  const uint8_t *salts, size_t salts_length, const uint8_t *texts,
                                                  size_t length, const size_t *lengths, size_t texts_count,
                                                  uint8_t *values, size_t values_length);

/*
 * NUMBERS WITHOUT A C COMPILER
 *
 * For programs that load the library, and can't read this header: the size of each struct above, in bytes, and each
 * number that is a macro, by its name in small letters. A struct may stand at any multiple of 8 bytes.
 */
size_t cukvashe_des_size(void);
size_t cukvashe_tdes_ede2_size(void);
size_t cukvashe_tdes_ede3_size(void);
size_t cukvashe_stream_size(void);
size_t cukvashe_cbc_mac_des_size(void);
size_t cukvashe_cbc_mac_tdes_ede2_size(void);
size_t cukvashe_cbc_mac_tdes_ede3_size(void);
size_t cukvashe_retail_mac_des_size(void);
size_t cukvashe_cmac_tdes_ede2_size(void);
size_t cukvashe_cmac_tdes_ede3_size(void);
size_t cukvashe_message_size(void);
size_t cukvashe_dukpt_terminal_size(void);
size_t cukvashe_pin_translation_size(void);
size_t cukvashe_decimal_table_size(void);
size_t cukvashe_key_block_fields_size(void);
size_t cukvashe_key_block_parts_size(void);
int cukvashe_version_major(void);
int cukvashe_version_minor(void);
int cukvashe_version_patch(void);
size_t cukvashe_block_size(void);
size_t cukvashe_tag_size(void);
size_t cukvashe_des_key_size(void);
size_t cukvashe_tdes_ede2_key_size(void);
size_t cukvashe_tdes_ede3_key_size(void);
size_t cukvashe_cbc_mac_des_key_size(void);
size_t cukvashe_cbc_mac_tdes_ede2_key_size(void);
size_t cukvashe_cbc_mac_tdes_ede3_key_size(void);
size_t cukvashe_retail_mac_des_key_size(void);
size_t cukvashe_cmac_tdes_ede2_key_size(void);
size_t cukvashe_cmac_tdes_ede3_key_size(void);
size_t cukvashe_check_value_size(void);
size_t cukvashe_short_check_value_size(void);
size_t cukvashe_dukpt_key_size(void);
size_t cukvashe_dukpt_serial_size(void);
size_t cukvashe_fill_size(void);
size_t cukvashe_pin_size(void);
size_t cukvashe_cvv_size(void);
size_t cukvashe_pvv_size(void);
size_t cukvashe_key_data_size(void);
size_t cukvashe_key_block_size(void);
int cukvashe_pkcs7(void);
int cukvashe_iso7816(void);
int cukvashe_md5(void);
int cukvashe_sha1(void);
int cukvashe_sha256(void);
int cukvashe_ctr(void);
int cukvashe_ofb(void);
int cukvashe_cfb1(void);
int cukvashe_cfb8(void);
int cukvashe_cfb64(void);
int cukvashe_mac_padding_1(void);
int cukvashe_mac_padding_2(void);

#if defined(__ELF__) || defined(__MACH__)
#pragma GCC visibility pop
#endif

#ifdef __cplusplus
}
#endif

#endif
