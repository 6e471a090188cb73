"""Mistakes in the header, and in the known calls, that must be refused: what stands there once, what stands in its place, and a part of the
refusal."""

from sources.text import Refused

MISTAKES = [
    ("ERR_BLOCKS = 2,", "ERR_BLOCKS = 3,", "does not have the number after"),
    ("CUKVASHE_ERR_BLOCKS = 2, ", "CUKVASHE_ERR_BLOCKS = (2),", "is no number"),
    ("  CUKVASHE_OK = 0, ", "  OTHER, CUKVASHE_OK = 0, ", "each in a line of its own"),
    ("VERSION_MINOR 1", "VERSION_MINOR 2", "are not those of CUKVASHE_VERSION"),
    ("size_t cukvashe_des_size(void);", "", "does not have the call 'size_t cukvashe_des_size(void)'"),
    ("int cukvashe_sha1(void);", "size_t cukvashe_sha1(void);", "does not have the call 'int cukvashe_sha1(void)'"),
    ("/* the key does not have a length", "/* The key does not have a length", "has no sentence"),
    ("/* the PIN is wrong */", "/* the tag is not that of the message */", "has the sentence of another status"),
    ("#define CUKVASHE_PKCS7 11", "#define CUKVASHE_PKCS7 sizeof", "is no number"),
    ("#ifndef CUKVASHE_CHECK", "#undef CUKVASHE_OK\n#ifndef CUKVASHE_CHECK", "a directive that is not known"),
    ("void cukvashe_wipe(void *pointer, size_t size);", "void cukvashe_wipe(void *pointer, size_t size)", "cukvashe_des.h:"),
    ("void cukvashe_wipe(void *pointer, size_t size);", "void cukvashe_wipe(void *, size_t size);", "has no name of the library's"),
    ("void cukvashe_wipe(void *pointer", "void cukvashe_wipe(void **pointer", "which no language takes"),
    ("void cukvashe_wipe(void *pointer", "int wiped;\nvoid cukvashe_wipe(void *pointer", "neither a call nor a struct"),
    ("void cukvashe_wipe(void *pointer", "const char *cukvashe_version(void);\nvoid cukvashe_wipe(void *pointer", "is declared twice"),
    ("void cukvashe_wipe(void *pointer, size_t", "void cukvashe_wipe(void *pointer, long double", "has no type for"),
    ("base, card, first", "base, card, cart, first", "which is no argument of a call"),
    ("session, terminal,", "terminal,", "differ in who is given no secret"),
    ("compare_tags, decimal_table_init,", "decimal_table_init,", "differ in who is given no secret"),
    ("_macs, _macs_each", "_macs, _macs_every", "which is that of no call"),
    ("46,000   _macs", "_macs", "has sizes that can't be read"),
    ("void cukvashe_dukpt_pin_key(const uint8_t transaction[16]", "void cukvashe_dukpt_pin_key(const uint8_t transaction[8]",
     "which takes another type"),
    ("bool cukvashe_dukpt_is_usable(const uint8_t serial[10]", "bool cukvashe_dukpt_is_usable(uint8_t serial[10]", "does not take and return"),
    ("void cukvashe_dukpt_pin_key(const uint8_t transaction[16], uint8_t", "void cukvashe_dukpt_pin_key(const uint8_t transaction[16], const uint8_t",
     "which takes another type"),
    ("_encode_0(const char *pin, size_t pin_length, const char *account, size_t account_length",
     "_encode_0(const char *account, size_t account_length, const char *pin, size_t pin_length", "at other places"),
    ("void cukvashe_dukpt_mac_key(const uint8_t transaction[16], bool", "void cukvashe_dukpt_mac_key(const uint8_t transaction[16], int",
     "which takes another type"),
    ("Errors of pad:", "Errors of pads:", "'pads' has, which is no call"),
    (" Errors of next_serial: CUKVASHE_ERR_NO_SERIAL.", "", "no comment says which errors cukvashe_dukpt_next_serial has"),
    ("_EXPIRY_LENGTH, _EXPIRY_DIGIT,", "_EXPIRY_LENGTH, _EXPIRY_DIGITS,", "or errors of calls, and not both: EXPIRY_DIGIT, EXPIRY_DIGITS"),
    ("_SERVICE_LENGTH, _SERVICE_DIGIT.", "_SERVICE_LENGTH, _SERVICE_DIGIT, _FILL.", "has no argument 'fill' for its error FILL"),
    ("Errors of pin_offset:", "Errors of natural_pin:", "or of one whose errors another sentence says"),
    ("_COUNTS if `count` is not `length` / 8", "_COUNTS", "does not hand 'length' on"),
    ("if `vectors_length` is not that of `records_count` vectors", "", "does not hand 'vectors_length' on"),
    ("if `keys_length` or `values_length` is", "if `values_length` is", "says which `keys_length` it refuses"),
    ("CUKVASHE_ERR_KEY_LENGTH of macs alone;\n * _COUNTS", "CUKVASHE_ERR_COUNTS", "says which `key_length` it refuses"),
    ("CUKVASHE_ERR_BLOCKS; _COUNTS if `count`", "CUKVASHE_ERR_CONTEXT, _BLOCKS; _COUNTS if `count`", "after what its export returns"),
    ("CUKVASHE_CHECK int cukvashe_pvv(const uint8_t key[16], const char *account, size_t account_length, int index",
     "CUKVASHE_CHECK int cukvashe_pvv(const uint8_t key[16], const char *account, size_t account_length, int pair", "it has no value for"),
    ("_cryptogram(const uint8_t session[16], const uint8_t *data", "_cryptogram(const uint8_t session[16], const uint8_t *card",
     "takes the secret 'card' without a size"),
    ("CUKVASHE_ERR_KEY_LENGTH.\n */\nCUKVASHE_CHECK int cukvashe_key_check_value(",
     "CUKVASHE_ERR_KEY_LENGTH, _WEAK_KEY.\n */\nCUKVASHE_CHECK int cukvashe_key_check_value(", "has an error that wrappers.py has no name for"),
    ("CUKVASHE_ERR_KEY_LENGTH.\n */\nCUKVASHE_CHECK int cukvashe_key_check_value(",
     "CUKVASHE_ERR_KEY_LENGTH, _TAG.\n */\nCUKVASHE_CHECK int cukvashe_key_check_value(", "or none in its module of Rust"),
    ("void cukvashe_emv_application_key(", "void cukvashe_card_application_key(", "has no export in crates/des_c"),
]

OF_KNOWN_CALLS = [
    ("emv_application_key CARD_KEY x001c = ", "emv_counter_key CARD_KEY x001c = ", "is like no call of the header"),
    ('pin_encode_2 "1234" = ', "pin_encode_2 = ", "does not have the words of cukvashe_pin_encode_2: pin"),
    ("dukpt_pin_key TRANSACTION = ", "dukpt_pin_key TRANSACTION true = ", "does not have the words of cukvashe_dukpt_pin_key: transaction"),
    ("PAIR CARD 1 \"1234\" = ", "PAIR CARD \"1234\" 1 = ", "has a word for 'index' that cukvashe_pvv does not take"),
    ("= xf94a6571647b89f7", '= "f94a6571647b89f7"', "does not say what cukvashe_emv_response_1 writes"),
    ("pin_decode_1 x141234fe09a51234 = ", "pin_decode_1 x141234fe09a512 = ", "has a word that C leaves no place for, and no error"),
    ("natural_pin PAIR TABLE VALIDATION 5 = ", "natural_pin PAIR TABLE VALIDATION -5 = ", "has a word that C leaves no place for, and no error"),
    ("= xd5d4\n", "= xd5d4 x4f\n", "says more than cukvashe_short_key_check_value writes"),
    ("! WrongPin the PIN", "! WrongPins the PIN", "has the error WrongPins, which is no status"),
    ("cvv PAIR CARD \"8701\" \"101\" = ", "cvv PAIRS CARD \"8701\" \"101\" = ", "'PAIRS' is no name"),
]


def test(text, known_calls, make):
    """Makes all that is made of each mistaken header, and of each mistaken known call. How many there were."""
    refuses("the header", text, MISTAKES, lambda mistaken: make(mistaken, known_calls))
    refuses("the known calls", known_calls, OF_KNOWN_CALLS, lambda mistaken: make(text, mistaken))
    return len(MISTAKES) + len(OF_KNOWN_CALLS)


def refuses(what, text, mistakes, make):
    for old, new, refusal in mistakes:
        if text.count(old) != 1:
            raise Refused(f"bindings/description/planted.py: {text.count(old)} times '{old}' is in {what}, and not once")
        try:
            make(text.replace(old, new))
        except Refused as it:
            if refusal not in str(it):
                raise Refused(f"of '{new}' it says: {it}") from None
        else:
            raise Refused(f"it takes '{new}' in the place of '{old}'")
