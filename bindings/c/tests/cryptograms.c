/* Cryptograms as MACs, of which the keys are those of a card or a session; known calls are in known.c. */
#include "digits.h"

/* The key of a card, the session key of counter 001c, and the cryptogram of 43 bytes under that. */
static const char card_key[] = "67f8292358083e5ea7ab7fda58d53b6b", session_key[] = "38324e73f063efdd5ca88c322476a45b";
static const char cryptogram_of_data[] = "ac06a6df7a7d00e8";

static const uint8_t data[43] = {
    0x00, 0x00, 0x00, 0x00, 0x50, 0x00, 0x00, 0x00, 0x00, 0x00, 0x00, 0x00, 0x00, 0x00, 0x08, 0x40, 0x00, 0x00, 0x00, 0x00, 0x00, 0x08,
    0x40, 0x15, 0x02, 0x20, 0x00, 0x63, 0xa5, 0xb1, 0xf2, 0x58, 0x00, 0x00, 0x00, 0x1c, 0x06, 0x01, 0x0a, 0x03, 0xa4, 0xa0, 0x00,
};

/* What a card sends is verified as a retail MAC. */
static void verifies_a_cryptogram(void) {
  cukvashe_retail_mac_des mac;
  uint8_t session[16], cryptogram[8];
  put(session, session_key);
  put(cryptogram, cryptogram_of_data);
  CHECK(cukvashe_retail_mac_des_init_no_tables(&mac, session, sizeof session, CUKVASHE_MAC_PADDING_2) == CUKVASHE_OK);
  CHECK(cukvashe_retail_mac_des_update(&mac, data, sizeof data) == CUKVASHE_OK);
  CHECK(cukvashe_retail_mac_des_is_tag(&mac, cryptogram, 8));
  cryptogram[7] ^= 1;
  CHECK(!cukvashe_retail_mac_des_is_tag(&mac, cryptogram, 8));
}

/* As cryptogram versions 10 and 17 are: padding method 1 under the card's key itself. By OpenSSL: CBC by the left half, and the last
 * block decrypted by the right half and encrypted by the left. */
static void answers_cryptograms_without_session_keys(void) {
  static const struct {
    size_t length;
    const char *cryptogram;
  } cryptograms[] = {{13, "0388b1d558bbce11"}, {40, "bc83557064300411"}, {sizeof data, "3edb6f6b1ce588b1"}};
  uint8_t card[16], cryptogram[8];
  put(card, card_key);
  for (size_t i = 0; i < sizeof cryptograms / sizeof *cryptograms; i++) {
    cukvashe_retail_mac_des mac;
    CHECK(cukvashe_retail_mac_des_init_no_tables(&mac, card, sizeof card, CUKVASHE_MAC_PADDING_1) == CUKVASHE_OK);
    CHECK(cukvashe_retail_mac_des_update(&mac, data, cryptograms[i].length) == CUKVASHE_OK);
    CHECK(cukvashe_retail_mac_des_final(&mac, cryptogram) == CUKVASHE_OK);
    CHECK(are(cryptogram, 8, cryptograms[i].cryptogram));
  }
}

int main(void) {
  verifies_a_cryptogram();
  answers_cryptograms_without_session_keys();
  printf("cryptograms: as retail MACs\n");
  return 0;
}
