package cukvashe.des;

/** All calls of C. Those that are written by hand here are the ones whose speed counts. */
final class Native {
  private Native() {}

  /** Why there is no library, or null. */
  static final UnsatisfiedLinkError FAULT = Library.load();

  /** What blocks are to be done: a sum of these. */
  static final int DECRYPT = 1;

  static final int CBC = 2;

  // The MACs.
  static final int CBC_MAC_DES = 0;
  static final int CBC_MAC_TDES_EDE2 = 1;
  static final int CBC_MAC_TDES_EDE3 = 2;
  static final int RETAIL_MAC_DES = 3;
  static final int CMAC_TDES_EDE2 = 4;
  static final int CMAC_TDES_EDE3 = 5;

  /** Throws why there is no library, if there is none. */
  static void isThere() {
    if (FAULT != null) {
      throw FAULT;
    }
  }

  /** A block, encrypted or decrypted. */
  static native long block(long[] context, int flags, long value);

  /** Encrypts or decrypts whole blocks in place. The next vector. */
  static native long blocks(long[] context, int flags, long iv, byte[] data, int offset, int length);

  /** Encrypts or decrypts the bytes that come next in a stream, in place. */
  static native void next(long[] context, long[] stream, boolean decrypts, byte[] data, int offset, int length);

  /** Adds bytes to the message. */
  static native void macUpdate(int mac, long[] context, byte[] data, int offset, int length);

  /** The tag of the message with these bytes at its end; the context stays. */
  static native long macFinal(int mac, long[] context, byte[] data, int length);

  static native String version();

  // Numbers and calls of cukvashe_des.h: made of it by bindings/describe.
  static final String VERSION = "0.1.0";
  static final int BLOCK_SIZE = 8;
  static final int TAG_SIZE = 8;
  static final int DES_KEY_SIZE = 8;
  static final int TDES_EDE2_KEY_SIZE = 16;
  static final int TDES_EDE3_KEY_SIZE = 24;
  static final int CBC_MAC_DES_KEY_SIZE = 8;
  static final int CBC_MAC_TDES_EDE2_KEY_SIZE = 16;
  static final int CBC_MAC_TDES_EDE3_KEY_SIZE = 24;
  static final int RETAIL_MAC_DES_KEY_SIZE = 16;
  static final int CMAC_TDES_EDE2_KEY_SIZE = 16;
  static final int CMAC_TDES_EDE3_KEY_SIZE = 24;
  static final int CHECK_VALUE_SIZE = 3;
  static final int SHORT_CHECK_VALUE_SIZE = 2;
  static final int DUKPT_KEY_SIZE = 16;
  static final int DUKPT_SERIAL_SIZE = 10;
  static final int FILL_SIZE = 10;
  static final int PIN_SIZE = 13;
  static final int CVV_SIZE = 4;
  static final int PVV_SIZE = 5;
  static final int KEY_DATA_SIZE = 32;
  static final int KEY_BLOCK_SIZE = 10000;
  static final int PKCS7 = 11;
  static final int ISO7816 = 12;
  static final int MD5 = 21;
  static final int SHA1 = 22;
  static final int SHA256 = 23;
  static final int CTR = 31;
  static final int OFB = 32;
  static final int CFB1 = 40;
  static final int CFB8 = 41;
  static final int CFB64 = 48;
  static final int MAC_PADDING_1 = 1;
  static final int MAC_PADDING_2 = 2;
  static final int DES_WORDS = 17;
  static final int TDES_EDE2_WORDS = 33;
  static final int TDES_EDE3_WORDS = 49;
  static final int STREAM_WORDS = 4;
  static final int CBC_MAC_DES_WORDS = 21;
  static final int CBC_MAC_TDES_EDE2_WORDS = 37;
  static final int CBC_MAC_TDES_EDE3_WORDS = 53;
  static final int RETAIL_MAC_DES_WORDS = 38;
  static final int CMAC_TDES_EDE2_WORDS = 37;
  static final int CMAC_TDES_EDE3_WORDS = 53;
  static final int DUKPT_TERMINAL_SIZE = 346;
  static final int DECIMAL_TABLE_SIZE = 16;
  static final int KEY_BLOCK_FIELDS_SIZE = 10;

  static native int desInit(long[] context, byte[] key);

  static native int tdesEde2Init(long[] context, byte[] key);

  static native int tdesEde3Init(long[] context, byte[] key);

  static native int desInitNoTables(long[] context, byte[] key);

  static native int tdesEde2InitNoTables(long[] context, byte[] key);

  static native int tdesEde3InitNoTables(long[] context, byte[] key);

  static native int streamBegin(long[] stream, int mode, byte[] iv);

  static native int cmsWrapKey(byte[] protection, byte[] iv, byte[] key, byte[] wrapped, long[] wrappedLength);

  static native int cmsUnwrapKey(byte[] protection, byte[] wrapped, byte[] key, long[] keyLength);

  static native int tkwWrapKey(byte[] protection, byte[] key, byte[] wrapped, long[] wrappedLength);

  static native int tkwUnwrapKey(byte[] protection, byte[] wrapped, byte[] key, long[] keyLength);

  static native int desEncryptEach(byte[] keys, byte[] blocks);

  static native int desDecryptEach(byte[] keys, byte[] blocks);

  static native int tdesEde2EncryptEach(byte[] keys, byte[] blocks);

  static native int tdesEde2DecryptEach(byte[] keys, byte[] blocks);

  static native int tdesEde3EncryptEach(byte[] keys, byte[] blocks);

  static native int tdesEde3DecryptEach(byte[] keys, byte[] blocks);

  static native int desEncryptCbcRecords(long[] context, byte[] vectors, long[] counts, byte[] bytes);

  static native int desDecryptCbcRecords(long[] context, byte[] vectors, long[] counts, byte[] bytes);

  static native int tdesEde2EncryptCbcRecords(long[] context, byte[] vectors, long[] counts, byte[] bytes);

  static native int tdesEde2DecryptCbcRecords(long[] context, byte[] vectors, long[] counts, byte[] bytes);

  static native int tdesEde3EncryptCbcRecords(long[] context, byte[] vectors, long[] counts, byte[] bytes);

  static native int tdesEde3DecryptCbcRecords(long[] context, byte[] vectors, long[] counts, byte[] bytes);

  static native int unpad(byte[] buffer, int method, long[] unpaddedLength);

  static native int weakKeyTest(byte[] key);

  static native void setOddParity(byte[] key);

  static native boolean equalButParity(byte[] first, byte[] second);

  static native int cbcMacDesInit(long[] context, byte[] key, int method);

  static native int cbcMacTdesEde2Init(long[] context, byte[] key, int method);

  static native int cbcMacTdesEde3Init(long[] context, byte[] key, int method);

  static native int retailMacDesInit(long[] context, byte[] key, int method);

  static native int cmacTdesEde2Init(long[] context, byte[] key);

  static native int cmacTdesEde3Init(long[] context, byte[] key);

  static native int cbcMacDesInitNoTables(long[] context, byte[] key, int method);

  static native int cbcMacTdesEde2InitNoTables(long[] context, byte[] key, int method);

  static native int cbcMacTdesEde3InitNoTables(long[] context, byte[] key, int method);

  static native int retailMacDesInitNoTables(long[] context, byte[] key, int method);

  static native int cmacTdesEde2InitNoTables(long[] context, byte[] key);

  static native int cmacTdesEde3InitNoTables(long[] context, byte[] key);

  static native int cbcMacDesMacs(byte[] key, int method, byte[] bytes, long[] lengths, byte[] tags);

  static native int cbcMacDesMacsEach(byte[] keys, int method, byte[] bytes, long[] lengths, byte[] tags);

  static native int cbcMacTdesEde2Macs(byte[] key, int method, byte[] bytes, long[] lengths, byte[] tags);

  static native int cbcMacTdesEde2MacsEach(byte[] keys, int method, byte[] bytes, long[] lengths, byte[] tags);

  static native int cbcMacTdesEde3Macs(byte[] key, int method, byte[] bytes, long[] lengths, byte[] tags);

  static native int cbcMacTdesEde3MacsEach(byte[] keys, int method, byte[] bytes, long[] lengths, byte[] tags);

  static native int retailMacDesMacs(byte[] key, int method, byte[] bytes, long[] lengths, byte[] tags);

  static native int retailMacDesMacsEach(byte[] keys, int method, byte[] bytes, long[] lengths, byte[] tags);

  static native int cmacTdesEde2Macs(byte[] key, byte[] bytes, long[] lengths, byte[] tags);

  static native int cmacTdesEde2MacsEach(byte[] keys, byte[] bytes, long[] lengths, byte[] tags);

  static native int cmacTdesEde3Macs(byte[] key, byte[] bytes, long[] lengths, byte[] tags);

  static native int cmacTdesEde3MacsEach(byte[] keys, byte[] bytes, long[] lengths, byte[] tags);

  static native int desCheckValue(byte[] key, byte[] value);

  static native int tdesEde2CheckValue(byte[] key, byte[] value);

  static native int tdesEde3CheckValue(byte[] key, byte[] value);

  static native int keyCheckValue(byte[] key, byte[] value);

  static native int shortKeyCheckValue(byte[] key, byte[] value);

  static native int desCheckValues(byte[] keys, byte[] values, long count);

  static native int tdesEde2CheckValues(byte[] keys, byte[] values, long count);

  static native int tdesEde3CheckValues(byte[] keys, byte[] values, long count);

  static native int combine8(byte[] first, byte[] second, byte[] others, long othersCount, byte[] key);

  static native int combine16(byte[] first, byte[] second, byte[] others, long othersCount, byte[] key);

  static native int combine24(byte[] first, byte[] second, byte[] others, long othersCount, byte[] key);

  static native boolean dukptIsUsable(byte[] serial);

  static native int dukptNextSerial(byte[] serial, byte[] next);

  static native void dukptInitialKey(byte[] base, byte[] serial, byte[] key);

  static native void dukptTransactionKey(byte[] initial, byte[] serial, byte[] key);

  static native int dukptTransactionKeysFromBase(byte[] base, byte[] serials, byte[] keys, long count);

  static native void dukptPinKey(byte[] transaction, byte[] key);

  static native void dukptMacKey(byte[] transaction, boolean isResponse, byte[] key);

  static native void dukptDataKey(byte[] transaction, boolean isResponse, byte[] key);

  static native void dukptDataVariant(byte[] transaction, boolean isResponse, byte[] key);

  static native void dukptTerminalInit(byte[] terminal, byte[] initial, byte[] serial);

  static native int dukptTerminalNextKey(byte[] terminal, byte[] serial, byte[] key);

  static native int pinEncode0(byte[] pin, byte[] account, byte[] block);

  static native int pinEncode1(byte[] pin, byte[] transaction, byte[] block);

  static native int pinEncode2(byte[] pin, byte[] block);

  static native int pinEncode3(byte[] pin, byte[] account, byte[] fill, byte[] block);

  static native int pinDecode0(byte[] block, byte[] account, byte[] pin);

  static native int pinDecode1(byte[] block, byte[] pin);

  static native int pinDecode2(byte[] block, byte[] pin);

  static native int pinDecode3(byte[] block, byte[] account, byte[] pin);

  static native int pinTranslateTo0(byte[] incomingKey, int incomingFormat, byte[] outgoingKey, byte[] account,
      byte[] fill, byte[] block, byte[] translated);

  static native int pinTranslateTo1(byte[] incomingKey, int incomingFormat, byte[] outgoingKey, byte[] account,
      byte[] fill, byte[] block, byte[] translated);

  static native int pinTranslateTo3(byte[] incomingKey, int incomingFormat, byte[] outgoingKey, byte[] account,
      byte[] fill, byte[] block, byte[] translated);

  static native int pvv(byte[] key, byte[] account, int index, byte[] pin, byte[] value);

  static native int pvvVerify(byte[] key, byte[] account, int index, byte[] pin, byte[] value);

  static native boolean pvvIsPin(byte[] key, byte[] account, int index, byte[] pin, byte[] value);

  static native int decimalTableInit(byte[] table, byte[] digits);

  static native int decimalTableInitAny(byte[] table, byte[] digits);

  static native int naturalPin(byte[] key, byte[] table, byte[] validation, long pinLength, byte[] pin);

  static native int pinOffset(byte[] key, byte[] table, byte[] validation, byte[] pin, byte[] offset);

  static native int pinOffsetVerify(byte[] key, byte[] table, byte[] validation, byte[] pin, byte[] offset);

  static native boolean pinOffsetIsPin(byte[] key, byte[] table, byte[] validation, byte[] pin, byte[] offset);

  static native int cvv(byte[] key, byte[] account, byte[] expiry, byte[] service, byte[] value);

  static native int emvCardKey(byte[] issuer, byte[] account, byte[] sequence, byte[] key);

  static native int emvCardKeyB(byte[] issuer, byte[] account, byte[] sequence, byte[] key);

  static native void emvApplicationKey(byte[] card, byte[] counter, byte[] key);

  static native void emvSessionKey(byte[] card, byte[] block, byte[] key);

  static native void emvApplicationCryptogram(byte[] session, byte[] data, byte[] cryptogram);

  static native void emvResponse1(byte[] session, byte[] cryptogram, byte[] code, byte[] response);

  static native int emvResponse2(byte[] session, byte[] cryptogram, byte[] status, byte[] data, byte[] response);

  static native int keyBlockUnwrap(byte[] protection, byte[] block, byte[] header, byte[] key, long[] keyLength);

  static native int keyBlockWrap(byte[] protection, byte[] header, byte[] optional, byte[] key, byte[] padding,
      byte[] block, long[] length);

  static native int keyBlockHeader(byte[] block, byte[] header);

  static native int keyBlockContext(byte[] block, byte[] context);

  static native int keyBlockOptionalBlock(byte[] block, long place, byte[] name, long[] offset, long[] length);

  static native int pbkdf2(int hash, long iterations, byte[] password, byte[] salt, byte[] key);

  static native int bytesToKey(int hash, byte[] password, byte[] salt, byte[] key);

  static native int desOpenSalted(int hash, long iterations, byte[] password, byte[] bytes, byte[] plain,
      long[] plainLength);

  static native int tdesEde2OpenSalted(int hash, long iterations, byte[] password, byte[] bytes, byte[] plain,
      long[] plainLength);

  static native int tdesEde3OpenSalted(int hash, long iterations, byte[] password, byte[] bytes, byte[] plain,
      long[] plainLength);

  static native int pbeKey(byte[] algorithm, long iterations, byte[] password, byte[] salt, byte[] key);
  // This ends what bindings/describe made.
}
