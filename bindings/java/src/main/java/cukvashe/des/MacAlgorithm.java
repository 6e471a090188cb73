package cukvashe.des;

import java.security.InvalidKeyException;
import java.util.stream.IntStream;

/**
 * The MACs, with their padding method (ISO/IEC 9797-1:2011, 6.3): zeros are method 1, a one bit and then zeros method 2. Take the sender's,
 * since the other one makes another tag. Method 1 hides zeros at the end of a message. Tags have 8 bytes.
 */
public enum MacAlgorithm {
  /** CBC-MAC (algorithm 1) over DES, a key of 8 bytes. It is safe only if all messages under a key have one length. */
  CBC_MAC_DES_1(Native.MAC_PADDING_1, Native.CBC_MAC_DES, -1, -1),
  /** The same with padding method 2. */
  CBC_MAC_DES_2(Native.MAC_PADDING_2, Native.CBC_MAC_DES, -1, -1),
  /** CBC-MAC over triple DES, a key of 16 or 24 bytes. */
  CBC_MAC_TDES_1(Native.MAC_PADDING_1, -1, Native.CBC_MAC_TDES_EDE2, Native.CBC_MAC_TDES_EDE3),
  /** The same with padding method 2. */
  CBC_MAC_TDES_2(Native.MAC_PADDING_2, -1, Native.CBC_MAC_TDES_EDE2, Native.CBC_MAC_TDES_EDE3),
  /** The retail MAC (algorithm 3) over DES, a key of 16 bytes: two keys of DES. */
  RETAIL_MAC_1(Native.MAC_PADDING_1, -1, Native.RETAIL_MAC_DES, -1),
  /** The same with padding method 2. */
  RETAIL_MAC_2(Native.MAC_PADDING_2, -1, Native.RETAIL_MAC_DES, -1),
  /** CMAC (NIST SP 800-38B) over triple DES, a key of 16 or 24 bytes. */
  CMAC(0, -1, Native.CMAC_TDES_EDE2, Native.CMAC_TDES_EDE3);

  private final int method;
  private final int[] numbers;

  /** The numbers of C for keys of 8, 16 and 24 bytes, or -1. */
  MacAlgorithm(int method, int... numbers) {
    this.method = method;
    this.numbers = numbers;
  }

  /** The number of C for keys of a size, or -1. */
  int number(int size) {
    return size == 8 || size == 16 || size == 24 ? numbers[size / 8 - 1] : -1;
  }

  /** The sizes of keys. */
  int[] sizes() {
    return IntStream.of(8, 16, 24).filter(size -> number(size) >= 0).toArray();
  }

  /** The context of a key and an empty message. */
  long[] context(byte[] key, boolean readsTables) throws InvalidKeyException {
    int number = number(key.length);
    if (number < 0) {
      throw new InvalidKeyException(Status.KEY_LENGTH.sentence());
    }
    long[] made;
    int status;
    switch (number) {
      case Native.CBC_MAC_DES:
        made = new long[Native.CBC_MAC_DES_WORDS];
        status = readsTables ? Native.cbcMacDesInit(made, key, method) : Native.cbcMacDesInitNoTables(made, key, method);
        break;
      case Native.CBC_MAC_TDES_EDE2:
        made = new long[Native.CBC_MAC_TDES_EDE2_WORDS];
        status = readsTables ? Native.cbcMacTdesEde2Init(made, key, method) : Native.cbcMacTdesEde2InitNoTables(made, key, method);
        break;
      case Native.CBC_MAC_TDES_EDE3:
        made = new long[Native.CBC_MAC_TDES_EDE3_WORDS];
        status = readsTables ? Native.cbcMacTdesEde3Init(made, key, method) : Native.cbcMacTdesEde3InitNoTables(made, key, method);
        break;
      case Native.RETAIL_MAC_DES:
        made = new long[Native.RETAIL_MAC_DES_WORDS];
        status = readsTables ? Native.retailMacDesInit(made, key, method) : Native.retailMacDesInitNoTables(made, key, method);
        break;
      case Native.CMAC_TDES_EDE2:
        made = new long[Native.CMAC_TDES_EDE2_WORDS];
        status = readsTables ? Native.cmacTdesEde2Init(made, key) : Native.cmacTdesEde2InitNoTables(made, key);
        break;
      default:
        made = new long[Native.CMAC_TDES_EDE3_WORDS];
        status = readsTables ? Native.cmacTdesEde3Init(made, key) : Native.cmacTdesEde3InitNoTables(made, key);
    }
    if (status != 0) {
      throw new InvalidKeyException(Status.of(status).sentence());
    }
    return made;
  }

  /** Writes the tags of many messages, under one key for all or a key for each. The status. */
  int tags(int number, boolean hasKeys, byte[] keys, byte[] bytes, long[] lengths, byte[] tags) {
    switch (number) {
      case Native.CBC_MAC_DES:
        return hasKeys
            ? Native.cbcMacDesMacsEach(keys, method, bytes, lengths, tags)
            : Native.cbcMacDesMacs(keys, method, bytes, lengths, tags);
      case Native.CBC_MAC_TDES_EDE2:
        return hasKeys
            ? Native.cbcMacTdesEde2MacsEach(keys, method, bytes, lengths, tags)
            : Native.cbcMacTdesEde2Macs(keys, method, bytes, lengths, tags);
      case Native.CBC_MAC_TDES_EDE3:
        return hasKeys
            ? Native.cbcMacTdesEde3MacsEach(keys, method, bytes, lengths, tags)
            : Native.cbcMacTdesEde3Macs(keys, method, bytes, lengths, tags);
      case Native.RETAIL_MAC_DES:
        return hasKeys
            ? Native.retailMacDesMacsEach(keys, method, bytes, lengths, tags)
            : Native.retailMacDesMacs(keys, method, bytes, lengths, tags);
      case Native.CMAC_TDES_EDE2:
        return hasKeys ? Native.cmacTdesEde2MacsEach(keys, bytes, lengths, tags) : Native.cmacTdesEde2Macs(keys, bytes, lengths, tags);
      default:
        return hasKeys ? Native.cmacTdesEde3MacsEach(keys, bytes, lengths, tags) : Native.cmacTdesEde3Macs(keys, bytes, lengths, tags);
    }
  }
}
