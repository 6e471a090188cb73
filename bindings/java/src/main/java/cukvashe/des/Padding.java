package cukvashe.des;

import java.util.Arrays;

/** Padding of data to whole blocks, of records above all: ciphers of JCE pad by themselves. */
public enum Padding {
  /** PKCS#7 (RFC 5652, 6.3), which JCE calls PKCS5Padding. */
  PKCS7(Native.PKCS7),
  /** ISO/IEC 7816-4: a one bit, then zeros. */
  ISO7816(Native.ISO7816);

  private final int method;

  Padding(int method) {
    this.method = method;
  }

  /** The data with 1 to 8 bytes of padding. */
  public byte[] pad(byte[] data) {
    int size = Native.BLOCK_SIZE - data.length % Native.BLOCK_SIZE;
    byte[] padded = Arrays.copyOf(data, Math.addExact(data.length, size));
    if (this == PKCS7) {
      Arrays.fill(padded, data.length, padded.length, (byte) size);
    } else {
      padded[data.length] = (byte) 0x80;
    }
    return padded;
  }

  /**
   * The data before their padding. An attacker who learns whether what he sent is accepted can decrypt CBC without the key: verify a MAC of
   * the ciphertext first, and answer all faults alike.
   *
   * @throws CukvasheException {@link Status#BLOCKS}; {@link Status#PADDING}, also if there are no data
   */
  public byte[] unpad(byte[] data) throws CukvasheException {
    Native.isThere();
    long[] length = new long[1];
    CukvasheException.check(Native.unpad(data, method, length));
    return Arrays.copyOf(data, (int) length[0]);
  }
}
