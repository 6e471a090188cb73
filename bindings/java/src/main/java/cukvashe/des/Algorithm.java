package cukvashe.des;

import java.security.InvalidKeyException;
import java.security.Key;
import java.util.Arrays;

/** What JCE calls the ciphers, and which keys they take. */
enum Algorithm {
  DES("DES"),
  DESEDE("DESede");

  final String title;

  Algorithm(String title) {
    this.title = title;
  }

  boolean isNamed(String name) {
    return title.equalsIgnoreCase(name) || this == DESEDE && "TripleDES".equalsIgnoreCase(name);
  }

  /** Whether a key may have {@code size} bytes. */
  boolean takes(int size) {
    return this == DES ? size == 8 : size == 16 || size == 24;
  }

  /** A copy of the bytes of a key, which the caller overwrites. */
  byte[] bytesOf(Key key) throws InvalidKeyException {
    if (key == null) {
      throw new InvalidKeyException("no key is given");
    }
    if (!isNamed(key.getAlgorithm())) {
      throw new InvalidKeyException("the key's algorithm is not " + title);
    }
    byte[] bytes = rawOf(key);
    if (!takes(bytes.length)) {
      Arrays.fill(bytes, (byte) 0);
      throw new InvalidKeyException(Status.KEY_LENGTH.sentence());
    }
    return bytes;
  }

  /** How many bits of a key count. */
  int bits(Key key) throws InvalidKeyException {
    byte[] bytes = bytesOf(key);
    Arrays.fill(bytes, (byte) 0);
    return bytes.length * 7;
  }

  static byte[] rawOf(Key key) throws InvalidKeyException {
    byte[] bytes = "RAW".equalsIgnoreCase(key.getFormat()) ? key.getEncoded() : null;
    if (bytes == null) {
      throw new InvalidKeyException("the key does not show its bytes");
    }
    return bytes;
  }
}
