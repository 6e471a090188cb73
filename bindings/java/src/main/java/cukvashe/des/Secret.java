package cukvashe.des;

import java.nio.charset.StandardCharsets;
import java.security.MessageDigest;
import java.util.Arrays;
import javax.crypto.SecretKey;

/** Bytes that a call takes or makes, which are overwritten at its end. */
final class Secret implements AutoCloseable {
  static {
    Native.isThere();
  }

  private static final Secret NOTHING = new Secret(new byte[0]);

  final byte[] bytes;

  private Secret(byte[] bytes) {
    this.bytes = bytes;
  }

  /** A buffer that a call writes. */
  static Secret buffer(int size) {
    return size == 0 ? NOTHING : new Secret(new byte[size]);
  }

  /** The bytes of a key of DES or triple DES, which has one of these sizes. */
  static Secret key(SecretKey key, int... sizes) throws CukvasheException {
    refuseAes(key);
    return keyOfAny(key, sizes);
  }

  /** A key that says that it is one of AES would be used as another, since both may have 16 or 24 bytes. */
  static void refuseAes(SecretKey key) {
    if ("AES".equalsIgnoreCase(key.getAlgorithm())) {
      throw new IllegalArgumentException("the key is one of AES");
    }
  }

  /** The bytes of a key of any algorithm, which has one of these sizes. */
  static Secret keyOfAny(SecretKey key, int... sizes) throws CukvasheException {
    byte[] bytes = raw(key);
    if (bytes.length == 24 && !has(sizes, 24) && has(sizes, 16)) {
      bytes = withoutThirdPart(bytes);
    }
    if (!has(sizes, bytes.length)) {
      Arrays.fill(bytes, (byte) 0);
      throw new CukvasheException(Status.KEY_LENGTH);
    }
    return new Secret(bytes);
  }

  /** A copy of the bytes of a key, which the caller overwrites. */
  static byte[] raw(SecretKey key) {
    byte[] bytes = "RAW".equalsIgnoreCase(key.getFormat()) ? key.getEncoded() : null;
    if (bytes == null) {
      throw new IllegalArgumentException("the key does not show its bytes");
    }
    return bytes;
  }

  private static boolean has(int[] sizes, int size) {
    for (int one : sizes) {
      if (one == size) {
        return true;
      }
    }
    return false;
  }

  /**
   * Of 24 bytes whose third part is the first, the first 16, and else the bytes themselves. Keys of two parts come in both forms: SunJCE
   * and {@code DESedeKeySpec} know 24 bytes alone. The array that is not given back is overwritten.
   */
  static byte[] withoutThirdPart(byte[] bytes) {
    if (bytes.length != 24) {
      return bytes;
    }
    byte[] first = Arrays.copyOf(bytes, 8);
    byte[] third = Arrays.copyOfRange(bytes, 16, 24);
    boolean isRepeated = MessageDigest.isEqual(first, third);
    Arrays.fill(first, (byte) 0);
    Arrays.fill(third, (byte) 0);
    if (!isRepeated) {
      return bytes;
    }
    byte[] two = Arrays.copyOf(bytes, 16);
    Arrays.fill(bytes, (byte) 0);
    return two;
  }

  /** An array that is the caller's no more. */
  static Secret of(byte[] bytes) {
    return new Secret(bytes);
  }

  static Secret pin(Pin pin) {
    return new Secret(pin.bytes());
  }

  /** The characters of a text, each a byte: one that no byte is has 255, which no call takes. */
  static byte[] text(String text) {
    byte[] bytes = new byte[text.length()];
    for (int at = 0; at < bytes.length; at++) {
      bytes[at] = (byte) Math.min(text.charAt(at), 255);
    }
    return bytes;
  }

  /** An array that must have this size. */
  static byte[] sized(byte[] bytes, int size, String what) {
    if (bytes.length != size) {
      throw new IllegalArgumentException(what + " has " + size + " bytes, not " + bytes.length);
    }
    return bytes;
  }

  /** A call that makes a key of another. */
  interface Derivation {
    void of(byte[] key, byte[] made) throws CukvasheException;
  }

  /** The key that a call makes of another of the same size. */
  static SecretKey derived(int size, SecretKey key, Derivation call) throws CukvasheException {
    try (Secret secret = key(key, size);
        Secret made = buffer(size)) {
      call.of(secret.bytes, made.bytes);
      return made.key();
    }
  }

  /** A key that a call made. */
  SecretKey key() {
    return key(bytes.length);
  }

  SecretKey key(int length) {
    return key(length, length == 8 ? Algorithm.DES.title : Algorithm.DESEDE.title);
  }

  SecretKey key(int length, String algorithm) {
    return new DesKey(algorithm, Arrays.copyOf(bytes, length));
  }

  /** A PIN that a call made. */
  Pin pin() {
    return new Pin(Arrays.copyOf(bytes, length()));
  }

  /** How many bytes stand before the first zero. */
  private int length() {
    int length = 0;
    while (length < bytes.length && bytes[length] != 0) {
      length++;
    }
    return length;
  }

  /** The text before the first zero that a call made. */
  String text() {
    return new String(bytes, 0, length(), StandardCharsets.ISO_8859_1);
  }

  byte[] copy() {
    return bytes.clone();
  }

  @Override
  public void close() {
    Arrays.fill(bytes, (byte) 0);
  }
}
