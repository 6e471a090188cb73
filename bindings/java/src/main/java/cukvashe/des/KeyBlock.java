package cukvashe.des;

import java.security.SecureRandom;
import java.util.ArrayList;
import java.util.Collections;
import java.util.List;
import javax.crypto.SecretKey;

/**
 * Key blocks (ANSI X9.143, ASC X9 TR-31) of versions B and C, and of A, which is only read: a header, optional blocks, and a key of 8, 16
 * or 24 bytes under a protection key (KBPK) of 16 or 24. A protection key of 24 bytes whose third part is the first is taken as one of 16.
 */
public final class KeyBlock {
  /** An optional block: a name of two characters, and its content. */
  public static final class Optional {
    private final String name;
    private final String content;

    private Optional(String name, String content) {
      this.name = name;
      this.content = content;
    }

    /** The optional block of this name and content, of printable ASCII. The calls that take it look at what they are. */
    public static Optional of(String name, String content) {
      return new Optional(name, content);
    }

    /** As it stands in a key block: its whole length has two hexadecimal digits, or four after 0002. */
    private String text() throws CukvasheException {
      int length = content.length() + 4;
      if (name.length() != 2 || length > Native.KEY_BLOCK_SIZE) {
        throw new CukvasheException(Status.OPTIONAL_BLOCK);
      }
      return name + (length < 256 ? String.format("%02X", length) : String.format("0002%04X", length + 6)) + content;
    }

    /** The name. */
    public String name() {
      return name;
    }

    /** The content. */
    public String content() {
      return content;
    }

    @Override
    public String toString() {
      return name + " " + content;
    }
  }

  private final KeyBlockHeader header;
  private final SecretKey key;

  private KeyBlock(KeyBlockHeader header, SecretKey key) {
    this.header = header;
    this.key = key;
  }

  /** What the block says of its key: look at it before you use the key. */
  public KeyBlockHeader header() {
    return header;
  }

  /** The key, named by the header's algorithm: {@code AES} or {@code HMAC}, and else {@code DES} if it has 8 bytes, or {@code DESede}. */
  public SecretKey key() {
    return key;
  }

  private static Secret protection(SecretKey key) {
    Secret.refuseAes(key);
    return Secret.of(Secret.withoutThirdPart(Secret.raw(key)));
  }

  private static byte[] text(String block) throws CukvasheException {
    if (block.chars().anyMatch(character -> character > 127)) {
      throw new CukvasheException(Status.KEY_BLOCK_DIGIT);
    }
    return Secret.text(block);
  }

  /**
   * The header and the key of a key block.
   *
   * @throws CukvasheException {@link Status#PROTECTION_KEY_LENGTH}, {@link Status#KEY_BLOCK_LENGTH}, {@link Status#VERSION}, {@link
   *     Status#HEADER}, {@link Status#OPTIONAL_BLOCK}, {@link Status#KEY_DATA_LENGTH}, {@link Status#KEY_BLOCK_DIGIT}, {@link
   *     Status#KEY_BLOCK_MAC} if it was changed or is under another key, {@link Status#KEY_LENGTH}
   */
  public static KeyBlock unwrap(SecretKey protection, String block) throws CukvasheException {
    byte[] fields = new byte[Native.KEY_BLOCK_FIELDS_SIZE];
    long[] length = new long[1];
    try (Secret kbpk = protection(protection);
        Secret made = Secret.buffer(Native.TDES_EDE3_KEY_SIZE)) {
      CukvasheException.check(Native.keyBlockUnwrap(kbpk.bytes, text(block), fields, made.bytes, length));
      KeyBlockHeader header = KeyBlockHeader.of(fields);
      switch (header.algorithm()) {
        case 'A':
          return new KeyBlock(header, made.key((int) length[0], "AES"));
        case 'H':
          return new KeyBlock(header, made.key((int) length[0], "HMAC"));
        default:
          return new KeyBlock(header, made.key((int) length[0]));
      }
    }
  }

  /**
   * The key block of a key, with random padding that hides how long the key is.
   *
   * @param length how many bytes of the key the block has, 8, 16 or 24: of a key of 24 bytes whose third part is the first it may have 16
   * @param optional the optional blocks. A block PB is added if they do not end at a multiple of eight characters; one of yours is taken
   *     only as the last, if with it they do.
   * @throws CukvasheException {@link Status#KEY_LENGTH} if the key does not have this length; {@link Status#VERSION}, {@link
   *     Status#OPTIONAL_BLOCK}, {@link Status#PROTECTION_KEY_LENGTH}, {@link Status#HEADER}, {@link Status#KEY_BLOCK_LENGTH}
   */
  public static String wrap(SecretKey protection, KeyBlockHeader header, SecretKey key, int length, Optional... optional)
      throws CukvasheException {
    byte[] padding = new byte[Math.max(0, Native.KEY_DATA_SIZE - 2 - length)];
    new SecureRandom().nextBytes(padding);
    return wrap(protection, header, key, length, padding, optional);
  }

  /**
   * The key block of a key, with these random bytes as padding, new each time: 30 with the key.
   *
   * @throws CukvasheException as the other call, and {@link Status#PADDING_LENGTH}
   */
  public static String wrap(
      SecretKey protection, KeyBlockHeader header, SecretKey key, int length, byte[] padding, Optional... optional)
      throws CukvasheException {
    if (length != 8 && length != 16 && length != 24) {
      throw new CukvasheException(Status.KEY_LENGTH);
    }
    StringBuilder blocks = new StringBuilder();
    for (Optional it : optional) {
      blocks.append(it.text());
    }
    byte[] text = new byte[Native.KEY_BLOCK_SIZE];
    long[] written = new long[1];
    try (Secret kbpk = protection(protection);
        Secret secret = header.algorithm() == 'A' ? Secret.keyOfAny(key, length) : Secret.key(key, length);
        Secret random = Secret.of(padding.clone())) {
      CukvasheException.check(
          Native.keyBlockWrap(kbpk.bytes, header.struct(), Secret.text(blocks.toString()), secret.bytes, random.bytes, text, written));
    }
    return Secret.of(text).text();
  }

  /**
   * The header of a key block, without its key: what it says is not authenticated.
   *
   * @throws CukvasheException {@link Status#KEY_BLOCK_LENGTH}, {@link Status#VERSION}, {@link Status#HEADER}, {@link
   *     Status#OPTIONAL_BLOCK}, {@link Status#KEY_DATA_LENGTH}
   */
  public static KeyBlockHeader header(String block) throws CukvasheException {
    Native.isThere();
    byte[] fields = new byte[Native.KEY_BLOCK_FIELDS_SIZE];
    CukvasheException.check(Native.keyBlockHeader(text(block), fields));
    return KeyBlockHeader.of(fields);
  }

  /**
   * Where the key may be, not authenticated: 0 in storage and exchange, 1 in storage only, 2 in exchange only.
   *
   * @throws CukvasheException as {@link #header(String)}
   */
  public static char context(String block) throws CukvasheException {
    Native.isThere();
    byte[] context = new byte[1];
    CukvasheException.check(Native.keyBlockContext(text(block), context));
    return (char) context[0];
  }

  /**
   * The optional blocks of a key block, not authenticated.
   *
   * @throws CukvasheException as {@link #header(String)}
   */
  public static List<Optional> optionalBlocks(String block) throws CukvasheException {
    Native.isThere();
    byte[] text = text(block);
    byte[] name = new byte[3];
    long[] offset = new long[1];
    long[] length = new long[1];
    List<Optional> found = new ArrayList<>();
    while (true) {
      int status = Native.keyBlockOptionalBlock(text, found.size(), name, offset, length);
      if (status != 0 && Status.of(status) == Status.NO_OPTIONAL_BLOCK) {
        return Collections.unmodifiableList(found);
      }
      CukvasheException.check(status);
      int begin = (int) offset[0];
      found.add(new Optional(Secret.of(name.clone()).text(), block.substring(begin, begin + (int) length[0])));
    }
  }
}
