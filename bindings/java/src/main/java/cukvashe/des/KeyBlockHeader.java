package cukvashe.des;

/** What a key block says of its key. */
public final class KeyBlockHeader {
  /** Where the characters of a header stand in the struct of C, whose texts end with a zero. */
  private static final int[] PLACES = {0, 1, 2, 4, 5, 6, 7, 9};

  private final String fields;

  private KeyBlockHeader(String fields) {
    this.fields = fields;
  }

  /**
   * A header.
   *
   * @param version A, B or C
   * @param usage two characters, as P0 for keys that encrypt PIN blocks
   * @param algorithm as T for triple DES
   * @param mode as E for encryption alone
   * @param keyVersion two characters: 00 for no versions
   * @param exportability E, N or S
   * @throws IllegalArgumentException if usage or key version do not have two characters
   */
  public static KeyBlockHeader of(char version, String usage, char algorithm, char mode, String keyVersion, char exportability) {
    if (usage.length() != 2 || keyVersion.length() != 2) {
      throw new IllegalArgumentException("the usage and the key version have two characters");
    }
    return new KeyBlockHeader("" + version + usage + algorithm + mode + keyVersion + exportability);
  }

  /** Of a struct of C. */
  static KeyBlockHeader of(byte[] struct) {
    StringBuilder fields = new StringBuilder();
    for (int at : PLACES) {
      fields.append((char) (struct[at] & 255));
    }
    return new KeyBlockHeader(fields.toString());
  }

  byte[] struct() {
    byte[] characters = Secret.text(fields);
    byte[] struct = new byte[Native.KEY_BLOCK_FIELDS_SIZE];
    for (int at = 0; at < PLACES.length; at++) {
      struct[PLACES[at]] = characters[at];
    }
    return struct;
  }

  /** The version of the key block. */
  public char version() {
    return fields.charAt(0);
  }

  /** What the key is for. */
  public String usage() {
    return fields.substring(1, 3);
  }

  /** The algorithm of the key. */
  public char algorithm() {
    return fields.charAt(3);
  }

  /** How the key may be used. */
  public char mode() {
    return fields.charAt(4);
  }

  /** The version of the key. */
  public String keyVersion() {
    return fields.substring(5, 7);
  }

  /** Whether the key may be exported. */
  public char exportability() {
    return fields.charAt(7);
  }

  @Override
  public boolean equals(Object other) {
    return other instanceof KeyBlockHeader && ((KeyBlockHeader) other).fields.equals(fields);
  }

  @Override
  public int hashCode() {
    return fields.hashCode();
  }

  @Override
  public String toString() {
    return String.format(
        "version %s, usage %s, algorithm %s, mode %s, key version %s, exportability %s",
        version(), usage(), algorithm(), mode(), keyVersion(), exportability());
  }
}
