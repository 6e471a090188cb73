package cukvashe.des;

import java.util.List;

/** Encryption under a password, by SunJCE's names. */
enum PasswordScheme {
  /** PKCS #5 version 1.5 (RFC 8018, 6.1). */
  MD5_DES("PBEWithMD5AndDES", Algorithm.DES, 8, "1.2.840.113549.1.5.3"),
  /** SunJCE's own. */
  MD5_TRIPLE_DES("PBEWithMD5AndTripleDES", Algorithm.DESEDE, 24, null),
  /** PKCS #12 (RFC 7292, appendix B). */
  SHA1_TRIPLE_DES("PBEWithSHA1AndDESede", Algorithm.DESEDE, 24, "1.2.840.113549.1.12.1.3");

  /** How often the hash function runs if nobody says it. */
  static final int ITERATIONS = 1024;

  final String title;
  final Algorithm algorithm;
  final int keySize;
  private final String identifier;

  PasswordScheme(String title, Algorithm algorithm, int keySize, String identifier) {
    this.title = title;
    this.algorithm = algorithm;
    this.keySize = keySize;
    this.identifier = identifier;
  }

  List<String> aliases() {
    return identifier == null ? List.of() : List.of(identifier, "OID." + identifier);
  }

  /** The bytes of a salt that is made. */
  int saltSize() {
    return this == SHA1_TRIPLE_DES ? 20 : 8;
  }

  /** Whether a salt may have {@code size} bytes. */
  boolean takes(int size) {
    return this == SHA1_TRIPLE_DES ? size >= 8 : size == 8;
  }
}
