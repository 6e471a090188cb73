package cukvashe.des;

/** The hash functions of keys from passwords. */
public enum HashFunction {
  /** MD5 (RFC 1321), not for PBKDF2. */
  MD5(Native.MD5),
  /** SHA-1 (FIPS 180-4). */
  SHA1(Native.SHA1),
  /** SHA-256 (FIPS 180-4). */
  SHA256(Native.SHA256);

  final int number;

  HashFunction(int number) {
    this.number = number;
  }
}
