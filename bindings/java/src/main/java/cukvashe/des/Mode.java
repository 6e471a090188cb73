package cukvashe.des;

import java.security.NoSuchAlgorithmException;
import java.util.Locale;

/** The modes of ciphers: those without padding have the number of C. */
enum Mode {
  ECB(0),
  CBC(0),
  CTR(Native.CTR),
  OFB(Native.OFB),
  CFB(Native.CFB64),
  CFB8(Native.CFB8);

  /** All names of JCE, in its spelling of a list. */
  static final String NAMES = "ECB|CBC|CTR|OFB|OFB64|CFB|CFB64|CFB8";

  final int number;

  Mode(int number) {
    this.number = number;
  }

  /** Whether any number of bytes is taken, without padding. */
  boolean isStream() {
    return number != 0;
  }

  static Mode of(String name) throws NoSuchAlgorithmException {
    String upper = name.toUpperCase(Locale.ROOT);
    for (Mode it : values()) {
      if (it.name().equals(upper) || (it == OFB || it == CFB) && upper.equals(it.name() + "64")) {
        return it;
      }
    }
    throw new NoSuchAlgorithmException("there is no mode " + name);
  }
}
