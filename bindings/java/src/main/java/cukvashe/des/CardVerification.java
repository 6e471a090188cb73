package cukvashe.des;

import javax.crypto.SecretKey;

/** Card verification values. */
public final class CardVerification {
  private CardVerification() {}

  // Calls like those of cukvashe_des.h: made of it by bindings/describe.

  /**
   * The card verification value (CVV), three ASCII digits, under a key pair of 16 bytes, of an account number
   * (PAN) of 12 to 19 digits, an expiry date of four, in the order that the issuer takes, and a service code of
   * three.
   *
   * @throws CukvasheException {@link Status#KEY_LENGTH}, {@link Status#ACCOUNT_LENGTH},
   *     {@link Status#ACCOUNT_DIGIT}, {@link Status#EXPIRY_LENGTH}, {@link Status#EXPIRY_DIGIT},
   *     {@link Status#SERVICE_LENGTH}, {@link Status#SERVICE_DIGIT}
   */
  public static String cvv(SecretKey key, String account, String expiry, String service) throws CukvasheException {
    try (Secret copiedKey = Secret.key(key, 16);
        Secret made = Secret.buffer(4)) {
      CukvasheException.check(Native.cvv(copiedKey.bytes, Secret.text(account), Secret.text(expiry),
          Secret.text(service), made.bytes));
      return made.text();
    }
  }
  // This ends what bindings/describe made.
}
