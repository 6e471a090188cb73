import cukvashe.des.CukvasheException;
import cukvashe.des.Emv;
import cukvashe.des.HashFunction;
import cukvashe.des.KeyBlock;
import cukvashe.des.KeyBlockHeader;
import cukvashe.des.Keys;
import cukvashe.des.Passwords;
import cukvashe.des.PinFormat;
import cukvashe.des.PinTranslation;
import cukvashe.des.Records;
import cukvashe.des.Status;
import java.util.Arrays;
import java.util.HexFormat;
import javax.crypto.SecretKey;
import javax.crypto.spec.SecretKeySpec;

/** Null is never taken for an empty array, a key of no bytes is refused, and so is one that says that it is of AES. */
public final class Nothing {
  interface Call {
    Object of() throws Exception;
  }

  private static void refuses(String what, Call call) throws Exception {
    try {
      call.of();
    } catch (NullPointerException wanted) {
      return;
    }
    throw new AssertionError(what + " takes null");
  }

  private static void hasNoLength(String what, Call call) throws Exception {
    try {
      call.of();
    } catch (CukvasheException error) {
      if (error.status() == Status.KEY_LENGTH) {
        return;
      }
      throw error;
    }
    throw new AssertionError(what + " makes a key of such a length");
  }

  private static void isOfAes(String what, Call call) throws Exception {
    try {
      call.of();
    } catch (IllegalArgumentException wanted) {
      return;
    }
    throw new AssertionError(what + " takes a key of AES");
  }

  private static String wrapped(SecretKey protection, char algorithm, SecretKey key) throws Exception {
    return KeyBlock.wrap(protection, KeyBlockHeader.of('B', "P0", algorithm, 'E', "00", 'E'), key, 16);
  }

  /** What a key block says of its key is what the key is called. */
  private static void isCalled(SecretKey protection, char algorithm, SecretKey key, String name) throws Exception {
    String is = KeyBlock.unwrap(protection, wrapped(protection, algorithm, key)).key().getAlgorithm();
    if (!is.equals(name)) {
      throw new AssertionError("a key of " + algorithm + " is called " + is);
    }
  }

  public static void main(String[] arguments) throws Exception {
    byte[] bytes = new byte[8];
    SecretKey key = Keys.of(HexFormat.of().parseHex("0123456789abcdeffedcba9876543210"));

    SecretKey aes = new SecretKeySpec(key.getEncoded(), "AES");
    isOfAes("checkValue", () -> Keys.checkValue(aes));
    isOfAes("wrap", () -> wrapped(key, 'T', aes));
    isOfAes("wrap, protection", () -> wrapped(aes, 'T', key));
    isCalled(key, 'A', aes, "AES");
    isCalled(key, 'H', key, "HMAC");
    isCalled(key, 'T', key, "DESede");

    refuses("pbkdf2", () -> Passwords.pbkdf2(HashFunction.SHA1, null, bytes, 1, 8));
    refuses("pbkdf2, salt", () -> Passwords.pbkdf2(HashFunction.SHA1, bytes, null, 1, 8));
    refuses("bytesToKey", () -> Passwords.bytesToKey(HashFunction.MD5, null, bytes, 8));
    refuses("bytesToKey, salt", () -> Passwords.bytesToKey(HashFunction.MD5, bytes, null, 8));
    refuses("pbeKey", () -> Passwords.pbeKey("PBEWithMD5AndDES", null, bytes, 1, 16));
    refuses("pbeKey, salt", () -> Passwords.pbeKey("PBEWithMD5AndDES", bytes, null, 1, 16));
    refuses("openSalted", () -> Passwords.openSalted(24, HashFunction.MD5, 0, null, new byte[24]));
    refuses("applicationCryptogram", () -> Emv.applicationCryptogram(key, null));
    refuses("response2", () -> Emv.response2(key, bytes, new byte[4], null));
    refuses("decryptCbc", () -> Records.decryptCbc(key, new byte[0], new byte[0], null));
    for (int length : new int[] {0, -1}) {
      hasNoLength("pbkdf2", () -> Passwords.pbkdf2(HashFunction.SHA1, bytes, bytes, 1, length));
      hasNoLength("bytesToKey", () -> Passwords.bytesToKey(HashFunction.MD5, bytes, bytes, length));
      hasNoLength("pbeKey", () -> Passwords.pbeKey("PBEWithMD5AndDES", bytes, bytes, 1, length));
    }

    // But between blocks of format 1 there need not be an account number.
    PinTranslation same = PinTranslation.from(PinFormat.ISO_1, key).to(PinFormat.ISO_1, key);
    byte[] block = HexFormat.of().parseHex("e2436fb78da2c9dc");
    if (!Arrays.equals(same.translate(block, null), same.translate(block, "4012345678909"))) {
      throw new AssertionError("the account number plays a part");
    }
  }
}
