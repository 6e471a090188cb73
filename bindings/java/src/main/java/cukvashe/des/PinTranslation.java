package cukvashe.des;

import java.security.SecureRandom;
import javax.crypto.SecretKey;

/**
 * Translates encrypted PIN blocks (ISO 9564-1): decrypts one under the incoming key, and encrypts the block of its PIN under the outgoing
 * key. The PIN does not come out. Keys have 8, 16 or 24 bytes.
 *
 * <p>{@code PinTranslation.from(PinFormat.ISO_0, terminalKey).to(PinFormat.ISO_3, zoneKey).translate(block, account)}
 */
public final class PinTranslation {
  /** The incoming side. */
  public static final class Incoming {
    private final PinFormat format;
    private final SecretKey key;

    private Incoming(PinFormat format, SecretKey key) {
      this.format = format;
      this.key = key;
    }

    /** The translation into blocks of a format under the outgoing key. */
    public PinTranslation to(PinFormat format, SecretKey key) {
      return new PinTranslation(this, format, key);
    }
  }

  /** What stands for an account number or fill digits that do not matter. */
  private static final byte[] NOTHING = {};

  private final Incoming incoming;
  private final PinFormat format;
  private final SecretKey key;
  private final SecureRandom random = new SecureRandom();

  private PinTranslation(Incoming incoming, PinFormat format, SecretKey key) {
    this.incoming = incoming;
    this.format = format;
    this.key = key;
  }

  /** Blocks of a format under the incoming key. */
  public static Incoming from(PinFormat format, SecretKey key) {
    return new Incoming(format, key);
  }

  /**
   * Translates a block, with random fill digits in format 3.
   *
   * @param account the account number of both blocks; null between blocks of format 1
   * @return the block; between blocks of format 1 the transaction digits stay
   * @throws CukvasheException {@link Status#KEY_LENGTH}, {@link Status#FORMATS} from another format to format 1, {@link
   *     Status#ACCOUNT_LENGTH}, {@link Status#ACCOUNT_DIGIT}; {@link Status#PIN_BLOCK}, whatever is wrong with the block
   * @throws IllegalArgumentException if a PIN block does not have 8 bytes
   */
  public byte[] translate(byte[] block, String account) throws CukvasheException {
    return translate(block, account, PinBlocks.fillDigits(random));
  }

  /**
   * Translates a block, with these fill digits in format 3.
   *
   * @throws CukvasheException as the other call, and {@link Status#FILL} before {@link Status#PIN_BLOCK}
   * @throws IllegalArgumentException if a PIN block does not have 8 bytes, or there are not ten digits
   */
  public byte[] translate(byte[] block, String account, byte[] fill) throws CukvasheException {
    Secret.sized(block, Native.BLOCK_SIZE, "a PIN block");
    byte[] number = account == null ? NOTHING : Secret.text(account);
    byte[] translated = new byte[Native.BLOCK_SIZE];
    try (Secret from = Secret.key(incoming.key, 8, 16, 24);
        Secret to = Secret.key(key, 8, 16, 24)) {
      int status;
      switch (format) {
        case ISO_0:
          status = Native.pinTranslateTo0(from.bytes, incoming.format.number, to.bytes, number, NOTHING, block, translated);
          break;
        case ISO_1:
          status = Native.pinTranslateTo1(from.bytes, incoming.format.number, to.bytes, number, NOTHING, block, translated);
          break;
        default:
          status = Native.pinTranslateTo3(from.bytes, incoming.format.number, to.bytes, number, PinBlocks.fill(fill), block, translated);
      }
      CukvasheException.check(status);
    }
    return translated;
  }
}
