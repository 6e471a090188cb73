import cukvashe.des.CukvasheProvider;
import cukvashe.des.Direction;
import cukvashe.des.Dukpt;
import cukvashe.des.KeyBlock;
import cukvashe.des.KeyBlockHeader;
import cukvashe.des.Keys;
import cukvashe.des.PinFormat;
import cukvashe.des.PinTranslation;
import java.nio.charset.StandardCharsets;
import java.security.MessageDigest;
import java.util.HexFormat;
import javax.crypto.Mac;
import javax.crypto.SecretKey;

/** A host and a terminal's transaction: its keys by DUKPT, the retail MAC, the PIN block for the issuer; and a key block. */
public class PaymentHost {
  public static void main(String[] arguments) throws Exception {
    HexFormat hex = HexFormat.of();

    // Published values. A base derivation key makes the keys of all terminals: keep yours in a security module.
    SecretKey base = Keys.of(hex.parseHex("0123456789abcdeffedcba9876543210"));
    SecretKey protection = Keys.of(hex.parseHex("dd7515f2bfc17f85ce48f3ca25cb21f6"));
    SecretKey issuerKey = Keys.of(hex.parseHex("89e88cf7931444f334bd7547fc3f380c"));

    // What the terminal sent: key serial number, message, tag, and the PIN block under the transaction's PIN key.
    byte[] serial = hex.parseHex("ffff9876543210e00001");
    byte[] message = "4012345678909D987".getBytes(StandardCharsets.US_ASCII);
    byte[] tag = hex.parseHex("9ccc78173fc4fb64");
    String account = "4012345678909";
    byte[] pinBlock = hex.parseHex("1b9c1845eb993a7a");

    // Some counters no transaction has. With 0 the transaction's key would be the terminal's initial key.
    if (!Dukpt.isUsable(serial)) {
      throw new IllegalArgumentException("no transaction has this key serial number");
    }
    SecretKey transaction = Dukpt.transactionKey(Dukpt.initialKey(base, serial), serial);

    // The MAC before all else. The terminal has chosen the padding method: here zeros.
    Mac mac = Mac.getInstance("ISO9797ALG3MAC", new CukvasheProvider());
    mac.init(Dukpt.macKey(transaction, Direction.REQUEST));
    if (!MessageDigest.isEqual(mac.doFinal(message), tag)) {
      throw new SecurityException("the message is not the terminal's");
    }

    // The PIN block under the issuer's key: the PIN does not come out. Any fault of the block is Status.PIN_BLOCK.
    PinTranslation translation =
        PinTranslation.from(PinFormat.ISO_0, Dukpt.pinKey(transaction)).to(PinFormat.ISO_0, issuerKey);
    System.out.println("to the issuer: " + hex.formatHex(translation.translate(pinBlock, account)));
    transaction.destroy();

    // A PIN key in a key block (TR-31). Look at the header before you use the key: no call does.
    String sent = "B0080P0TE00E000094B420079CC80BA3461F86FE26EFC4A3B8E4FA4C5F5341176EED7B727B8A248E";
    KeyBlock block = KeyBlock.unwrap(protection, sent);
    KeyBlockHeader header = block.header();
    boolean isPinKey = header.usage().equals("P0") && header.algorithm() == 'T' && header.mode() == 'E';
    if (!isPinKey || header.keyVersion().startsWith("c")) { // c: a component of a key
      throw new SecurityException("the key is not one that encrypts PIN blocks");
    }
    System.out.println("a PIN key with check value " + hex.formatHex(Keys.checkValue(block.key())));
  }
}

// ANSI X9.24-1:2009, Annex A, has the tag and the PIN block. The key block is a published one. The block for the issuer and
// the check value are OpenSSL's, by -des-ede-ecb.
// $ java -cp bindings/java/out/cukvashe-des.jar examples/java/PaymentHost.java
// to the issuer: 8856db66d89e9eff
// a PIN key with check value 57c409
