import cukvashe.des.Dukpt;
import cukvashe.des.DukptTerminal;
import cukvashe.des.Keys;
import java.util.Arrays;
import java.util.HexFormat;
import javax.crypto.SecretKey;

/** A terminal beside the host: the serial numbers and keys of its first transactions, also after its state was stored. */
public final class Terminal {
  static void check(boolean holds, String what) {
    if (!holds) {
      throw new AssertionError(what);
    }
  }

  public static void main(String[] arguments) throws Exception {
    byte[] serial = HexFormat.of().parseHex("ffff9876543210e00000");
    SecretKey initial = Dukpt.initialKey(Keys.of(HexFormat.of().parseHex("0123456789abcdeffedcba9876543210")), serial);
    // Another of its numbers is as good.
    DukptTerminal terminal = DukptTerminal.of(initial, HexFormat.of().parseHex("ffff9876543210efffff"));
    for (int number = 0; number < 300; number++) {
      if (number % 7 == 0) {
        byte[] state = terminal.state();
        DukptTerminal stored = DukptTerminal.ofState(state);
        Arrays.fill(state, (byte) 0);
        terminal = stored;
      }
      serial = Dukpt.nextSerial(serial);
      DukptTerminal.Transaction transaction = terminal.next();
      transaction.serial()[0] = 0;
      check(Arrays.equals(transaction.serial(), serial), "serial number " + number);
      check(transaction.key().equals(Dukpt.transactionKey(initial, serial)), "key " + number);
    }
  }
}
