import cukvashe.des.CukvasheProvider;
import cukvashe.des.DukptTerminal;
import cukvashe.des.KeyBlock;
import cukvashe.des.Keys;
import cukvashe.des.Pin;
import cukvashe.des.PinBlocks;
import java.security.Key;
import java.util.ArrayList;
import java.util.Arrays;
import java.util.Base64;
import java.util.HexFormat;
import java.util.List;
import java.util.Locale;
import javax.crypto.Cipher;
import javax.crypto.Mac;
import javax.crypto.SecretKey;
import javax.crypto.SecretKeyFactory;
import javax.crypto.spec.IvParameterSpec;
import javax.crypto.spec.PBEKeySpec;
import javax.crypto.spec.PBEParameterSpec;
import javax.crypto.spec.SecretKeySpec;

/** No text of an object or an exception shows a key or a PIN, and what is destroyed is refused. */
public final class Texts {
  static final byte[] KEY = HexFormat.of().parseHex("0123456789abcdeffedcba9876543210");
  static final String PIN = "847362";

  interface Call {
    Object of() throws Exception;
  }

  static void shows(Call call) {
    List<String> texts = new ArrayList<>();
    try {
      texts.add(String.valueOf(call.of()));
    } catch (Exception error) {
      for (Throwable it = error; it != null; it = it.getCause()) {
        texts.add(it.toString());
      }
    }
    String all = String.join(" ", texts);
    String hex = HexFormat.of().formatHex(KEY);
    String base64 = Base64.getEncoder().encodeToString(KEY);
    for (String secret : List.of(PIN, hex, hex.substring(0, 8), base64, Arrays.toString(KEY), "1, 35, 69")) {
      if (all.toLowerCase(Locale.ROOT).contains(secret.toLowerCase(Locale.ROOT))) {
        throw new AssertionError(all);
      }
    }
  }

  static SecretKey password(CukvasheProvider provider, String text) throws Exception {
    return SecretKeyFactory.getInstance("PBEWithMD5AndDES", provider).generateSecret(new PBEKeySpec(text.toCharArray()));
  }

  static void refused(Call call) throws Exception {
    try {
      call.of();
    } catch (IllegalStateException expected) {
      return;
    }
    throw new AssertionError("what is destroyed was taken");
  }

  public static void main(String[] arguments) throws Exception {
    CukvasheProvider provider = new CukvasheProvider();
    SecretKey key = Keys.of(KEY);
    Pin pin = Pin.of(PIN.toCharArray());
    DukptTerminal terminal = DukptTerminal.of(key, new byte[10]);
    Key spec = new SecretKeySpec(Arrays.copyOf(KEY, 15), "DESede");
    shows(() -> key);
    shows(() -> pin);
    shows(() -> terminal);
    shows(terminal::next);
    shows(() -> KeyBlock.unwrap(key, "B0080P0TE00E0000" + HexFormat.of().withUpperCase().formatHex(KEY) + PIN.repeat(8).substring(0, 32)));
    shows(() -> Keys.of(Arrays.copyOf(KEY, 15)));
    shows(() -> Keys.combine(key, key));
    shows(() -> PinBlocks.encode0(Pin.of((PIN + "x").toCharArray()), "4012345678909"));
    shows(() -> PinBlocks.encode0(pin, "401234567890x"));
    shows(() -> PinBlocks.decode0(KEY, "4012345678909"));
    shows(
        () -> {
          Cipher cipher = Cipher.getInstance("DESede", provider);
          cipher.init(Cipher.ENCRYPT_MODE, spec);
          return cipher;
        });
    shows(
        () -> {
          Cipher cipher = Cipher.getInstance("DESede/CBC/NoPadding", provider);
          cipher.init(Cipher.UNWRAP_MODE, key, new IvParameterSpec(new byte[8]));
          return cipher.unwrap(KEY, "RSA", Cipher.PRIVATE_KEY);
        });
    shows(() -> password(provider, PIN));
    shows(() -> password(provider, PIN + "\ud800"));
    shows(
        () -> {
          Cipher cipher = Cipher.getInstance("PBEWithMD5AndDES", provider);
          cipher.init(Cipher.ENCRYPT_MODE, password(provider, PIN), new PBEParameterSpec(Arrays.copyOf(KEY, 7), 1));
          return cipher;
        });
    shows(
        () -> {
          Mac mac = Mac.getInstance("DESEDECMAC", provider);
          mac.init(spec);
          return mac;
        });
    key.destroy();
    pin.destroy();
    terminal.destroy();
    refused(() -> Keys.checkValue(key));
    refused(key::getEncoded);
    refused(pin::digits);
    refused(() -> PinBlocks.encode2(pin));
    refused(terminal::next);
    refused(terminal::state);
    if (!key.isDestroyed() || !pin.isDestroyed() || !terminal.isDestroyed()) {
      throw new AssertionError("isDestroyed");
    }
  }
}
