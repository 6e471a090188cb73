import cukvashe.des.CukvasheProvider;
import java.lang.reflect.Field;
import java.lang.reflect.Method;
import java.security.Provider;
import java.util.Arrays;
import java.util.HexFormat;
import javax.crypto.Cipher;
import javax.crypto.Mac;
import javax.crypto.spec.SecretKeySpec;

/**
 * The contexts of C that ciphers and MACs hold: without tables if the provider is, and else with them. What they compute is the same. It
 * needs {@code --add-opens java.base/javax.crypto=ALL-UNNAMED}.
 */
public final class NoTables {
  static final byte[] KEY = HexFormat.of().parseHex("0123456789abcdef23456789abcdef01456789abcdef0123");

  static Object field(Object of, Class<?> type, String name) throws Exception {
    Field field = type.getDeclaredField(name);
    field.setAccessible(true);
    return field.get(of);
  }

  /** The context that a call of C makes of a key. */
  static long[] made(String call, int words, byte[] key, int method) throws Exception {
    long[] context = new long[words];
    for (Method it : Class.forName("cukvashe.des.Native").getDeclaredMethods()) {
      if (it.getName().equals(call)) {
        it.setAccessible(true);
        Object status = it.getParameterCount() == 3 ? it.invoke(null, context, key, method) : it.invoke(null, context, key);
        if (status.equals(0)) {
          return context;
        }
      }
    }
    throw new AssertionError(call);
  }

  static void same(String what, long[] actual, String call, byte[] key, int method, boolean readsTables) throws Exception {
    long[] with = made(call, actual.length, key, method);
    long[] without = made(call + "NoTables", actual.length, key, method);
    if (Arrays.equals(with, without) || !Arrays.equals(actual, readsTables ? with : without)) {
      throw new AssertionError(what + (readsTables ? " with tables" : " without tables"));
    }
  }

  static void cipher(Provider provider, int size, String name, String call, boolean readsTables) throws Exception {
    byte[] key = Arrays.copyOf(KEY, size);
    for (String mode : new String[] {"ECB", "CBC", "CTR", "OFB", "CFB", "CFB8"}) {
      Cipher cipher = Cipher.getInstance(name + "/" + mode + "/NoPadding", provider);
      cipher.init(Cipher.ENCRYPT_MODE, new SecretKeySpec(key, name));
      Object spi = field(cipher, Cipher.class, "spi");
      Object keys = field(spi, Class.forName("cukvashe.des.DesCipher"), "keys");
      same(name + " " + mode, (long[]) field(keys, keys.getClass(), "context"), call, key, 0, readsTables);
    }
  }

  static void mac(Provider provider, String name, int size, String call, int method, boolean readsTables) throws Exception {
    byte[] key = Arrays.copyOf(KEY, size);
    Mac mac = Mac.getInstance(name, provider);
    mac.init(new SecretKeySpec(key, "DESede"));
    Object spi = field(mac, Mac.class, "spi");
    same(name, (long[]) field(spi, spi.getClass(), "context"), call, key, method, readsTables);
  }

  public static void main(String[] arguments) throws Exception {
    for (boolean readsTables : new boolean[] {true, false}) {
      Provider provider = readsTables ? new CukvasheProvider() : new CukvasheProvider().configure("no_tables");
      cipher(provider, 8, "DES", "desInit", readsTables);
      cipher(provider, 16, "DESede", "tdesEde2Init", readsTables);
      cipher(provider, 24, "DESede", "tdesEde3Init", readsTables);
      mac(provider, "DESMAC64", 8, "cbcMacDesInit", 1, readsTables);
      mac(provider, "DESEDEMAC64", 16, "cbcMacTdesEde2Init", 1, readsTables);
      mac(provider, "DESEDEMAC64WITHISO7816-4PADDING", 24, "cbcMacTdesEde3Init", 2, readsTables);
      mac(provider, "ISO9797ALG3MAC", 16, "retailMacDesInit", 1, readsTables);
      mac(provider, "DESEDECMAC", 16, "cmacTdesEde2Init", 0, readsTables);
      mac(provider, "DESEDECMAC", 24, "cmacTdesEde3Init", 0, readsTables);
    }
  }
}
