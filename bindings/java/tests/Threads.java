import cukvashe.des.CukvasheProvider;
import java.security.Key;
import java.security.Provider;
import java.util.Arrays;
import java.util.HexFormat;
import java.util.Random;
import javax.crypto.Cipher;
import javax.crypto.Mac;
import javax.crypto.spec.IvParameterSpec;
import javax.crypto.spec.SecretKeySpec;

/**
 * Threads MESSAGES CALLS: each of four threads decrypts messages of its own rightly while the collector runs; then all misuse one cipher
 * and one MAC, by init too. The answers of that may be wrong and exceptions come, but no thread ends and the machine does not crash. And a
 * key that several wrap by one cipher is always under one of the keys that they gave it.
 */
public final class Threads {
  static final byte[] KEY = HexFormat.of().parseHex("0123456789abcdef23456789abcdef01456789abcdef0123");
  static final Provider OURS = new CukvasheProvider();
  static volatile Object kept;

  interface Work {
    void of(int number) throws Exception;
  }

  static void four(Work work) throws Exception {
    Thread[] threads = new Thread[4];
    Throwable[] thrown = new Throwable[threads.length];
    for (int number = 0; number < threads.length; number++) {
      int its = number;
      threads[number] =
          new Thread(
              () -> {
                try {
                  work.of(its);
                } catch (Throwable error) {
                  thrown[its] = error;
                }
              });
      threads[number].start();
    }
    for (Thread thread : threads) {
      thread.join();
    }
    for (Throwable error : thrown) {
      if (error != null) {
        throw new AssertionError(error);
      }
    }
  }

  static void own(int number, int messages) throws Exception {
    Random random = new Random(number);
    for (int message = 0; message < messages; message++) {
      byte[] key = new byte[24];
      byte[] text = new byte[random.nextInt(random.nextInt(20) == 0 ? 30000 : 300)];
      byte[] iv = new byte[8];
      random.nextBytes(key);
      random.nextBytes(text);
      random.nextBytes(iv);
      Cipher theirs = Cipher.getInstance("DESede/CBC/PKCS5Padding", "SunJCE");
      Cipher ours = Cipher.getInstance("DESede/CBC/PKCS5Padding", OURS);
      theirs.init(Cipher.ENCRYPT_MODE, new SecretKeySpec(key, "DESede"), new IvParameterSpec(iv));
      ours.init(Cipher.DECRYPT_MODE, new SecretKeySpec(key, "DESede"), new IvParameterSpec(iv));
      if (!Arrays.equals(text, ours.doFinal(theirs.doFinal(text)))) {
        throw new AssertionError("message " + message);
      }
      kept = new byte[random.nextInt(100000)];
    }
  }

  static void shared(int number, int calls, Cipher cipher, Mac mac) {
    Random random = new Random(number);
    byte[] memory = new byte[4096];
    for (int call = 0; call < calls; call++) {
      try {
        int size = random.nextInt(300);
        SecretKeySpec key = new SecretKeySpec(random.nextBoolean() ? KEY : Arrays.copyOf(KEY, 16), "DESede");
        switch (random.nextInt(8)) {
          case 0 -> cipher.init(1 + random.nextInt(2), key, new IvParameterSpec(new byte[8]));
          case 1, 2 -> cipher.update(memory, 0, size, memory, random.nextInt(600));
          case 3 -> cipher.doFinal(memory, 0, size);
          case 4 -> mac.init(key);
          case 5, 6 -> mac.update(memory, 0, random.nextInt(2000));
          default -> mac.doFinal();
        }
      } catch (Exception expected) {
        // as where two calls run at once
      }
      if (random.nextInt(1000) == 0) {
        kept = new byte[random.nextInt(1000000)];
      }
    }
  }

  static void wraps(int number, int calls, Cipher cipher) throws Exception {
    Random random = new Random(number);
    Key[] keys = {new SecretKeySpec(KEY, "DESede"), new SecretKeySpec(KEY, 0, 16, "DESede")};
    IvParameterSpec iv = new IvParameterSpec(new byte[8]);
    byte[][] wrapped = new byte[2][];
    for (int which = 0; which < 2; which++) {
      Cipher own = Cipher.getInstance("DESedeWrap", OURS);
      own.init(Cipher.WRAP_MODE, keys[which], iv);
      wrapped[which] = own.wrap(keys[0]);
    }
    for (int call = 0; call < calls; call++) {
      byte[] made;
      try {
        cipher.init(Cipher.WRAP_MODE, keys[random.nextInt(2)], iv);
        made = cipher.wrap(keys[0]);
      } catch (IllegalStateException expected) {
        // Cipher itself: another thread's init had begun.
        continue;
      }
      if (!Arrays.equals(made, wrapped[0]) && !Arrays.equals(made, wrapped[1])) {
        throw new AssertionError("a key is wrapped under another one than was given");
      }
    }
  }

  public static void main(String[] arguments) throws Exception {
    four(number -> own(number, Integer.parseInt(arguments[0])));
    Cipher cipher = Cipher.getInstance("DESede/CBC/PKCS5Padding", OURS);
    Mac mac = Mac.getInstance("DESEDECMAC", OURS);
    cipher.init(Cipher.ENCRYPT_MODE, new SecretKeySpec(KEY, "DESede"), new IvParameterSpec(new byte[8]));
    mac.init(new SecretKeySpec(KEY, "DESede"));
    four(number -> shared(number, Integer.parseInt(arguments[1]), cipher, mac));
    Cipher wrap = Cipher.getInstance("DESedeWrap", OURS);
    wrap.init(Cipher.WRAP_MODE, new SecretKeySpec(KEY, "DESede"));
    four(number -> wraps(number, Integer.parseInt(arguments[1]), wrap));
  }
}
