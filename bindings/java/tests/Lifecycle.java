import cukvashe.des.CukvasheProvider;
import cukvashe.des.Dukpt;
import cukvashe.des.Keys;
import cukvashe.des.MacAlgorithm;
import cukvashe.des.Macs;
import cukvashe.des.Records;
import java.io.File;
import java.lang.ref.WeakReference;
import java.net.URL;
import java.net.URLClassLoader;
import java.nio.file.Files;
import java.nio.file.Path;
import java.security.InvalidKeyException;
import java.security.NoSuchAlgorithmException;
import java.security.Provider;
import java.security.Security;
import java.util.ArrayList;
import java.util.Arrays;
import java.util.HexFormat;
import java.util.List;
import java.util.stream.Stream;
import javax.crypto.Cipher;
import javax.crypto.KeyGenerator;
import javax.crypto.Mac;
import javax.crypto.SecretKey;
import javax.crypto.spec.IvParameterSpec;
import javax.crypto.spec.SecretKeySpec;

/** Lifecycle WHAT: how the provider is found, what happens without the native library, and at the end of a stack. */
public final class Lifecycle {
  static final byte[] KEY = HexFormat.of().parseHex("0123456789abcdef23456789abcdef01456789abcdef0123");
  static final String CBC = "DESede/CBC/PKCS5Padding";

  static void check(boolean holds, String what) {
    if (!holds) {
      throw new AssertionError(what);
    }
  }

  static String owner(String transformation) throws Exception {
    Cipher cipher = Cipher.getInstance(transformation);
    // Without parameters: only here the provider is chosen.
    byte[] key = Arrays.copyOf(KEY, transformation.startsWith("AES") ? 16 : 24);
    cipher.init(Cipher.ENCRYPT_MODE, new SecretKeySpec(key, transformation.split("/")[0]));
    return cipher.getProvider().getName();
  }

  /** The provider is the first: it is taken for what it has, and SunJCE for what it lacks. */
  static void configured() throws Exception {
    Provider first = Security.getProviders()[0];
    check(first.getName().equals("Cukvashe"), "the first provider is " + first);
    check(owner(CBC).equals("Cukvashe"), "DESede is of " + owner(CBC));
    Cipher other = Cipher.getInstance("DESede/PCBC/NoPadding");
    check(other.getProvider().getName().equals("SunJCE"), "PCBC is of " + other.getProvider());
    check(owner("AES/GCM/NoPadding").equals("SunJCE"), "AES is of " + owner("AES/GCM/NoPadding"));
    check(KeyGenerator.getInstance("TripleDES").getProvider() == first, "the generator is another's");
    try {
      // As of a security module: no provider takes it here.
      Cipher.getInstance("DESede/ECB/NoPadding").init(Cipher.ENCRYPT_MODE, new Opaque());
      check(false, "a key without bytes was taken");
    } catch (InvalidKeyException expected) {
      // and no NullPointerException
    }
  }

  private static final class Opaque implements SecretKey {
    private static final long serialVersionUID = 1L;

    @Override
    public String getAlgorithm() {
      return "DESede";
    }

    @Override
    public String getFormat() {
      return null;
    }

    @Override
    public byte[] getEncoded() {
      return null;
    }
  }

  /** The same with the argument of java.security that asks for no tables. */
  static void without() throws Exception {
    configured();
    check(Security.getProviders()[0].getInfo().endsWith(", without tables"), Security.getProviders()[0].getInfo());
  }

  static void inserted() throws Exception {
    Security.insertProviderAt(new CukvasheProvider(), 1);
    configured();
    Security.removeProvider("Cukvashe");
    check(owner(CBC).equals("SunJCE"), "it was not removed");
  }

  /** The first provider has no library: another one answers, and ours says why it does not. */
  static void missing(String reason) throws Exception {
    Provider ours = new CukvasheProvider();
    Security.insertProviderAt(ours, 1);
    check(owner(CBC).equals("SunJCE"), "no other provider was taken");
    check(ours.getServices().isEmpty(), "there are services");
    check(ours.getInfo().startsWith("nothing is offered: ") && ours.getInfo().contains(reason), ours.getInfo());
    try {
      Cipher.getInstance(CBC, "Cukvashe");
      check(false, "a cipher without a library");
    } catch (NoSuchAlgorithmException expected) {
      // as for any cipher that a provider does not have
    }
    try {
      Keys.checkValue(TRIPLE);
      check(false, "a check value without a library");
    } catch (UnsatisfiedLinkError error) {
      check(error.getMessage().contains(reason), error.getMessage());
    }
  }

  /** Web applications, each with the jar in a class loader of its own: all have their library, and none stays once it is removed. */
  static void loaders(String jar) throws Exception {
    URL[] urls = {new File(jar).toURI().toURL()};
    List<WeakReference<ClassLoader>> loaders = new ArrayList<>();
    for (int round = 0; round < 3; round++) {
      loaders.add(new WeakReference<>(application(urls)));
    }
    // Libraries go after their loaders, by a thread of Java's.
    for (int round = 0; round < 500 && mapped("cukvashe") != 0; round++) {
      System.gc();
      Thread.sleep(20);
    }
    check(loaders.stream().allMatch(it -> it.get() == null), "a class loader stays");
    check(mapped("cukvashe") == 0, "a native library stays");
  }

  static ClassLoader application(URL[] urls) throws Exception {
    try (URLClassLoader loader = new URLClassLoader(urls, ClassLoader.getPlatformClassLoader())) {
      Provider provider = (Provider) loader.loadClass("cukvashe.des.CukvasheProvider").getConstructor().newInstance();
      check(!provider.getClass().equals(CukvasheProvider.class), "the class is that of the class path");
      Security.insertProviderAt(provider, 1);
      check(owner(CBC).equals("Cukvashe"), "another provider was taken");
      check(mapped("cukvashe") > 0, "no native library is there");
      Security.removeProvider("Cukvashe");
      return loader;
    }
  }

  /** How many parts of this process's memory are of a file whose name has this text. */
  static long mapped(String name) throws Exception {
    try (Stream<String> lines = Files.lines(Path.of("/proc/self/maps"))) {
      return lines.filter(line -> line.endsWith(".so (deleted)") && line.contains(name)).count();
    }
  }

  static final SecretKeySpec TRIPLE = new SecretKeySpec(KEY, "DESede");
  static final SecretKeySpec PAIR = new SecretKeySpec(KEY, 0, 16, "DESede");

  /** The calls that take most of the stack, in turns, ever deeper. */
  static void descend(int depth, Cipher cipher, Cipher stream, Mac mac, byte[] bytes, long[] counts) throws Exception {
    switch (depth % 64) {
      case 0 -> Macs.tags(MacAlgorithm.CMAC, TRIPLE, bytes, bytes);
      case 32 -> Dukpt.transactionKeysFromBase(PAIR, bytes);
      default -> {
        switch (depth % 4) {
          case 0 -> mac.update(bytes);
          case 1 -> cipher.update(bytes, 0, bytes.length, bytes, 0);
          case 2 -> stream.update(bytes, 0, bytes.length, bytes, 0);
          default -> Records.decryptCbc(TRIPLE, bytes, bytes, counts);
        }
      }
    }
    descend(depth + 1, cipher, stream, mac, bytes, counts);
  }

  /** The stack ends within a call of C, or near one, at many depths: a StackOverflowError, and no crash. */
  static void deep() throws Exception {
    Provider ours = new CukvasheProvider();
    for (int kilobytes = 256; kilobytes < 400; kilobytes += 11) {
      Cipher cipher = Cipher.getInstance("DESede/CBC/NoPadding", ours);
      cipher.init(Cipher.DECRYPT_MODE, TRIPLE, new IvParameterSpec(new byte[8]));
      Cipher stream = Cipher.getInstance("DESede/CTR/NoPadding", ours);
      stream.init(Cipher.ENCRYPT_MODE, TRIPLE);
      Mac mac = Mac.getInstance("DESEDECMAC", ours);
      mac.init(TRIPLE);
      long[] counts = new long[300];
      Arrays.fill(counts, 1);
      Throwable[] thrown = new Throwable[1];
      Thread thread =
          new Thread(
              null,
              () -> {
                try {
                  descend(0, cipher, stream, mac, new byte[2400], counts);
                } catch (Throwable error) {
                  thrown[0] = error;
                }
              },
              "deep",
              kilobytes * 1024L);
      thread.start();
      thread.join();
      check(thrown[0] instanceof StackOverflowError, "it ends by " + thrown[0]);
    }
  }

  public static void main(String[] arguments) throws Exception {
    switch (arguments[0]) {
      case "configured" -> configured();
      case "without" -> without();
      case "inserted" -> inserted();
      case "missing" -> missing(arguments[1]);
      case "loaders" -> loaders(arguments[1]);
      case "deep" -> deep();
      default -> throw new IllegalArgumentException(arguments[0]);
    }
  }
}
