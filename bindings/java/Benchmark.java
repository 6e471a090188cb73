import cukvashe.des.CukvasheProvider;
import cukvashe.des.Keys;
import cukvashe.des.Records;
import java.lang.management.ManagementFactory;
import java.lang.management.ThreadMXBean;
import java.security.Provider;
import java.security.Security;
import java.util.ArrayList;
import java.util.Arrays;
import java.util.HexFormat;
import java.util.List;
import java.util.Locale;
import java.util.StringJoiner;
import javax.crypto.Cipher;
import javax.crypto.Mac;
import javax.crypto.SecretKey;
import javax.crypto.spec.IvParameterSpec;
import javax.crypto.spec.SecretKeySpec;
import org.bouncycastle.jce.provider.BouncyCastleProvider;

/**
 * Benchmark ROUNDS: processor time of calls beside SunJCE and Bouncy Castle. Each is warmed first; then they take turns, and of its rounds
 * the least is shown.
 */
public final class Benchmark {
  static final byte[] KEY = HexFormat.of().parseHex("0123456789abcdef23456789abcdef01456789abcdef0123");
  static final SecretKeySpec TRIPLE = new SecretKeySpec(KEY, "DESede");
  static final SecretKeySpec PAIR = new SecretKeySpec(Arrays.copyOf(KEY, 16), "DESede");
  static final IvParameterSpec IV = new IvParameterSpec(new byte[8]);
  static final Provider SUN = Security.getProvider("SunJCE");
  static final Provider BC = new BouncyCastleProvider();
  static final Provider OURS = new CukvasheProvider();
  static final Provider NO_TABLES = OURS.configure("no_tables");
  static final int[] SIZES = {8, 16, 64, 1024, 8192, 1 << 20};
  static final ThreadMXBean THREADS = ManagementFactory.getThreadMXBean();
  static int rounds;

  /** What calls give, so that none is left out. */
  public static volatile long sink;

  interface Work {
    long once() throws Exception;
  }

  static long many(Work work, int times) throws Exception {
    long sum = 0;
    long begin = THREADS.getCurrentThreadCpuTime();
    for (int time = 0; time < times; time++) {
      sum += work.once();
    }
    long end = THREADS.getCurrentThreadCpuTime();
    sink += sum;
    return end - begin;
  }

  /** The nanoseconds of a call of each work. */
  static List<Double> least(List<Work> works) throws Exception {
    int[] times = new int[works.size()];
    double[] least = new double[works.size()];
    Arrays.fill(least, Double.MAX_VALUE);
    for (int at = 0; at < times.length; at++) {
      int batch = 1;
      double each = 1e9;
      for (long warmed = 0; warmed < 500_000_000L; ) {
        long took = many(works.get(at), batch);
        warmed += Math.max(took, 1000);
        each = (double) took / batch;
        batch *= took < 10_000_000L ? 2 : 1;
      }
      times[at] = (int) Math.max(1, 20e6 / each);
    }
    for (int round = 0; round < rounds; round++) {
      for (int at = 0; at < times.length; at++) {
        least[at] = Math.min(least[at], (double) many(works.get(at), times[at]) / times[at]);
      }
    }
    List<Double> found = new ArrayList<>();
    Arrays.stream(least).forEach(found::add);
    return found;
  }

  static Work cipher(Provider provider, int mode, int size) throws Exception {
    Cipher cipher = Cipher.getInstance("DESede/CBC/NoPadding", provider);
    cipher.init(mode, TRIPLE, IV);
    byte[] input = new byte[size];
    byte[] output = new byte[size];
    return () -> cipher.doFinal(input, 0, size, output, 0) + output[0];
  }

  static Work mac(Provider provider, int size) throws Exception {
    Mac mac = Mac.getInstance("ISO9797ALG3MAC", provider);
    mac.init(PAIR);
    byte[] input = new byte[size];
    return () -> mac.doFinal(input)[0];
  }

  static Work whole(Provider provider) {
    byte[] input = new byte[8];
    return () -> {
      Cipher cipher = Cipher.getInstance("DESede/CBC/NoPadding", provider);
      cipher.init(Cipher.DECRYPT_MODE, TRIPLE, IV);
      return cipher.doFinal(input)[0];
    };
  }

  static void row(String label, String library, List<Double> times) {
    StringJoiner line = new StringJoiner(" | ").add(label).add(library);
    times.forEach(time -> line.add(String.format(Locale.ROOT, "%.1f", time)));
    System.out.println(line);
  }

  interface Maker {
    Work of(Provider provider, int size) throws Exception;
  }

  static void rows(String label, Maker maker, Provider... providers) throws Exception {
    List<List<Double>> columns = new ArrayList<>();
    for (int size : SIZES) {
      List<Work> works = new ArrayList<>();
      for (Provider provider : providers) {
        works.add(maker.of(provider, size));
      }
      columns.add(least(works));
    }
    for (int at = 0; at < providers.length; at++) {
      int place = at;
      String name = providers[at] == NO_TABLES ? "Cukvashe, no_tables" : providers[at] == BC ? "Bouncy Castle" : providers[at].getName();
      row(label, name, columns.stream().map(column -> column.get(place)).toList());
    }
  }

  static void records() throws Exception {
    int count = 10_000;
    SecretKey key = Keys.of(KEY);
    byte[] vectors = new byte[8 * count];
    byte[] bytes = new byte[32 * count];
    long[] counts = new long[count];
    Arrays.fill(counts, 4);
    Cipher sun = Cipher.getInstance("DESede/CBC/NoPadding", SUN);
    Cipher ours = Cipher.getInstance("DESede/CBC/NoPadding", OURS);
    List<Double> times =
        least(List.of(() -> Records.decryptCbc(key, bytes, vectors, counts)[0], () -> one(ours, bytes), () -> one(sun, bytes)));
    System.out.println();
    System.out.println("[java-records]");
    System.out.println("ns per record of 32 bytes, of 10000 | in one call | one by one | SunJCE");
    StringJoiner line = new StringJoiner(" | ").add("CBC decryption");
    times.forEach(time -> line.add(String.format(Locale.ROOT, "%.1f", time / count)));
    System.out.println(line);
  }

  static long one(Cipher cipher, byte[] bytes) throws Exception {
    long sum = 0;
    for (int at = 0; at < bytes.length; at += 32) {
      cipher.init(Cipher.DECRYPT_MODE, TRIPLE, IV);
      sum += cipher.doFinal(bytes, at, 32)[0];
    }
    return sum;
  }

  public static void main(String[] arguments) throws Exception {
    rounds = Integer.parseInt(arguments[0]);
    System.out.println("Java: " + System.getProperty("java.vm.name") + " " + System.getProperty("java.version"));
    System.out.println();
    System.out.println("[java]");
    System.out.println("ns per call, DESede | | 8 bytes | 16 | 64 | 1024 | 8192 | 1 MiB");
    rows("CBC decryption", (provider, size) -> cipher(provider, Cipher.DECRYPT_MODE, size), OURS, NO_TABLES, SUN, BC);
    rows("CBC encryption", (provider, size) -> cipher(provider, Cipher.ENCRYPT_MODE, size), OURS, NO_TABLES, SUN, BC);
    rows("retail MAC", Benchmark::mac, OURS, NO_TABLES, BC);
    List<Double> whole = least(List.of(whole(OURS), whole(SUN), whole(BC)));
    System.out.println();
    System.out.println("[java-whole]");
    System.out.println("ns | Cukvashe | SunJCE | Bouncy Castle");
    StringJoiner line = new StringJoiner(" | ").add("getInstance to doFinal of 8 bytes");
    whole.forEach(time -> line.add(String.format(Locale.ROOT, "%.1f", time)));
    System.out.println(line);
    records();
  }
}
