import cukvashe.des.CukvasheProvider;
import cukvashe.des.Passwords;
import cukvashe.des.Records;
import java.io.ByteArrayOutputStream;
import java.nio.ByteBuffer;
import java.nio.charset.StandardCharsets;
import java.security.InvalidKeyException;
import java.security.Key;
import java.security.Provider;
import java.security.Security;
import java.util.ArrayList;
import java.util.Arrays;
import java.util.HexFormat;
import java.util.List;
import java.util.Random;
import java.util.TreeMap;
import javax.crypto.Cipher;
import javax.crypto.Mac;
import javax.crypto.SecretKeyFactory;
import javax.crypto.ShortBufferException;
import javax.crypto.spec.IvParameterSpec;
import javax.crypto.spec.PBEKeySpec;
import javax.crypto.spec.PBEParameterSpec;
import javax.crypto.spec.SecretKeySpec;
import org.bouncycastle.jce.provider.BouncyCastleProvider;

/**
 * The same random calls on SunJCE, Bouncy Castle and Cukvashe: Differential CASES SEED. With SunJCE every answer of every call is compared:
 * bytes, lengths, positions, announced sizes, classes of exceptions; with Bouncy Castle all bytes of a message.
 */
public final class Differential {
  static final Provider SUN = Security.getProvider("SunJCE");
  static final Provider BC = new BouncyCastleProvider();
  static final Provider TABLES = new CukvasheProvider();
  static final Provider NO_TABLES = TABLES.configure("no_tables");

  /** How bytes go in and come out. */
  enum Transfer {
    RETURNED,
    ARRAY,
    SAME_ARRAY,
    HEAP,
    SAME_HEAP,
    DIRECT,
    SAME_DIRECT,
    HEAP_TO_DIRECT,
    DIRECT_TO_HEAP,
    READ_ONLY_TO_HEAP,
    READ_ONLY_TO_DIRECT
  }

  record Step(boolean isLast, Transfer transfer, int length, int shift, int lacks) {}

  static final class Trace {
    final List<String> calls = new ArrayList<>();
    final ByteArrayOutputStream bytes = new ByteArrayOutputStream();
    final List<String> messages = new ArrayList<>();

    void add(String what, byte[] output) {
      calls.add(what + (output == null ? " null" : " " + HexFormat.of().formatHex(output)));
      if (output != null) {
        bytes.writeBytes(output);
      }
    }

    void ends(String how) {
      // What came before a fault depends on how many bytes a provider holds back.
      messages.add(how.equals("whole") ? HexFormat.of().formatHex(bytes.toByteArray()) : how);
      bytes.reset();
    }
  }

  static final TreeMap<String, Integer> COUNTS = new TreeMap<>();

  static void count(String what) {
    COUNTS.merge(what, 1, Integer::sum);
  }

  static void step(Cipher cipher, byte[] message, int from, Step step, Trace trace, boolean counts) throws Exception {
    int size = cipher.getOutputSize(step.length());
    trace.calls.add("size " + size);
    byte[] input = Arrays.copyOfRange(message, from, from + step.length());
    if (step.transfer() == Transfer.RETURNED) {
      byte[] output =
          !step.isLast() ? cipher.update(input) : input.length == 0 && step.shift() < 0 ? cipher.doFinal() : cipher.doFinal(input);
      trace.add("returned", output);
      return;
    }
    int capacity = size + 3;
    int gap = 16;
    // A first try with too small an output, after which nothing must have changed.
    for (int lacks : step.lacks() > 0 ? new int[] {step.lacks(), 0} : new int[] {0}) {
      int given = lacks == 0 ? capacity : Math.max(0, size - lacks);
      try {
        boolean isShared = step.transfer().name().startsWith("SAME");
        int at = gap + step.shift();
        byte[] memory = new byte[2 * gap + capacity + step.length() + 32];
        Arrays.fill(memory, (byte) 0x55);
        System.arraycopy(input, 0, memory, gap, input.length);
        if (!isShared) {
          at = 5;
        }
        byte[] target = isShared ? memory : new byte[at + given];
        int written;
        byte[] output;
        if (step.transfer() == Transfer.ARRAY || step.transfer() == Transfer.SAME_ARRAY) {
          if (isShared && lacks != 0) {
            continue;
          }
          written =
              step.isLast() && input.length == 0 && step.shift() < 0
                  ? cipher.doFinal(target, at)
                  : step.isLast()
                  ? cipher.doFinal(memory, gap, input.length, target, at)
                  : cipher.update(memory, gap, input.length, target, at);
          output = Arrays.copyOfRange(target, at, at + written);
        } else {
          String name = step.transfer().name();
          boolean inDirect = name.equals("DIRECT") || name.equals("SAME_DIRECT") || name.equals("DIRECT_TO_HEAP");
          boolean outDirect = name.endsWith("DIRECT");
          ByteBuffer in = inDirect ? ByteBuffer.allocateDirect(memory.length) : ByteBuffer.allocate(memory.length + 7);
          if (!inDirect) {
            in.position(7);
            in = in.slice();
          }
          in.put(memory).position(gap).limit(gap + input.length);
          ByteBuffer out;
          if (isShared) {
            out = in.duplicate();
            out.limit(at + given).position(at);
          } else {
            out = outDirect ? ByteBuffer.allocateDirect(at + given) : ByteBuffer.allocate(at + given);
            out.position(at);
          }
          if (name.startsWith("READ_ONLY")) {
            in = in.asReadOnlyBuffer();
          }
          int before = in.position();
          try {
            written = step.isLast() ? cipher.doFinal(in, out) : cipher.update(in, out);
          } catch (ShortBufferException error) {
            if (in.position() != before || out.position() != at) {
              trace.calls.add("moved");
            }
            throw error;
          }
          trace.calls.add("positions " + in.position() + " " + in.limit() + " " + (out.position() - at));
          output = new byte[written];
          out.duplicate().position(at).get(output);
        }
        trace.calls.add("wrote " + written);
        trace.add("output", output);
        return;
      } catch (ShortBufferException error) {
        if (counts) {
          count("short buffer");
        }
        // SunJCE asks of a ByteBuffer as much space as getOutputSize says, also where less is written.
        if (step.transfer() == Transfer.ARRAY) {
          trace.calls.add("short");
        }
        if (lacks == 0) {
          throw error;
        }
      }
    }
  }

  static Trace of(
      Provider provider, String transformation, int opmode, Key key, byte[] iv, List<byte[]> messages, List<List<Step>> plans)
      throws Exception {
    Trace trace = new Trace();
    Cipher cipher = Cipher.getInstance(transformation, provider);
    boolean isFresh = false;
    for (int number = 0; number < messages.size(); number++) {
      if (!isFresh) {
        if (iv == null) {
          cipher.init(opmode, key);
        } else {
          cipher.init(opmode, key, new IvParameterSpec(iv));
        }
        isFresh = true;
      }
      String how = "whole";
      int from = 0;
      try {
        for (Step step : plans.get(number)) {
          step(cipher, messages.get(number), from, step, trace, provider instanceof CukvasheProvider);
          from += step.length();
        }
      } catch (Exception error) {
        how = error.getClass().getSimpleName();
        trace.calls.add(how);
        isFresh = false; // the contract says that it may need another init
      }
      if (provider instanceof CukvasheProvider) {
        count(how);
      }
      trace.ends(how);
    }
    return trace;
  }

  static List<String> outputs(Trace trace) {
    return trace.calls.stream().filter(call -> !call.startsWith("size") && !call.startsWith("pos") && !call.equals("short")).toList();
  }

  /** The same without overlapping buffers, which Bouncy Castle 1.72 does not always get right. */
  static List<List<Step>> apart(List<List<Step>> plans) {
    List<List<Step>> others = new ArrayList<>();
    for (List<Step> plan : plans) {
      List<Step> steps = new ArrayList<>();
      for (Step step : plan) {
        String name = step.transfer().name();
        Transfer transfer = name.startsWith("SAME") ? Transfer.valueOf(name.substring(5)) : step.transfer();
        steps.add(new Step(step.isLast(), transfer, step.length(), step.shift(), 0));
      }
      others.add(steps);
    }
    return others;
  }

  static List<Step> plan(Random random, int length) {
    List<Step> steps = new ArrayList<>();
    int left = length;
    while (true) {
      boolean isLast = random.nextInt(3) == 0 || steps.size() > 6;
      int size = isLast ? left : left == 0 ? 0 : random.nextInt(2) == 0 ? Math.min(left, random.nextInt(20)) : random.nextInt(left + 1);
      Transfer transfer = random.nextInt(4) == 0 ? Transfer.ARRAY : Transfer.values()[random.nextInt(Transfer.values().length)];
      int shift = random.nextInt(3) == 0 ? 0 : random.nextInt(33) - 16;
      int lacks = random.nextInt(4) == 0 ? 1 + random.nextInt(24) : 0;
      steps.add(new Step(isLast, transfer, size, shift, lacks));
      left -= size;
      if (isLast) {
        return steps;
      }
    }
  }

  static void ciphers(int cases, Random random) throws Exception {
    for (int number = 0; number < cases; number++) {
      boolean isTriple = random.nextInt(3) != 0;
      int parts = !isTriple ? 1 : random.nextBoolean() ? 3 : 2;
      byte[] key = new byte[8 * parts];
      random.nextBytes(key);
      byte[] theirs = parts == 2 ? Arrays.copyOf(key, 24) : key;
      if (parts == 2) {
        System.arraycopy(key, 0, theirs, 16, 8);
      }
      String name = isTriple ? "DESede" : "DES";
      boolean isCbc = random.nextBoolean();
      boolean pads = random.nextBoolean();
      String transformation = name + "/" + (isCbc ? "CBC" : "ECB") + "/" + (pads ? "PKCS5Padding" : "NoPadding");
      byte[] iv = null;
      if (isCbc) {
        iv = new byte[8];
        random.nextBytes(iv);
      }
      int opmode = random.nextBoolean() ? Cipher.ENCRYPT_MODE : Cipher.DECRYPT_MODE;
      List<byte[]> messages = new ArrayList<>();
      List<List<Step>> plans = new ArrayList<>();
      for (int message = 0; message < 1 + random.nextInt(3); message++) {
        int most = random.nextInt(40) == 0 ? 20000 : random.nextInt(4) == 0 ? 600 : 40;
        int length = random.nextInt(most);
        if (!pads && random.nextInt(10) != 0) {
          length -= length % 8;
        }
        byte[] bytes = new byte[length];
        random.nextBytes(bytes);
        if (opmode == Cipher.DECRYPT_MODE && pads && random.nextInt(10) != 0) {
          Cipher cipher = Cipher.getInstance(transformation, SUN);
          if (random.nextInt(3) == 0) {
            // An end that is nearly a padding.
            cipher = Cipher.getInstance(transformation.replace("PKCS5", "No"), SUN);
            bytes = Arrays.copyOf(bytes, (length / 8 + 1) * 8);
            int size = random.nextInt(10);
            Arrays.fill(bytes, bytes.length - Math.min(8, size == 0 ? 1 : size), bytes.length, (byte) size);
            if (random.nextBoolean()) {
              bytes[bytes.length - 1 - random.nextInt(8)] = (byte) random.nextInt(10);
            }
          }
          if (iv == null) {
            cipher.init(Cipher.ENCRYPT_MODE, new SecretKeySpec(theirs, name));
          } else {
            cipher.init(Cipher.ENCRYPT_MODE, new SecretKeySpec(theirs, name), new IvParameterSpec(iv));
          }
          bytes = cipher.doFinal(bytes);
        }
        messages.add(bytes);
        plans.add(plan(random, bytes.length));
      }
      Trace sun = of(SUN, transformation, opmode, new SecretKeySpec(theirs, name), iv, messages, plans);
      Trace bc = of(BC, transformation, opmode, new SecretKeySpec(key, name), iv, messages, apart(plans));
      Trace ours = of(random.nextBoolean() ? TABLES : NO_TABLES, transformation, opmode, new SecretKeySpec(key, name), iv, messages, plans);
      // SunJCE in one call on buffers of their own.
      List<List<Step>> whole = new ArrayList<>();
      messages.forEach(message -> whole.add(List.of(new Step(true, Transfer.RETURNED, message.length, 0, 0))));
      Trace truth = of(SUN, transformation, opmode, new SecretKeySpec(theirs, name), iv, messages, whole);
      if (!truth.messages.equals(ours.messages)) {
        count("DIFFERS from SunJCE in a message");
      }
      boolean overlaps = plans.stream().anyMatch(plan -> plan.stream().anyMatch(step -> step.transfer().name().startsWith("SAME")));
      if (overlaps
          && !sun.calls.equals(ours.calls)
          && outputs(ours).equals(outputs(of(SUN, transformation, opmode, new SecretKeySpec(theirs, name), iv, messages, apart(plans))))) {
        count("(SunJCE differs from itself where buffers overlap)");
      } else if (!sun.calls.equals(ours.calls)) {
        count("DIFFERS from SunJCE in a call");
        if (COUNTS.get("DIFFERS from SunJCE in a call") <= 5) {
          System.out.println(number + " " + transformation + " " + opmode + " " + plans);
          System.out.println("sun  " + sun.calls);
          System.out.println("ours " + ours.calls);
        }
      }
      if (!of(BC, transformation, opmode, new SecretKeySpec(key, name), iv, messages, plans).messages.equals(ours.messages)) {
        count("(Bouncy Castle differs where buffers overlap)");
      }
      // Of nothing SunJCE makes nothing in decryption with padding; Bouncy Castle throws.
      boolean isNothing = opmode == Cipher.DECRYPT_MODE && pads && messages.stream().anyMatch(message -> message.length == 0);
      if (!isNothing && !bc.messages.equals(ours.messages)) {
        count("DIFFERS from Bouncy Castle in a message");
        if (COUNTS.get("DIFFERS from Bouncy Castle in a message") <= 3) {
          System.out.println(number + " " + transformation + " " + opmode + " " + plans);
          System.out.println("bc   " + bc.messages);
          System.out.println("ours " + ours.messages);
        }
      }
      count(transformation);
    }
  }

  /** The modes without padding, in pieces of any length, by one call of the others. */
  static void modes(int cases, Random random) throws Exception {
    for (int number = 0; number < cases; number++) {
      byte[] key = new byte[random.nextBoolean() ? 24 : 8];
      byte[] iv = new byte[8];
      random.nextBytes(key);
      random.nextBytes(iv);
      String name = key.length == 8 ? "DES" : "DESede";
      String transformation = name + "/" + List.of("CTR", "OFB", "CFB", "CFB8", "OFB64", "CFB64").get(random.nextInt(6)) + "/NoPadding";
      int opmode = random.nextBoolean() ? Cipher.ENCRYPT_MODE : Cipher.DECRYPT_MODE;
      List<byte[]> messages = new ArrayList<>();
      List<List<Step>> plans = new ArrayList<>();
      List<List<Step>> whole = new ArrayList<>();
      for (int message = 0; message < 1 + random.nextInt(3); message++) {
        byte[] bytes = new byte[random.nextInt(random.nextInt(40) == 0 ? 20000 : 60)];
        random.nextBytes(bytes);
        messages.add(bytes);
        plans.add(plan(random, bytes.length));
        whole.add(List.of(new Step(true, Transfer.RETURNED, bytes.length, 0, 0)));
      }
      SecretKeySpec spec = new SecretKeySpec(key, name);
      Trace ours = of(random.nextBoolean() ? TABLES : NO_TABLES, transformation, opmode, spec, iv, messages, plans);
      for (Provider other : List.of(SUN, BC)) {
        if (!of(other, transformation, opmode, spec, iv, messages, whole).messages.equals(ours.messages)) {
          count("DIFFERS from " + other.getName() + " in " + transformation);
        }
      }
      count(transformation);
    }
  }

  /** Keys of any length wrapped from one vector, and unwrapped by another provider. */
  static void wraps(int cases, Random random) throws Exception {
    for (int number = 0; number < cases; number++) {
      byte[] bytes = new byte[24];
      byte[] iv = new byte[8];
      byte[] key = new byte[8 + 8 * random.nextInt(random.nextInt(20) == 0 ? 300 : 6)];
      random.nextBytes(bytes);
      random.nextBytes(iv);
      random.nextBytes(key);
      if (random.nextInt(3) == 0) {
        System.arraycopy(bytes, 0, bytes, 16, 8);
      }
      boolean isPair = random.nextBoolean() && Arrays.equals(bytes, 0, 8, bytes, 16, 24);
      SecretKeySpec theirs = new SecretKeySpec(bytes, "DESede");
      SecretKeySpec ours = new SecretKeySpec(bytes, 0, isPair ? 16 : 24, "DESede");
      Key wanted = new SecretKeySpec(key, "Hmac");
      byte[] wrapped = wrap(SUN, theirs, iv).wrap(wanted);
      if (!Arrays.equals(wrapped, wrap(TABLES, ours, iv).wrap(wanted))) {
        count("DIFFERS in a wrapped key");
      }
      Cipher atRandom = Cipher.getInstance("DESedeWrap", TABLES);
      atRandom.init(Cipher.WRAP_MODE, ours);
      for (Provider other : List.of(SUN, BC)) {
        if (!unwrap(other, theirs).unwrap(atRandom.wrap(wanted), "Hmac", Cipher.SECRET_KEY).equals(wanted)) {
          count("DIFFERS from " + other.getName() + " in an unwrapped key");
        }
      }
      if (!unwrap(TABLES, ours).unwrap(wrapped, "Hmac", Cipher.SECRET_KEY).equals(wanted)) {
        count("DIFFERS in an unwrapped key");
      }
      wrapped[random.nextInt(wrapped.length)] ^= (byte) (1 << random.nextInt(8));
      try {
        unwrap(TABLES, ours).unwrap(wrapped, "Hmac", Cipher.SECRET_KEY);
        count("DIFFERS: a changed key is unwrapped");
      } catch (InvalidKeyException expected) {
        count("a changed key");
      }
      count("DESedeWrap");
    }
  }

  /** Records of any number of blocks in one call, by one cipher for each; and what was given stays. */
  static void records(int cases, Random random) throws Exception {
    for (int number = 0; number < cases; number++) {
      byte[] bytes = new byte[8 * (1 + random.nextInt(3))];
      random.nextBytes(bytes);
      byte[] three = bytes.length == 16 ? Arrays.copyOf(bytes, 24) : bytes;
      System.arraycopy(bytes, 0, three, three.length - 8, bytes.length == 16 ? 8 : 0);
      String name = bytes.length == 8 ? "DES" : "DESede";
      long[] counts = random.longs(random.nextInt(30), 0, random.nextInt(5) == 0 ? 40 : 5).toArray();
      byte[] vectors = new byte[8 * counts.length];
      byte[] plain = new byte[8 * (int) Arrays.stream(counts).sum()];
      random.nextBytes(vectors);
      random.nextBytes(plain);
      byte[] sealed = new byte[plain.length];
      int from = 0;
      for (int at = 0; at < counts.length; at++) {
        Cipher cipher = Cipher.getInstance(name + "/CBC/NoPadding", SUN);
        cipher.init(Cipher.ENCRYPT_MODE, new SecretKeySpec(three, name), new IvParameterSpec(vectors, 8 * at, 8));
        from += cipher.doFinal(plain, from, 8 * (int) counts[at], sealed, from);
      }
      SecretKeySpec key = new SecretKeySpec(bytes, name);
      byte[] given = plain.clone();
      byte[] starts = vectors.clone();
      if (!Arrays.equals(sealed, Records.encryptCbc(key, given, starts, counts)) || !Arrays.equals(given, plain)) {
        count("DIFFERS in encrypted records");
      }
      given = sealed.clone();
      if (!Arrays.equals(plain, Records.decryptCbc(key, given, starts, counts)) || !Arrays.equals(given, sealed)) {
        count("DIFFERS in decrypted records");
      }
      if (!Arrays.equals(starts, vectors)) {
        count("DIFFERS in the vectors of records");
      }
      count("records");
    }
  }

  /** Texts under passwords, decrypted by another provider. */
  static void passwords(int cases, Random random) throws Exception {
    for (int number = 0; number < cases; number++) {
      String name = List.of("PBEWithMD5AndDES", "PBEWithMD5AndTripleDES", "PBEWithSHA1AndDESede").get(random.nextInt(3));
      byte[] salt = new byte[name.contains("SHA1") ? 8 + random.nextInt(60) : 8];
      random.nextBytes(salt);
      if (random.nextInt(4) == 0) {
        System.arraycopy(salt, 0, salt, 4, 4);
      }
      // SunJCE of Java 17 takes ASCII alone. Bouncy Castle lacks SunJCE's own, and has no zeros at the end of an empty password.
      boolean isAscii = !name.contains("SHA1") || random.nextBoolean();
      char[] password = new char[random.nextInt(random.nextInt(9) == 0 ? 200 : 12)];
      for (int at = 0; at < password.length; at++) {
        password[at] = (char) (' ' + random.nextInt(isAscii ? 95 : 0x500));
      }
      List<Provider> others = new ArrayList<>(List.of(TABLES, NO_TABLES));
      if (isAscii) {
        others.add(SUN);
      }
      if (!name.equals("PBEWithMD5AndTripleDES") && password.length != 0) {
        others.add(BC);
      }
      byte[] text = new byte[random.nextInt(40)];
      random.nextBytes(text);
      PBEParameterSpec spec = new PBEParameterSpec(salt, 1 + random.nextInt(40));
      Cipher ours = password(random.nextBoolean() ? TABLES : NO_TABLES, name, Cipher.ENCRYPT_MODE, password, spec);
      byte[] sealed = ours.doFinal(text);
      spec = ours.getParameters().getParameterSpec(PBEParameterSpec.class);
      for (Provider other : others) {
        if (!Arrays.equals(text, password(other, name, Cipher.DECRYPT_MODE, password, spec).doFinal(sealed))) {
          count("DIFFERS under a password: " + name + " of " + other.getName());
        }
      }
      count(name);
    }
  }

  /** Keys and vectors of passwords, which decrypt what another provider encrypted by itself. */
  static void passwordKeys(int cases, Random random) throws Exception {
    for (int number = 0; number < cases; number++) {
      String name = random.nextBoolean() ? "PBEWithSHA1AndDES" : "PBEWithSHAAnd2-KeyTripleDES-CBC";
      byte[] salt = new byte[8];
      byte[] text = new byte[random.nextInt(40)];
      random.nextBytes(salt);
      random.nextBytes(text);
      String password = "password " + number;
      PBEParameterSpec spec = new PBEParameterSpec(salt, 1 + random.nextInt(40));
      byte[] sealed = password(BC, name, Cipher.ENCRYPT_MODE, password.toCharArray(), spec).doFinal(text);
      int size = name.endsWith("DES") ? 8 : 16;
      byte[] both = Passwords.pbeKey(name, password.getBytes(StandardCharsets.US_ASCII), salt, spec.getIterationCount(), size + 8);
      String cipher = size == 8 ? "DES" : "DESede";
      Cipher ours = Cipher.getInstance(cipher + "/CBC/PKCS5Padding", TABLES);
      ours.init(Cipher.DECRYPT_MODE, new SecretKeySpec(both, 0, size, cipher), new IvParameterSpec(both, size, 8));
      if (!Arrays.equals(text, ours.doFinal(sealed))) {
        count("DIFFERS under a key of a password: " + name);
      }
      count(name);
    }
  }

  static Cipher password(Provider provider, String name, int mode, char[] password, PBEParameterSpec spec) throws Exception {
    Cipher cipher = Cipher.getInstance(name, provider);
    cipher.init(mode, SecretKeyFactory.getInstance(name, provider).generateSecret(new PBEKeySpec(password)), spec);
    return cipher;
  }

  static Cipher wrap(Provider provider, Key key, byte[] iv) throws Exception {
    Cipher cipher = Cipher.getInstance("DESedeWrap", provider);
    cipher.init(Cipher.WRAP_MODE, key, new IvParameterSpec(iv));
    return cipher;
  }

  static Cipher unwrap(Provider provider, Key key) throws Exception {
    Cipher cipher = Cipher.getInstance("DESedeWrap", provider);
    cipher.init(Cipher.UNWRAP_MODE, key);
    return cipher;
  }

  static byte[] mac(Mac mac, byte[] message, Random random) throws Exception {
    int from = 0;
    while (from < message.length) {
      int size = Math.min(message.length - from, random.nextInt(random.nextInt(10) == 0 ? 3000 : 30));
      switch (random.nextInt(4)) {
        case 0 -> mac.update(message, from, size);
        case 1 -> mac.update(ByteBuffer.wrap(message, from, size));
        case 2 -> {
          ByteBuffer direct = ByteBuffer.allocateDirect(size + 3);
          direct.position(3);
          direct.put(message, from, size).position(3);
          mac.update(direct);
        }
        default -> {
          for (int at = from; at < from + size; at++) {
            mac.update(message[at]);
          }
        }
      }
      from += size;
      if (random.nextInt(8) == 0) {
        Mac other = mac;
        mac = (Mac) mac.clone();
        other.update(new byte[1 + random.nextInt(random.nextBoolean() ? 20 : 3000)]); // which must not reach the copy
      }
    }
    return mac.doFinal();
  }

  static void macs(int cases, Random random) throws Exception {
    String[][] names = {
      {"DESMAC64", "8"},
      {"DESMAC64WITHISO7816-4PADDING", "8"},
      {"DESEDEMAC64", "16 24"},
      {"DESEDEMAC64WITHISO7816-4PADDING", "16 24"},
      {"ISO9797ALG3MAC", "16 24"},
      {"ISO9797ALG3WITHISO7816-4PADDING", "16 24"},
      {"DESEDECMAC", "16 24"},
    };
    for (int number = 0; number < cases; number++) {
      String[] name = names[random.nextInt(names.length)];
      String[] sizes = name[1].split(" ");
      byte[] key = new byte[Integer.parseInt(sizes[random.nextInt(sizes.length)])];
      random.nextBytes(key);
      if (key.length == 24 && name[0].startsWith("ISO")) {
        System.arraycopy(key, 0, key, 16, 8); // a key of two parts, as SunJCE makes it
      }
      byte[] message = new byte[random.nextInt(random.nextInt(20) == 0 ? 10000 : 60)];
      random.nextBytes(message);
      Mac theirs = Mac.getInstance(name[0], BC);
      theirs.init(new SecretKeySpec(key, "DESede"));
      Mac ours = Mac.getInstance(name[0], random.nextBoolean() ? TABLES : NO_TABLES);
      ours.init(new SecretKeySpec(key, "DESede"));
      for (int again = 0; again < 2; again++) {
        byte[] expected = theirs.doFinal(message);
        byte[] tag = mac(ours, message, random);
        if (!Arrays.equals(expected, tag)) {
          count("DIFFERS " + name[0]);
          System.out.println(name[0] + " " + key.length + " " + message.length + " " + HexFormat.of().formatHex(expected) + " "
              + HexFormat.of().formatHex(tag));
        }
        ours.reset();
      }
      count(name[0]);
    }
  }

  public static void main(String[] arguments) throws Exception {
    int cases = Integer.parseInt(arguments[0]);
    Random random = new Random(Long.parseLong(arguments[1]));
    ciphers(cases, random);
    macs(cases / 8, random);
    modes(cases / 8, random);
    wraps(cases / 8, random);
    records(cases / 8, random);
    passwords(cases / 8, random);
    passwordKeys(cases / 40, random);
    COUNTS.forEach((what, times) -> System.out.println(times + "\t" + what));
    for (String what : List.of("whole", "short buffer", "BadPaddingException", "IllegalBlockSizeException")) {
      if (!COUNTS.containsKey(what)) {
        throw new AssertionError("no case had: " + what);
      }
    }
    if (COUNTS.keySet().stream().anyMatch(what -> what.startsWith("DIFFERS"))) {
      System.exit(1);
    }
  }
}
