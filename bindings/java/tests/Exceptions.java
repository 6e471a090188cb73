import cukvashe.des.CukvasheProvider;
import java.math.BigInteger;
import java.nio.ByteBuffer;
import java.security.AlgorithmParameters;
import java.security.Key;
import java.security.KeyPairGenerator;
import java.security.Provider;
import java.security.SecureRandom;
import java.security.Security;
import java.security.spec.AlgorithmParameterSpec;
import java.security.spec.RSAKeyGenParameterSpec;
import java.util.Arrays;
import java.util.HexFormat;
import java.util.LinkedHashMap;
import java.util.Map;
import javax.crypto.Cipher;
import javax.crypto.KeyGenerator;
import javax.crypto.Mac;
import javax.crypto.SecretKey;
import javax.crypto.SecretKeyFactory;
import javax.crypto.spec.DESKeySpec;
import javax.crypto.spec.DESedeKeySpec;
import javax.crypto.spec.GCMParameterSpec;
import javax.crypto.spec.IvParameterSpec;
import javax.crypto.spec.SecretKeySpec;

/** What SunJCE and Cukvashe do with the same odd call, with a mark where they differ: exceptions.txt has it. */
public final class Exceptions {
  interface Call {
    Object of(Provider provider) throws Exception;
  }

  static final byte[] KEY = HexFormat.of().parseHex("0123456789abcdef23456789abcdef01456789abcdef0123");
  static final IvParameterSpec IV = new IvParameterSpec(new byte[8]);

  static String hex(byte[] bytes) {
    return HexFormat.of().formatHex(bytes);
  }

  static SecretKeySpec key(int length, String name) {
    return new SecretKeySpec(Arrays.copyOf(KEY, length), name);
  }

  static final SecretKeySpec TRIPLE = key(24, "DESede");

  static Cipher cipher(Provider provider, String name, int mode, Key key, AlgorithmParameterSpec spec) throws Exception {
    Cipher cipher = Cipher.getInstance(name, provider);
    cipher.init(mode, key, spec);
    return cipher;
  }

  static Cipher cbc(Provider provider, int mode, String padding) throws Exception {
    return cipher(provider, "DESede/CBC/" + padding, mode, TRIPLE, IV);
  }

  /** The key of zeros that are unwrapped. */
  static Key unwrapped(Provider provider, String padding, int size, String name, int type) throws Exception {
    return cbc(provider, Cipher.UNWRAP_MODE, padding).unwrap(new byte[size], name, type);
  }

  static SecretKeyFactory factory(Provider provider) throws Exception {
    return SecretKeyFactory.getInstance("DESede", provider);
  }

  static final int ENCRYPT = Cipher.ENCRYPT_MODE;
  static final int DECRYPT = Cipher.DECRYPT_MODE;

  record NoEncoding(String getAlgorithm, String getFormat, byte[] getEncoded) implements SecretKey {}

  static final Map<String, Call> CALLS = new LinkedHashMap<>();

  static {
    CALLS.put("DESede, key of 16", p -> cipher(p, "DESede", ENCRYPT, key(16, "DESede"), null));
    CALLS.put("DESede, key of 8", p -> cipher(p, "DESede", ENCRYPT, key(8, "DESede"), null));
    CALLS.put("DESede, key of 23", p -> cipher(p, "DESede", ENCRYPT, key(23, "DESede"), null));
    CALLS.put("DES, key of 16", p -> cipher(p, "DES", ENCRYPT, key(16, "DES"), null));
    CALLS.put("DES, key of 7", p -> cipher(p, "DES", ENCRYPT, key(7, "DES"), null));
    CALLS.put("DES, key named DESede", p -> cipher(p, "DES", ENCRYPT, key(8, "DESede"), null));
    CALLS.put("DESede, key named TripleDES", p -> cipher(p, "DESede", ENCRYPT, key(24, "tripledes"), null));
    CALLS.put("DESede, key named AES", p -> cipher(p, "DESede", ENCRYPT, key(24, "AES"), null));
    CALLS.put("key null", p -> cipher(p, "DES", ENCRYPT, null, null));
    CALLS.put("key without encoding", p -> cipher(p, "DESede", ENCRYPT, new NoEncoding("DESede", null, null), null));
    CALLS.put("key RAW, encoding null", p -> cipher(p, "DESede", ENCRYPT, new NoEncoding("DESede", "RAW", null), null));
    CALLS.put("weak key", p -> cipher(p, "DES", ENCRYPT, new SecretKeySpec(HexFormat.of().parseHex("0101010101010101"), "DES"), null));
    CALLS.put("public key", p -> {
      KeyPairGenerator generator = KeyPairGenerator.getInstance("RSA");
      generator.initialize(new RSAKeyGenParameterSpec(1024, BigInteger.valueOf(65537)));
      return cipher(p, "DESede", ENCRYPT, generator.generateKeyPair().getPublic(), null);
    });
    CALLS.put("ECB with IV", p -> cipher(p, "DESede/ECB/NoPadding", ENCRYPT, TRIPLE, IV));
    CALLS.put("CBC, IV of 7", p -> cipher(p, "DESede/CBC/NoPadding", ENCRYPT, TRIPLE, new IvParameterSpec(new byte[7])));
    CALLS.put("CBC, IV of 16", p -> cipher(p, "DESede/CBC/NoPadding", ENCRYPT, TRIPLE, new IvParameterSpec(new byte[16])));
    CALLS.put("CBC, other spec", p -> cipher(p, "DESede/CBC/NoPadding", ENCRYPT, TRIPLE, new GCMParameterSpec(128, new byte[8])));
    CALLS.put("CBC decrypt, spec null", p -> cipher(p, "DESede/CBC/NoPadding", DECRYPT, TRIPLE, null));
    CALLS.put("CBC decrypt, no spec", p -> {
      Cipher cipher = Cipher.getInstance("DESede/CBC/NoPadding", p);
      cipher.init(DECRYPT, TRIPLE);
      return cipher;
    });
    CALLS.put("CBC unwrap, no spec", p -> {
      Cipher cipher = Cipher.getInstance("DESede/CBC/NoPadding", p);
      cipher.init(Cipher.UNWRAP_MODE, TRIPLE);
      return cipher;
    });
    CALLS.put("CBC encrypt, no spec: length of getIV", p -> {
      Cipher cipher = Cipher.getInstance("DESede/CBC/NoPadding", p);
      cipher.init(ENCRYPT, TRIPLE);
      return cipher.getIV().length;
    });
    CALLS.put("CBC encrypt, params null", p -> {
      Cipher cipher = Cipher.getInstance("DESede/CBC/NoPadding", p);
      cipher.init(ENCRYPT, TRIPLE, (AlgorithmParameters) null);
      return cipher.getIV().length;
    });
    CALLS.put("CBC decrypt, params of AES", p -> {
      AlgorithmParameters other = AlgorithmParameters.getInstance("AES");
      other.init(new IvParameterSpec(new byte[16]));
      Cipher cipher = Cipher.getInstance("DESede/CBC/NoPadding", p);
      cipher.init(DECRYPT, TRIPLE, other);
      return cipher;
    });
    CALLS.put("CBC decrypt, params of GCM", p -> {
      AlgorithmParameters other = AlgorithmParameters.getInstance("GCM");
      other.init(new GCMParameterSpec(128, new byte[12]));
      Cipher cipher = Cipher.getInstance("DESede/CBC/NoPadding", p);
      cipher.init(DECRYPT, TRIPLE, other);
      return cipher;
    });
    CALLS.put("CBC decrypt, params of SunJCE's DESede", p -> {
      AlgorithmParameters other = AlgorithmParameters.getInstance("DESede", "SunJCE");
      other.init(IV);
      Cipher cipher = Cipher.getInstance("DESede/CBC/NoPadding", p);
      cipher.init(DECRYPT, TRIPLE, other);
      return hex(cipher.getParameters().getEncoded());
    });
    CALLS.put("getParameters, ECB", p -> cipher(p, "DESede/ECB/NoPadding", ENCRYPT, TRIPLE, null).getParameters());
    CALLS.put("getParameters before init", p -> Cipher.getInstance("DESede/CBC/NoPadding", p).getParameters().getAlgorithm());
    CALLS.put("getIV before init", p -> Cipher.getInstance("DESede/CBC/NoPadding", p).getIV());
    CALLS.put("getBlockSize before init", p -> Cipher.getInstance("DESede/CBC/NoPadding", p).getBlockSize());
    CALLS.put("getOutputSize before init", p -> Cipher.getInstance("DESede/CBC/NoPadding", p).getOutputSize(8));
    CALLS.put("update before init", p -> Cipher.getInstance("DESede/CBC/NoPadding", p).update(new byte[8]));
    CALLS.put("doFinal before init", p -> Cipher.getInstance("DESede/CBC/NoPadding", p).doFinal());
    CALLS.put("CTR", p -> Cipher.getInstance("DESede/CTR/NoPadding", p));
    CALLS.put("no such mode", p -> Cipher.getInstance("DESede/XYZ/NoPadding", p));
    CALLS.put("no such padding", p -> Cipher.getInstance("DESede/CBC/XYZPadding", p));
    CALLS.put("ISO10126Padding", p -> Cipher.getInstance("DESede/CBC/ISO10126Padding", p));
    CALLS.put("PKCS7Padding", p -> Cipher.getInstance("DESede/CBC/PKCS7Padding", p));
    CALLS.put("NoPadding, 7 bytes, encrypt", p -> cbc(p, ENCRYPT, "NoPadding").doFinal(new byte[7]));
    CALLS.put("NoPadding, 7 bytes, decrypt", p -> cbc(p, DECRYPT, "NoPadding").doFinal(new byte[7]));
    CALLS.put("PKCS5, 7 bytes, decrypt", p -> cbc(p, DECRYPT, "PKCS5Padding").doFinal(new byte[7]));
    CALLS.put("PKCS5, 0 bytes, decrypt", p -> cbc(p, DECRYPT, "PKCS5Padding").doFinal(new byte[0]).length);
    CALLS.put("PKCS5, zeros, decrypt", p -> cbc(p, DECRYPT, "PKCS5Padding").doFinal(new byte[16]));
    CALLS.put("after bad padding: the right one without init", p -> {
      byte[] sealed = cbc(p, ENCRYPT, "PKCS5Padding").doFinal(new byte[5]);
      Cipher cipher = cbc(p, DECRYPT, "PKCS5Padding");
      try {
        cipher.doFinal(new byte[16]);
      } catch (Exception expected) {
        // of bad padding
      }
      return cipher.doFinal(sealed).length;
    });
    CALLS.put("after 7 bytes of NoPadding: 8 without init", p -> {
      Cipher cipher = cbc(p, ENCRYPT, "NoPadding");
      try {
        cipher.doFinal(new byte[7]);
      } catch (Exception expected) {
        // of the length
      }
      return cipher.doFinal(new byte[8]).length;
    });
    CALLS.put("after update of 3 and doFinal of 4: doFinal of 5", p -> {
      Cipher cipher = cbc(p, ENCRYPT, "NoPadding");
      cipher.update(new byte[3]);
      try {
        cipher.doFinal(new byte[4]);
      } catch (Exception expected) {
        // of the length
      }
      return cipher.doFinal(new byte[5]).length;
    });
    CALLS.put("doFinal, short output", p -> cbc(p, ENCRYPT, "PKCS5Padding").doFinal(new byte[8], 0, 8, new byte[15], 0));
    CALLS.put("update, short output", p -> cbc(p, ENCRYPT, "NoPadding").update(new byte[16], 0, 16, new byte[8], 0));
    CALLS.put("update, output offset past the end", p -> cbc(p, ENCRYPT, "NoPadding").update(new byte[16], 0, 16, new byte[8], 9));
    CALLS.put("update, input null", p -> cbc(p, ENCRYPT, "NoPadding").update((byte[]) null));
    CALLS.put("update, bad offsets", p -> cbc(p, ENCRYPT, "NoPadding").update(new byte[8], 4, 8));
    CALLS.put("update, output null", p -> cbc(p, ENCRYPT, "NoPadding").update(new byte[8], 0, 8, null, 0));
    CALLS.put("update of nothing", p -> cbc(p, ENCRYPT, "NoPadding").update(new byte[0]));
    CALLS.put("update of 1 byte", p -> cbc(p, ENCRYPT, "NoPadding").update(new byte[1]) == null ? "null" : "not null");
    CALLS.put("update buffers, read-only output", p -> {
      return cbc(p, ENCRYPT, "NoPadding").update(ByteBuffer.allocate(8), ByteBuffer.allocate(8).asReadOnlyBuffer());
    });
    CALLS.put("update buffers, one object", p -> {
      ByteBuffer buffer = ByteBuffer.allocate(8);
      return cbc(p, ENCRYPT, "NoPadding").update(buffer, buffer);
    });
    CALLS.put("update buffers, short", p -> cbc(p, ENCRYPT, "NoPadding").update(ByteBuffer.allocate(16), ByteBuffer.allocate(8)));
    CALLS.put("doFinal buffers, short", p -> cbc(p, ENCRYPT, "NoPadding").doFinal(ByteBuffer.allocate(16), ByteBuffer.allocate(8)));
    CALLS.put("doFinal buffers, 15 bytes and short", p -> {
      return cbc(p, ENCRYPT, "NoPadding").doFinal(ByteBuffer.allocate(15), ByteBuffer.allocate(0));
    });
    CALLS.put("doFinal, 15 bytes and short", p -> cbc(p, ENCRYPT, "NoPadding").doFinal(new byte[15], 0, 15, new byte[0], 0));
    CALLS.put("OFB, bytes of an update of 3", p -> {
      return cipher(p, "DESede/OFB/NoPadding", ENCRYPT, TRIPLE, IV).update(new byte[3]).length;
    });
    CALLS.put("CTR, PKCS5Padding", p -> Cipher.getInstance("DESede/CTR/PKCS5Padding", p));
    CALLS.put("updateAAD", p -> {
      cbc(p, ENCRYPT, "NoPadding").updateAAD(new byte[8]);
      return "none";
    });
    CALLS.put("updateAAD of nothing", p -> {
      cbc(p, ENCRYPT, "NoPadding").updateAAD(new byte[0]);
      return "none";
    });
    CALLS.put("wrap in encryption", p -> cbc(p, ENCRYPT, "NoPadding").wrap(TRIPLE));
    CALLS.put("update in wrapping", p -> cbc(p, Cipher.WRAP_MODE, "NoPadding").update(new byte[8]));
    CALLS.put("wrap 24", p -> cbc(p, Cipher.WRAP_MODE, "NoPadding").wrap(TRIPLE).length);
    CALLS.put("wrap 23, NoPadding", p -> cbc(p, Cipher.WRAP_MODE, "NoPadding").wrap(key(23, "HmacSHA1")));
    CALLS.put("wrap, no encoding", p -> cbc(p, Cipher.WRAP_MODE, "NoPadding").wrap(new NoEncoding("X", null, null)));
    CALLS.put("unwrap SECRET", p -> unwrapped(p, "NoPadding", 24, "DESede", Cipher.SECRET_KEY).getEncoded().length);
    CALLS.put("unwrap SECRET, 23 bytes", p -> unwrapped(p, "NoPadding", 23, "DESede", Cipher.SECRET_KEY));
    CALLS.put("unwrap SECRET, bad padding", p -> unwrapped(p, "PKCS5Padding", 24, "DESede", Cipher.SECRET_KEY));
    CALLS.put("unwrap SECRET, empty", p -> unwrapped(p, "NoPadding", 0, "DESede", Cipher.SECRET_KEY));
    CALLS.put("unwrap PRIVATE, not one", p -> unwrapped(p, "NoPadding", 24, "RSA", Cipher.PRIVATE_KEY));
    CALLS.put("unwrap PUBLIC, no such algorithm", p -> unwrapped(p, "NoPadding", 24, "XYZ", Cipher.PUBLIC_KEY));
    CALLS.put("unwrap, type 9", p -> unwrapped(p, "NoPadding", 24, "DESede", 9));
    CALLS.put("init, mode 9", p -> cipher(p, "DESede", 9, TRIPLE, null));
    wraps();
    PasswordCalls.add(CALLS);
    CALLS.put("max key length", p -> Cipher.getMaxAllowedKeyLength("DESede"));
    CALLS.put("factory DES, 8", p -> SecretKeyFactory.getInstance("DES", p).generateSecret(new DESKeySpec(new byte[8])).getEncoded()[0]);
    CALLS.put("factory DESede, DESKeySpec", p -> factory(p).generateSecret(new DESKeySpec(new byte[8])));
    CALLS.put("factory DESede, null", p -> factory(p).generateSecret(null));
    CALLS.put("factory DESede, SecretKeySpec 24", p -> factory(p).generateSecret(TRIPLE).getEncoded().length);
    CALLS.put("factory DESede: spec of a key", p -> {
      SecretKeyFactory factory = factory(p);
      SecretKey made = factory.generateSecret(new DESedeKeySpec(KEY));
      return Arrays.equals(KEY, ((DESedeKeySpec) factory.getKeySpec(made, DESedeKeySpec.class)).getKey());
    });
    CALLS.put("factory DESede: other spec class", p -> {
      SecretKeyFactory factory = factory(p);
      return factory.getKeySpec(factory.generateSecret(new DESedeKeySpec(KEY)), DESKeySpec.class);
    });
    CALLS.put("factory DESede: translate AES", p -> factory(p).translateKey(key(24, "AES")));
    CALLS.put("factory DESede: translate DESede", p -> Arrays.equals(KEY, factory(p).translateKey(TRIPLE).getEncoded()));
    CALLS.put("factory DESede: translate even parity", p -> {
      SecretKey even = new SecretKeySpec(new byte[24], "DESede");
      return hex(factory(p).translateKey(even).getEncoded()).substring(0, 16);
    });
    CALLS.put("factory DESede: translate null", p -> factory(p).translateKey(null));
    CALLS.put("generator DES", p -> KeyGenerator.getInstance("DES", p).generateKey().getEncoded().length);
    CALLS.put("generator DESede", p -> KeyGenerator.getInstance("DESede", p).generateKey().getEncoded().length);
    for (int bits : new int[] {56, 64, 112, 128, 168, 192, 100}) {
      CALLS.put("generator DESede, " + bits, p -> {
        KeyGenerator generator = KeyGenerator.getInstance("DESede", p);
        generator.init(bits);
        return generator.generateKey().getEncoded().length;
      });
    }
    CALLS.put("generator DES, 64", p -> {
      KeyGenerator generator = KeyGenerator.getInstance("DES", p);
      generator.init(64);
      return generator.generateKey().getEncoded().length;
    });
    CALLS.put("generator DESede, spec", p -> {
      KeyGenerator generator = KeyGenerator.getInstance("DESede", p);
      generator.init(IV);
      return generator;
    });
    CALLS.put("parameters, IV of 7", p -> {
      AlgorithmParameters parameters = AlgorithmParameters.getInstance("DESede", p);
      parameters.init(new IvParameterSpec(new byte[7]));
      return parameters;
    });
    CALLS.put("parameters, bad encoding", p -> {
      AlgorithmParameters parameters = AlgorithmParameters.getInstance("DESede", p);
      parameters.init(new byte[9]);
      return parameters;
    });
    CALLS.put("parameters, another tag", p -> {
      AlgorithmParameters parameters = AlgorithmParameters.getInstance("DESede", p);
      parameters.init(new byte[] {2, 8, 0, 0, 0, 0, 0, 0, 0, 0});
      return parameters;
    });
    CALLS.put("parameters, encoded", p -> {
      AlgorithmParameters parameters = AlgorithmParameters.getInstance("DESede", p);
      parameters.init(IV);
      return hex(parameters.getEncoded());
    });
    CALLS.put("key class survives serialization", p -> {
      SecretKey made = factory(p).generateSecret(new DESedeKeySpec(KEY));
      var bytes = new java.io.ByteArrayOutputStream();
      new java.io.ObjectOutputStream(bytes).writeObject(made);
      Object read = new java.io.ObjectInputStream(new java.io.ByteArrayInputStream(bytes.toByteArray())).readObject();
      return made.equals(read) && read.equals(made);
    });
    for (String name : new String[] {"DESede", "TripleDES"}) {
      CALLS.put("key: equal to a SecretKeySpec of " + name, p -> {
        SecretKey made = factory(p).generateSecret(new DESedeKeySpec(KEY));
        SecretKey other = new SecretKeySpec(made.getEncoded(), name);
        return made.equals(other) + " " + other.equals(made) + " " + (made.hashCode() == other.hashCode());
      });
    }
    CALLS.put("key: destroy", p -> {
      SecretKey made = factory(p).generateSecret(new DESedeKeySpec(KEY));
      made.destroy();
      return made.isDestroyed();
    });
    CALLS.put("Mac retail, key of 8", p -> {
      Mac mac = Mac.getInstance("ISO9797ALG3MAC", p);
      mac.init(key(8, "DES"));
      return mac;
    });
    CALLS.put("Mac retail, key of 24", p -> {
      Mac mac = Mac.getInstance("ISO9797ALG3MAC", p);
      mac.init(TRIPLE);
      return mac;
    });
    CALLS.put("Mac retail, key null", p -> {
      Mac mac = Mac.getInstance("ISO9797ALG3MAC", p);
      mac.init(null);
      return mac;
    });
    CALLS.put("Mac retail, before init", p -> Mac.getInstance("ISO9797ALG3MAC", p).doFinal());
    CALLS.put("Mac retail, with IV", p -> {
      Mac mac = Mac.getInstance("ISO9797ALG3MAC", p);
      mac.init(key(16, "DESede"), IV);
      return mac.doFinal().length;
    });
    CALLS.put("Mac retail, short output", p -> {
      Mac mac = Mac.getInstance("ISO9797ALG3MAC", p);
      mac.init(key(16, "DESede"));
      mac.doFinal(new byte[7], 0);
      return mac;
    });
  }

  static Cipher wrap(Provider provider, int mode, Key key, AlgorithmParameterSpec spec) throws Exception {
    return cipher(provider, "DESedeWrap", mode, key, spec);
  }

  static void wraps() {
    int wrap = Cipher.WRAP_MODE;
    int unwrap = Cipher.UNWRAP_MODE;
    CALLS.put("DESedeWrap, ECB", p -> Cipher.getInstance("DESedeWrap/ECB/NoPadding", p));
    CALLS.put("DESedeWrap, CBC", p -> Cipher.getInstance("DESedeWrap/CBC/NoPadding", p));
    CALLS.put("DESedeWrap, PKCS5Padding", p -> Cipher.getInstance("DESedeWrap/CBC/PKCS5Padding", p));
    CALLS.put("DESedeWrap: getIV before init", p -> Cipher.getInstance("DESedeWrap", p).getIV());
    CALLS.put("DESedeWrap: getParameters before init", p -> Cipher.getInstance("DESedeWrap", p).getParameters());
    CALLS.put("DESedeWrap: getBlockSize", p -> Cipher.getInstance("DESedeWrap", p).getBlockSize());
    CALLS.put("DESedeWrap: wrap before init", p -> Cipher.getInstance("DESedeWrap", p).wrap(TRIPLE));
    CALLS.put("DESedeWrap, encryption", p -> wrap(p, ENCRYPT, TRIPLE, null));
    CALLS.put("DESedeWrap, decryption", p -> wrap(p, DECRYPT, TRIPLE, IV));
    CALLS.put("DESedeWrap, key of 16", p -> wrap(p, wrap, key(16, "DESede"), IV));
    CALLS.put("DESedeWrap, key of 8", p -> wrap(p, wrap, key(8, "DESede"), IV));
    CALLS.put("DESedeWrap, key named AES", p -> wrap(p, wrap, key(24, "AES"), IV));
    CALLS.put("DESedeWrap, key named TripleDES", p -> wrap(p, unwrap, key(24, "TripleDES"), null));
    CALLS.put("DESedeWrap, key without encoding", p -> wrap(p, wrap, new NoEncoding("DESede", null, null), IV));
    CALLS.put("DESedeWrap, IV of 7", p -> wrap(p, wrap, TRIPLE, new IvParameterSpec(new byte[7])));
    CALLS.put("DESedeWrap, other spec", p -> wrap(p, wrap, TRIPLE, new GCMParameterSpec(128, new byte[8])));
    CALLS.put("DESedeWrap, unwrap with IV", p -> wrap(p, unwrap, TRIPLE, IV));
    CALLS.put("DESedeWrap, wrap, params", p -> {
      AlgorithmParameters parameters = AlgorithmParameters.getInstance("DESede", p);
      parameters.init(new IvParameterSpec(new byte[] {1, 2, 3, 4, 5, 6, 7, 8}));
      Cipher cipher = Cipher.getInstance("DESedeWrap", p);
      cipher.init(wrap, TRIPLE, parameters);
      return hex(cipher.getParameters().getEncoded());
    });
    CALLS.put("DESedeWrap, unwrap, params", p -> {
      AlgorithmParameters parameters = AlgorithmParameters.getInstance("DESede", p);
      parameters.init(IV);
      Cipher cipher = Cipher.getInstance("DESedeWrap", p);
      cipher.init(unwrap, TRIPLE, parameters);
      return cipher;
    });
    CALLS.put("DESedeWrap, params of GCM", p -> {
      AlgorithmParameters other = AlgorithmParameters.getInstance("GCM");
      other.init(new GCMParameterSpec(128, new byte[12]));
      Cipher cipher = Cipher.getInstance("DESedeWrap", p);
      cipher.init(wrap, TRIPLE, other);
      return cipher;
    });
    CALLS.put("DESedeWrap, no spec: length of getIV", p -> wrap(p, wrap, TRIPLE, null).getIV().length);
    CALLS.put("DESedeWrap, no spec: wrapped twice alike", p -> {
      Cipher cipher = wrap(p, wrap, TRIPLE, null);
      return Arrays.equals(cipher.wrap(TRIPLE), cipher.wrap(TRIPLE));
    });
    CALLS.put("DESedeWrap, no spec: alike after init", p -> {
      Cipher cipher = wrap(p, wrap, TRIPLE, null);
      byte[] first = cipher.wrap(TRIPLE);
      cipher.init(wrap, TRIPLE);
      return Arrays.equals(first, cipher.wrap(TRIPLE));
    });
    CALLS.put("DESedeWrap: getOutputSize of 24", p -> wrap(p, wrap, TRIPLE, IV).getOutputSize(24));
    CALLS.put("DESedeWrap: getOutputSize of 40, unwrap", p -> wrap(p, unwrap, TRIPLE, null).getOutputSize(40));
    CALLS.put("DESedeWrap: getOutputSize of 7, unwrap", p -> wrap(p, unwrap, TRIPLE, null).getOutputSize(7));
    CALLS.put("DESedeWrap: update", p -> wrap(p, wrap, TRIPLE, IV).update(new byte[8]));
    CALLS.put("DESedeWrap: doFinal", p -> wrap(p, wrap, TRIPLE, IV).doFinal(new byte[8]));
    CALLS.put("DESedeWrap: unwrap in wrapping", p -> wrap(p, wrap, TRIPLE, IV).unwrap(new byte[40], "DESede", Cipher.SECRET_KEY));
    CALLS.put("DESedeWrap: wrap 24", p -> hex(wrap(p, wrap, TRIPLE, IV).wrap(TRIPLE)).substring(0, 32));
    CALLS.put("DESedeWrap: wrap 23", p -> wrap(p, wrap, TRIPLE, IV).wrap(key(23, "HmacSHA1")));
    CALLS.put("DESedeWrap: wrap, no encoding", p -> wrap(p, wrap, TRIPLE, IV).wrap(new NoEncoding("X", null, null)));
    CALLS.put("DESedeWrap: unwrap", p -> unwrapped(p, 0, "DESede", Cipher.SECRET_KEY));
    CALLS.put("DESedeWrap: unwrap, changed", p -> unwrapped(p, 1, "DESede", Cipher.SECRET_KEY));
    CALLS.put("DESedeWrap: unwrap PRIVATE, not one", p -> unwrapped(p, 0, "RSA", Cipher.PRIVATE_KEY));
    CALLS.put("DESedeWrap: unwrap PUBLIC, no such algorithm", p -> unwrapped(p, 0, "XYZ", Cipher.PUBLIC_KEY));
    for (int size : new int[] {0, 8, 16, 23, 24, 39}) {
      CALLS.put("DESedeWrap: unwrap " + size + " bytes", p -> {
        return wrap(p, unwrap, TRIPLE, null).unwrap(new byte[size], "DESede", Cipher.SECRET_KEY);
      });
    }
    CALLS.put("DESedeWrap: getIV after unwrap", p -> {
      Cipher cipher = wrap(p, unwrap, TRIPLE, null);
      cipher.unwrap(wrap(p, wrap, TRIPLE, IV).wrap(TRIPLE), "DESede", Cipher.SECRET_KEY);
      return cipher.getIV() == null ? "null" : cipher.getIV().length;
    });
  }

  /** What comes of a wrapped key whose last byte is changed by this. */
  static Object unwrapped(Provider provider, int change, String name, int type) throws Exception {
    byte[] wrapped = wrap(provider, Cipher.WRAP_MODE, TRIPLE, IV).wrap(TRIPLE);
    wrapped[wrapped.length - 1] ^= (byte) change;
    Key key = wrap(provider, Cipher.UNWRAP_MODE, TRIPLE, null).unwrap(wrapped, name, type);
    return hex(key.getEncoded()).substring(0, 32);
  }

  static String said(Call call, Provider provider) {
    try {
      Object answer = call.of(provider);
      boolean isShown = answer == null || answer instanceof Number || answer instanceof String || answer instanceof Boolean;
      return isShown ? String.valueOf(answer) : "ok";
    } catch (Throwable error) {
      return error.getClass().getSimpleName();
    }
  }

  public static void main(String[] arguments) {
    Provider sun = Security.getProvider("SunJCE");
    Provider ours = new CukvasheProvider();
    System.out.printf("| %-50s | %-34s | %-34s |%n", "", "SunJCE", "Cukvashe");
    CALLS.forEach(
        (name, call) -> {
          String theirs = said(call, sun);
          String said = said(call, ours);
          System.out.printf("|%s%-50s | %-34s | %-34s |%n", theirs.equals(said) ? " " : "*", name, theirs, said);
        });
  }
}
