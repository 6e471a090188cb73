import java.security.AlgorithmParameters;
import java.security.Key;
import java.security.Provider;
import java.security.spec.AlgorithmParameterSpec;
import java.security.spec.KeySpec;
import java.util.Arrays;
import java.util.LinkedHashMap;
import java.util.Map;
import javax.crypto.Cipher;
import javax.crypto.SecretKey;
import javax.crypto.SecretKeyFactory;
import javax.crypto.interfaces.PBEKey;
import javax.crypto.spec.DESKeySpec;
import javax.crypto.spec.IvParameterSpec;
import javax.crypto.spec.PBEKeySpec;
import javax.crypto.spec.PBEParameterSpec;
import javax.crypto.spec.SecretKeySpec;

/** The odd calls of Exceptions that are of passwords. */
final class PasswordCalls {
  private static final int ENCRYPT = Cipher.ENCRYPT_MODE;
  private static final int DECRYPT = Cipher.DECRYPT_MODE;
  private static final PBEParameterSpec SALT = new PBEParameterSpec(new byte[] {1, 2, 3, 4, 5, 6, 7, 8}, 1000);

  private final Map<String, Exceptions.Call> calls;
  private final String name;

  /** A password with its salt, as Bouncy Castle's factories make it: its encoding is what was derived of them. */
  private record Salted(byte[] getSalt, int getIterationCount) implements PBEKey {
    @Override
    public char[] getPassword() {
      return "x".toCharArray();
    }

    @Override
    public String getAlgorithm() {
      return "PBEWithSHA1AndDESede";
    }

    @Override
    public String getFormat() {
      return "RAW";
    }

    @Override
    public byte[] getEncoded() {
      return new byte[24];
    }
  }

  private PasswordCalls(Map<String, Exceptions.Call> calls, String name) {
    this.calls = calls;
    this.name = name;
  }

  static void add(Map<String, Exceptions.Call> calls) {
    for (String name : new String[] {"PBEWithMD5AndDES", "PBEWithMD5AndTripleDES", "PBEWithSHA1AndDESede"}) {
      new PasswordCalls(calls, name).ciphers();
    }
    // Of all names these are one class each.
    PasswordCalls last = new PasswordCalls(calls, "PBEWithSHA1AndDESede");
    last.salted();
    last.factories();
    last.parameters();
  }

  private SecretKeyFactory factory(Provider provider) throws Exception {
    return SecretKeyFactory.getInstance(name, provider);
  }

  private SecretKey password(Provider provider, String text) throws Exception {
    return factory(provider).generateSecret(new PBEKeySpec(text.toCharArray()));
  }

  private Cipher cipher(Provider provider, int mode, Key key, AlgorithmParameterSpec spec) throws Exception {
    return Exceptions.cipher(provider, name, mode, key, spec);
  }

  private Cipher cipher(Provider provider, int mode, AlgorithmParameterSpec spec) throws Exception {
    return cipher(provider, mode, password(provider, "x"), spec);
  }

  private AlgorithmParameters parameters(Provider provider, AlgorithmParameterSpec spec) throws Exception {
    AlgorithmParameters parameters = AlgorithmParameters.getInstance(name, provider);
    parameters.init(spec);
    return parameters;
  }

  private AlgorithmParameters parameters(Provider provider, byte[] encoded) throws Exception {
    AlgorithmParameters parameters = AlgorithmParameters.getInstance(name, provider);
    parameters.init(encoded);
    return parameters;
  }

  private static String shown(AlgorithmParameters parameters) throws Exception {
    PBEParameterSpec spec = parameters.getParameterSpec(PBEParameterSpec.class);
    return spec.getSalt().length + " " + spec.getIterationCount();
  }

  /** The bytes of a cipher's own salt, which is another each time; how many iterations it takes differs between versions of SunJCE. */
  private String fresh(Cipher cipher) throws Exception {
    byte[] salt = cipher.getParameters().getParameterSpec(PBEParameterSpec.class).getSalt();
    Cipher other = cipher(cipher.getProvider(), DECRYPT, new PBEParameterSpec(salt, 10));
    cipher.init(ENCRYPT, password(cipher.getProvider(), "x"));
    boolean isOther = !Arrays.equals(salt, cipher.getParameters().getParameterSpec(PBEParameterSpec.class).getSalt());
    return salt.length + " " + other.getParameters().getAlgorithm() + (isOther ? "" : " again");
  }

  private void ciphers() {
    String kept = name.substring(7) + ": ";
    calls.put(kept + "no mode", p -> Cipher.getInstance(name, p));
    calls.put(kept + "CBC", p -> Cipher.getInstance(name + "/CBC/PKCS5Padding", p));
    calls.put(kept + "ECB", p -> Cipher.getInstance(name + "/ECB/PKCS5Padding", p));
    calls.put(kept + "NoPadding", p -> Cipher.getInstance(name + "/CBC/NoPadding", p));
    calls.put(kept + "getIV before init", p -> Cipher.getInstance(name, p).getIV());
    calls.put(kept + "getParameters before init", p -> fresh(Cipher.getInstance(name, p)));
    calls.put(kept + "encryption without salt", p -> {
      Cipher cipher = Cipher.getInstance(name, p);
      cipher.init(ENCRYPT, password(p, "x"));
      return fresh(cipher);
    });
    calls.put(kept + "decryption without salt", p -> cipher(p, DECRYPT, null));
    calls.put(kept + "other spec", p -> cipher(p, ENCRYPT, Exceptions.IV));
    calls.put(kept + "params of DESede", p -> {
      AlgorithmParameters parameters = AlgorithmParameters.getInstance("DESede", p);
      parameters.init(Exceptions.IV);
      Cipher cipher = Cipher.getInstance(name, p);
      cipher.init(ENCRYPT, password(p, "x"), parameters);
      return cipher;
    });
    for (int size : new int[] {0, 7, 9, 20}) {
      calls.put(kept + "salt of " + size, p -> cipher(p, ENCRYPT, new PBEParameterSpec(new byte[size], 1000)));
    }
    for (int iterations : new int[] {0, -1}) {
      calls.put(kept + iterations + " iterations", p -> cipher(p, ENCRYPT, new PBEParameterSpec(new byte[8], iterations)));
    }
    for (String text : new String[] {"a password", "", "~ ".repeat(100)}) {
      calls.put(kept + text.length() + " characters", p -> {
        Cipher cipher = cipher(p, ENCRYPT, password(p, text), SALT);
        return Exceptions.hex(cipher.doFinal(new byte[5])) + Exceptions.hex(cipher.getIV());
      });
    }
    calls.put(kept + "key null", p -> cipher(p, ENCRYPT, null, SALT));
    calls.put(kept + "key named DESede", p -> cipher(p, ENCRYPT, Exceptions.TRIPLE, SALT));
    calls.put(kept + "key named pbe", p -> Exceptions.hex(cipher(p, ENCRYPT, new SecretKeySpec(new byte[] {'x'}, "pbe"), SALT).doFinal()));
    calls.put(kept + "key without encoding", p -> cipher(p, ENCRYPT, new Exceptions.NoEncoding("PBE", "RAW", null), SALT));
    calls.put(kept + "7 bytes, decrypt", p -> cipher(p, DECRYPT, SALT).doFinal(new byte[7]));
    calls.put(kept + "zeros, decrypt", p -> cipher(p, DECRYPT, SALT).doFinal(new byte[16]));
    calls.put(kept + "wrap", p -> Exceptions.hex(cipher(p, Cipher.WRAP_MODE, SALT).wrap(Exceptions.TRIPLE)).substring(0, 32));
    calls.put(kept + "unwrap, bad padding", p -> {
      return cipher(p, Cipher.UNWRAP_MODE, SALT).unwrap(new byte[16], "DESede", Cipher.SECRET_KEY);
    });
  }

  private void salted() {
    byte[] salt = SALT.getSalt();
    Map<String, Salted> keys = new LinkedHashMap<>();
    keys.put("salt", new Salted(salt, 1000));
    keys.put("no salt", new Salted(null, 0));
    keys.put("another salt", new Salted(new byte[8], 1000));
    keys.put("another count", new Salted(salt, 1001));
    keys.forEach((of, key) -> {
      calls.put("PBE: key with " + of, p -> Exceptions.hex(cipher(p, ENCRYPT, key, SALT).doFinal(new byte[5])));
    });
    Salted key = keys.get("salt");
    calls.put("PBE: key with salt alone", p -> Exceptions.hex(cipher(p, ENCRYPT, key, null).doFinal(new byte[5])));
    calls.put("PBE: key with salt alone, decrypt", p -> cipher(p, DECRYPT, key, null).doFinal(new byte[0]).length);
    calls.put("PBE: key with no salt alone, decrypt", p -> cipher(p, DECRYPT, keys.get("no salt"), null));
  }

  private void factories() {
    for (KeySpec spec : new KeySpec[] {null, new SecretKeySpec(new byte[8], name)}) {
      calls.put("PBE: factory, " + (spec == null ? "null" : "SecretKeySpec"), p -> factory(p).generateSecret(spec));
    }
    calls.put("PBE: factory, zero", p -> password(p, "\0").getEncoded().length);
    calls.put("PBE: factory, cleared spec", p -> {
      PBEKeySpec spec = new PBEKeySpec("x".toCharArray());
      spec.clearPassword();
      return factory(p).generateSecret(spec);
    });
    calls.put("PBE: key", p -> {
      SecretKey key = password(p, "abc");
      return key.getAlgorithm() + " " + key.getFormat() + " " + new String(key.getEncoded());
    });
    calls.put("PBE: spec of a key", p -> {
      return new String(((PBEKeySpec) factory(p).getKeySpec(password(p, "abc"), PBEKeySpec.class)).getPassword());
    });
    calls.put("PBE: other spec of a key", p -> factory(p).getKeySpec(password(p, "abc"), DESKeySpec.class));
    calls.put("PBE: spec of DESede", p -> factory(p).getKeySpec(Exceptions.TRIPLE, PBEKeySpec.class));
    calls.put("PBE: translate", p -> {
      SecretKey made = factory(p).translateKey(new SecretKeySpec(new byte[] {'x'}, name));
      return made.getAlgorithm() + " " + new String(made.getEncoded()) + (made instanceof SecretKeySpec ? " itself" : "");
    });
    calls.put("PBE: translate DESede", p -> factory(p).translateKey(Exceptions.TRIPLE));
    calls.put("PBE: translate null", p -> factory(p).translateKey(null));
  }

  private void parameters() {
    calls.put("PBE: parameters", p -> Exceptions.hex(parameters(p, SALT).getEncoded()));
    for (int size : new int[] {200, 300}) {
      calls.put("PBE: parameters, salt of " + size, p -> {
        byte[] encoded = parameters(p, new PBEParameterSpec(new byte[size], 200)).getEncoded();
        return Exceptions.hex(encoded).substring(0, 16) + " " + shown(parameters(p, encoded));
      });
    }
    calls.put("PBE: parameters, IvParameterSpec", p -> parameters(p, Exceptions.IV));
    calls.put("PBE: parameters, other spec class", p -> parameters(p, SALT).getParameterSpec(IvParameterSpec.class));
    byte[] encoded = {0x30, 8, 4, 2, 11, 12, 2, 2, 1, 0};
    for (int at = 0; at < encoded.length; at++) {
      byte[] changed = encoded.clone();
      changed[at]++;
      calls.put("PBE: parameters, another byte " + at, p -> shown(parameters(p, changed)));
    }
    for (int length : new int[] {0, 1, 9, 11}) {
      byte[] other = Arrays.copyOf(encoded, length);
      calls.put("PBE: parameters, " + length + " bytes", p -> shown(parameters(p, other)));
    }
    byte[] more = Arrays.copyOf(encoded, 11);
    more[1]++;
    calls.put("PBE: parameters, 11 bytes, all within", p -> shown(parameters(p, more)));
    byte[] none = {0x30, 6, 4, 2, 11, 12, 2, 0};
    calls.put("PBE: parameters, no iterations", p -> shown(parameters(p, none)));
    byte[] many = {0x30, 11, 4, 2, 11, 12, 2, 5, 1, 0, 0, 0, 0};
    calls.put("PBE: parameters, 2^32 iterations", p -> shown(parameters(p, many)));
    byte[] huge = {0x30, (byte) 0x84, 0x7f, -1, -1, -1, 4};
    calls.put("PBE: parameters, a length of 2^31 - 1", p -> shown(parameters(p, huge)));
  }
}
