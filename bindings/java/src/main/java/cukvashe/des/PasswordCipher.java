package cukvashe.des;

import java.nio.charset.CharacterCodingException;
import java.security.AlgorithmParameters;
import java.security.InvalidAlgorithmParameterException;
import java.security.InvalidKeyException;
import java.security.Key;
import java.security.NoSuchAlgorithmException;
import java.security.ProviderException;
import java.security.SecureRandom;
import java.security.spec.AlgorithmParameterSpec;
import java.security.spec.InvalidParameterSpecException;
import java.util.Arrays;
import javax.crypto.Cipher;
import javax.crypto.NoSuchPaddingException;
import javax.crypto.interfaces.PBEKey;
import javax.crypto.spec.IvParameterSpec;
import javax.crypto.spec.PBEParameterSpec;

/** Encryption under a password: CBC with padding, whose key and vector come of the password, a salt and a number of iterations. */
final class PasswordCipher extends DesCipher {
  private final CukvasheProvider provider;
  private final PasswordScheme scheme;
  private PBEParameterSpec parameters;

  PasswordCipher(CukvasheProvider provider, PasswordScheme scheme) {
    super(provider, scheme.algorithm, Mode.CBC);
    this.provider = provider;
    this.scheme = scheme;
  }

  @Override
  protected void engineSetMode(String mode) throws NoSuchAlgorithmException {
    if (!mode.equalsIgnoreCase("CBC")) {
      throw new NoSuchAlgorithmException("there is no mode " + mode + " of " + scheme.title);
    }
  }

  @Override
  protected void engineSetPadding(String padding) throws NoSuchPaddingException {
    if (!padding.equalsIgnoreCase("PKCS5Padding")) {
      throw new NoSuchPaddingException("there is no padding " + padding + " of " + scheme.title);
    }
  }

  @Override
  protected int engineGetKeySize(Key key) {
    return 7 * scheme.keySize;
  }

  @Override
  protected AlgorithmParameters engineGetParameters() {
    try {
      AlgorithmParameters made = AlgorithmParameters.getInstance(scheme.title, provider);
      made.init(parameters == null ? fresh(null) : parameters);
      return made;
    } catch (NoSuchAlgorithmException | InvalidParameterSpecException impossible) {
      throw new ProviderException(impossible);
    }
  }

  private PBEParameterSpec fresh(SecureRandom random) {
    byte[] salt = new byte[scheme.saltSize()];
    (random == null ? new SecureRandom() : random).nextBytes(salt);
    return new PBEParameterSpec(salt, PasswordScheme.ITERATIONS);
  }

  @Override
  protected void engineInit(int opmode, Key key, AlgorithmParameters parameters, SecureRandom random)
      throws InvalidKeyException, InvalidAlgorithmParameterException {
    try {
      engineInit(opmode, key, parameters == null ? null : parameters.getParameterSpec(PBEParameterSpec.class), random);
    } catch (InvalidParameterSpecException error) {
      throw new InvalidAlgorithmParameterException("the parameters have no salt", error);
    }
  }

  @Override
  protected void engineInit(int opmode, Key key, AlgorithmParameterSpec given, SecureRandom random)
      throws InvalidKeyException, InvalidAlgorithmParameterException {
    boolean isInverse = opmode == Cipher.DECRYPT_MODE || opmode == Cipher.UNWRAP_MODE;
    PBEParameterSpec ofKey = parametersOf(key);
    if (given == null && ofKey == null && isInverse) {
      throw new InvalidAlgorithmParameterException("decryption needs the salt and the number of iterations");
    }
    PBEParameterSpec spec = given != null ? checked(given) : ofKey != null ? checked(ofKey) : fresh(random);
    if (ofKey != null && !(Arrays.equals(ofKey.getSalt(), spec.getSalt()) && ofKey.getIterationCount() == spec.getIterationCount())) {
      throw new InvalidAlgorithmParameterException("the key has another salt or number of iterations");
    }
    byte[] password = passwordOf(key);
    try (Secret both = Secret.buffer(scheme.keySize + Native.BLOCK_SIZE)) {
      int status = Native.pbeKey(Secret.text(scheme.title), spec.getIterationCount(), password, spec.getSalt(), both.bytes);
      if (status != 0) {
        throw new InvalidKeyException(Status.of(status).sentence());
      }
      DesKey derived = new DesKey(scheme.algorithm.title, Arrays.copyOf(both.bytes, scheme.keySize));
      super.engineInit(opmode, derived, new IvParameterSpec(both.bytes, scheme.keySize, Native.BLOCK_SIZE), random);
      derived.destroy();
      parameters = spec;
    } finally {
      Arrays.fill(password, (byte) 0);
    }
  }

  private PBEParameterSpec checked(AlgorithmParameterSpec given) throws InvalidAlgorithmParameterException {
    if (!(given instanceof PBEParameterSpec)) {
      throw new InvalidAlgorithmParameterException("the parameters are not a PBEParameterSpec");
    }
    PBEParameterSpec spec = (PBEParameterSpec) given;
    if (!scheme.takes(spec.getSalt().length)) {
      throw new InvalidAlgorithmParameterException("the salt does not have 8 bytes");
    }
    if (spec.getIterationCount() <= 0) {
      throw new InvalidAlgorithmParameterException(Status.ITERATIONS.sentence());
    }
    return spec;
  }

  /** The salt and the number of iterations of a key that has them, or null. */
  private static PBEParameterSpec parametersOf(Key key) {
    byte[] salt = key instanceof PBEKey ? ((PBEKey) key).getSalt() : null;
    if (salt == null) {
      return null;
    }
    int iterations = ((PBEKey) key).getIterationCount();
    return new PBEParameterSpec(salt, iterations == 0 ? PasswordScheme.ITERATIONS : iterations);
  }

  /** The bytes of a password, which the caller overwrites. */
  private byte[] passwordOf(Key key) throws InvalidKeyException {
    if (key == null || !key.getAlgorithm().regionMatches(true, 0, "PBE", 0, 3)) {
      throw new InvalidKeyException("the key is not that of a password");
    }
    // The encoding of such a key may be what was derived of its password.
    if (key instanceof PBEKey) {
      char[] characters = ((PBEKey) key).getPassword();
      try {
        return PasswordKeyFactory.encoded(characters);
      } catch (CharacterCodingException error) {
        throw new InvalidKeyException("the password is no text", error);
      } finally {
        Arrays.fill(characters, '\0');
      }
    }
    byte[] bytes = Algorithm.rawOf(key);
    // SunJCE's sign for a password that has not even the zeros at its end, which no call here takes.
    if (scheme == PasswordScheme.SHA1_TRIPLE_DES && bytes.length == 1 && bytes[0] == 0) {
      throw new InvalidKeyException("there is no password");
    }
    return bytes;
  }
}
