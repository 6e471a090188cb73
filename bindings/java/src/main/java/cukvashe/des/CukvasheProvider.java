package cukvashe.des;

import java.security.InvalidParameterException;
import java.security.Provider;
import java.util.List;
import java.util.Map;
import java.util.Objects;
import java.util.function.Function;

/**
 * The provider {@code Cukvashe}: ciphers {@code DES} and {@code DESede} in ECB and CBC, without padding or with that of PKCS#5, and in CTR,
 * OFB, CFB and CFB8; {@code DESedeWrap}; encryption under passwords by SunJCE's names ({@code PBEWith..}); CBC-MAC, retail MAC and CMAC
 * under the names of Bouncy Castle; key factories, key generators and parameters.
 *
 * <p>{@code Security.insertProviderAt(new CukvasheProvider(), 1)} or {@code security.provider.1=Cukvashe} in {@code java.security} makes it
 * the first. With the argument {@code no_tables} no call reads a table at an address that depends on a key or data: {@code new
 * CukvasheProvider().configure("no_tables")}, or {@code security.provider.1=Cukvashe no_tables}.
 *
 * <p>If the native library can't be loaded the provider offers nothing, and {@link #getInfo} says why: programs that ask for no provider
 * by name go on with the next one.
 */
public final class CukvasheProvider extends Provider {
  private static final long serialVersionUID = 1L;

  private final boolean readsTables;

  /** The provider with tables. */
  public CukvasheProvider() {
    this(true);
  }

  private CukvasheProvider(boolean readsTables) {
    super("Cukvashe", Native.VERSION, info(readsTables));
    this.readsTables = readsTables;
    if (Native.FAULT != null) {
      return;
    }
    for (Algorithm algorithm : Algorithm.values()) {
      List<String> aliases = algorithm == Algorithm.DESEDE ? List.of("TripleDES") : List.of();
      Map<String, String> attributes =
          Map.of("SupportedModes", Mode.NAMES, "SupportedPaddings", "NOPADDING|PKCS5PADDING|PKCS7PADDING", "SupportedKeyFormats", "RAW");
      add("Cipher", algorithm.title, aliases, attributes, provider -> new DesCipher(provider, algorithm, Mode.ECB));
      add("AlgorithmParameters", algorithm.title, aliases, Map.of(), provider -> new DesParameters());
      add("SecretKeyFactory", algorithm.title, aliases, Map.of(), provider -> new DesKeyFactory(algorithm));
      add("KeyGenerator", algorithm.title, aliases, Map.of(), provider -> new DesKeyGenerator(algorithm));
    }
    Map<String, String> attributes = Map.of("SupportedModes", "CBC", "SupportedPaddings", "NOPADDING", "SupportedKeyFormats", "RAW");
    add("Cipher", "DESedeWrap", List.of(), attributes, WrapCipher::new);
    for (PasswordScheme scheme : PasswordScheme.values()) {
      add("Cipher", scheme.title, scheme.aliases(), Map.of(), provider -> new PasswordCipher(provider, scheme));
      add("AlgorithmParameters", scheme.title, scheme.aliases(), Map.of(), provider -> new PasswordParameters());
      add("SecretKeyFactory", scheme.title, scheme.aliases(), Map.of(), provider -> new PasswordKeyFactory(scheme));
    }
    // Not DESMAC and DESEDEMAC, whose tags have 4 bytes in Bouncy Castle.
    mac(MacAlgorithm.CBC_MAC_DES_1, "DESMAC64", "DES64");
    mac(
        MacAlgorithm.CBC_MAC_DES_2,
        "DESMAC64WITHISO7816-4PADDING",
        "DES64WITHISO7816-4PADDING",
        "DESISO9797ALG1MACWITHISO7816-4PADDING",
        "DESISO9797ALG1WITHISO7816-4PADDING");
    mac(MacAlgorithm.CBC_MAC_TDES_1, "DESEDEMAC64", "DESEDE64");
    mac(
        MacAlgorithm.CBC_MAC_TDES_2,
        "DESEDEMAC64WITHISO7816-4PADDING",
        "DESEDE64WITHISO7816-4PADDING",
        "DESEDEISO9797ALG1MACWITHISO7816-4PADDING",
        "DESEDEISO9797ALG1WITHISO7816-4PADDING");
    mac(MacAlgorithm.RETAIL_MAC_1, "ISO9797ALG3MAC", "ISO9797ALG3", "DESWITHISO9797", "DESISO9797MAC");
    mac(MacAlgorithm.RETAIL_MAC_2, "ISO9797ALG3WITHISO7816-4PADDING", "ISO9797ALG3MACWITHISO7816-4PADDING");
    mac(MacAlgorithm.CMAC, "DESEDECMAC");
  }

  private static String info(boolean readsTables) {
    if (Native.FAULT != null) {
      return "nothing is offered: " + Native.FAULT.getMessage();
    }
    String offered = "DES and triple DES (ECB, CBC, CTR, OFB, CFB, CFB8, key wrap, under passwords), CBC-MAC, retail MAC, CMAC";
    return readsTables ? offered : offered + ", without tables";
  }

  boolean readsTables() {
    return readsTables;
  }

  /**
   * The provider without tables.
   *
   * @param argument {@code no_tables}. Any other has the same effect: if it were refused, Java would leave the provider out in silence, and
   *     take a cipher with tables from the next one.
   */
  @Override
  public Provider configure(String argument) {
    Objects.requireNonNull(argument);
    return new CukvasheProvider(false);
  }

  private void mac(MacAlgorithm algorithm, String name, String... aliases) {
    add("Mac", name, List.of(aliases), Map.of("SupportedKeyFormats", "RAW"), provider -> new DesMac(provider, algorithm));
  }

  private void add(
      String type, String name, List<String> aliases, Map<String, String> attributes, Function<CukvasheProvider, Object> maker) {
    putService(new Made(this, type, name, aliases, attributes, maker));
  }

  /** A service whose objects are made without reflection, so that their classes need not be public. */
  private static final class Made extends Service {
    private final Function<CukvasheProvider, Object> maker;

    Made(
        CukvasheProvider provider,
        String type,
        String name,
        List<String> aliases,
        Map<String, String> attributes,
        Function<CukvasheProvider, Object> maker) {
      super(provider, type, name, "cukvashe.des." + type, aliases, attributes);
      this.maker = maker;
    }

    @Override
    public Object newInstance(Object parameter) {
      if (parameter != null) {
        throw new InvalidParameterException(getType() + " takes no parameter");
      }
      return maker.apply((CukvasheProvider) getProvider());
    }
  }
}
