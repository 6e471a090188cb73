import cukvashe.des.Blocks;
import cukvashe.des.CardVerification;
import cukvashe.des.CukvasheException;
import cukvashe.des.CukvasheProvider;
import cukvashe.des.DecimalTable;
import cukvashe.des.Direction;
import cukvashe.des.Dukpt;
import cukvashe.des.DukptTerminal;
import cukvashe.des.Emv;
import cukvashe.des.HashFunction;
import cukvashe.des.KeyBlock;
import cukvashe.des.KeyBlockHeader;
import cukvashe.des.KeyWrap;
import cukvashe.des.Keys;
import cukvashe.des.MacAlgorithm;
import cukvashe.des.Macs;
import cukvashe.des.Padding;
import cukvashe.des.Passwords;
import cukvashe.des.Pin;
import cukvashe.des.PinBlocks;
import cukvashe.des.PinFormat;
import cukvashe.des.PinTranslation;
import cukvashe.des.PinVerification;
import cukvashe.des.Status;
import java.math.BigInteger;
import java.nio.charset.StandardCharsets;
import java.nio.file.Files;
import java.nio.file.Path;
import java.util.ArrayList;
import java.util.Arrays;
import java.util.Collections;
import java.util.HashMap;
import java.util.HexFormat;
import java.util.List;
import java.util.Locale;
import java.util.Map;
import java.util.Objects;
import java.util.regex.Matcher;
import java.util.regex.Pattern;
import java.util.stream.Collectors;
import java.util.stream.IntStream;
import javax.crypto.Mac;
import javax.crypto.SecretKey;

/**
 * KnownCalls CALLS MACS: the calls of bindings/known_calls.txt that Java has, which says there what its lines are, and the MACs of
 * bindings/known_macs.txt. Of errors the status is compared, since Java says by types what other languages say by lengths.
 */
public final class KnownCalls {
  interface Call {
    Object of(Arguments given) throws Exception;
  }

  /** What Java has no way to ask for, as a number that no int is. */
  static final class NotInJava extends Exception {
    private static final long serialVersionUID = 1L;
  }

  record Bare(byte[] bytes) implements SecretKey {
    @Override
    public String getAlgorithm() {
      return "DESede";
    }

    @Override
    public String getFormat() {
      return "RAW";
    }

    @Override
    public byte[] getEncoded() {
      return bytes.clone();
    }
  }

  record Arguments(List<Object> places, Map<String, Object> named) {
    byte[] bytes(int at) {
      return (byte[]) places.get(at);
    }

    SecretKey key(int at) {
      return new Bare(bytes(at));
    }

    SecretKey key(String name) {
      return new Bare((byte[]) named.get(name));
    }

    String text(int at) {
      return (String) places.get(at);
    }

    Pin pin(int at) {
      return Pin.of(text(at).toCharArray());
    }

    int number(int at) throws NotInJava {
      return number(places.get(at));
    }

    static int number(Object value) throws NotInJava {
      if (((BigInteger) value).bitLength() > 31) {
        throw new NotInJava();
      }
      return ((BigInteger) value).intValue();
    }

    Direction direction(int at) {
      return places.size() > at && (Boolean) places.get(at) ? Direction.RESPONSE : Direction.REQUEST;
    }

    PinFormat format(int at) throws NotInJava {
      switch (number(at)) {
        case 0:
          return PinFormat.ISO_0;
        case 1:
          return PinFormat.ISO_1;
        case 3:
          return PinFormat.ISO_3;
        default:
          throw new NotInJava();
      }
    }

    HashFunction hash(Object name) throws NotInJava {
      for (HashFunction it : HashFunction.values()) {
        if (it.name().toLowerCase(Locale.ROOT).equals(name)) {
          return it;
        }
      }
      throw new NotInJava();
    }

    Padding padding(int at) throws NotInJava {
      for (Padding it : Padding.values()) {
        if (it.name().toLowerCase(Locale.ROOT).equals(text(at))) {
          return it;
        }
      }
      throw new NotInJava();
    }

    int size(int at) {
      return SIZES.get(places.get(at));
    }
  }

  static final Map<Object, Integer> SIZES = Map.of(new Name("Des"), 8, new Name("TdesEde2"), 16, new Name("TdesEde3"), 24);

  record Name(String name) {}

  static final Map<String, Call> CALLS = new HashMap<>();

  static {
    CALLS.put("is_weak_key", it -> Keys.isWeak(it.key(0)));
    CALLS.put("with_odd_parity", it -> Keys.withOddParity(it.key(0)));
    CALLS.put("equal_but_parity", it -> Keys.areEqualButParity(it.key(0), it.key(1)));
    CALLS.put("key_check_value", it -> Keys.checkValue(it.key(0)));
    CALLS.put("short_key_check_value", it -> Keys.shortCheckValue(it.key(0)));
    CALLS.put(
        "combine",
        it -> {
          SecretKey[] others = IntStream.range(2, it.places().size()).mapToObj(it::key).toArray(SecretKey[]::new);
          return Keys.combine(it.key(0), it.key(1), others);
        });
    CALLS.put("dukpt_initial_key", it -> Dukpt.initialKey(it.key(0), it.bytes(1)));
    CALLS.put("dukpt_transaction_key", it -> Dukpt.transactionKey(it.key(0), it.bytes(1)));
    CALLS.put("dukpt_transaction_keys_from_base", it -> Dukpt.transactionKeysFromBase(it.key(0), it.bytes(1)));
    CALLS.put("dukpt_pin_key", it -> Dukpt.pinKey(it.key(0)));
    CALLS.put("dukpt_mac_key", it -> Dukpt.macKey(it.key(0), it.direction(1)));
    CALLS.put("dukpt_data_key", it -> Dukpt.dataKey(it.key(0), it.direction(1)));
    CALLS.put("dukpt_data_variant", it -> Dukpt.dataVariant(it.key(0), it.direction(1)));
    CALLS.put("dukpt_is_usable", it -> Dukpt.isUsable(it.bytes(0)));
    CALLS.put(
        "dukpt_next_serial",
        it -> {
          try {
            return Dukpt.nextSerial(it.bytes(0));
          } catch (CukvasheException error) {
            return error.status() == Status.NO_SERIAL ? null : error;
          }
        });
    CALLS.put("DukptTerminal", it -> DukptTerminal.of(it.key(0), it.bytes(1)));
    CALLS.put("DukptTerminal.from_state", it -> DukptTerminal.ofState(it.bytes(0)));
    CALLS.put("pin_encode_0", it -> PinBlocks.encode0(it.pin(0), it.text(1)));
    CALLS.put("pin_encode_1", it -> PinBlocks.encode1(it.pin(0), it.bytes(1)));
    CALLS.put("pin_encode_2", it -> PinBlocks.encode2(it.pin(0)));
    CALLS.put("pin_encode_3", it -> PinBlocks.encode3(it.pin(0), it.text(1), it.bytes(2)));
    CALLS.put("pin_decode_0", it -> PinBlocks.decode0(it.bytes(0), it.text(1)));
    CALLS.put("pin_decode_1", it -> PinBlocks.decode1(it.bytes(0)));
    CALLS.put("pin_decode_2", it -> PinBlocks.decode2(it.bytes(0)));
    CALLS.put("pin_decode_3", it -> PinBlocks.decode3(it.bytes(0), it.text(1)));
    CALLS.put(
        "pin_translate_to_0",
        it ->
            PinTranslation.from(it.format(0), it.key("incoming_key"))
                .to(PinFormat.ISO_0, it.key("outgoing_key"))
                .translate(it.bytes(2), it.text(1)));
    CALLS.put(
        "pin_translate_to_1",
        it ->
            PinTranslation.from(PinFormat.ISO_1, it.key("incoming_key"))
                .to(PinFormat.ISO_1, it.key("outgoing_key"))
                .translate(it.bytes(0), null));
    CALLS.put(
        "pin_translate_to_3",
        it ->
            PinTranslation.from(it.format(0), it.key("incoming_key"))
                .to(PinFormat.ISO_3, it.key("outgoing_key"))
                .translate(it.bytes(3), it.text(1), it.bytes(2)));
    CALLS.put("DecimalTable", it -> DecimalTable.of(it.text(0)));
    CALLS.put("DecimalTable.of_any_variety", it -> DecimalTable.ofAnyVariety(it.text(0)));
    CALLS.put("pvv", it -> PinVerification.pvv(it.key(0), it.text(1), it.number(2), it.pin(3)));
    CALLS.put(
        "pvv_verify",
        it -> {
          PinVerification.verifyPvv(it.key(0), it.text(1), it.number(2), it.pin(3), it.text(4));
          return "right";
        });
    CALLS.put("natural_pin", it -> PinVerification.naturalPin(it.key(0), (DecimalTable) it.places().get(1), it.bytes(2), it.number(3)));
    CALLS.put("pin_offset", it -> PinVerification.offset(it.key(0), (DecimalTable) it.places().get(1), it.bytes(2), it.pin(3)));
    CALLS.put(
        "pin_offset_verify",
        it -> {
          PinVerification.verifyOffset(it.key(0), (DecimalTable) it.places().get(1), it.bytes(2), it.pin(3), it.text(4));
          return "right";
        });
    CALLS.put("cvv", it -> CardVerification.cvv(it.key(0), it.text(1), it.text(2), it.text(3)));
    CALLS.put("emv_card_key", it -> Emv.cardKey(it.key(0), it.text(1), it.text(2)));
    CALLS.put("emv_card_key_b", it -> Emv.cardKeyB(it.key(0), it.text(1), it.text(2)));
    CALLS.put("emv_application_key", it -> Emv.applicationKey(it.key(0), it.bytes(1)));
    CALLS.put("emv_session_key", it -> Emv.sessionKey(it.key(0), it.bytes(1)));
    CALLS.put("emv_application_cryptogram", it -> Emv.applicationCryptogram(it.key(0), it.bytes(1)));
    CALLS.put("emv_response_1", it -> Emv.response1(it.key(0), it.bytes(1), it.bytes(2)));
    CALLS.put(
        "emv_response_2",
        it -> Emv.response2(it.key(0), it.bytes(1), it.bytes(2), it.places().size() > 3 ? it.bytes(3) : new byte[0]));
    CALLS.put(
        "unwrap_key_block",
        it -> {
          KeyBlock block = KeyBlock.unwrap(it.key(0), it.text(1));
          return List.of(block.header(), block.key());
        });
    CALLS.put("key_block_header", it -> KeyBlock.header(it.text(0)));
    CALLS.put("key_block_context", it -> "" + KeyBlock.context(it.text(0)));
    CALLS.put(
        "key_block_optional_blocks",
        it -> KeyBlock.optionalBlocks(it.text(0)).stream().map(one -> List.of(one.name(), one.content())).collect(Collectors.toList()));
    CALLS.put(
        "wrap_key_block",
        it -> {
          List<?> pairs = (List<?>) it.named().getOrDefault("optional", List.of());
          KeyBlock.Optional[] optional =
              pairs.stream()
                  .map(pair -> KeyBlock.Optional.of((String) ((List<?>) pair).get(0), (String) ((List<?>) pair).get(1)))
                  .toArray(KeyBlock.Optional[]::new);
          KeyBlockHeader header = (KeyBlockHeader) it.places().get(1);
          byte[] padding = (byte[]) it.named().get("padding");
          int length = it.bytes(2).length;
          return padding == null
              ? KeyBlock.wrap(it.key(0), header, it.key(2), length, optional)
              : KeyBlock.wrap(it.key(0), header, it.key(2), length, padding, optional);
        });
    CALLS.put("cms_wrap_key", it -> KeyWrap.wrapCms(it.key(0), it.bytes(1), (byte[]) it.named().get("iv")));
    CALLS.put("cms_unwrap_key", it -> KeyWrap.unwrapCms(it.key(0), it.bytes(1)));
    CALLS.put("tkw_wrap_key", it -> KeyWrap.wrapTkw(it.key(0), it.bytes(1)));
    CALLS.put("tkw_unwrap_key", it -> KeyWrap.unwrapTkw(it.key(0), it.bytes(1)));
    CALLS.put(
        "pbkdf2", it -> Passwords.pbkdf2(it.hash(it.text(0)), it.bytes(1), it.bytes(2), it.number(3), positive(it.number(4))));
    CALLS.put("bytes_to_key", it -> Passwords.bytesToKey(it.hash(it.text(0)), it.bytes(1), it.bytes(2), positive(it.number(3))));
    CALLS.put(
        "pbe_key", it -> Passwords.pbeKey(it.text(0), it.bytes(1), it.bytes(2), it.number(3), positive(it.number(4))));
    CALLS.put(
        "open_salted",
        it -> {
          int iterations = it.named().containsKey("iterations") ? Arguments.number(it.named().get("iterations")) : 0;
          if (it.named().containsKey("iterations") && iterations == 0) {
            throw new NotInJava(); // 0 is that of no iterations
          }
          HashFunction hash = it.hash(it.named().getOrDefault("hash_name", "sha256"));
          return Passwords.openSalted(it.size(0), hash, iterations, it.bytes(1), it.bytes(2));
        });
    CALLS.put("encrypt_each", it -> Blocks.encryptEach(it.size(0), it.bytes(1), it.bytes(2)));
    CALLS.put("decrypt_each", it -> Blocks.decryptEach(it.size(0), it.bytes(1), it.bytes(2)));
    CALLS.put("pad", it -> it.padding(1).pad(it.bytes(0)));
    CALLS.put("unpad", it -> it.padding(1).unpad(it.bytes(0)));
    CALLS.put("check_values", it -> Keys.checkValues(it.size(0), it.bytes(1)));
  }

  static int positive(int length) throws NotInJava {
    if (length <= 0) {
      throw new NotInJava();
    }
    return length;
  }

  /** The errors of other languages that are no status of the same name. */
  static final Map<String, String> STATUSES =
      Map.of(
          "BlockLength", "BLOCKS",
          "PaddingMismatch", "PADDING",
          "CountMismatch", "COUNTS",
          "KeyBlockVersion", "VERSION",
          "KeyBlockField", "HEADER",
          "HashName", "HASH",
          "AlgorithmName", "ALGORITHM",
          "IterationCount", "ITERATIONS");

  /** Those that are an IllegalArgumentException, or in lists another status. */
  static final List<String> OF_TYPES =
      List.of("BlockLength", "VectorLength", "SerialLength", "FillLength", "StateLength", "DataLength", "KeyBlockField", "KeyBlockVersion");

  static final String TEXT = "\"(?:[^\"\\\\]|\\\\.)*\"";
  static final Pattern WORDS = Pattern.compile("(?:" + TEXT + "|[^\\s\"])+");
  static final Pattern WORD =
      Pattern.compile("(x[0-9a-f]*|" + TEXT + "|[A-Z][A-Z_0-9]*)(?:\\*([0-9]+))?(?:@([0-9]+)=(.+))?(?:<([0-9]+))?");

  static final Map<String, Object> NAMES = new HashMap<>();
  static int made;
  static int left;

  static List<String> words(String line) {
    return WORDS.matcher(line).results().map(it -> it.group()).collect(Collectors.toCollection(ArrayList::new));
  }

  /** JSON, as far as the file has it: texts, numbers, lists. */
  static final class Json {
    private final String text;
    private int at;

    Json(String text) {
      this.text = text;
    }

    Object value() {
      char first = text.charAt(at);
      if (first == '"') {
        return string();
      }
      if (first == '[') {
        List<Object> list = new ArrayList<>();
        at++;
        while (text.charAt(at) != ']') {
          list.add(value());
          at += text.charAt(at) == ',' ? 1 : 0;
        }
        at++;
        return list;
      }
      int begin = at;
      while (at < text.length() && "-0123456789".indexOf(text.charAt(at)) >= 0) {
        at++;
      }
      return new BigInteger(text.substring(begin, at));
    }

    private String string() {
      StringBuilder made = new StringBuilder();
      for (at++; text.charAt(at) != '"'; at++) {
        char it = text.charAt(at);
        if (it == '\\') {
          it = text.charAt(++at);
          if (it == 'u') {
            it = (char) Integer.parseInt(text.substring(at + 1, at + 5), 16);
            at += 4;
          } else if (it == 'n') {
            it = '\n';
          }
        }
        made.append(it);
      }
      at++;
      return made.toString();
    }
  }

  static Object value(String word) throws Exception {
    int colon = word.indexOf(':');
    String kind = colon < 0 ? "" : word.substring(0, colon);
    if (kind.equals("table")) {
      return DecimalTable.of((String) new Json(word.substring(colon + 1)).value());
    }
    if (kind.equals("any_table")) {
      return DecimalTable.ofAnyVariety((String) new Json(word.substring(colon + 1)).value());
    }
    if (kind.equals("header")) {
      List<?> fields = (List<?>) new Json(word.substring(colon + 1)).value();
      for (int at : new int[] {0, 2, 3, 5}) {
        if (((String) fields.get(at)).length() != 1) {
          throw new NotInJava(); // there a char
        }
      }
      String[] texts = fields.toArray(String[]::new);
      return KeyBlockHeader.of(texts[0].charAt(0), texts[1], texts[2].charAt(0), texts[3].charAt(0), texts[4], texts[5].charAt(0));
    }
    Matcher whole = WORD.matcher(word);
    if (!whole.matches()) {
      switch (word) {
        case "true":
        case "false":
          return word.equals("true");
        case "null":
          return null;
        case "right":
          return word;
        default:
          return Character.isLetter(word.charAt(0)) ? new Name(word) : new Json(word).value();
      }
    }
    String base = whole.group(1);
    Object value =
        base.startsWith("x")
            ? HexFormat.of().parseHex(base.substring(1))
            : base.startsWith("\"") ? new Json(base).value() : Objects.requireNonNull(NAMES.get(base), base);
    if (!(value instanceof byte[]) && !(value instanceof String)) {
      return value;
    }
    boolean isText = value instanceof String;
    // One character for each byte, so that texts and bytes are cut alike.
    String text = isText ? (String) value : new String((byte[]) value, StandardCharsets.ISO_8859_1);
    if (whole.group(2) != null) {
      text = text.repeat(Integer.parseInt(whole.group(2)));
    }
    if (whole.group(3) != null) {
      int place = Integer.parseInt(whole.group(3));
      String other = isText ? (String) new Json('"' + whole.group(4) + '"').value() : "" + (char) Integer.parseInt(whole.group(4), 16);
      text = text.substring(0, place) + other + text.substring(place + 1);
    }
    if (whole.group(5) != null) {
      text = text.substring(0, Integer.parseInt(whole.group(5)));
    }
    return isText ? text : text.getBytes(StandardCharsets.ISO_8859_1);
  }

  static String shown(Object value) {
    if (value instanceof SecretKey key) {
      return shown(key.getEncoded());
    }
    if (value instanceof byte[] bytes) {
      return "x" + HexFormat.of().formatHex(bytes);
    }
    if (value instanceof Pin pin) {
      return new String(pin.digits());
    }
    return String.valueOf(value);
  }

  static void comes(String line, String outcome) throws Exception {
    List<String> words = words(line);
    Call call = CALLS.get(words.remove(0));
    if (call == null) {
      left++;
      return;
    }
    try {
      Arguments given = new Arguments(new ArrayList<>(), new HashMap<>());
      boolean refuses = outcome.startsWith("!");
      String said = "";
      try {
        for (String word : words) {
          int sign = word.indexOf('=');
          if (sign > 0 && word.substring(0, sign).matches("[a-z_]+")) {
            given.named().put(word.substring(0, sign), value(word.substring(sign + 1)));
          } else {
            given.places().add(value(word));
          }
        }
        Object answer = call.of(given);
        List<?> all = line.startsWith("unwrap") ? (List<?>) answer : Collections.singletonList(answer);
        said = "= " + all.stream().map(KnownCalls::shown).collect(Collectors.joining(" "));
      } catch (CukvasheException error) {
        said = "! " + error.status();
        if (!error.getMessage().equals(error.status().sentence())) {
          throw new AssertionError(error.getMessage());
        }
      } catch (IllegalArgumentException error) {
        said = "! IllegalArgumentException";
      }
      String wanted = outcome;
      if (refuses) {
        String fault = outcome.split(" ")[1];
        String status = STATUSES.getOrDefault(fault, fault.replaceAll("(?<=[a-z])(?=[A-Z])", "_").toUpperCase(Locale.ROOT));
        boolean isOfType = OF_TYPES.contains(fault) && said.equals("! IllegalArgumentException");
        // In lists Java names what does not agree, not what is not whole.
        boolean isOfList = outcome.contains(" bytes are not whole ") && said.equals("! COUNTS");
        boolean isOfOptional = fault.equals("OptionalBlock") && said.equals("! OPTIONAL_BLOCK");
        wanted = isOfType || isOfList || isOfOptional ? said : "! " + status;
      } else {
        List<String> shown = new ArrayList<>();
        for (String word : words(outcome.substring(2))) {
          shown.add(shown(value(word)));
        }
        wanted = "= " + String.join(" ", shown);
      }
      made++;
      if (!said.equals(wanted)) {
        throw new AssertionError(line + "\n  gives " + said + "\n  and not " + wanted);
      }
    } catch (NotInJava it) {
      left++;
    }
  }

  /** The words that a line beginning with `for` says. */
  static List<String> each(List<String> words) {
    if (words.size() < 2 || !words.get(1).equals("but")) {
      return words;
    }
    List<String> lengths = new ArrayList<>();
    for (int length = 0; length < 34; length++) {
      boolean isIn = false;
      for (String word : words.subList(2, words.size())) {
        String[] ends = word.split("-");
        isIn |= Integer.parseInt(ends[0]) <= length && length <= Integer.parseInt(ends[ends.length - 1]);
      }
      if (!isIn) {
        // Bytes that differ: 24 of one value are a key of two parts.
        byte[] bytes = new byte[length];
        for (int at = 0; at < length; at++) {
          bytes[at] = (byte) at;
        }
        lengths.add(words.get(0).equals("bytes") ? "x" + HexFormat.of().formatHex(bytes) : "\"1\"*" + length);
      }
    }
    return lengths;
  }

  static void calls(String file) throws Exception {
    String outcome = "";
    List<String> words = List.of("");
    for (String line : Files.readAllLines(Path.of(file))) {
      if (line.isBlank() || line.startsWith("#")) {
        continue;
      }
      if (line.startsWith("=") || line.startsWith("!")) {
        outcome = line;
        continue;
      }
      for (String call : line.strip().split(" ; ")) {
        if (call.startsWith("for ")) {
          List<String> said = words(call);
          words = each(said.subList(1, said.size()));
          continue;
        }
        String[] sides = call.split(" = ", 2);
        if (sides.length == 2 && sides[0].matches("[A-Z_]+")) {
          NAMES.put(sides[0], value(sides[1]));
        } else if (sides.length == 2) {
          comes(sides[0], "= " + sides[1]);
        } else if (call.contains("?")) {
          for (String word : words) {
            comes(call.replace("?", word), outcome);
          }
        } else {
          comes(call, outcome);
        }
      }
    }
    if (made < 4000) {
      throw new AssertionError("only " + made + " calls were made");
    }
    System.out.println(made + " known calls; Java does not have " + left + " others");
  }

  static void macs(String file) throws Exception {
    Map<String, String> names =
        Map.of(
            "cbc_mac_des1", "DESMAC64 CBC_MAC_DES_1",
            "cbc_mac_des2", "DESMAC64WITHISO7816-4PADDING CBC_MAC_DES_2",
            "cbc_mac_tdes1", "DESEDEMAC64 CBC_MAC_TDES_1",
            "cbc_mac_tdes2", "DESEDEMAC64WITHISO7816-4PADDING CBC_MAC_TDES_2",
            "retail_mac_des1", "ISO9797ALG3MAC RETAIL_MAC_1",
            "retail_mac_des2", "ISO9797ALG3WITHISO7816-4PADDING RETAIL_MAC_2",
            "cmac_tdes-", "DESEDECMAC CMAC");
    int count = 0;
    for (String line : Files.readAllLines(Path.of(file))) {
      if (line.isBlank() || line.startsWith("#")) {
        continue;
      }
      String[] words = line.split(" ");
      String[] ours = names.get(words[0].replaceAll("_ede[23]", "") + words[1]).split(" ");
      byte[] key = HexFormat.of().parseHex(words[2]);
      byte[] tag = HexFormat.of().parseHex(words[4]);
      byte[] message = new byte[Integer.parseInt(words[3])];
      for (int at = 0; at < message.length; at++) {
        message[at] = (byte) (at % 251);
      }
      for (String argument : new String[] {"", "no_tables"}) {
        Mac mac = Mac.getInstance(ours[0], argument.isEmpty() ? new CukvasheProvider() : new CukvasheProvider().configure(argument));
        mac.init(new Bare(key));
        same(mac.doFinal(message), tag, line);
      }
      MacAlgorithm algorithm = MacAlgorithm.valueOf(ours[1]);
      byte[] tags = Macs.tags(algorithm, new Bare(key), message, new byte[0], message);
      same(Arrays.copyOf(tags, 8), tag, line);
      same(Arrays.copyOfRange(tags, 16, 24), tag, line);
      byte[] keys = Arrays.copyOf(key, 2 * key.length);
      System.arraycopy(key, 0, keys, key.length, key.length);
      same(Arrays.copyOfRange(Macs.tagsEach(algorithm, key.length, keys, new byte[3], message), 8, 16), tag, line);
      count++;
    }
    System.out.println(count + " known MACs");
  }

  static void same(byte[] ours, byte[] theirs, String line) {
    if (!Arrays.equals(ours, theirs)) {
      throw new AssertionError(line + " gives " + HexFormat.of().formatHex(ours));
    }
  }

  public static void main(String[] arguments) throws Exception {
    calls(arguments[0]);
    macs(arguments[1]);
  }
}
