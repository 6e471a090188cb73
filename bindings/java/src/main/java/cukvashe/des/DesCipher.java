package cukvashe.des;

import java.lang.invoke.MethodHandles;
import java.lang.invoke.VarHandle;
import java.nio.ByteBuffer;
import java.nio.ByteOrder;
import java.security.AlgorithmParameters;
import java.security.InvalidAlgorithmParameterException;
import java.security.InvalidKeyException;
import java.security.Key;
import java.security.NoSuchAlgorithmException;
import java.security.ProviderException;
import java.security.SecureRandom;
import java.security.spec.AlgorithmParameterSpec;
import java.util.Arrays;
import java.util.Locale;
import javax.crypto.BadPaddingException;
import javax.crypto.Cipher;
import javax.crypto.CipherSpi;
import javax.crypto.IllegalBlockSizeException;
import javax.crypto.NoSuchPaddingException;
import javax.crypto.ShortBufferException;

/**
 * DES and triple DES in ECB, CBC, and the modes without padding, which hold no bytes.
 *
 * <p>All work is in place: the input is copied to where the output goes, after the pending bytes, and the blocks there are encrypted or
 * decrypted. So arrays may overlap in any way. What stays pending for the next call is saved before anything is written, and sizes are
 * known before: a call whose output is too short changes nothing. Faults come in SunJCE's order.
 */
class DesCipher extends CipherSpi {
  private static final VarHandle WORDS = MethodHandles.byteArrayViewVarHandle(long[].class, ByteOrder.BIG_ENDIAN);
  private static final int BLOCK = Native.BLOCK_SIZE;

  private final CukvasheProvider provider;
  private final Algorithm algorithm;
  private Mode mode;
  private boolean pads = true;

  private RoundKeys keys;
  private boolean decrypts;
  private boolean hasIv;
  private long iv;
  private long chainingValue;

  /** Where a mode without padding stands. */
  private final long[] stream = new long[Native.STREAM_WORDS];

  /** Bytes that wait for a whole block; in decryption with padding also a block that may be the last. */
  private byte[] pending = new byte[2 * BLOCK];

  private byte[] spare = new byte[2 * BLOCK];
  private int count;

  DesCipher(CukvasheProvider provider, Algorithm algorithm, Mode mode) {
    this.provider = provider;
    this.algorithm = algorithm;
    this.mode = mode;
  }

  @Override
  protected void engineSetMode(String mode) throws NoSuchAlgorithmException {
    this.mode = Mode.of(mode);
    pads &= !this.mode.isStream();
  }

  @Override
  protected void engineSetPadding(String padding) throws NoSuchPaddingException {
    String name = padding.toUpperCase(Locale.ROOT);
    pads = name.equals("PKCS5PADDING") || name.equals("PKCS7PADDING");
    if (pads ? mode.isStream() : !name.equals("NOPADDING")) {
      throw new NoSuchPaddingException("there is no padding " + padding + " in " + mode);
    }
  }

  @Override
  protected int engineGetBlockSize() {
    return BLOCK;
  }

  @Override
  protected int engineGetKeySize(Key key) throws InvalidKeyException {
    return algorithm.bits(key);
  }

  @Override
  protected int engineGetOutputSize(int length) {
    int total = Math.addExact(count, length);
    return pads && !decrypts ? Math.addExact(total, BLOCK - total % BLOCK) : total;
  }

  @Override
  protected byte[] engineGetIV() {
    if (!hasIv) {
      return null;
    }
    byte[] bytes = new byte[BLOCK];
    WORDS.set(bytes, 0, iv);
    return bytes;
  }

  @Override
  protected AlgorithmParameters engineGetParameters() {
    if (mode == Mode.ECB) {
      return null;
    }
    return Vectors.parameters(hasIv ? engineGetIV() : Vectors.random(null), algorithm, provider);
  }

  // -- Keys and vectors --

  @Override
  protected void engineInit(int opmode, Key key, SecureRandom random) throws InvalidKeyException {
    try {
      engineInit(opmode, key, (AlgorithmParameterSpec) null, random);
    } catch (InvalidAlgorithmParameterException error) {
      throw new InvalidKeyException(error.getMessage());
    }
  }

  @Override
  protected void engineInit(int opmode, Key key, AlgorithmParameters parameters, SecureRandom random)
      throws InvalidKeyException, InvalidAlgorithmParameterException {
    engineInit(opmode, key, Vectors.specOf(parameters), random);
  }

  @Override
  protected void engineInit(int opmode, Key key, AlgorithmParameterSpec parameters, SecureRandom random)
      throws InvalidKeyException, InvalidAlgorithmParameterException {
    boolean isInverse = opmode == Cipher.DECRYPT_MODE || opmode == Cipher.UNWRAP_MODE;
    byte[] vector = Vectors.of(parameters);
    if (mode == Mode.ECB && vector != null) {
      throw new InvalidAlgorithmParameterException("ECB takes no initialization vector");
    }
    if (mode != Mode.ECB && vector == null) {
      if (isInverse) {
        throw new InvalidAlgorithmParameterException("decryption needs an initialization vector");
      }
      vector = Vectors.random(random);
    }
    byte[] bytes = algorithm.bytesOf(key);
    RoundKeys made;
    try {
      made = new RoundKeys(bytes, provider.readsTables());
    } finally {
      Arrays.fill(bytes, (byte) 0);
    }
    if (keys != null) {
      keys.wipe();
    }
    keys = made;
    decrypts = isInverse;
    hasIv = vector != null;
    iv = vector == null ? 0 : (long) WORDS.get(vector, 0);
    reset();
  }

  private void initialized() {
    if (keys == null) {
      throw new IllegalStateException("the cipher is not initialized");
    }
  }

  private void reset() {
    chainingValue = iv;
    count = 0;
    Arrays.fill(pending, (byte) 0);
    if (mode.isStream()) {
      Native.streamBegin(stream, mode.number, engineGetIV());
    }
  }

  // -- Blocks --

  private int flags() {
    return (decrypts ? Native.DECRYPT : 0) | (mode == Mode.CBC ? Native.CBC : 0);
  }

  /** Encrypts or decrypts bytes in place, in modes of blocks whole ones. */
  private void run(byte[] data, int offset, int length) {
    if (length == 0) {
      return;
    }
    if (mode.isStream()) {
      keys.next(stream, decrypts, data, offset, length);
    } else {
      chainingValue = keys.run(flags(), chainingValue, data, offset, length);
    }
  }

  /** Of how many of the bytes that are here update makes something: whole blocks, and not the one that may be the last with padding. */
  private int ready(int total) {
    int most = pads && decrypts ? Math.max(0, total - BLOCK) : total;
    return mode.isStream() ? most : most - most % BLOCK;
  }

  private static void needs(int size, int capacity) throws ShortBufferException {
    if (size > capacity) {
      throw new ShortBufferException("the output needs " + size + " bytes");
    }
  }

  /** Writes pending bytes and bytes of the input, {@code size} in all; the other bytes are pending then. */
  private void gather(byte[] input, int offset, int length, byte[] output, int at, int size) {
    int ours = Math.min(count, size);
    int theirs = size - ours;
    int left = count - ours;
    System.arraycopy(pending, ours, spare, 0, left);
    if (length != 0) { // else the input may be null, as Cipher.doFinal() gives it
      System.arraycopy(input, offset + theirs, spare, left, length - theirs);
      System.arraycopy(input, offset, output, at + ours, theirs);
    }
    System.arraycopy(pending, 0, output, at, ours);
    byte[] old = pending;
    pending = spare;
    spare = old;
    Arrays.fill(spare, (byte) 0);
    count = left + length - theirs;
  }

  /** Encrypts or decrypts {@code size} bytes of the pending ones and the input. */
  private void work(byte[] input, int offset, int length, byte[] output, int at, int size) {
    gather(input, offset, length, output, at, size);
    run(output, at, size);
  }

  @Override
  protected byte[] engineUpdate(byte[] input, int offset, int length) {
    initialized();
    // An empty array if nothing comes out, and not null, though the contract allows it: callers of SunJCE never see that.
    byte[] output = new byte[ready(Math.addExact(count, length))];
    work(input, offset, length, output, 0, output.length);
    return output;
  }

  @Override
  protected int engineUpdate(byte[] input, int offset, int length, byte[] output, int at) throws ShortBufferException {
    return advance(input, offset, length, output, at, output.length - at);
  }

  private int advance(byte[] input, int offset, int length, byte[] output, int at, int capacity) throws ShortBufferException {
    initialized();
    int size = ready(Math.addExact(count, length));
    needs(size, capacity);
    work(input, offset, length, output, at, size);
    return size;
  }

  @Override
  protected byte[] engineDoFinal(byte[] input, int offset, int length) throws IllegalBlockSizeException, BadPaddingException {
    initialized();
    byte[] output = new byte[engineGetOutputSize(length)];
    try {
      int size = finish(input, offset, length, output, 0, output.length);
      if (size == output.length) {
        return output;
      }
      byte[] cut = Arrays.copyOf(output, size);
      Arrays.fill(output, (byte) 0);
      return cut;
    } catch (ShortBufferException impossible) {
      throw new ProviderException(impossible);
    }
  }

  @Override
  protected int engineDoFinal(byte[] input, int offset, int length, byte[] output, int at)
      throws ShortBufferException, IllegalBlockSizeException, BadPaddingException {
    return finish(input, offset, length, output, at, output.length - at);
  }

  private int finish(byte[] input, int offset, int length, byte[] output, int at, int capacity)
      throws ShortBufferException, IllegalBlockSizeException, BadPaddingException {
    initialized();
    int total = Math.addExact(count, length);
    int padding = pads && !decrypts ? BLOCK - total % BLOCK : 0;
    // What can't be long enough is short, whatever else is wrong.
    needs(decrypts && !mode.isStream() ? total - BLOCK : total + padding, capacity);
    whole(total);
    if (pads && decrypts && total != 0) {
      return unpad(input, offset, length, output, at, capacity);
    }
    needs(total + padding, capacity);
    gather(input, offset, length, output, at, total);
    Arrays.fill(output, at + total, at + total + padding, (byte) padding);
    run(output, at, total + padding);
    reset();
    return total + padding;
  }

  private void whole(int total) throws IllegalBlockSizeException {
    if (total % BLOCK != 0 && (decrypts || !pads) && !mode.isStream()) {
      throw new IllegalBlockSizeException(Status.BLOCKS.sentence());
    }
  }

  /** Decrypts with padding. The last block comes first, since it says how long the plaintext is. */
  private int unpad(byte[] input, int offset, int length, byte[] output, int at, int capacity)
      throws ShortBufferException, BadPaddingException {
    int before = count + length - BLOCK;
    long last = keys.decrypted(word(before, input, offset));
    if (mode == Mode.CBC) {
      last ^= before == 0 ? chainingValue : word(before - BLOCK, input, offset);
    }
    int padding = padding(last);
    if (padding == 0) {
      // The other blocks are decrypted all the same, so that it takes as long.
      byte[] scratch = new byte[before];
      work(input, offset, length, scratch, 0, before);
      Arrays.fill(scratch, (byte) 0);
      reset();
      throw new BadPaddingException(Status.PADDING.sentence());
    }
    int size = before + BLOCK - padding;
    needs(size, capacity);
    work(input, offset, length, output, at, before);
    for (int place = 0; place < BLOCK - padding; place++) {
      output[at + before + place] = (byte) (last >>> 8 * (BLOCK - 1 - place));
    }
    reset();
    return size;
  }

  /** The block at a place of the pending bytes and the input together. */
  private long word(int place, byte[] input, int offset) {
    if (place >= count) {
      return (long) WORDS.get(input, offset + place - count);
    }
    long word = 0;
    for (int at = place; at < place + BLOCK; at++) {
      word = word << 8 | (at < count ? pending[at] : input[offset + at - count]) & 255;
    }
    return word;
  }

  /** How many bytes of padding a last block has, or 0. Every byte is looked at, whatever the others are. */
  private static int padding(long last) {
    int size = (int) last & 255;
    int wrong = size - 1 >>> 31 | BLOCK - size >>> 31;
    for (int at = 0; at < BLOCK; at++) {
      int isPadding = at - size >> 31;
      wrong |= isPadding & ((int) (last >>> 8 * at) & 255 ^ size);
    }
    return wrong == 0 ? size : 0;
  }

  // -- Buffers: what has no array is copied --

  @Override
  protected int engineUpdate(ByteBuffer input, ByteBuffer output) throws ShortBufferException {
    try {
      return across(input, output, false);
    } catch (IllegalBlockSizeException | BadPaddingException impossible) {
      throw new ProviderException(impossible);
    }
  }

  @Override
  protected int engineDoFinal(ByteBuffer input, ByteBuffer output)
      throws ShortBufferException, IllegalBlockSizeException, BadPaddingException {
    return across(input, output, true);
  }

  private int across(ByteBuffer input, ByteBuffer output, boolean isLast)
      throws ShortBufferException, IllegalBlockSizeException, BadPaddingException {
    initialized();
    int length = input.remaining();
    byte[] from = input.hasArray() ? input.array() : new byte[length];
    byte[] to = output.hasArray() ? output.array() : new byte[engineGetOutputSize(length)];
    int offset = input.hasArray() ? input.arrayOffset() + input.position() : 0;
    int at = output.hasArray() ? output.arrayOffset() + output.position() : 0;
    if (!input.hasArray()) {
      input.duplicate().get(from);
    }
    try {
      int size =
          isLast
              ? finish(from, offset, length, to, at, output.remaining())
              : advance(from, offset, length, to, at, output.remaining());
      input.position(input.limit());
      if (output.hasArray()) {
        output.position(output.position() + size);
      } else {
        output.put(to, 0, size);
      }
      return size;
    } finally {
      if (!input.hasArray()) {
        Arrays.fill(from, (byte) 0);
      }
      if (!output.hasArray()) {
        Arrays.fill(to, (byte) 0);
      }
    }
  }

  // -- Keys under keys --

  @Override
  protected byte[] engineWrap(Key key) throws IllegalBlockSizeException, InvalidKeyException {
    byte[] bytes = EncodedKeys.of(key);
    try {
      return engineDoFinal(bytes, 0, bytes.length);
    } catch (BadPaddingException impossible) {
      throw new ProviderException(impossible);
    } finally {
      Arrays.fill(bytes, (byte) 0);
    }
  }

  @Override
  protected Key engineUnwrap(byte[] wrapped, String name, int type) throws InvalidKeyException, NoSuchAlgorithmException {
    byte[] bytes;
    try {
      bytes = engineDoFinal(wrapped, 0, wrapped.length);
    } catch (BadPaddingException | IllegalBlockSizeException error) {
      throw new InvalidKeyException("what is to be unwrapped is no wrapped key: " + error.getMessage(), error);
    }
    return EncodedKeys.unwrapped(bytes, name, type);
  }
}
