/*
 * The C between Java and the library. Java has buffers, padding, vectors and all decisions: here arrays are copied to memory of C, given to
 * a call, and what it wrote is copied back. No call keeps a reference, and none holds the collector up, so all arrays are copied.
 *
 * Only JNI_OnLoad is exported: the static library is linked in, and its names are hidden.
 */
#include <cukvashe_des.h>
#include <jni.h>
#include <stdlib.h>
#include <string.h>

#define LENGTH_OF(ARRAY) (sizeof(ARRAY) / sizeof *(ARRAY))

static void throws(JNIEnv *env, const char *class_name, const char *text) {
  jclass class = (*env)->FindClass(env, class_name);
  if (class != NULL) (*env)->ThrowNew(env, class, text);
}

/* A status that Java's checks rule out. */
static void fails(JNIEnv *env, int status) {
  throws(env, "java/security/ProviderException", cukvashe_strerror(status));
}

/* -- Arrays of any call -- */

/* An array of Java, the bytes of an element, the bytes of all if the call takes no others, else 0, and whether the call writes it;
   then, where its copy stands, and how many elements it has. */
struct array {
  jarray object;
  size_t element;
  size_t size;
  bool is_written;
  void *at;
  size_t length;
};

/* The copies stand in `buffer` if they fit, else in memory of malloc. The buffer is small, since some calls need most of the stack. */
struct copies {
  uint8_t *memory;
  size_t size;
  uint64_t buffer[128];
};

static size_t rounded(size_t size) {
  return (size + 7) / 8 * 8;
}

static void read_array(JNIEnv *env, const struct array *it) {
  jsize length = (jsize)it->length;
  if (it->element == 1) (*env)->GetByteArrayRegion(env, it->object, 0, length, it->at);
  else (*env)->GetLongArrayRegion(env, it->object, 0, length, it->at);
}

/* Copies all arrays. After an exception it is false, and nothing is to be freed. */
static bool copied(JNIEnv *env, struct copies *copies, struct array *arrays, size_t count) {
  copies->size = 0;
  for (size_t at = 0; at < count; at++) {
    struct array *it = &arrays[at];
    if (it->object == NULL) {
      throws(env, "java/lang/NullPointerException", "an array is null");
      return false;
    }
    it->length = (size_t)(*env)->GetArrayLength(env, it->object);
    if (it->size != 0 && it->size != it->length * it->element) {
      throws(env, "java/lang/IllegalArgumentException", "an array does not have the length that the call takes");
      return false;
    }
    copies->size += rounded(it->length * it->element);
  }
  copies->memory = (uint8_t *)copies->buffer;
  if (copies->size > sizeof copies->buffer && (copies->memory = malloc(copies->size)) == NULL) {
    throws(env, "java/lang/OutOfMemoryError", "there is no memory for the copies of arrays");
    return false;
  }
  uint8_t *next = copies->memory;
  for (size_t at = 0; at < count; at++) {
    struct array *it = &arrays[at];
    it->at = next;
    read_array(env, it);
    next += rounded(it->length * it->element);
  }
  return true;
}

/* Copies back what a call wrote, if it succeeded, and wipes the copies. */
static void given_back(JNIEnv *env, struct copies *copies, const struct array *arrays, size_t count, bool succeeded) {
  for (size_t at = 0; at < count; at++) {
    const struct array *it = &arrays[at];
    if (!succeeded || !it->is_written) continue;
    if (it->element == 1) (*env)->SetByteArrayRegion(env, it->object, 0, (jsize)it->length, it->at);
    else (*env)->SetLongArrayRegion(env, it->object, 0, (jsize)it->length, it->at);
  }
  cukvashe_wipe(copies->memory, copies->size);
  if (copies->memory != (uint8_t *)copies->buffer) free(copies->memory);
}

/* The messages that stand one after the other, by the length of each; or null after an exception. */
static cukvashe_message *messages_of(JNIEnv *env, const struct array *bytes, const struct array *lengths) {
  size_t left = bytes->length;
  const uint64_t *length = lengths->at;
  cukvashe_message *messages = malloc((lengths->length + 1) * sizeof *messages);
  if (messages == NULL) {
    throws(env, "java/lang/OutOfMemoryError", "there is no memory for a list of messages");
    return NULL;
  }
  for (size_t at = 0; at < lengths->length; at++) {
    if (length[at] > left) {
      throws(env, "java/lang/IllegalArgumentException", "the lengths are not those of the messages");
      free(messages);
      return NULL;
    }
    messages[at] = (cukvashe_message){(const uint8_t *)bytes->at + (bytes->length - left), (size_t)length[at]};
    left -= (size_t)length[at];
  }
  return messages;
}

#include "calls.h"

/* -- Ciphers -- */

/* The context of a cipher, a copy of words on Java's heap: their number says which cipher it is. */
typedef union {
  uint64_t words[sizeof(cukvashe_tdes_ede3) / 8];
  cukvashe_des des;
  cukvashe_tdes_ede2 ede2;
  cukvashe_tdes_ede3 ede3;
} cipher;

/* As in Native.java; and how many bytes are copied at a time. */
enum { DECRYPT = 1, CBC = 2, PIECE = 8192 };

static uint64_t load(const uint8_t bytes[8]) {
  uint64_t word = 0;
  for (int at = 0; at < 8; at++) word = word << 8 | bytes[at];
  return word;
}

static void store(uint8_t bytes[8], uint64_t word) {
  for (int at = 7; at >= 0; at--, word >>= 8) bytes[at] = (uint8_t)word;
}

#define RUN(NAME, CONTEXT)                                                                                             \
  switch (flags & (DECRYPT | CBC)) {                                                                                   \
  case 0: return cukvashe_##NAME##_encrypt_ecb(CONTEXT, data, length);                                                 \
  case DECRYPT: return cukvashe_##NAME##_decrypt_ecb(CONTEXT, data, length);                                           \
  case CBC: return cukvashe_##NAME##_encrypt_cbc(CONTEXT, vector, data, length);                                       \
  default: return cukvashe_##NAME##_decrypt_cbc(CONTEXT, vector, data, length);                                        \
  }

static int run(const cipher *keys, jint count, jint flags, uint8_t vector[8], uint8_t *data, size_t length) {
  switch ((size_t)count * 8) {
  case sizeof(cukvashe_des): RUN(des, &keys->des)
  case sizeof(cukvashe_tdes_ede2): RUN(tdes_ede2, &keys->ede2)
  case sizeof(cukvashe_tdes_ede3): RUN(tdes_ede3, &keys->ede3)
  default: return CUKVASHE_ERR_CONTEXT;
  }
}

/* The number of words, or 0 after an exception. */
static jint take(JNIEnv *env, jlongArray words, cipher *keys) {
  jint count = (*env)->GetArrayLength(env, words);
  if (count > (jint)LENGTH_OF(keys->words)) {
    fails(env, CUKVASHE_ERR_CONTEXT);
    return 0;
  }
  (*env)->GetLongArrayRegion(env, words, 0, count, (jlong *)keys->words);
  return count;
}

/* One block. */
static jlong JNICALL block(JNIEnv *env, jclass class, jlongArray words, jint flags, jlong value) {
  (void)class;
  cipher keys;
  uint8_t bytes[8], vector[8] = {0};
  jint count = take(env, words, &keys);
  if (count == 0) return 0;
  store(bytes, (uint64_t)value);
  int status = run(&keys, count, flags & DECRYPT, vector, bytes, sizeof bytes);
  cukvashe_wipe(&keys, 8 * (size_t)count);
  if (status != CUKVASHE_OK) fails(env, status);
  jlong result = (jlong)load(bytes);
  cukvashe_wipe(bytes, sizeof bytes);
  return result;
}

/* Whole blocks in place, and the next vector, a piece after the other. */
static jlong JNICALL blocks(JNIEnv *env, jclass class, jlongArray words, jint flags, jlong iv, jbyteArray data, jint offset, jint length) {
  (void)class;
  cipher keys;
  uint8_t vector[8], copy[PIECE];
  int status = CUKVASHE_OK;
  jint count = take(env, words, &keys);
  if (count == 0) return 0;
  store(vector, (uint64_t)iv);
  for (jint done = 0, size; done < length && status == CUKVASHE_OK; done += size) {
    size = length - done < PIECE ? length - done : PIECE;
    (*env)->GetByteArrayRegion(env, data, offset + done, size, (jbyte *)copy);
    if ((*env)->ExceptionCheck(env)) break;
    status = run(&keys, count, flags, vector, copy, (size_t)size);
    (*env)->SetByteArrayRegion(env, data, offset + done, size, (const jbyte *)copy);
  }
  cukvashe_wipe(copy, (size_t)(length < PIECE ? length : PIECE));
  cukvashe_wipe(&keys, 8 * (size_t)count);
  if (status != CUKVASHE_OK) fails(env, status);
  return (jlong)load(vector);
}

#define RUN_STREAM(NAME, CONTEXT)                                                                                      \
  return decrypts ? cukvashe_##NAME##_decrypt_stream(CONTEXT, stream, data, length)                                    \
                  : cukvashe_##NAME##_encrypt_stream(CONTEXT, stream, data, length);

static int run_stream(const cipher *keys, jint count, bool decrypts, cukvashe_stream *stream, uint8_t *data, size_t length) {
  switch ((size_t)count * 8) {
  case sizeof(cukvashe_des): RUN_STREAM(des, &keys->des)
  case sizeof(cukvashe_tdes_ede2): RUN_STREAM(tdes_ede2, &keys->ede2)
  case sizeof(cukvashe_tdes_ede3): RUN_STREAM(tdes_ede3, &keys->ede3)
  default: return CUKVASHE_ERR_CONTEXT;
  }
}

/* The bytes that come next in a stream, in place, a piece after the other. */
static void JNICALL next(JNIEnv *env, jclass class, jlongArray words, jlongArray state, jboolean decrypts, jbyteArray data, jint offset,
                         jint length) {
  (void)class;
  cipher keys;
  cukvashe_stream stream;
  uint8_t copy[PIECE];
  int status = CUKVASHE_OK;
  jint count = take(env, words, &keys);
  if (count == 0) return;
  (*env)->GetLongArrayRegion(env, state, 0, sizeof stream / 8, (jlong *)stream.words);
  for (jint done = 0, size; done < length && status == CUKVASHE_OK && !(*env)->ExceptionCheck(env); done += size) {
    size = length - done < PIECE ? length - done : PIECE;
    (*env)->GetByteArrayRegion(env, data, offset + done, size, (jbyte *)copy);
    if ((*env)->ExceptionCheck(env)) break;
    status = run_stream(&keys, count, decrypts != JNI_FALSE, &stream, copy, (size_t)size);
    (*env)->SetByteArrayRegion(env, data, offset + done, size, (const jbyte *)copy);
  }
  if (!(*env)->ExceptionCheck(env)) {
    (*env)->SetLongArrayRegion(env, state, 0, sizeof stream / 8, (const jlong *)stream.words);
    if (status != CUKVASHE_OK) fails(env, status);
  }
  cukvashe_wipe(copy, (size_t)(length < PIECE ? length : PIECE));
  cukvashe_wipe(&stream, sizeof stream);
  cukvashe_wipe(&keys, 8 * (size_t)count);
}

/* -- MACs: all state is an array of words on Java's heap -- */

typedef union {
  uint64_t words[sizeof(cukvashe_cbc_mac_tdes_ede3) / 8];
  cukvashe_cbc_mac_des cbc_mac_des;
  cukvashe_cbc_mac_tdes_ede2 cbc_mac_tdes_ede2;
  cukvashe_cbc_mac_tdes_ede3 cbc_mac_tdes_ede3;
  cukvashe_retail_mac_des retail_mac_des;
  cukvashe_cmac_tdes_ede2 cmac_tdes_ede2;
  cukvashe_cmac_tdes_ede3 cmac_tdes_ede3;
} mac_state;

/* As in Native.java. */
enum { CBC_MAC_DES, CBC_MAC_TDES_EDE2, CBC_MAC_TDES_EDE3, RETAIL_MAC_DES, CMAC_TDES_EDE2, CMAC_TDES_EDE3 };

static const size_t sizes_of_macs[] = {
  [CBC_MAC_DES] = sizeof(cukvashe_cbc_mac_des),
  [CBC_MAC_TDES_EDE2] = sizeof(cukvashe_cbc_mac_tdes_ede2),
  [CBC_MAC_TDES_EDE3] = sizeof(cukvashe_cbc_mac_tdes_ede3),
  [RETAIL_MAC_DES] = sizeof(cukvashe_retail_mac_des),
  [CMAC_TDES_EDE2] = sizeof(cukvashe_cmac_tdes_ede2),
  [CMAC_TDES_EDE3] = sizeof(cukvashe_cmac_tdes_ede3),
};

#define BY_MAC(CALL, ...)                                                                                              \
  switch (mac) {                                                                                                       \
  case CBC_MAC_DES: return cukvashe_cbc_mac_des_##CALL(&state->cbc_mac_des, __VA_ARGS__);                              \
  case CBC_MAC_TDES_EDE2: return cukvashe_cbc_mac_tdes_ede2_##CALL(&state->cbc_mac_tdes_ede2, __VA_ARGS__);            \
  case CBC_MAC_TDES_EDE3: return cukvashe_cbc_mac_tdes_ede3_##CALL(&state->cbc_mac_tdes_ede3, __VA_ARGS__);            \
  case RETAIL_MAC_DES: return cukvashe_retail_mac_des_##CALL(&state->retail_mac_des, __VA_ARGS__);                     \
  case CMAC_TDES_EDE2: return cukvashe_cmac_tdes_ede2_##CALL(&state->cmac_tdes_ede2, __VA_ARGS__);                     \
  case CMAC_TDES_EDE3: return cukvashe_cmac_tdes_ede3_##CALL(&state->cmac_tdes_ede3, __VA_ARGS__);                     \
  default: return CUKVASHE_ERR_CONTEXT;                                                                                \
  }

static int update(jint mac, mac_state *state, const uint8_t *message, size_t length) {
  BY_MAC(update, message, length)
}

static int final(jint mac, const mac_state *state, uint8_t tag[8]) {
  BY_MAC(final, tag)
}

/* Adds bytes, a piece after the other, and either keeps the state or gives the tag. */
static jlong step(JNIEnv *env, jint mac, jlongArray words, jbyteArray data, jint offset, jint length, bool is_last) {
  mac_state state;
  uint8_t copy[PIECE], tag[8] = {0};
  int status = CUKVASHE_OK;
  jint count = (*env)->GetArrayLength(env, words);
  /* Threads that share an object may change one of the two alone. */
  if (8 * (size_t)count != sizes_of_macs[mac]) {
    fails(env, CUKVASHE_ERR_CONTEXT);
    return 0;
  }
  (*env)->GetLongArrayRegion(env, words, 0, count, (jlong *)state.words);
  for (jint done = 0, size; done < length && status == CUKVASHE_OK; done += size) {
    size = length - done < PIECE ? length - done : PIECE;
    (*env)->GetByteArrayRegion(env, data, offset + done, size, (jbyte *)copy);
    if ((*env)->ExceptionCheck(env)) break;
    status = update(mac, &state, copy, (size_t)size);
  }
  cukvashe_wipe(copy, (size_t)(length < PIECE ? length : PIECE));
  if (status == CUKVASHE_OK && is_last) status = final(mac, &state, tag);
  if (!(*env)->ExceptionCheck(env)) {
    if (status != CUKVASHE_OK) fails(env, status);
    else if (!is_last) (*env)->SetLongArrayRegion(env, words, 0, count, (const jlong *)state.words);
  }
  cukvashe_wipe(&state, 8 * (size_t)count);
  return (jlong)load(tag);
}

static void JNICALL mac_update(JNIEnv *env, jclass class, jint mac, jlongArray words, jbyteArray data, jint offset, jint length) {
  (void)class;
  step(env, mac, words, data, offset, length, false);
}

/* The tag of the message with the last bytes; the state stays. */
static jlong JNICALL mac_final(JNIEnv *env, jclass class, jint mac, jlongArray words, jbyteArray data, jint length) {
  (void)class;
  return step(env, mac, words, data, 0, length, true);
}

/* -- The library -- */

static jstring JNICALL version(JNIEnv *env, jclass class) {
  (void)class;
  return (*env)->NewStringUTF(env, cukvashe_version());
}

static const JNINativeMethod methods[] = {
  {(char *)"block", (char *)"([JIJ)J", (void *)block},
  {(char *)"blocks", (char *)"([JIJ[BII)J", (void *)blocks},
  {(char *)"next", (char *)"([J[JZ[BII)V", (void *)next},
  {(char *)"macUpdate", (char *)"(I[J[BII)V", (void *)mac_update},
  {(char *)"macFinal", (char *)"(I[J[BI)J", (void *)mac_final},
  {(char *)"version", (char *)"()Ljava/lang/String;", (void *)version},
  CALLS_OF_HEADER
};

/* The only export. The names of Java's methods are bound here, so one that has another type is refused when the library is loaded. */
JNIEXPORT jint JNICALL JNI_OnLoad(JavaVM *machine, void *reserved) {
  (void)reserved;
  JNIEnv *env;
  if ((*machine)->GetEnv(machine, (void **)&env, JNI_VERSION_1_8) != JNI_OK) return JNI_ERR;
  /* Java runs on older processors too, where a call would end the program. */
  if (!cukvashe_is_supported()) {
    throws(env, "java/lang/UnsatisfiedLinkError", "this processor lacks what x86-64-v2 has");
    return JNI_ERR;
  }
  jclass class = (*env)->FindClass(env, "cukvashe/des/Native");
  if (class == NULL || (*env)->RegisterNatives(env, class, methods, (jint)LENGTH_OF(methods)) != JNI_OK) return JNI_ERR;
  return JNI_VERSION_1_8;
}
