/* A native library without Java, as for a processor or a system that lacks it here: the functions of JNI that the library calls are in this
   file, over arrays of C. It registers its methods, has the version, and answers as known:

       native FILE VERSION */
#include <cukvashe_des.h>
#include <jni.h>
#include <stdbool.h>
#include <stdio.h>
#include <stdlib.h>
#include <string.h>
#ifdef _WIN32
#include <windows.h>
#else
#include <dlfcn.h>
#endif

#define CHECK(...) ((__VA_ARGS__) ? (void)0 : (fprintf(stderr, "native.c:%d: not so: %s\n", __LINE__, #__VA_ARGS__), exit(1)))

enum { MOST = 200, CAPACITY = 20000 };

/* What Java gives for an array: a `jarray` is its address. */
struct array {
  jsize length;
  size_t element;
  uint8_t bytes[CAPACITY];
};

static JNINativeMethod registered[MOST];
static jint count;
static const char *thrown = "";
static char text[40];

static struct array *of(jarray object) { return (struct array *)(void *)object; }

static struct array array(size_t element, size_t length, const void *bytes) {
  struct array made = {.length = (jsize)length, .element = element};
  CHECK(element * length <= CAPACITY);
  if (bytes != NULL) memcpy(made.bytes, bytes, element * length);
  return made;
}

static jclass JNICALL find_class(JNIEnv *env, const char *name) {
  (void)env;
  return (jclass)(void *)(size_t)name;
}

static jint JNICALL throw_new(JNIEnv *env, jclass class, const char *said) {
  (void)env, (void)said;
  thrown = (const char *)class;
  return 0;
}

static jboolean JNICALL exception_check(JNIEnv *env) {
  (void)env;
  return *thrown != 0;
}

/* Whether this came last, and nothing since. */
static bool is_thrown(const char *class) {
  bool is = strcmp(thrown, class) == 0;
  thrown = "";
  return is;
}

static jsize JNICALL get_array_length(JNIEnv *env, jarray object) {
  (void)env;
  return of(object)->length;
}

static void *place(jarray object, size_t element, jsize begin, jsize length) {
  CHECK(of(object)->element == element && begin >= 0 && length >= 0 && begin <= of(object)->length - length);
  return of(object)->bytes + element * (size_t)begin;
}

static void JNICALL get_bytes(JNIEnv *env, jbyteArray object, jsize begin, jsize length, jbyte *to) {
  (void)env;
  memcpy(to, place(object, 1, begin, length), (size_t)length);
}

static void JNICALL set_bytes(JNIEnv *env, jbyteArray object, jsize begin, jsize length, const jbyte *from) {
  (void)env;
  memcpy(place(object, 1, begin, length), from, (size_t)length);
}

static void JNICALL get_longs(JNIEnv *env, jlongArray object, jsize begin, jsize length, jlong *to) {
  (void)env;
  memcpy(to, place(object, 8, begin, length), 8 * (size_t)length);
}

static void JNICALL set_longs(JNIEnv *env, jlongArray object, jsize begin, jsize length, const jlong *from) {
  (void)env;
  memcpy(place(object, 8, begin, length), from, 8 * (size_t)length);
}

static jstring JNICALL new_string(JNIEnv *env, const char *said) {
  (void)env;
  snprintf(text, sizeof text, "%s", said);
  return NULL;
}

static jint JNICALL register_natives(JNIEnv *env, jclass class, const JNINativeMethod *methods, jint length) {
  (void)env;
  CHECK(strcmp((const char *)class, "cukvashe/des/Native") == 0 && length <= MOST);
  memcpy(registered, methods, (size_t)length * sizeof *methods);
  count = length;
  return JNI_OK;
}

static const struct JNINativeInterface_ functions = {
  .FindClass = find_class,
  .ThrowNew = throw_new,
  .ExceptionCheck = exception_check,
  .GetArrayLength = get_array_length,
  .GetByteArrayRegion = get_bytes,
  .SetByteArrayRegion = set_bytes,
  .GetLongArrayRegion = get_longs,
  .SetLongArrayRegion = set_longs,
  .NewStringUTF = new_string,
  .RegisterNatives = register_natives,
};
static JNIEnv environment = &functions;

static jint JNICALL get_env(JavaVM *machine, void **env, jint version) {
  (void)machine, (void)version;
  *env = (void *)&environment;
  return JNI_OK;
}

static const struct JNIInvokeInterface_ invocations = {.GetEnv = get_env};
static JavaVM machine = &invocations;

typedef void function(void);

/* JNI_OnLoad of a library. */
static function *loaded(const char *file) {
#ifdef _WIN32
  HMODULE library = LoadLibraryA(file);
  return library == NULL ? NULL : (function *)GetProcAddress(library, "JNI_OnLoad");
#else
  void *library = dlopen(file, RTLD_NOW);
  if (library == NULL) fprintf(stderr, "%s\n", dlerror());
  function *found = NULL;
  if (library != NULL) *(void **)&found = dlsym(library, "JNI_OnLoad");
  return found;
#endif
}

static function *method(const char *name, const char *signature) {
  for (jint at = 0; at < count; at++)
    if (strcmp(registered[at].name, name) == 0) {
      CHECK(strcmp(registered[at].signature, signature) == 0);
      function *found = NULL;
      *(void **)&found = registered[at].fnPtr;
      return found;
    }
  fprintf(stderr, "native.c: there is no method %s\n", name);
  exit(1);
}

#define CALL(METHOD, ...) METHOD(&environment, NULL, __VA_ARGS__)
#define OBJECT(ARRAY) (void *)&(ARRAY)

typedef jstring version_call(JNIEnv *, jclass);
typedef jint init_call(JNIEnv *, jclass, jlongArray, jbyteArray);
typedef jlong blocks_call(JNIEnv *, jclass, jlongArray, jint, jlong, jbyteArray, jint, jint);
typedef jint mac_init_call(JNIEnv *, jclass, jlongArray, jbyteArray, jint);
typedef jlong mac_final_call(JNIEnv *, jclass, jint, jlongArray, jbyteArray, jint);

int main(int argc, char **argv) {
  CHECK(argc == 3);
  jint (*on_load)(JavaVM *, void *) = (jint(*)(JavaVM *, void *))loaded(argv[1]);
  CHECK(on_load != NULL && on_load(&machine, NULL) == JNI_VERSION_1_8);
  ((version_call *)method("version", "()Ljava/lang/String;"))(&environment, NULL);
  CHECK(strcmp(text, argv[2]) == 0);
  init_call *init = (init_call *)method("tdesEde3Init", "([J[B)I");
  blocks_call *blocks = (blocks_call *)method("blocks", "([JIJ[BII)J");
  mac_init_call *mac_init = (mac_init_call *)method("retailMacDesInit", "([J[BI)I");
  mac_final_call *mac_final = (mac_final_call *)method("macFinal", "(I[J[BI)J");

  /* NIST SP 800-67, Appendix B. */
  static const uint8_t bytes[] = {0x01, 0x23, 0x45, 0x67, 0x89, 0xab, 0xcd, 0xef, 0x23, 0x45, 0x67, 0x89,
                                  0xab, 0xcd, 0xef, 0x01, 0x45, 0x67, 0x89, 0xab, 0xcd, 0xef, 0x01, 0x23};
  static const uint8_t sealed[] = {0xa8, 0x26, 0xfd, 0x8c, 0xe5, 0x3b, 0x85, 0x5f, 0xcc, 0xe2, 0x1c, 0x81,
                                   0x12, 0x25, 0x6f, 0xe6, 0x68, 0xd5, 0xc0, 0x5d, 0xd9, 0xb6, 0xb9, 0x00};
  static struct array key, words, data;
  key = array(1, sizeof bytes, bytes);
  words = array(8, sizeof(cukvashe_tdes_ede3) / 8, NULL);
  data = array(1, sizeof sealed, "The qufck brown fox jump");
  CHECK(CALL(init, OBJECT(words), OBJECT(key)) == 0);
  CALL(blocks, OBJECT(words), 0, 0, OBJECT(data), 0, data.length);
  CHECK(memcmp(data.bytes, sealed, sizeof sealed) == 0);

  /* More than is copied at once, in CBC, there and back. */
  data = array(1, 16008, NULL);
  jlong next = CALL(blocks, OBJECT(words), 2, 5, OBJECT(data), 0, data.length);
  CHECK(next != 5 && CALL(blocks, OBJECT(words), 3, 5, OBJECT(data), 0, data.length) == next);
  for (jsize at = 0; at < data.length; at++) CHECK(data.bytes[at] == 0);

  /* bindings/known_macs.txt: the retail MAC of no bytes. */
  key = array(1, 16, "\x01\x23\x45\x67\x89\xab\xcd\xef\xfe\xdc\xba\x98\x76\x54\x32\x10");
  words = array(8, sizeof(cukvashe_retail_mac_des) / 8, NULL);
  CHECK(CALL(mac_init, OBJECT(words), OBJECT(key), CUKVASHE_MAC_PADDING_1) == 0);
  CHECK(CALL(mac_final, 3, OBJECT(words), OBJECT(data), 0) == 0x08d7b4fb629d0885);

  CHECK(is_thrown(""));

  /* What Java checks before, but for threads that share an object: contexts of another length, or overwritten. */
  words.length--;
  CALL(mac_init, OBJECT(words), OBJECT(key), CUKVASHE_MAC_PADDING_1);
  CHECK(is_thrown("java/lang/IllegalArgumentException"));
  words = array(8, CAPACITY / 8, NULL);
  CALL(mac_final, 3, OBJECT(words), OBJECT(data), 0);
  CHECK(is_thrown("java/security/ProviderException"));
  CALL(blocks, OBJECT(words), 0, 0, OBJECT(data), 0, 8);
  CHECK(is_thrown("java/security/ProviderException"));
  words.length = sizeof(cukvashe_tdes_ede3) / 8;
  CALL(blocks, OBJECT(words), 0, 0, OBJECT(data), 0, 8);
  CHECK(is_thrown("java/security/ProviderException"));
  return 0;
}
