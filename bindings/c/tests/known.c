/* The calls of bindings/known_calls.txt that C has. What a call reads is in memory of just its size, or at no address if that is 0, and
   it writes what is known to come of it, and nothing else. */
#include "digits.h"

enum { WORDS = 9, OUTPUTS = 3, CAPACITY = 512 };

/* What a call is given: bytes, a text or a table; or a number. */
static struct word {
  void *at;
  size_t length;
  int64_t number;
} given[WORDS];
static uint64_t outputs[OUTPUTS][CAPACITY / 8];

/* A call, what it returns, and the words of what it is given and writes. Each begins with how many bytes there are, where zeros follow;
   then # and a number, = and a text, x and bytes as digits, or t or a and the digits of a table, of any variety. What ends with * is of
   each length whose bit is set. */
struct known {
  const char *name;
  int (*call)(void);
  int returns;
  const char *words[WORDS], *written[OUTPUTS];
  uint64_t lengths;
};
#define KNOWN(name) #name, known_##name

/* The status of a verification. The answer beside it is true for the right PIN alone. */
static int both(int status, bool is_pin) {
  CHECK(is_pin == (status == CUKVASHE_OK));
  return status;
}

#include "known.h"

/* The bytes of a word, and how many they are. */
static size_t put_bytes(uint8_t *bytes, const char *word, size_t repeated) {
  char *kind;
  const size_t size = strtoul(word, &kind, 10), length = strlen(kind + 1);
  memset(bytes, 0, size);
  if (length > 0 && kind[length] == '*') {
    memset(bytes, *kind == '=' ? '1' : 0x5a, repeated);
    return repeated;
  }
  if (*kind == '=') memcpy(bytes, kind + 1, length);
  else put(bytes, kind + 1);
  return size > 0 ? size : *kind == '=' ? length : length / 2;
}

static struct word word_of(const char *word, size_t repeated) {
  struct word read = {NULL, 0, 0};
  uint8_t bytes[CAPACITY];
  if (*word == '#') {
    read.number = word[1] == '-' ? strtoll(word + 1, NULL, 10) : (int64_t)strtoull(word + 1, NULL, 10);
  } else if (*word == 't' || *word == 'a') {
    cukvashe_decimal_table *table = malloc(sizeof *table);
    CHECK(table && (*word == 't' ? cukvashe_decimal_table_init : cukvashe_decimal_table_init_any)(table, TEXT(word + 1)) == CUKVASHE_OK);
    read.at = table;
  } else {
    read.length = put_bytes(bytes, word, repeated);
    read.at = read.length > 0 ? malloc(read.length) : NULL;
    if (read.at) memcpy(read.at, bytes, read.length);
    CHECK(read.length == 0 || read.at);
  }
  return read;
}

static bool is_written(const char *word, const void *output) {
  uint8_t wanted[CAPACITY];
  memset(wanted, PAINTED, sizeof wanted);
  if (word && *word == '#') {
    const size_t number = strtoul(word + 1, NULL, 10);
    memcpy(wanted, &number, sizeof number);
  } else if (word) {
    put_bytes(wanted, word, 0);
  }
  return memcmp(output, wanted, sizeof wanted) == 0;
}

/* Whether zeros stand where a refused key would. They go, so that nothing else may be written. */
static bool takes_zeros(const char *name) {
  static const uint8_t zeros[CAPACITY];
  const size_t size = given[1].length - (strcmp(name, "cms_unwrap_key") == 0 ? 16 : 4);
  const bool are_zeros = memcmp(outputs[0], zeros, size) == 0;
  memset(outputs[0], PAINTED, size);
  return are_zeros;
}

static void makes(const struct known *known, size_t repeated) {
  bool is_right;
  memset(outputs, PAINTED, sizeof outputs);
  for (int i = 0; i < WORDS && known->words[i]; i++) given[i] = word_of(known->words[i], repeated);
  is_right = known->call() == known->returns;
  if (known->returns == CUKVASHE_ERR_WRAPPED_KEY) is_right = is_right && takes_zeros(known->name);
  for (int i = 0; i < OUTPUTS; i++) is_right = is_right && is_written(known->written[i], outputs[i]);
  for (int i = 0; i < WORDS && known->words[i]; i++) free(given[i].at);
  if (is_right) return;
  fprintf(stderr, "known.h: not what comes of cukvashe_%s", known->name);
  for (int i = 0; i < WORDS && known->words[i]; i++) fprintf(stderr, " %s", known->words[i]);
  fprintf(stderr, ", of %d\n", (int)repeated);
  exit(1);
}

int main(void) {
  int made = 0;
  for (size_t i = 0; i < sizeof rows / sizeof *rows; i++)
    for (size_t length = 0; length < 64; length++)
      if (rows[i].lengths >> length & 1) {
        makes(&rows[i], length);
        made++;
      }
  CHECK(made > 2200);
  printf("known: %d calls of bindings/known_calls.txt\n", made);
  return 0;
}
