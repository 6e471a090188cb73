/*
 * A fault in what one call of the library answers, for a module that no one should use: a program whose answers change had
 * it, and a provider that tests itself refuses to be loaded. CBC or ECB names the call, for which the linker takes this.
 */
#include <cukvashe_des.h>

#define JOINED(PREFIX, NAME) PREFIX##NAME
#define NAMED(PREFIX, NAME) JOINED(PREFIX, NAME)
#define REAL(NAME) NAMED(__real_, NAME)
#define WRAP(NAME) NAMED(__wrap_, NAME)

#ifdef CBC
int REAL(CBC)(const cukvashe_tdes_ede3 *context, uint8_t iv[8], uint8_t *data, size_t length);
int WRAP(CBC)(const cukvashe_tdes_ede3 *context, uint8_t iv[8], uint8_t *data, size_t length);

int WRAP(CBC)(const cukvashe_tdes_ede3 *context, uint8_t iv[8], uint8_t *data, size_t length) {
  const int status = REAL(CBC)(context, iv, data, length);
  if (length != 0) data[length - 1] ^= 1;
  return status;
}
#endif

#ifdef ECB
int REAL(ECB)(const cukvashe_tdes_ede3 *context, uint8_t *data, size_t length);
int WRAP(ECB)(const cukvashe_tdes_ede3 *context, uint8_t *data, size_t length);

int WRAP(ECB)(const cukvashe_tdes_ede3 *context, uint8_t *data, size_t length) {
  const int status = REAL(ECB)(context, data, length);
  if (length != 0) data[length - 1] ^= 1;
  return status;
}
#endif
