/* The native calls that copy arrays for a call of cukvashe_des.h: made of it by bindings/describe. */

static jint JNICALL call_des_init(JNIEnv *env, jclass class, jlongArray context, jbyteArray key) {
  (void)class;
  struct array arrays[] = {
    {context, 8, sizeof(cukvashe_des), true, NULL, 0},
    {key, 1, 0, false, NULL, 0},
  };
  struct copies copies;
  if (!copied(env, &copies, arrays, LENGTH_OF(arrays))) return 0;
  int answer = cukvashe_des_init(arrays[0].at, arrays[1].at, arrays[1].length);
  given_back(env, &copies, arrays, LENGTH_OF(arrays), answer == CUKVASHE_OK);
  return answer;
}

static jint JNICALL call_tdes_ede2_init(JNIEnv *env, jclass class, jlongArray context, jbyteArray key) {
  (void)class;
  struct array arrays[] = {
    {context, 8, sizeof(cukvashe_tdes_ede2), true, NULL, 0},
    {key, 1, 0, false, NULL, 0},
  };
  struct copies copies;
  if (!copied(env, &copies, arrays, LENGTH_OF(arrays))) return 0;
  int answer = cukvashe_tdes_ede2_init(arrays[0].at, arrays[1].at, arrays[1].length);
  given_back(env, &copies, arrays, LENGTH_OF(arrays), answer == CUKVASHE_OK);
  return answer;
}

static jint JNICALL call_tdes_ede3_init(JNIEnv *env, jclass class, jlongArray context, jbyteArray key) {
  (void)class;
  struct array arrays[] = {
    {context, 8, sizeof(cukvashe_tdes_ede3), true, NULL, 0},
    {key, 1, 0, false, NULL, 0},
  };
  struct copies copies;
  if (!copied(env, &copies, arrays, LENGTH_OF(arrays))) return 0;
  int answer = cukvashe_tdes_ede3_init(arrays[0].at, arrays[1].at, arrays[1].length);
  given_back(env, &copies, arrays, LENGTH_OF(arrays), answer == CUKVASHE_OK);
  return answer;
}

static jint JNICALL call_des_init_no_tables(JNIEnv *env, jclass class, jlongArray context, jbyteArray key) {
  (void)class;
  struct array arrays[] = {
    {context, 8, sizeof(cukvashe_des), true, NULL, 0},
    {key, 1, 0, false, NULL, 0},
  };
  struct copies copies;
  if (!copied(env, &copies, arrays, LENGTH_OF(arrays))) return 0;
  int answer = cukvashe_des_init_no_tables(arrays[0].at, arrays[1].at, arrays[1].length);
  given_back(env, &copies, arrays, LENGTH_OF(arrays), answer == CUKVASHE_OK);
  return answer;
}

static jint JNICALL call_tdes_ede2_init_no_tables(JNIEnv *env, jclass class, jlongArray context, jbyteArray key) {
  (void)class;
  struct array arrays[] = {
    {context, 8, sizeof(cukvashe_tdes_ede2), true, NULL, 0},
    {key, 1, 0, false, NULL, 0},
  };
  struct copies copies;
  if (!copied(env, &copies, arrays, LENGTH_OF(arrays))) return 0;
  int answer = cukvashe_tdes_ede2_init_no_tables(arrays[0].at, arrays[1].at, arrays[1].length);
  given_back(env, &copies, arrays, LENGTH_OF(arrays), answer == CUKVASHE_OK);
  return answer;
}

static jint JNICALL call_tdes_ede3_init_no_tables(JNIEnv *env, jclass class, jlongArray context, jbyteArray key) {
  (void)class;
  struct array arrays[] = {
    {context, 8, sizeof(cukvashe_tdes_ede3), true, NULL, 0},
    {key, 1, 0, false, NULL, 0},
  };
  struct copies copies;
  if (!copied(env, &copies, arrays, LENGTH_OF(arrays))) return 0;
  int answer = cukvashe_tdes_ede3_init_no_tables(arrays[0].at, arrays[1].at, arrays[1].length);
  given_back(env, &copies, arrays, LENGTH_OF(arrays), answer == CUKVASHE_OK);
  return answer;
}

static jint JNICALL call_stream_begin(JNIEnv *env, jclass class, jlongArray stream, jint mode, jbyteArray iv) {
  (void)class;
  struct array arrays[] = {
    {stream, 8, sizeof(cukvashe_stream), true, NULL, 0},
    {iv, 1, 8, false, NULL, 0},
  };
  struct copies copies;
  if (!copied(env, &copies, arrays, LENGTH_OF(arrays))) return 0;
  int answer = cukvashe_stream_begin(arrays[0].at, mode, arrays[1].at);
  given_back(env, &copies, arrays, LENGTH_OF(arrays), answer == CUKVASHE_OK);
  return answer;
}

static jint JNICALL call_cms_wrap_key(JNIEnv *env, jclass class, jbyteArray protection, jbyteArray iv, jbyteArray key,
    jbyteArray wrapped, jlongArray wrappedLength) {
  (void)class;
  struct array arrays[] = {
    {protection, 1, 0, false, NULL, 0},
    {iv, 1, 8, false, NULL, 0},
    {key, 1, 0, false, NULL, 0},
    {wrapped, 1, 0, true, NULL, 0},
    {wrappedLength, 8, 8, true, NULL, 0},
  };
  struct copies copies;
  if (!copied(env, &copies, arrays, LENGTH_OF(arrays))) return 0;
  int answer = cukvashe_cms_wrap_key(arrays[0].at, arrays[0].length, arrays[1].at, arrays[2].at, arrays[2].length,
      arrays[3].at, arrays[3].length, arrays[4].at);
  given_back(env, &copies, arrays, LENGTH_OF(arrays), answer == CUKVASHE_OK);
  return answer;
}

static jint JNICALL call_cms_unwrap_key(JNIEnv *env, jclass class, jbyteArray protection, jbyteArray wrapped,
    jbyteArray key, jlongArray keyLength) {
  (void)class;
  struct array arrays[] = {
    {protection, 1, 0, false, NULL, 0},
    {wrapped, 1, 0, false, NULL, 0},
    {key, 1, 0, true, NULL, 0},
    {keyLength, 8, 8, true, NULL, 0},
  };
  struct copies copies;
  if (!copied(env, &copies, arrays, LENGTH_OF(arrays))) return 0;
  int answer = cukvashe_cms_unwrap_key(arrays[0].at, arrays[0].length, arrays[1].at, arrays[1].length, arrays[2].at,
      arrays[2].length, arrays[3].at);
  given_back(env, &copies, arrays, LENGTH_OF(arrays), answer == CUKVASHE_OK);
  return answer;
}

static jint JNICALL call_tkw_wrap_key(JNIEnv *env, jclass class, jbyteArray protection, jbyteArray key,
    jbyteArray wrapped, jlongArray wrappedLength) {
  (void)class;
  struct array arrays[] = {
    {protection, 1, 0, false, NULL, 0},
    {key, 1, 0, false, NULL, 0},
    {wrapped, 1, 0, true, NULL, 0},
    {wrappedLength, 8, 8, true, NULL, 0},
  };
  struct copies copies;
  if (!copied(env, &copies, arrays, LENGTH_OF(arrays))) return 0;
  int answer = cukvashe_tkw_wrap_key(arrays[0].at, arrays[0].length, arrays[1].at, arrays[1].length, arrays[2].at,
      arrays[2].length, arrays[3].at);
  given_back(env, &copies, arrays, LENGTH_OF(arrays), answer == CUKVASHE_OK);
  return answer;
}

static jint JNICALL call_tkw_unwrap_key(JNIEnv *env, jclass class, jbyteArray protection, jbyteArray wrapped,
    jbyteArray key, jlongArray keyLength) {
  (void)class;
  struct array arrays[] = {
    {protection, 1, 0, false, NULL, 0},
    {wrapped, 1, 0, false, NULL, 0},
    {key, 1, 0, true, NULL, 0},
    {keyLength, 8, 8, true, NULL, 0},
  };
  struct copies copies;
  if (!copied(env, &copies, arrays, LENGTH_OF(arrays))) return 0;
  int answer = cukvashe_tkw_unwrap_key(arrays[0].at, arrays[0].length, arrays[1].at, arrays[1].length, arrays[2].at,
      arrays[2].length, arrays[3].at);
  given_back(env, &copies, arrays, LENGTH_OF(arrays), answer == CUKVASHE_OK);
  return answer;
}

static jint JNICALL call_des_encrypt_each(JNIEnv *env, jclass class, jbyteArray keys, jbyteArray blocks) {
  (void)class;
  struct array arrays[] = {
    {keys, 1, 0, false, NULL, 0},
    {blocks, 1, 0, true, NULL, 0},
  };
  struct copies copies;
  if (!copied(env, &copies, arrays, LENGTH_OF(arrays))) return 0;
  int answer = cukvashe_des_encrypt_each(arrays[0].at, arrays[0].length / CUKVASHE_DES_KEY_SIZE, arrays[1].at,
      arrays[1].length);
  given_back(env, &copies, arrays, LENGTH_OF(arrays), answer == CUKVASHE_OK);
  return answer;
}

static jint JNICALL call_des_decrypt_each(JNIEnv *env, jclass class, jbyteArray keys, jbyteArray blocks) {
  (void)class;
  struct array arrays[] = {
    {keys, 1, 0, false, NULL, 0},
    {blocks, 1, 0, true, NULL, 0},
  };
  struct copies copies;
  if (!copied(env, &copies, arrays, LENGTH_OF(arrays))) return 0;
  int answer = cukvashe_des_decrypt_each(arrays[0].at, arrays[0].length / CUKVASHE_DES_KEY_SIZE, arrays[1].at,
      arrays[1].length);
  given_back(env, &copies, arrays, LENGTH_OF(arrays), answer == CUKVASHE_OK);
  return answer;
}

static jint JNICALL call_tdes_ede2_encrypt_each(JNIEnv *env, jclass class, jbyteArray keys, jbyteArray blocks) {
  (void)class;
  struct array arrays[] = {
    {keys, 1, 0, false, NULL, 0},
    {blocks, 1, 0, true, NULL, 0},
  };
  struct copies copies;
  if (!copied(env, &copies, arrays, LENGTH_OF(arrays))) return 0;
  int answer = cukvashe_tdes_ede2_encrypt_each(arrays[0].at, arrays[0].length / CUKVASHE_TDES_EDE2_KEY_SIZE,
      arrays[1].at, arrays[1].length);
  given_back(env, &copies, arrays, LENGTH_OF(arrays), answer == CUKVASHE_OK);
  return answer;
}

static jint JNICALL call_tdes_ede2_decrypt_each(JNIEnv *env, jclass class, jbyteArray keys, jbyteArray blocks) {
  (void)class;
  struct array arrays[] = {
    {keys, 1, 0, false, NULL, 0},
    {blocks, 1, 0, true, NULL, 0},
  };
  struct copies copies;
  if (!copied(env, &copies, arrays, LENGTH_OF(arrays))) return 0;
  int answer = cukvashe_tdes_ede2_decrypt_each(arrays[0].at, arrays[0].length / CUKVASHE_TDES_EDE2_KEY_SIZE,
      arrays[1].at, arrays[1].length);
  given_back(env, &copies, arrays, LENGTH_OF(arrays), answer == CUKVASHE_OK);
  return answer;
}

static jint JNICALL call_tdes_ede3_encrypt_each(JNIEnv *env, jclass class, jbyteArray keys, jbyteArray blocks) {
  (void)class;
  struct array arrays[] = {
    {keys, 1, 0, false, NULL, 0},
    {blocks, 1, 0, true, NULL, 0},
  };
  struct copies copies;
  if (!copied(env, &copies, arrays, LENGTH_OF(arrays))) return 0;
  int answer = cukvashe_tdes_ede3_encrypt_each(arrays[0].at, arrays[0].length / CUKVASHE_TDES_EDE3_KEY_SIZE,
      arrays[1].at, arrays[1].length);
  given_back(env, &copies, arrays, LENGTH_OF(arrays), answer == CUKVASHE_OK);
  return answer;
}

static jint JNICALL call_tdes_ede3_decrypt_each(JNIEnv *env, jclass class, jbyteArray keys, jbyteArray blocks) {
  (void)class;
  struct array arrays[] = {
    {keys, 1, 0, false, NULL, 0},
    {blocks, 1, 0, true, NULL, 0},
  };
  struct copies copies;
  if (!copied(env, &copies, arrays, LENGTH_OF(arrays))) return 0;
  int answer = cukvashe_tdes_ede3_decrypt_each(arrays[0].at, arrays[0].length / CUKVASHE_TDES_EDE3_KEY_SIZE,
      arrays[1].at, arrays[1].length);
  given_back(env, &copies, arrays, LENGTH_OF(arrays), answer == CUKVASHE_OK);
  return answer;
}

static jint JNICALL call_des_encrypt_cbc_records(JNIEnv *env, jclass class, jlongArray context, jbyteArray vectors,
    jlongArray counts, jbyteArray bytes) {
  (void)class;
  struct array arrays[] = {
    {context, 8, sizeof(cukvashe_des), false, NULL, 0},
    {vectors, 1, 0, true, NULL, 0},
    {counts, 8, 0, false, NULL, 0},
    {bytes, 1, 0, true, NULL, 0},
  };
  struct copies copies;
  if (!copied(env, &copies, arrays, LENGTH_OF(arrays))) return 0;
  int answer = cukvashe_des_encrypt_cbc_records(arrays[0].at, arrays[1].at, arrays[1].length, arrays[2].at,
      arrays[2].length, arrays[3].at, arrays[3].length);
  given_back(env, &copies, arrays, LENGTH_OF(arrays), answer == CUKVASHE_OK);
  return answer;
}

static jint JNICALL call_des_decrypt_cbc_records(JNIEnv *env, jclass class, jlongArray context, jbyteArray vectors,
    jlongArray counts, jbyteArray bytes) {
  (void)class;
  struct array arrays[] = {
    {context, 8, sizeof(cukvashe_des), false, NULL, 0},
    {vectors, 1, 0, true, NULL, 0},
    {counts, 8, 0, false, NULL, 0},
    {bytes, 1, 0, true, NULL, 0},
  };
  struct copies copies;
  if (!copied(env, &copies, arrays, LENGTH_OF(arrays))) return 0;
  int answer = cukvashe_des_decrypt_cbc_records(arrays[0].at, arrays[1].at, arrays[1].length, arrays[2].at,
      arrays[2].length, arrays[3].at, arrays[3].length);
  given_back(env, &copies, arrays, LENGTH_OF(arrays), answer == CUKVASHE_OK);
  return answer;
}

static jint JNICALL call_tdes_ede2_encrypt_cbc_records(JNIEnv *env, jclass class, jlongArray context,
    jbyteArray vectors, jlongArray counts, jbyteArray bytes) {
  (void)class;
  struct array arrays[] = {
    {context, 8, sizeof(cukvashe_tdes_ede2), false, NULL, 0},
    {vectors, 1, 0, true, NULL, 0},
    {counts, 8, 0, false, NULL, 0},
    {bytes, 1, 0, true, NULL, 0},
  };
  struct copies copies;
  if (!copied(env, &copies, arrays, LENGTH_OF(arrays))) return 0;
  int answer = cukvashe_tdes_ede2_encrypt_cbc_records(arrays[0].at, arrays[1].at, arrays[1].length, arrays[2].at,
      arrays[2].length, arrays[3].at, arrays[3].length);
  given_back(env, &copies, arrays, LENGTH_OF(arrays), answer == CUKVASHE_OK);
  return answer;
}

static jint JNICALL call_tdes_ede2_decrypt_cbc_records(JNIEnv *env, jclass class, jlongArray context,
    jbyteArray vectors, jlongArray counts, jbyteArray bytes) {
  (void)class;
  struct array arrays[] = {
    {context, 8, sizeof(cukvashe_tdes_ede2), false, NULL, 0},
    {vectors, 1, 0, true, NULL, 0},
    {counts, 8, 0, false, NULL, 0},
    {bytes, 1, 0, true, NULL, 0},
  };
  struct copies copies;
  if (!copied(env, &copies, arrays, LENGTH_OF(arrays))) return 0;
  int answer = cukvashe_tdes_ede2_decrypt_cbc_records(arrays[0].at, arrays[1].at, arrays[1].length, arrays[2].at,
      arrays[2].length, arrays[3].at, arrays[3].length);
  given_back(env, &copies, arrays, LENGTH_OF(arrays), answer == CUKVASHE_OK);
  return answer;
}

static jint JNICALL call_tdes_ede3_encrypt_cbc_records(JNIEnv *env, jclass class, jlongArray context,
    jbyteArray vectors, jlongArray counts, jbyteArray bytes) {
  (void)class;
  struct array arrays[] = {
    {context, 8, sizeof(cukvashe_tdes_ede3), false, NULL, 0},
    {vectors, 1, 0, true, NULL, 0},
    {counts, 8, 0, false, NULL, 0},
    {bytes, 1, 0, true, NULL, 0},
  };
  struct copies copies;
  if (!copied(env, &copies, arrays, LENGTH_OF(arrays))) return 0;
  int answer = cukvashe_tdes_ede3_encrypt_cbc_records(arrays[0].at, arrays[1].at, arrays[1].length, arrays[2].at,
      arrays[2].length, arrays[3].at, arrays[3].length);
  given_back(env, &copies, arrays, LENGTH_OF(arrays), answer == CUKVASHE_OK);
  return answer;
}

static jint JNICALL call_tdes_ede3_decrypt_cbc_records(JNIEnv *env, jclass class, jlongArray context,
    jbyteArray vectors, jlongArray counts, jbyteArray bytes) {
  (void)class;
  struct array arrays[] = {
    {context, 8, sizeof(cukvashe_tdes_ede3), false, NULL, 0},
    {vectors, 1, 0, true, NULL, 0},
    {counts, 8, 0, false, NULL, 0},
    {bytes, 1, 0, true, NULL, 0},
  };
  struct copies copies;
  if (!copied(env, &copies, arrays, LENGTH_OF(arrays))) return 0;
  int answer = cukvashe_tdes_ede3_decrypt_cbc_records(arrays[0].at, arrays[1].at, arrays[1].length, arrays[2].at,
      arrays[2].length, arrays[3].at, arrays[3].length);
  given_back(env, &copies, arrays, LENGTH_OF(arrays), answer == CUKVASHE_OK);
  return answer;
}

static jint JNICALL call_unpad(JNIEnv *env, jclass class, jbyteArray buffer, jint method, jlongArray unpaddedLength) {
  (void)class;
  struct array arrays[] = {
    {buffer, 1, 0, false, NULL, 0},
    {unpaddedLength, 8, 8, true, NULL, 0},
  };
  struct copies copies;
  if (!copied(env, &copies, arrays, LENGTH_OF(arrays))) return 0;
  int answer = cukvashe_unpad(arrays[0].at, arrays[0].length, method, arrays[1].at);
  given_back(env, &copies, arrays, LENGTH_OF(arrays), answer == CUKVASHE_OK);
  return answer;
}

static jint JNICALL call_weak_key_test(JNIEnv *env, jclass class, jbyteArray key) {
  (void)class;
  struct array arrays[] = {
    {key, 1, 0, false, NULL, 0},
  };
  struct copies copies;
  if (!copied(env, &copies, arrays, LENGTH_OF(arrays))) return 0;
  int answer = cukvashe_weak_key_test(arrays[0].at, arrays[0].length);
  given_back(env, &copies, arrays, LENGTH_OF(arrays), answer == CUKVASHE_OK);
  return answer;
}

static void JNICALL call_set_odd_parity(JNIEnv *env, jclass class, jbyteArray key) {
  (void)class;
  struct array arrays[] = {
    {key, 1, 0, true, NULL, 0},
  };
  struct copies copies;
  if (!copied(env, &copies, arrays, LENGTH_OF(arrays))) return;
  cukvashe_set_odd_parity(arrays[0].at, arrays[0].length);
  given_back(env, &copies, arrays, LENGTH_OF(arrays), true);
}

static jboolean JNICALL call_equal_but_parity(JNIEnv *env, jclass class, jbyteArray first, jbyteArray second) {
  (void)class;
  struct array arrays[] = {
    {first, 1, 0, false, NULL, 0},
    {second, 1, 0, false, NULL, 0},
  };
  struct copies copies;
  if (!copied(env, &copies, arrays, LENGTH_OF(arrays))) return 0;
  bool answer = cukvashe_equal_but_parity(arrays[0].at, arrays[1].at, arrays[1].length);
  given_back(env, &copies, arrays, LENGTH_OF(arrays), true);
  return answer;
}

static jint JNICALL call_cbc_mac_des_init(JNIEnv *env, jclass class, jlongArray context, jbyteArray key, jint method) {
  (void)class;
  struct array arrays[] = {
    {context, 8, sizeof(cukvashe_cbc_mac_des), true, NULL, 0},
    {key, 1, 0, false, NULL, 0},
  };
  struct copies copies;
  if (!copied(env, &copies, arrays, LENGTH_OF(arrays))) return 0;
  int answer = cukvashe_cbc_mac_des_init(arrays[0].at, arrays[1].at, arrays[1].length, method);
  given_back(env, &copies, arrays, LENGTH_OF(arrays), answer == CUKVASHE_OK);
  return answer;
}

static jint JNICALL call_cbc_mac_tdes_ede2_init(JNIEnv *env, jclass class, jlongArray context, jbyteArray key,
    jint method) {
  (void)class;
  struct array arrays[] = {
    {context, 8, sizeof(cukvashe_cbc_mac_tdes_ede2), true, NULL, 0},
    {key, 1, 0, false, NULL, 0},
  };
  struct copies copies;
  if (!copied(env, &copies, arrays, LENGTH_OF(arrays))) return 0;
  int answer = cukvashe_cbc_mac_tdes_ede2_init(arrays[0].at, arrays[1].at, arrays[1].length, method);
  given_back(env, &copies, arrays, LENGTH_OF(arrays), answer == CUKVASHE_OK);
  return answer;
}

static jint JNICALL call_cbc_mac_tdes_ede3_init(JNIEnv *env, jclass class, jlongArray context, jbyteArray key,
    jint method) {
  (void)class;
  struct array arrays[] = {
    {context, 8, sizeof(cukvashe_cbc_mac_tdes_ede3), true, NULL, 0},
    {key, 1, 0, false, NULL, 0},
  };
  struct copies copies;
  if (!copied(env, &copies, arrays, LENGTH_OF(arrays))) return 0;
  int answer = cukvashe_cbc_mac_tdes_ede3_init(arrays[0].at, arrays[1].at, arrays[1].length, method);
  given_back(env, &copies, arrays, LENGTH_OF(arrays), answer == CUKVASHE_OK);
  return answer;
}

static jint JNICALL call_retail_mac_des_init(JNIEnv *env, jclass class, jlongArray context, jbyteArray key,
    jint method) {
  (void)class;
  struct array arrays[] = {
    {context, 8, sizeof(cukvashe_retail_mac_des), true, NULL, 0},
    {key, 1, 0, false, NULL, 0},
  };
  struct copies copies;
  if (!copied(env, &copies, arrays, LENGTH_OF(arrays))) return 0;
  int answer = cukvashe_retail_mac_des_init(arrays[0].at, arrays[1].at, arrays[1].length, method);
  given_back(env, &copies, arrays, LENGTH_OF(arrays), answer == CUKVASHE_OK);
  return answer;
}

static jint JNICALL call_cmac_tdes_ede2_init(JNIEnv *env, jclass class, jlongArray context, jbyteArray key) {
  (void)class;
  struct array arrays[] = {
    {context, 8, sizeof(cukvashe_cmac_tdes_ede2), true, NULL, 0},
    {key, 1, 0, false, NULL, 0},
  };
  struct copies copies;
  if (!copied(env, &copies, arrays, LENGTH_OF(arrays))) return 0;
  int answer = cukvashe_cmac_tdes_ede2_init(arrays[0].at, arrays[1].at, arrays[1].length);
  given_back(env, &copies, arrays, LENGTH_OF(arrays), answer == CUKVASHE_OK);
  return answer;
}

static jint JNICALL call_cmac_tdes_ede3_init(JNIEnv *env, jclass class, jlongArray context, jbyteArray key) {
  (void)class;
  struct array arrays[] = {
    {context, 8, sizeof(cukvashe_cmac_tdes_ede3), true, NULL, 0},
    {key, 1, 0, false, NULL, 0},
  };
  struct copies copies;
  if (!copied(env, &copies, arrays, LENGTH_OF(arrays))) return 0;
  int answer = cukvashe_cmac_tdes_ede3_init(arrays[0].at, arrays[1].at, arrays[1].length);
  given_back(env, &copies, arrays, LENGTH_OF(arrays), answer == CUKVASHE_OK);
  return answer;
}

static jint JNICALL call_cbc_mac_des_init_no_tables(JNIEnv *env, jclass class, jlongArray context, jbyteArray key,
    jint method) {
  (void)class;
  struct array arrays[] = {
    {context, 8, sizeof(cukvashe_cbc_mac_des), true, NULL, 0},
    {key, 1, 0, false, NULL, 0},
  };
  struct copies copies;
  if (!copied(env, &copies, arrays, LENGTH_OF(arrays))) return 0;
  int answer = cukvashe_cbc_mac_des_init_no_tables(arrays[0].at, arrays[1].at, arrays[1].length, method);
  given_back(env, &copies, arrays, LENGTH_OF(arrays), answer == CUKVASHE_OK);
  return answer;
}

static jint JNICALL call_cbc_mac_tdes_ede2_init_no_tables(JNIEnv *env, jclass class, jlongArray context, jbyteArray key,
    jint method) {
  (void)class;
  struct array arrays[] = {
    {context, 8, sizeof(cukvashe_cbc_mac_tdes_ede2), true, NULL, 0},
    {key, 1, 0, false, NULL, 0},
  };
  struct copies copies;
  if (!copied(env, &copies, arrays, LENGTH_OF(arrays))) return 0;
  int answer = cukvashe_cbc_mac_tdes_ede2_init_no_tables(arrays[0].at, arrays[1].at, arrays[1].length, method);
  given_back(env, &copies, arrays, LENGTH_OF(arrays), answer == CUKVASHE_OK);
  return answer;
}

static jint JNICALL call_cbc_mac_tdes_ede3_init_no_tables(JNIEnv *env, jclass class, jlongArray context, jbyteArray key,
    jint method) {
  (void)class;
  struct array arrays[] = {
    {context, 8, sizeof(cukvashe_cbc_mac_tdes_ede3), true, NULL, 0},
    {key, 1, 0, false, NULL, 0},
  };
  struct copies copies;
  if (!copied(env, &copies, arrays, LENGTH_OF(arrays))) return 0;
  int answer = cukvashe_cbc_mac_tdes_ede3_init_no_tables(arrays[0].at, arrays[1].at, arrays[1].length, method);
  given_back(env, &copies, arrays, LENGTH_OF(arrays), answer == CUKVASHE_OK);
  return answer;
}

static jint JNICALL call_retail_mac_des_init_no_tables(JNIEnv *env, jclass class, jlongArray context, jbyteArray key,
    jint method) {
  (void)class;
  struct array arrays[] = {
    {context, 8, sizeof(cukvashe_retail_mac_des), true, NULL, 0},
    {key, 1, 0, false, NULL, 0},
  };
  struct copies copies;
  if (!copied(env, &copies, arrays, LENGTH_OF(arrays))) return 0;
  int answer = cukvashe_retail_mac_des_init_no_tables(arrays[0].at, arrays[1].at, arrays[1].length, method);
  given_back(env, &copies, arrays, LENGTH_OF(arrays), answer == CUKVASHE_OK);
  return answer;
}

static jint JNICALL call_cmac_tdes_ede2_init_no_tables(JNIEnv *env, jclass class, jlongArray context, jbyteArray key) {
  (void)class;
  struct array arrays[] = {
    {context, 8, sizeof(cukvashe_cmac_tdes_ede2), true, NULL, 0},
    {key, 1, 0, false, NULL, 0},
  };
  struct copies copies;
  if (!copied(env, &copies, arrays, LENGTH_OF(arrays))) return 0;
  int answer = cukvashe_cmac_tdes_ede2_init_no_tables(arrays[0].at, arrays[1].at, arrays[1].length);
  given_back(env, &copies, arrays, LENGTH_OF(arrays), answer == CUKVASHE_OK);
  return answer;
}

static jint JNICALL call_cmac_tdes_ede3_init_no_tables(JNIEnv *env, jclass class, jlongArray context, jbyteArray key) {
  (void)class;
  struct array arrays[] = {
    {context, 8, sizeof(cukvashe_cmac_tdes_ede3), true, NULL, 0},
    {key, 1, 0, false, NULL, 0},
  };
  struct copies copies;
  if (!copied(env, &copies, arrays, LENGTH_OF(arrays))) return 0;
  int answer = cukvashe_cmac_tdes_ede3_init_no_tables(arrays[0].at, arrays[1].at, arrays[1].length);
  given_back(env, &copies, arrays, LENGTH_OF(arrays), answer == CUKVASHE_OK);
  return answer;
}

static jint JNICALL call_cbc_mac_des_macs(JNIEnv *env, jclass class, jbyteArray key, jint method, jbyteArray bytes,
    jlongArray lengths, jbyteArray tags) {
  (void)class;
  struct array arrays[] = {
    {key, 1, 0, false, NULL, 0},
    {bytes, 1, 0, false, NULL, 0},
    {lengths, 8, 0, false, NULL, 0},
    {tags, 1, 0, true, NULL, 0},
  };
  struct copies copies;
  if (!copied(env, &copies, arrays, LENGTH_OF(arrays))) return 0;
  cukvashe_message *messages = messages_of(env, &arrays[1], &arrays[2]);
  int answer = CUKVASHE_ERR_COUNTS;
  if (messages != NULL)
    answer = cukvashe_cbc_mac_des_macs(arrays[0].at, arrays[0].length, method, messages, arrays[3].at, arrays[3].length,
        arrays[2].length);
  free(messages);
  given_back(env, &copies, arrays, LENGTH_OF(arrays), answer == CUKVASHE_OK);
  return answer;
}

static jint JNICALL call_cbc_mac_des_macs_each(JNIEnv *env, jclass class, jbyteArray keys, jint method,
    jbyteArray bytes, jlongArray lengths, jbyteArray tags) {
  (void)class;
  struct array arrays[] = {
    {keys, 1, 0, false, NULL, 0},
    {bytes, 1, 0, false, NULL, 0},
    {lengths, 8, 0, false, NULL, 0},
    {tags, 1, 0, true, NULL, 0},
  };
  struct copies copies;
  if (!copied(env, &copies, arrays, LENGTH_OF(arrays))) return 0;
  cukvashe_message *messages = messages_of(env, &arrays[1], &arrays[2]);
  int answer = CUKVASHE_ERR_COUNTS;
  if (messages != NULL)
    answer = cukvashe_cbc_mac_des_macs_each(arrays[0].at, arrays[0].length, method, messages, arrays[3].at,
        arrays[3].length, arrays[2].length);
  free(messages);
  given_back(env, &copies, arrays, LENGTH_OF(arrays), answer == CUKVASHE_OK);
  return answer;
}

static jint JNICALL call_cbc_mac_tdes_ede2_macs(JNIEnv *env, jclass class, jbyteArray key, jint method,
    jbyteArray bytes, jlongArray lengths, jbyteArray tags) {
  (void)class;
  struct array arrays[] = {
    {key, 1, 0, false, NULL, 0},
    {bytes, 1, 0, false, NULL, 0},
    {lengths, 8, 0, false, NULL, 0},
    {tags, 1, 0, true, NULL, 0},
  };
  struct copies copies;
  if (!copied(env, &copies, arrays, LENGTH_OF(arrays))) return 0;
  cukvashe_message *messages = messages_of(env, &arrays[1], &arrays[2]);
  int answer = CUKVASHE_ERR_COUNTS;
  if (messages != NULL)
    answer = cukvashe_cbc_mac_tdes_ede2_macs(arrays[0].at, arrays[0].length, method, messages, arrays[3].at,
        arrays[3].length, arrays[2].length);
  free(messages);
  given_back(env, &copies, arrays, LENGTH_OF(arrays), answer == CUKVASHE_OK);
  return answer;
}

static jint JNICALL call_cbc_mac_tdes_ede2_macs_each(JNIEnv *env, jclass class, jbyteArray keys, jint method,
    jbyteArray bytes, jlongArray lengths, jbyteArray tags) {
  (void)class;
  struct array arrays[] = {
    {keys, 1, 0, false, NULL, 0},
    {bytes, 1, 0, false, NULL, 0},
    {lengths, 8, 0, false, NULL, 0},
    {tags, 1, 0, true, NULL, 0},
  };
  struct copies copies;
  if (!copied(env, &copies, arrays, LENGTH_OF(arrays))) return 0;
  cukvashe_message *messages = messages_of(env, &arrays[1], &arrays[2]);
  int answer = CUKVASHE_ERR_COUNTS;
  if (messages != NULL)
    answer = cukvashe_cbc_mac_tdes_ede2_macs_each(arrays[0].at, arrays[0].length, method, messages, arrays[3].at,
        arrays[3].length, arrays[2].length);
  free(messages);
  given_back(env, &copies, arrays, LENGTH_OF(arrays), answer == CUKVASHE_OK);
  return answer;
}

static jint JNICALL call_cbc_mac_tdes_ede3_macs(JNIEnv *env, jclass class, jbyteArray key, jint method,
    jbyteArray bytes, jlongArray lengths, jbyteArray tags) {
  (void)class;
  struct array arrays[] = {
    {key, 1, 0, false, NULL, 0},
    {bytes, 1, 0, false, NULL, 0},
    {lengths, 8, 0, false, NULL, 0},
    {tags, 1, 0, true, NULL, 0},
  };
  struct copies copies;
  if (!copied(env, &copies, arrays, LENGTH_OF(arrays))) return 0;
  cukvashe_message *messages = messages_of(env, &arrays[1], &arrays[2]);
  int answer = CUKVASHE_ERR_COUNTS;
  if (messages != NULL)
    answer = cukvashe_cbc_mac_tdes_ede3_macs(arrays[0].at, arrays[0].length, method, messages, arrays[3].at,
        arrays[3].length, arrays[2].length);
  free(messages);
  given_back(env, &copies, arrays, LENGTH_OF(arrays), answer == CUKVASHE_OK);
  return answer;
}

static jint JNICALL call_cbc_mac_tdes_ede3_macs_each(JNIEnv *env, jclass class, jbyteArray keys, jint method,
    jbyteArray bytes, jlongArray lengths, jbyteArray tags) {
  (void)class;
  struct array arrays[] = {
    {keys, 1, 0, false, NULL, 0},
    {bytes, 1, 0, false, NULL, 0},
    {lengths, 8, 0, false, NULL, 0},
    {tags, 1, 0, true, NULL, 0},
  };
  struct copies copies;
  if (!copied(env, &copies, arrays, LENGTH_OF(arrays))) return 0;
  cukvashe_message *messages = messages_of(env, &arrays[1], &arrays[2]);
  int answer = CUKVASHE_ERR_COUNTS;
  if (messages != NULL)
    answer = cukvashe_cbc_mac_tdes_ede3_macs_each(arrays[0].at, arrays[0].length, method, messages, arrays[3].at,
        arrays[3].length, arrays[2].length);
  free(messages);
  given_back(env, &copies, arrays, LENGTH_OF(arrays), answer == CUKVASHE_OK);
  return answer;
}

static jint JNICALL call_retail_mac_des_macs(JNIEnv *env, jclass class, jbyteArray key, jint method, jbyteArray bytes,
    jlongArray lengths, jbyteArray tags) {
  (void)class;
  struct array arrays[] = {
    {key, 1, 0, false, NULL, 0},
    {bytes, 1, 0, false, NULL, 0},
    {lengths, 8, 0, false, NULL, 0},
    {tags, 1, 0, true, NULL, 0},
  };
  struct copies copies;
  if (!copied(env, &copies, arrays, LENGTH_OF(arrays))) return 0;
  cukvashe_message *messages = messages_of(env, &arrays[1], &arrays[2]);
  int answer = CUKVASHE_ERR_COUNTS;
  if (messages != NULL)
    answer = cukvashe_retail_mac_des_macs(arrays[0].at, arrays[0].length, method, messages, arrays[3].at,
        arrays[3].length, arrays[2].length);
  free(messages);
  given_back(env, &copies, arrays, LENGTH_OF(arrays), answer == CUKVASHE_OK);
  return answer;
}

static jint JNICALL call_retail_mac_des_macs_each(JNIEnv *env, jclass class, jbyteArray keys, jint method,
    jbyteArray bytes, jlongArray lengths, jbyteArray tags) {
  (void)class;
  struct array arrays[] = {
    {keys, 1, 0, false, NULL, 0},
    {bytes, 1, 0, false, NULL, 0},
    {lengths, 8, 0, false, NULL, 0},
    {tags, 1, 0, true, NULL, 0},
  };
  struct copies copies;
  if (!copied(env, &copies, arrays, LENGTH_OF(arrays))) return 0;
  cukvashe_message *messages = messages_of(env, &arrays[1], &arrays[2]);
  int answer = CUKVASHE_ERR_COUNTS;
  if (messages != NULL)
    answer = cukvashe_retail_mac_des_macs_each(arrays[0].at, arrays[0].length, method, messages, arrays[3].at,
        arrays[3].length, arrays[2].length);
  free(messages);
  given_back(env, &copies, arrays, LENGTH_OF(arrays), answer == CUKVASHE_OK);
  return answer;
}

static jint JNICALL call_cmac_tdes_ede2_macs(JNIEnv *env, jclass class, jbyteArray key, jbyteArray bytes,
    jlongArray lengths, jbyteArray tags) {
  (void)class;
  struct array arrays[] = {
    {key, 1, 0, false, NULL, 0},
    {bytes, 1, 0, false, NULL, 0},
    {lengths, 8, 0, false, NULL, 0},
    {tags, 1, 0, true, NULL, 0},
  };
  struct copies copies;
  if (!copied(env, &copies, arrays, LENGTH_OF(arrays))) return 0;
  cukvashe_message *messages = messages_of(env, &arrays[1], &arrays[2]);
  int answer = CUKVASHE_ERR_COUNTS;
  if (messages != NULL)
    answer = cukvashe_cmac_tdes_ede2_macs(arrays[0].at, arrays[0].length, messages, arrays[3].at, arrays[3].length,
        arrays[2].length);
  free(messages);
  given_back(env, &copies, arrays, LENGTH_OF(arrays), answer == CUKVASHE_OK);
  return answer;
}

static jint JNICALL call_cmac_tdes_ede2_macs_each(JNIEnv *env, jclass class, jbyteArray keys, jbyteArray bytes,
    jlongArray lengths, jbyteArray tags) {
  (void)class;
  struct array arrays[] = {
    {keys, 1, 0, false, NULL, 0},
    {bytes, 1, 0, false, NULL, 0},
    {lengths, 8, 0, false, NULL, 0},
    {tags, 1, 0, true, NULL, 0},
  };
  struct copies copies;
  if (!copied(env, &copies, arrays, LENGTH_OF(arrays))) return 0;
  cukvashe_message *messages = messages_of(env, &arrays[1], &arrays[2]);
  int answer = CUKVASHE_ERR_COUNTS;
  if (messages != NULL)
    answer = cukvashe_cmac_tdes_ede2_macs_each(arrays[0].at, arrays[0].length, messages, arrays[3].at, arrays[3].length,
        arrays[2].length);
  free(messages);
  given_back(env, &copies, arrays, LENGTH_OF(arrays), answer == CUKVASHE_OK);
  return answer;
}

static jint JNICALL call_cmac_tdes_ede3_macs(JNIEnv *env, jclass class, jbyteArray key, jbyteArray bytes,
    jlongArray lengths, jbyteArray tags) {
  (void)class;
  struct array arrays[] = {
    {key, 1, 0, false, NULL, 0},
    {bytes, 1, 0, false, NULL, 0},
    {lengths, 8, 0, false, NULL, 0},
    {tags, 1, 0, true, NULL, 0},
  };
  struct copies copies;
  if (!copied(env, &copies, arrays, LENGTH_OF(arrays))) return 0;
  cukvashe_message *messages = messages_of(env, &arrays[1], &arrays[2]);
  int answer = CUKVASHE_ERR_COUNTS;
  if (messages != NULL)
    answer = cukvashe_cmac_tdes_ede3_macs(arrays[0].at, arrays[0].length, messages, arrays[3].at, arrays[3].length,
        arrays[2].length);
  free(messages);
  given_back(env, &copies, arrays, LENGTH_OF(arrays), answer == CUKVASHE_OK);
  return answer;
}

static jint JNICALL call_cmac_tdes_ede3_macs_each(JNIEnv *env, jclass class, jbyteArray keys, jbyteArray bytes,
    jlongArray lengths, jbyteArray tags) {
  (void)class;
  struct array arrays[] = {
    {keys, 1, 0, false, NULL, 0},
    {bytes, 1, 0, false, NULL, 0},
    {lengths, 8, 0, false, NULL, 0},
    {tags, 1, 0, true, NULL, 0},
  };
  struct copies copies;
  if (!copied(env, &copies, arrays, LENGTH_OF(arrays))) return 0;
  cukvashe_message *messages = messages_of(env, &arrays[1], &arrays[2]);
  int answer = CUKVASHE_ERR_COUNTS;
  if (messages != NULL)
    answer = cukvashe_cmac_tdes_ede3_macs_each(arrays[0].at, arrays[0].length, messages, arrays[3].at, arrays[3].length,
        arrays[2].length);
  free(messages);
  given_back(env, &copies, arrays, LENGTH_OF(arrays), answer == CUKVASHE_OK);
  return answer;
}

static jint JNICALL call_des_check_value(JNIEnv *env, jclass class, jbyteArray key, jbyteArray value) {
  (void)class;
  struct array arrays[] = {
    {key, 1, 0, false, NULL, 0},
    {value, 1, 3, true, NULL, 0},
  };
  struct copies copies;
  if (!copied(env, &copies, arrays, LENGTH_OF(arrays))) return 0;
  int answer = cukvashe_des_check_value(arrays[0].at, arrays[0].length, arrays[1].at);
  given_back(env, &copies, arrays, LENGTH_OF(arrays), answer == CUKVASHE_OK);
  return answer;
}

static jint JNICALL call_tdes_ede2_check_value(JNIEnv *env, jclass class, jbyteArray key, jbyteArray value) {
  (void)class;
  struct array arrays[] = {
    {key, 1, 0, false, NULL, 0},
    {value, 1, 3, true, NULL, 0},
  };
  struct copies copies;
  if (!copied(env, &copies, arrays, LENGTH_OF(arrays))) return 0;
  int answer = cukvashe_tdes_ede2_check_value(arrays[0].at, arrays[0].length, arrays[1].at);
  given_back(env, &copies, arrays, LENGTH_OF(arrays), answer == CUKVASHE_OK);
  return answer;
}

static jint JNICALL call_tdes_ede3_check_value(JNIEnv *env, jclass class, jbyteArray key, jbyteArray value) {
  (void)class;
  struct array arrays[] = {
    {key, 1, 0, false, NULL, 0},
    {value, 1, 3, true, NULL, 0},
  };
  struct copies copies;
  if (!copied(env, &copies, arrays, LENGTH_OF(arrays))) return 0;
  int answer = cukvashe_tdes_ede3_check_value(arrays[0].at, arrays[0].length, arrays[1].at);
  given_back(env, &copies, arrays, LENGTH_OF(arrays), answer == CUKVASHE_OK);
  return answer;
}

static jint JNICALL call_key_check_value(JNIEnv *env, jclass class, jbyteArray key, jbyteArray value) {
  (void)class;
  struct array arrays[] = {
    {key, 1, 0, false, NULL, 0},
    {value, 1, 3, true, NULL, 0},
  };
  struct copies copies;
  if (!copied(env, &copies, arrays, LENGTH_OF(arrays))) return 0;
  int answer = cukvashe_key_check_value(arrays[0].at, arrays[0].length, arrays[1].at);
  given_back(env, &copies, arrays, LENGTH_OF(arrays), answer == CUKVASHE_OK);
  return answer;
}

static jint JNICALL call_short_key_check_value(JNIEnv *env, jclass class, jbyteArray key, jbyteArray value) {
  (void)class;
  struct array arrays[] = {
    {key, 1, 0, false, NULL, 0},
    {value, 1, 2, true, NULL, 0},
  };
  struct copies copies;
  if (!copied(env, &copies, arrays, LENGTH_OF(arrays))) return 0;
  int answer = cukvashe_short_key_check_value(arrays[0].at, arrays[0].length, arrays[1].at);
  given_back(env, &copies, arrays, LENGTH_OF(arrays), answer == CUKVASHE_OK);
  return answer;
}

static jint JNICALL call_des_check_values(JNIEnv *env, jclass class, jbyteArray keys, jbyteArray values, jlong count) {
  (void)class;
  struct array arrays[] = {
    {keys, 1, 0, false, NULL, 0},
    {values, 1, 0, true, NULL, 0},
  };
  struct copies copies;
  if (!copied(env, &copies, arrays, LENGTH_OF(arrays))) return 0;
  int answer = cukvashe_des_check_values(arrays[0].at, arrays[0].length, arrays[1].at, arrays[1].length, (size_t)count);
  given_back(env, &copies, arrays, LENGTH_OF(arrays), answer == CUKVASHE_OK);
  return answer;
}

static jint JNICALL call_tdes_ede2_check_values(JNIEnv *env, jclass class, jbyteArray keys, jbyteArray values,
    jlong count) {
  (void)class;
  struct array arrays[] = {
    {keys, 1, 0, false, NULL, 0},
    {values, 1, 0, true, NULL, 0},
  };
  struct copies copies;
  if (!copied(env, &copies, arrays, LENGTH_OF(arrays))) return 0;
  int answer = cukvashe_tdes_ede2_check_values(arrays[0].at, arrays[0].length, arrays[1].at, arrays[1].length,
      (size_t)count);
  given_back(env, &copies, arrays, LENGTH_OF(arrays), answer == CUKVASHE_OK);
  return answer;
}

static jint JNICALL call_tdes_ede3_check_values(JNIEnv *env, jclass class, jbyteArray keys, jbyteArray values,
    jlong count) {
  (void)class;
  struct array arrays[] = {
    {keys, 1, 0, false, NULL, 0},
    {values, 1, 0, true, NULL, 0},
  };
  struct copies copies;
  if (!copied(env, &copies, arrays, LENGTH_OF(arrays))) return 0;
  int answer = cukvashe_tdes_ede3_check_values(arrays[0].at, arrays[0].length, arrays[1].at, arrays[1].length,
      (size_t)count);
  given_back(env, &copies, arrays, LENGTH_OF(arrays), answer == CUKVASHE_OK);
  return answer;
}

static jint JNICALL call_combine_8(JNIEnv *env, jclass class, jbyteArray first, jbyteArray second, jbyteArray others,
    jlong othersCount, jbyteArray key) {
  (void)class;
  struct array arrays[] = {
    {first, 1, 8, false, NULL, 0},
    {second, 1, 8, false, NULL, 0},
    {others, 1, 0, false, NULL, 0},
    {key, 1, 8, true, NULL, 0},
  };
  struct copies copies;
  if (!copied(env, &copies, arrays, LENGTH_OF(arrays))) return 0;
  int answer = cukvashe_combine_8(arrays[0].at, arrays[1].at, arrays[2].at, arrays[2].length, (size_t)othersCount,
      arrays[3].at);
  given_back(env, &copies, arrays, LENGTH_OF(arrays), answer == CUKVASHE_OK);
  return answer;
}

static jint JNICALL call_combine_16(JNIEnv *env, jclass class, jbyteArray first, jbyteArray second, jbyteArray others,
    jlong othersCount, jbyteArray key) {
  (void)class;
  struct array arrays[] = {
    {first, 1, 16, false, NULL, 0},
    {second, 1, 16, false, NULL, 0},
    {others, 1, 0, false, NULL, 0},
    {key, 1, 16, true, NULL, 0},
  };
  struct copies copies;
  if (!copied(env, &copies, arrays, LENGTH_OF(arrays))) return 0;
  int answer = cukvashe_combine_16(arrays[0].at, arrays[1].at, arrays[2].at, arrays[2].length, (size_t)othersCount,
      arrays[3].at);
  given_back(env, &copies, arrays, LENGTH_OF(arrays), answer == CUKVASHE_OK);
  return answer;
}

static jint JNICALL call_combine_24(JNIEnv *env, jclass class, jbyteArray first, jbyteArray second, jbyteArray others,
    jlong othersCount, jbyteArray key) {
  (void)class;
  struct array arrays[] = {
    {first, 1, 24, false, NULL, 0},
    {second, 1, 24, false, NULL, 0},
    {others, 1, 0, false, NULL, 0},
    {key, 1, 24, true, NULL, 0},
  };
  struct copies copies;
  if (!copied(env, &copies, arrays, LENGTH_OF(arrays))) return 0;
  int answer = cukvashe_combine_24(arrays[0].at, arrays[1].at, arrays[2].at, arrays[2].length, (size_t)othersCount,
      arrays[3].at);
  given_back(env, &copies, arrays, LENGTH_OF(arrays), answer == CUKVASHE_OK);
  return answer;
}

static jboolean JNICALL call_dukpt_is_usable(JNIEnv *env, jclass class, jbyteArray serial) {
  (void)class;
  struct array arrays[] = {
    {serial, 1, 10, false, NULL, 0},
  };
  struct copies copies;
  if (!copied(env, &copies, arrays, LENGTH_OF(arrays))) return 0;
  bool answer = cukvashe_dukpt_is_usable(arrays[0].at);
  given_back(env, &copies, arrays, LENGTH_OF(arrays), true);
  return answer;
}

static jint JNICALL call_dukpt_next_serial(JNIEnv *env, jclass class, jbyteArray serial, jbyteArray next) {
  (void)class;
  struct array arrays[] = {
    {serial, 1, 10, false, NULL, 0},
    {next, 1, 10, true, NULL, 0},
  };
  struct copies copies;
  if (!copied(env, &copies, arrays, LENGTH_OF(arrays))) return 0;
  int answer = cukvashe_dukpt_next_serial(arrays[0].at, arrays[1].at);
  given_back(env, &copies, arrays, LENGTH_OF(arrays), answer == CUKVASHE_OK);
  return answer;
}

static void JNICALL call_dukpt_initial_key(JNIEnv *env, jclass class, jbyteArray base, jbyteArray serial,
    jbyteArray key) {
  (void)class;
  struct array arrays[] = {
    {base, 1, 16, false, NULL, 0},
    {serial, 1, 10, false, NULL, 0},
    {key, 1, 16, true, NULL, 0},
  };
  struct copies copies;
  if (!copied(env, &copies, arrays, LENGTH_OF(arrays))) return;
  cukvashe_dukpt_initial_key(arrays[0].at, arrays[1].at, arrays[2].at);
  given_back(env, &copies, arrays, LENGTH_OF(arrays), true);
}

static void JNICALL call_dukpt_transaction_key(JNIEnv *env, jclass class, jbyteArray initial, jbyteArray serial,
    jbyteArray key) {
  (void)class;
  struct array arrays[] = {
    {initial, 1, 16, false, NULL, 0},
    {serial, 1, 10, false, NULL, 0},
    {key, 1, 16, true, NULL, 0},
  };
  struct copies copies;
  if (!copied(env, &copies, arrays, LENGTH_OF(arrays))) return;
  cukvashe_dukpt_transaction_key(arrays[0].at, arrays[1].at, arrays[2].at);
  given_back(env, &copies, arrays, LENGTH_OF(arrays), true);
}

static jint JNICALL call_dukpt_transaction_keys_from_base(JNIEnv *env, jclass class, jbyteArray base,
    jbyteArray serials, jbyteArray keys, jlong count) {
  (void)class;
  struct array arrays[] = {
    {base, 1, 16, false, NULL, 0},
    {serials, 1, 0, false, NULL, 0},
    {keys, 1, 0, true, NULL, 0},
  };
  struct copies copies;
  if (!copied(env, &copies, arrays, LENGTH_OF(arrays))) return 0;
  int answer = cukvashe_dukpt_transaction_keys_from_base(arrays[0].at, arrays[1].at, arrays[1].length, arrays[2].at,
      arrays[2].length, (size_t)count);
  given_back(env, &copies, arrays, LENGTH_OF(arrays), answer == CUKVASHE_OK);
  return answer;
}

static void JNICALL call_dukpt_pin_key(JNIEnv *env, jclass class, jbyteArray transaction, jbyteArray key) {
  (void)class;
  struct array arrays[] = {
    {transaction, 1, 16, false, NULL, 0},
    {key, 1, 16, true, NULL, 0},
  };
  struct copies copies;
  if (!copied(env, &copies, arrays, LENGTH_OF(arrays))) return;
  cukvashe_dukpt_pin_key(arrays[0].at, arrays[1].at);
  given_back(env, &copies, arrays, LENGTH_OF(arrays), true);
}

static void JNICALL call_dukpt_mac_key(JNIEnv *env, jclass class, jbyteArray transaction, jboolean isResponse,
    jbyteArray key) {
  (void)class;
  struct array arrays[] = {
    {transaction, 1, 16, false, NULL, 0},
    {key, 1, 16, true, NULL, 0},
  };
  struct copies copies;
  if (!copied(env, &copies, arrays, LENGTH_OF(arrays))) return;
  cukvashe_dukpt_mac_key(arrays[0].at, isResponse != JNI_FALSE, arrays[1].at);
  given_back(env, &copies, arrays, LENGTH_OF(arrays), true);
}

static void JNICALL call_dukpt_data_key(JNIEnv *env, jclass class, jbyteArray transaction, jboolean isResponse,
    jbyteArray key) {
  (void)class;
  struct array arrays[] = {
    {transaction, 1, 16, false, NULL, 0},
    {key, 1, 16, true, NULL, 0},
  };
  struct copies copies;
  if (!copied(env, &copies, arrays, LENGTH_OF(arrays))) return;
  cukvashe_dukpt_data_key(arrays[0].at, isResponse != JNI_FALSE, arrays[1].at);
  given_back(env, &copies, arrays, LENGTH_OF(arrays), true);
}

static void JNICALL call_dukpt_data_variant(JNIEnv *env, jclass class, jbyteArray transaction, jboolean isResponse,
    jbyteArray key) {
  (void)class;
  struct array arrays[] = {
    {transaction, 1, 16, false, NULL, 0},
    {key, 1, 16, true, NULL, 0},
  };
  struct copies copies;
  if (!copied(env, &copies, arrays, LENGTH_OF(arrays))) return;
  cukvashe_dukpt_data_variant(arrays[0].at, isResponse != JNI_FALSE, arrays[1].at);
  given_back(env, &copies, arrays, LENGTH_OF(arrays), true);
}

static void JNICALL call_dukpt_terminal_init(JNIEnv *env, jclass class, jbyteArray terminal, jbyteArray initial,
    jbyteArray serial) {
  (void)class;
  struct array arrays[] = {
    {terminal, 1, sizeof(cukvashe_dukpt_terminal), true, NULL, 0},
    {initial, 1, 16, false, NULL, 0},
    {serial, 1, 10, false, NULL, 0},
  };
  struct copies copies;
  if (!copied(env, &copies, arrays, LENGTH_OF(arrays))) return;
  cukvashe_dukpt_terminal_init(arrays[0].at, arrays[1].at, arrays[2].at);
  given_back(env, &copies, arrays, LENGTH_OF(arrays), true);
}

static jint JNICALL call_dukpt_terminal_next_key(JNIEnv *env, jclass class, jbyteArray terminal, jbyteArray serial,
    jbyteArray key) {
  (void)class;
  struct array arrays[] = {
    {terminal, 1, sizeof(cukvashe_dukpt_terminal), true, NULL, 0},
    {serial, 1, 10, true, NULL, 0},
    {key, 1, 16, true, NULL, 0},
  };
  struct copies copies;
  if (!copied(env, &copies, arrays, LENGTH_OF(arrays))) return 0;
  int answer = cukvashe_dukpt_terminal_next_key(arrays[0].at, arrays[1].at, arrays[2].at);
  given_back(env, &copies, arrays, LENGTH_OF(arrays), answer == CUKVASHE_OK);
  return answer;
}

static jint JNICALL call_pin_encode_0(JNIEnv *env, jclass class, jbyteArray pin, jbyteArray account, jbyteArray block) {
  (void)class;
  struct array arrays[] = {
    {pin, 1, 0, false, NULL, 0},
    {account, 1, 0, false, NULL, 0},
    {block, 1, 8, true, NULL, 0},
  };
  struct copies copies;
  if (!copied(env, &copies, arrays, LENGTH_OF(arrays))) return 0;
  int answer = cukvashe_pin_encode_0(arrays[0].at, arrays[0].length, arrays[1].at, arrays[1].length, arrays[2].at);
  given_back(env, &copies, arrays, LENGTH_OF(arrays), answer == CUKVASHE_OK);
  return answer;
}

static jint JNICALL call_pin_encode_1(JNIEnv *env, jclass class, jbyteArray pin, jbyteArray transaction,
    jbyteArray block) {
  (void)class;
  struct array arrays[] = {
    {pin, 1, 0, false, NULL, 0},
    {transaction, 1, 10, false, NULL, 0},
    {block, 1, 8, true, NULL, 0},
  };
  struct copies copies;
  if (!copied(env, &copies, arrays, LENGTH_OF(arrays))) return 0;
  int answer = cukvashe_pin_encode_1(arrays[0].at, arrays[0].length, arrays[1].at, arrays[2].at);
  given_back(env, &copies, arrays, LENGTH_OF(arrays), answer == CUKVASHE_OK);
  return answer;
}

static jint JNICALL call_pin_encode_2(JNIEnv *env, jclass class, jbyteArray pin, jbyteArray block) {
  (void)class;
  struct array arrays[] = {
    {pin, 1, 0, false, NULL, 0},
    {block, 1, 8, true, NULL, 0},
  };
  struct copies copies;
  if (!copied(env, &copies, arrays, LENGTH_OF(arrays))) return 0;
  int answer = cukvashe_pin_encode_2(arrays[0].at, arrays[0].length, arrays[1].at);
  given_back(env, &copies, arrays, LENGTH_OF(arrays), answer == CUKVASHE_OK);
  return answer;
}

static jint JNICALL call_pin_encode_3(JNIEnv *env, jclass class, jbyteArray pin, jbyteArray account, jbyteArray fill,
    jbyteArray block) {
  (void)class;
  struct array arrays[] = {
    {pin, 1, 0, false, NULL, 0},
    {account, 1, 0, false, NULL, 0},
    {fill, 1, 10, false, NULL, 0},
    {block, 1, 8, true, NULL, 0},
  };
  struct copies copies;
  if (!copied(env, &copies, arrays, LENGTH_OF(arrays))) return 0;
  int answer = cukvashe_pin_encode_3(arrays[0].at, arrays[0].length, arrays[1].at, arrays[1].length, arrays[2].at,
      arrays[3].at);
  given_back(env, &copies, arrays, LENGTH_OF(arrays), answer == CUKVASHE_OK);
  return answer;
}

static jint JNICALL call_pin_decode_0(JNIEnv *env, jclass class, jbyteArray block, jbyteArray account, jbyteArray pin) {
  (void)class;
  struct array arrays[] = {
    {block, 1, 8, false, NULL, 0},
    {account, 1, 0, false, NULL, 0},
    {pin, 1, 13, true, NULL, 0},
  };
  struct copies copies;
  if (!copied(env, &copies, arrays, LENGTH_OF(arrays))) return 0;
  int answer = cukvashe_pin_decode_0(arrays[0].at, arrays[1].at, arrays[1].length, arrays[2].at);
  given_back(env, &copies, arrays, LENGTH_OF(arrays), answer == CUKVASHE_OK);
  return answer;
}

static jint JNICALL call_pin_decode_1(JNIEnv *env, jclass class, jbyteArray block, jbyteArray pin) {
  (void)class;
  struct array arrays[] = {
    {block, 1, 8, false, NULL, 0},
    {pin, 1, 13, true, NULL, 0},
  };
  struct copies copies;
  if (!copied(env, &copies, arrays, LENGTH_OF(arrays))) return 0;
  int answer = cukvashe_pin_decode_1(arrays[0].at, arrays[1].at);
  given_back(env, &copies, arrays, LENGTH_OF(arrays), answer == CUKVASHE_OK);
  return answer;
}

static jint JNICALL call_pin_decode_2(JNIEnv *env, jclass class, jbyteArray block, jbyteArray pin) {
  (void)class;
  struct array arrays[] = {
    {block, 1, 8, false, NULL, 0},
    {pin, 1, 13, true, NULL, 0},
  };
  struct copies copies;
  if (!copied(env, &copies, arrays, LENGTH_OF(arrays))) return 0;
  int answer = cukvashe_pin_decode_2(arrays[0].at, arrays[1].at);
  given_back(env, &copies, arrays, LENGTH_OF(arrays), answer == CUKVASHE_OK);
  return answer;
}

static jint JNICALL call_pin_decode_3(JNIEnv *env, jclass class, jbyteArray block, jbyteArray account, jbyteArray pin) {
  (void)class;
  struct array arrays[] = {
    {block, 1, 8, false, NULL, 0},
    {account, 1, 0, false, NULL, 0},
    {pin, 1, 13, true, NULL, 0},
  };
  struct copies copies;
  if (!copied(env, &copies, arrays, LENGTH_OF(arrays))) return 0;
  int answer = cukvashe_pin_decode_3(arrays[0].at, arrays[1].at, arrays[1].length, arrays[2].at);
  given_back(env, &copies, arrays, LENGTH_OF(arrays), answer == CUKVASHE_OK);
  return answer;
}

static jint JNICALL call_pin_translate_to_0(JNIEnv *env, jclass class, jbyteArray incomingKey, jint incomingFormat,
    jbyteArray outgoingKey, jbyteArray account, jbyteArray fill, jbyteArray block, jbyteArray translated) {
  (void)class;
  struct array arrays[] = {
    {incomingKey, 1, 0, false, NULL, 0},
    {outgoingKey, 1, 0, false, NULL, 0},
    {account, 1, 0, false, NULL, 0},
    {fill, 1, 0, false, NULL, 0},
    {block, 1, 8, false, NULL, 0},
    {translated, 1, 8, true, NULL, 0},
  };
  struct copies copies;
  if (!copied(env, &copies, arrays, LENGTH_OF(arrays))) return 0;
  const cukvashe_pin_translation translation = {.incoming_key = arrays[0].at, .incoming_key_length = arrays[0].length,
      .incoming_format = incomingFormat, .outgoing_key = arrays[1].at, .outgoing_key_length = arrays[1].length, .account
      = arrays[2].at, .account_length = arrays[2].length, .fill = arrays[3].at};
  int answer = cukvashe_pin_translate_to_0(&translation, arrays[4].at, arrays[5].at);
  given_back(env, &copies, arrays, LENGTH_OF(arrays), answer == CUKVASHE_OK);
  return answer;
}

static jint JNICALL call_pin_translate_to_1(JNIEnv *env, jclass class, jbyteArray incomingKey, jint incomingFormat,
    jbyteArray outgoingKey, jbyteArray account, jbyteArray fill, jbyteArray block, jbyteArray translated) {
  (void)class;
  struct array arrays[] = {
    {incomingKey, 1, 0, false, NULL, 0},
    {outgoingKey, 1, 0, false, NULL, 0},
    {account, 1, 0, false, NULL, 0},
    {fill, 1, 0, false, NULL, 0},
    {block, 1, 8, false, NULL, 0},
    {translated, 1, 8, true, NULL, 0},
  };
  struct copies copies;
  if (!copied(env, &copies, arrays, LENGTH_OF(arrays))) return 0;
  const cukvashe_pin_translation translation = {.incoming_key = arrays[0].at, .incoming_key_length = arrays[0].length,
      .incoming_format = incomingFormat, .outgoing_key = arrays[1].at, .outgoing_key_length = arrays[1].length, .account
      = arrays[2].at, .account_length = arrays[2].length, .fill = arrays[3].at};
  int answer = cukvashe_pin_translate_to_1(&translation, arrays[4].at, arrays[5].at);
  given_back(env, &copies, arrays, LENGTH_OF(arrays), answer == CUKVASHE_OK);
  return answer;
}

static jint JNICALL call_pin_translate_to_3(JNIEnv *env, jclass class, jbyteArray incomingKey, jint incomingFormat,
    jbyteArray outgoingKey, jbyteArray account, jbyteArray fill, jbyteArray block, jbyteArray translated) {
  (void)class;
  struct array arrays[] = {
    {incomingKey, 1, 0, false, NULL, 0},
    {outgoingKey, 1, 0, false, NULL, 0},
    {account, 1, 0, false, NULL, 0},
    {fill, 1, 0, false, NULL, 0},
    {block, 1, 8, false, NULL, 0},
    {translated, 1, 8, true, NULL, 0},
  };
  struct copies copies;
  if (!copied(env, &copies, arrays, LENGTH_OF(arrays))) return 0;
  const cukvashe_pin_translation translation = {.incoming_key = arrays[0].at, .incoming_key_length = arrays[0].length,
      .incoming_format = incomingFormat, .outgoing_key = arrays[1].at, .outgoing_key_length = arrays[1].length, .account
      = arrays[2].at, .account_length = arrays[2].length, .fill = arrays[3].at};
  int answer = cukvashe_pin_translate_to_3(&translation, arrays[4].at, arrays[5].at);
  given_back(env, &copies, arrays, LENGTH_OF(arrays), answer == CUKVASHE_OK);
  return answer;
}

static jint JNICALL call_pvv(JNIEnv *env, jclass class, jbyteArray key, jbyteArray account, jint index, jbyteArray pin,
    jbyteArray value) {
  (void)class;
  struct array arrays[] = {
    {key, 1, 16, false, NULL, 0},
    {account, 1, 0, false, NULL, 0},
    {pin, 1, 0, false, NULL, 0},
    {value, 1, 5, true, NULL, 0},
  };
  struct copies copies;
  if (!copied(env, &copies, arrays, LENGTH_OF(arrays))) return 0;
  int answer = cukvashe_pvv(arrays[0].at, arrays[1].at, arrays[1].length, index, arrays[2].at, arrays[2].length,
      arrays[3].at);
  given_back(env, &copies, arrays, LENGTH_OF(arrays), answer == CUKVASHE_OK);
  return answer;
}

static jint JNICALL call_pvv_verify(JNIEnv *env, jclass class, jbyteArray key, jbyteArray account, jint index,
    jbyteArray pin, jbyteArray value) {
  (void)class;
  struct array arrays[] = {
    {key, 1, 16, false, NULL, 0},
    {account, 1, 0, false, NULL, 0},
    {pin, 1, 0, false, NULL, 0},
    {value, 1, 0, false, NULL, 0},
  };
  struct copies copies;
  if (!copied(env, &copies, arrays, LENGTH_OF(arrays))) return 0;
  int answer = cukvashe_pvv_verify(arrays[0].at, arrays[1].at, arrays[1].length, index, arrays[2].at, arrays[2].length,
      arrays[3].at, arrays[3].length);
  given_back(env, &copies, arrays, LENGTH_OF(arrays), answer == CUKVASHE_OK);
  return answer;
}

static jboolean JNICALL call_pvv_is_pin(JNIEnv *env, jclass class, jbyteArray key, jbyteArray account, jint index,
    jbyteArray pin, jbyteArray value) {
  (void)class;
  struct array arrays[] = {
    {key, 1, 16, false, NULL, 0},
    {account, 1, 0, false, NULL, 0},
    {pin, 1, 0, false, NULL, 0},
    {value, 1, 0, false, NULL, 0},
  };
  struct copies copies;
  if (!copied(env, &copies, arrays, LENGTH_OF(arrays))) return 0;
  bool answer = cukvashe_pvv_is_pin(arrays[0].at, arrays[1].at, arrays[1].length, index, arrays[2].at, arrays[2].length,
      arrays[3].at, arrays[3].length);
  given_back(env, &copies, arrays, LENGTH_OF(arrays), true);
  return answer;
}

static jint JNICALL call_decimal_table_init(JNIEnv *env, jclass class, jbyteArray table, jbyteArray digits) {
  (void)class;
  struct array arrays[] = {
    {table, 1, sizeof(cukvashe_decimal_table), true, NULL, 0},
    {digits, 1, 0, false, NULL, 0},
  };
  struct copies copies;
  if (!copied(env, &copies, arrays, LENGTH_OF(arrays))) return 0;
  int answer = cukvashe_decimal_table_init(arrays[0].at, arrays[1].at, arrays[1].length);
  given_back(env, &copies, arrays, LENGTH_OF(arrays), answer == CUKVASHE_OK);
  return answer;
}

static jint JNICALL call_decimal_table_init_any(JNIEnv *env, jclass class, jbyteArray table, jbyteArray digits) {
  (void)class;
  struct array arrays[] = {
    {table, 1, sizeof(cukvashe_decimal_table), true, NULL, 0},
    {digits, 1, 0, false, NULL, 0},
  };
  struct copies copies;
  if (!copied(env, &copies, arrays, LENGTH_OF(arrays))) return 0;
  int answer = cukvashe_decimal_table_init_any(arrays[0].at, arrays[1].at, arrays[1].length);
  given_back(env, &copies, arrays, LENGTH_OF(arrays), answer == CUKVASHE_OK);
  return answer;
}

static jint JNICALL call_natural_pin(JNIEnv *env, jclass class, jbyteArray key, jbyteArray table, jbyteArray validation,
    jlong pinLength, jbyteArray pin) {
  (void)class;
  struct array arrays[] = {
    {key, 1, 0, false, NULL, 0},
    {table, 1, sizeof(cukvashe_decimal_table), false, NULL, 0},
    {validation, 1, 8, false, NULL, 0},
    {pin, 1, 13, true, NULL, 0},
  };
  struct copies copies;
  if (!copied(env, &copies, arrays, LENGTH_OF(arrays))) return 0;
  int answer = cukvashe_natural_pin(arrays[0].at, arrays[0].length, arrays[1].at, arrays[2].at, (size_t)pinLength,
      arrays[3].at);
  given_back(env, &copies, arrays, LENGTH_OF(arrays), answer == CUKVASHE_OK);
  return answer;
}

static jint JNICALL call_pin_offset(JNIEnv *env, jclass class, jbyteArray key, jbyteArray table, jbyteArray validation,
    jbyteArray pin, jbyteArray offset) {
  (void)class;
  struct array arrays[] = {
    {key, 1, 0, false, NULL, 0},
    {table, 1, sizeof(cukvashe_decimal_table), false, NULL, 0},
    {validation, 1, 8, false, NULL, 0},
    {pin, 1, 0, false, NULL, 0},
    {offset, 1, 13, true, NULL, 0},
  };
  struct copies copies;
  if (!copied(env, &copies, arrays, LENGTH_OF(arrays))) return 0;
  int answer = cukvashe_pin_offset(arrays[0].at, arrays[0].length, arrays[1].at, arrays[2].at, arrays[3].at,
      arrays[3].length, arrays[4].at);
  given_back(env, &copies, arrays, LENGTH_OF(arrays), answer == CUKVASHE_OK);
  return answer;
}

static jint JNICALL call_pin_offset_verify(JNIEnv *env, jclass class, jbyteArray key, jbyteArray table,
    jbyteArray validation, jbyteArray pin, jbyteArray offset) {
  (void)class;
  struct array arrays[] = {
    {key, 1, 0, false, NULL, 0},
    {table, 1, sizeof(cukvashe_decimal_table), false, NULL, 0},
    {validation, 1, 8, false, NULL, 0},
    {pin, 1, 0, false, NULL, 0},
    {offset, 1, 0, false, NULL, 0},
  };
  struct copies copies;
  if (!copied(env, &copies, arrays, LENGTH_OF(arrays))) return 0;
  int answer = cukvashe_pin_offset_verify(arrays[0].at, arrays[0].length, arrays[1].at, arrays[2].at, arrays[3].at,
      arrays[3].length, arrays[4].at, arrays[4].length);
  given_back(env, &copies, arrays, LENGTH_OF(arrays), answer == CUKVASHE_OK);
  return answer;
}

static jboolean JNICALL call_pin_offset_is_pin(JNIEnv *env, jclass class, jbyteArray key, jbyteArray table,
    jbyteArray validation, jbyteArray pin, jbyteArray offset) {
  (void)class;
  struct array arrays[] = {
    {key, 1, 0, false, NULL, 0},
    {table, 1, sizeof(cukvashe_decimal_table), false, NULL, 0},
    {validation, 1, 8, false, NULL, 0},
    {pin, 1, 0, false, NULL, 0},
    {offset, 1, 0, false, NULL, 0},
  };
  struct copies copies;
  if (!copied(env, &copies, arrays, LENGTH_OF(arrays))) return 0;
  bool answer = cukvashe_pin_offset_is_pin(arrays[0].at, arrays[0].length, arrays[1].at, arrays[2].at, arrays[3].at,
      arrays[3].length, arrays[4].at, arrays[4].length);
  given_back(env, &copies, arrays, LENGTH_OF(arrays), true);
  return answer;
}

static jint JNICALL call_cvv(JNIEnv *env, jclass class, jbyteArray key, jbyteArray account, jbyteArray expiry,
    jbyteArray service, jbyteArray value) {
  (void)class;
  struct array arrays[] = {
    {key, 1, 16, false, NULL, 0},
    {account, 1, 0, false, NULL, 0},
    {expiry, 1, 0, false, NULL, 0},
    {service, 1, 0, false, NULL, 0},
    {value, 1, 4, true, NULL, 0},
  };
  struct copies copies;
  if (!copied(env, &copies, arrays, LENGTH_OF(arrays))) return 0;
  int answer = cukvashe_cvv(arrays[0].at, arrays[1].at, arrays[1].length, arrays[2].at, arrays[2].length, arrays[3].at,
      arrays[3].length, arrays[4].at);
  given_back(env, &copies, arrays, LENGTH_OF(arrays), answer == CUKVASHE_OK);
  return answer;
}

static jint JNICALL call_emv_card_key(JNIEnv *env, jclass class, jbyteArray issuer, jbyteArray account,
    jbyteArray sequence, jbyteArray key) {
  (void)class;
  struct array arrays[] = {
    {issuer, 1, 16, false, NULL, 0},
    {account, 1, 0, false, NULL, 0},
    {sequence, 1, 0, false, NULL, 0},
    {key, 1, 16, true, NULL, 0},
  };
  struct copies copies;
  if (!copied(env, &copies, arrays, LENGTH_OF(arrays))) return 0;
  int answer = cukvashe_emv_card_key(arrays[0].at, arrays[1].at, arrays[1].length, arrays[2].at, arrays[2].length,
      arrays[3].at);
  given_back(env, &copies, arrays, LENGTH_OF(arrays), answer == CUKVASHE_OK);
  return answer;
}

static jint JNICALL call_emv_card_key_b(JNIEnv *env, jclass class, jbyteArray issuer, jbyteArray account,
    jbyteArray sequence, jbyteArray key) {
  (void)class;
  struct array arrays[] = {
    {issuer, 1, 16, false, NULL, 0},
    {account, 1, 0, false, NULL, 0},
    {sequence, 1, 0, false, NULL, 0},
    {key, 1, 16, true, NULL, 0},
  };
  struct copies copies;
  if (!copied(env, &copies, arrays, LENGTH_OF(arrays))) return 0;
  int answer = cukvashe_emv_card_key_b(arrays[0].at, arrays[1].at, arrays[1].length, arrays[2].at, arrays[2].length,
      arrays[3].at);
  given_back(env, &copies, arrays, LENGTH_OF(arrays), answer == CUKVASHE_OK);
  return answer;
}

static void JNICALL call_emv_application_key(JNIEnv *env, jclass class, jbyteArray card, jbyteArray counter,
    jbyteArray key) {
  (void)class;
  struct array arrays[] = {
    {card, 1, 16, false, NULL, 0},
    {counter, 1, 2, false, NULL, 0},
    {key, 1, 16, true, NULL, 0},
  };
  struct copies copies;
  if (!copied(env, &copies, arrays, LENGTH_OF(arrays))) return;
  cukvashe_emv_application_key(arrays[0].at, arrays[1].at, arrays[2].at);
  given_back(env, &copies, arrays, LENGTH_OF(arrays), true);
}

static void JNICALL call_emv_session_key(JNIEnv *env, jclass class, jbyteArray card, jbyteArray block, jbyteArray key) {
  (void)class;
  struct array arrays[] = {
    {card, 1, 16, false, NULL, 0},
    {block, 1, 8, false, NULL, 0},
    {key, 1, 16, true, NULL, 0},
  };
  struct copies copies;
  if (!copied(env, &copies, arrays, LENGTH_OF(arrays))) return;
  cukvashe_emv_session_key(arrays[0].at, arrays[1].at, arrays[2].at);
  given_back(env, &copies, arrays, LENGTH_OF(arrays), true);
}

static void JNICALL call_emv_application_cryptogram(JNIEnv *env, jclass class, jbyteArray session, jbyteArray data,
    jbyteArray cryptogram) {
  (void)class;
  struct array arrays[] = {
    {session, 1, 16, false, NULL, 0},
    {data, 1, 0, false, NULL, 0},
    {cryptogram, 1, 8, true, NULL, 0},
  };
  struct copies copies;
  if (!copied(env, &copies, arrays, LENGTH_OF(arrays))) return;
  cukvashe_emv_application_cryptogram(arrays[0].at, arrays[1].at, arrays[1].length, arrays[2].at);
  given_back(env, &copies, arrays, LENGTH_OF(arrays), true);
}

static void JNICALL call_emv_response_1(JNIEnv *env, jclass class, jbyteArray session, jbyteArray cryptogram,
    jbyteArray code, jbyteArray response) {
  (void)class;
  struct array arrays[] = {
    {session, 1, 16, false, NULL, 0},
    {cryptogram, 1, 8, false, NULL, 0},
    {code, 1, 2, false, NULL, 0},
    {response, 1, 8, true, NULL, 0},
  };
  struct copies copies;
  if (!copied(env, &copies, arrays, LENGTH_OF(arrays))) return;
  cukvashe_emv_response_1(arrays[0].at, arrays[1].at, arrays[2].at, arrays[3].at);
  given_back(env, &copies, arrays, LENGTH_OF(arrays), true);
}

static jint JNICALL call_emv_response_2(JNIEnv *env, jclass class, jbyteArray session, jbyteArray cryptogram,
    jbyteArray status, jbyteArray data, jbyteArray response) {
  (void)class;
  struct array arrays[] = {
    {session, 1, 16, false, NULL, 0},
    {cryptogram, 1, 8, false, NULL, 0},
    {status, 1, 4, false, NULL, 0},
    {data, 1, 0, false, NULL, 0},
    {response, 1, 4, true, NULL, 0},
  };
  struct copies copies;
  if (!copied(env, &copies, arrays, LENGTH_OF(arrays))) return 0;
  int answer = cukvashe_emv_response_2(arrays[0].at, arrays[1].at, arrays[2].at, arrays[3].at, arrays[3].length,
      arrays[4].at);
  given_back(env, &copies, arrays, LENGTH_OF(arrays), answer == CUKVASHE_OK);
  return answer;
}

static jint JNICALL call_key_block_unwrap(JNIEnv *env, jclass class, jbyteArray protection, jbyteArray block,
    jbyteArray header, jbyteArray key, jlongArray keyLength) {
  (void)class;
  struct array arrays[] = {
    {protection, 1, 0, false, NULL, 0},
    {block, 1, 0, false, NULL, 0},
    {header, 1, sizeof(cukvashe_key_block_fields), true, NULL, 0},
    {key, 1, 24, true, NULL, 0},
    {keyLength, 8, 8, true, NULL, 0},
  };
  struct copies copies;
  if (!copied(env, &copies, arrays, LENGTH_OF(arrays))) return 0;
  int answer = cukvashe_key_block_unwrap(arrays[0].at, arrays[0].length, arrays[1].at, arrays[1].length, arrays[2].at,
      arrays[3].at, arrays[4].at);
  given_back(env, &copies, arrays, LENGTH_OF(arrays), answer == CUKVASHE_OK);
  return answer;
}

static jint JNICALL call_key_block_wrap(JNIEnv *env, jclass class, jbyteArray protection, jbyteArray header,
    jbyteArray optional, jbyteArray key, jbyteArray padding, jbyteArray block, jlongArray length) {
  (void)class;
  struct array arrays[] = {
    {protection, 1, 0, false, NULL, 0},
    {header, 1, sizeof(cukvashe_key_block_fields), false, NULL, 0},
    {optional, 1, 0, false, NULL, 0},
    {key, 1, 0, false, NULL, 0},
    {padding, 1, 0, false, NULL, 0},
    {block, 1, 0, true, NULL, 0},
    {length, 8, 8, true, NULL, 0},
  };
  struct copies copies;
  if (!copied(env, &copies, arrays, LENGTH_OF(arrays))) return 0;
  const cukvashe_key_block_parts parts = {.protection = arrays[0].at, .protection_length = arrays[0].length, .header =
      *(const cukvashe_key_block_fields *)arrays[1].at, .optional = arrays[2].at, .optional_length = arrays[2].length,
      .key = arrays[3].at, .key_length = arrays[3].length, .padding = arrays[4].at, .padding_length = arrays[4].length};
  int answer = cukvashe_key_block_wrap(&parts, arrays[5].at, arrays[5].length, arrays[6].at);
  given_back(env, &copies, arrays, LENGTH_OF(arrays), answer == CUKVASHE_OK);
  return answer;
}

static jint JNICALL call_key_block_header(JNIEnv *env, jclass class, jbyteArray block, jbyteArray header) {
  (void)class;
  struct array arrays[] = {
    {block, 1, 0, false, NULL, 0},
    {header, 1, sizeof(cukvashe_key_block_fields), true, NULL, 0},
  };
  struct copies copies;
  if (!copied(env, &copies, arrays, LENGTH_OF(arrays))) return 0;
  int answer = cukvashe_key_block_header(arrays[0].at, arrays[0].length, arrays[1].at);
  given_back(env, &copies, arrays, LENGTH_OF(arrays), answer == CUKVASHE_OK);
  return answer;
}

static jint JNICALL call_key_block_context(JNIEnv *env, jclass class, jbyteArray block, jbyteArray context) {
  (void)class;
  struct array arrays[] = {
    {block, 1, 0, false, NULL, 0},
    {context, 1, 1, true, NULL, 0},
  };
  struct copies copies;
  if (!copied(env, &copies, arrays, LENGTH_OF(arrays))) return 0;
  int answer = cukvashe_key_block_context(arrays[0].at, arrays[0].length, arrays[1].at);
  given_back(env, &copies, arrays, LENGTH_OF(arrays), answer == CUKVASHE_OK);
  return answer;
}

static jint JNICALL call_key_block_optional_block(JNIEnv *env, jclass class, jbyteArray block, jlong place,
    jbyteArray name, jlongArray offset, jlongArray length) {
  (void)class;
  struct array arrays[] = {
    {block, 1, 0, false, NULL, 0},
    {name, 1, 3, true, NULL, 0},
    {offset, 8, 8, true, NULL, 0},
    {length, 8, 8, true, NULL, 0},
  };
  struct copies copies;
  if (!copied(env, &copies, arrays, LENGTH_OF(arrays))) return 0;
  int answer = cukvashe_key_block_optional_block(arrays[0].at, arrays[0].length, (size_t)place, arrays[1].at,
      arrays[2].at, arrays[3].at);
  given_back(env, &copies, arrays, LENGTH_OF(arrays), answer == CUKVASHE_OK);
  return answer;
}

static jint JNICALL call_pbkdf2(JNIEnv *env, jclass class, jint hash, jlong iterations, jbyteArray password,
    jbyteArray salt, jbyteArray key) {
  (void)class;
  struct array arrays[] = {
    {password, 1, 0, false, NULL, 0},
    {salt, 1, 0, false, NULL, 0},
    {key, 1, 0, true, NULL, 0},
  };
  struct copies copies;
  if (!copied(env, &copies, arrays, LENGTH_OF(arrays))) return 0;
  int answer = cukvashe_pbkdf2(hash, (size_t)iterations, arrays[0].at, arrays[0].length, arrays[1].at, arrays[1].length,
      arrays[2].at, arrays[2].length);
  given_back(env, &copies, arrays, LENGTH_OF(arrays), answer == CUKVASHE_OK);
  return answer;
}

static jint JNICALL call_bytes_to_key(JNIEnv *env, jclass class, jint hash, jbyteArray password, jbyteArray salt,
    jbyteArray key) {
  (void)class;
  struct array arrays[] = {
    {password, 1, 0, false, NULL, 0},
    {salt, 1, 0, false, NULL, 0},
    {key, 1, 0, true, NULL, 0},
  };
  struct copies copies;
  if (!copied(env, &copies, arrays, LENGTH_OF(arrays))) return 0;
  int answer = cukvashe_bytes_to_key(hash, arrays[0].at, arrays[0].length, arrays[1].at, arrays[1].length, arrays[2].at,
      arrays[2].length);
  given_back(env, &copies, arrays, LENGTH_OF(arrays), answer == CUKVASHE_OK);
  return answer;
}

static jint JNICALL call_des_open_salted(JNIEnv *env, jclass class, jint hash, jlong iterations, jbyteArray password,
    jbyteArray bytes, jbyteArray plain, jlongArray plainLength) {
  (void)class;
  struct array arrays[] = {
    {password, 1, 0, false, NULL, 0},
    {bytes, 1, 0, false, NULL, 0},
    {plain, 1, 0, true, NULL, 0},
    {plainLength, 8, 8, true, NULL, 0},
  };
  struct copies copies;
  if (!copied(env, &copies, arrays, LENGTH_OF(arrays))) return 0;
  int answer = cukvashe_des_open_salted(hash, (size_t)iterations, arrays[0].at, arrays[0].length, arrays[1].at,
      arrays[1].length, arrays[2].at, arrays[2].length, arrays[3].at);
  given_back(env, &copies, arrays, LENGTH_OF(arrays), answer == CUKVASHE_OK);
  return answer;
}

static jint JNICALL call_tdes_ede2_open_salted(JNIEnv *env, jclass class, jint hash, jlong iterations,
    jbyteArray password, jbyteArray bytes, jbyteArray plain, jlongArray plainLength) {
  (void)class;
  struct array arrays[] = {
    {password, 1, 0, false, NULL, 0},
    {bytes, 1, 0, false, NULL, 0},
    {plain, 1, 0, true, NULL, 0},
    {plainLength, 8, 8, true, NULL, 0},
  };
  struct copies copies;
  if (!copied(env, &copies, arrays, LENGTH_OF(arrays))) return 0;
  int answer = cukvashe_tdes_ede2_open_salted(hash, (size_t)iterations, arrays[0].at, arrays[0].length, arrays[1].at,
      arrays[1].length, arrays[2].at, arrays[2].length, arrays[3].at);
  given_back(env, &copies, arrays, LENGTH_OF(arrays), answer == CUKVASHE_OK);
  return answer;
}

static jint JNICALL call_tdes_ede3_open_salted(JNIEnv *env, jclass class, jint hash, jlong iterations,
    jbyteArray password, jbyteArray bytes, jbyteArray plain, jlongArray plainLength) {
  (void)class;
  struct array arrays[] = {
    {password, 1, 0, false, NULL, 0},
    {bytes, 1, 0, false, NULL, 0},
    {plain, 1, 0, true, NULL, 0},
    {plainLength, 8, 8, true, NULL, 0},
  };
  struct copies copies;
  if (!copied(env, &copies, arrays, LENGTH_OF(arrays))) return 0;
  int answer = cukvashe_tdes_ede3_open_salted(hash, (size_t)iterations, arrays[0].at, arrays[0].length, arrays[1].at,
      arrays[1].length, arrays[2].at, arrays[2].length, arrays[3].at);
  given_back(env, &copies, arrays, LENGTH_OF(arrays), answer == CUKVASHE_OK);
  return answer;
}

static jint JNICALL call_pbe_key(JNIEnv *env, jclass class, jbyteArray algorithm, jlong iterations, jbyteArray password,
    jbyteArray salt, jbyteArray key) {
  (void)class;
  struct array arrays[] = {
    {algorithm, 1, 0, false, NULL, 0},
    {password, 1, 0, false, NULL, 0},
    {salt, 1, 0, false, NULL, 0},
    {key, 1, 0, true, NULL, 0},
  };
  struct copies copies;
  if (!copied(env, &copies, arrays, LENGTH_OF(arrays))) return 0;
  int answer = cukvashe_pbe_key(arrays[0].at, arrays[0].length, (size_t)iterations, arrays[1].at, arrays[1].length,
      arrays[2].at, arrays[2].length, arrays[3].at, arrays[3].length);
  given_back(env, &copies, arrays, LENGTH_OF(arrays), answer == CUKVASHE_OK);
  return answer;
}

#define CALLS_OF_HEADER \
  {(char *)"desInit", (char *)"([J[B)I", (void *)call_des_init}, \
  {(char *)"tdesEde2Init", (char *)"([J[B)I", (void *)call_tdes_ede2_init}, \
  {(char *)"tdesEde3Init", (char *)"([J[B)I", (void *)call_tdes_ede3_init}, \
  {(char *)"desInitNoTables", (char *)"([J[B)I", (void *)call_des_init_no_tables}, \
  {(char *)"tdesEde2InitNoTables", (char *)"([J[B)I", (void *)call_tdes_ede2_init_no_tables}, \
  {(char *)"tdesEde3InitNoTables", (char *)"([J[B)I", (void *)call_tdes_ede3_init_no_tables}, \
  {(char *)"streamBegin", (char *)"([JI[B)I", (void *)call_stream_begin}, \
  {(char *)"cmsWrapKey", (char *)"([B[B[B[B[J)I", (void *)call_cms_wrap_key}, \
  {(char *)"cmsUnwrapKey", (char *)"([B[B[B[J)I", (void *)call_cms_unwrap_key}, \
  {(char *)"tkwWrapKey", (char *)"([B[B[B[J)I", (void *)call_tkw_wrap_key}, \
  {(char *)"tkwUnwrapKey", (char *)"([B[B[B[J)I", (void *)call_tkw_unwrap_key}, \
  {(char *)"desEncryptEach", (char *)"([B[B)I", (void *)call_des_encrypt_each}, \
  {(char *)"desDecryptEach", (char *)"([B[B)I", (void *)call_des_decrypt_each}, \
  {(char *)"tdesEde2EncryptEach", (char *)"([B[B)I", (void *)call_tdes_ede2_encrypt_each}, \
  {(char *)"tdesEde2DecryptEach", (char *)"([B[B)I", (void *)call_tdes_ede2_decrypt_each}, \
  {(char *)"tdesEde3EncryptEach", (char *)"([B[B)I", (void *)call_tdes_ede3_encrypt_each}, \
  {(char *)"tdesEde3DecryptEach", (char *)"([B[B)I", (void *)call_tdes_ede3_decrypt_each}, \
  {(char *)"desEncryptCbcRecords", (char *)"([J[B[J[B)I", (void *)call_des_encrypt_cbc_records}, \
  {(char *)"desDecryptCbcRecords", (char *)"([J[B[J[B)I", (void *)call_des_decrypt_cbc_records}, \
  {(char *)"tdesEde2EncryptCbcRecords", (char *)"([J[B[J[B)I", (void *)call_tdes_ede2_encrypt_cbc_records}, \
  {(char *)"tdesEde2DecryptCbcRecords", (char *)"([J[B[J[B)I", (void *)call_tdes_ede2_decrypt_cbc_records}, \
  {(char *)"tdesEde3EncryptCbcRecords", (char *)"([J[B[J[B)I", (void *)call_tdes_ede3_encrypt_cbc_records}, \
  {(char *)"tdesEde3DecryptCbcRecords", (char *)"([J[B[J[B)I", (void *)call_tdes_ede3_decrypt_cbc_records}, \
  {(char *)"unpad", (char *)"([BI[J)I", (void *)call_unpad}, \
  {(char *)"weakKeyTest", (char *)"([B)I", (void *)call_weak_key_test}, \
  {(char *)"setOddParity", (char *)"([B)V", (void *)call_set_odd_parity}, \
  {(char *)"equalButParity", (char *)"([B[B)Z", (void *)call_equal_but_parity}, \
  {(char *)"cbcMacDesInit", (char *)"([J[BI)I", (void *)call_cbc_mac_des_init}, \
  {(char *)"cbcMacTdesEde2Init", (char *)"([J[BI)I", (void *)call_cbc_mac_tdes_ede2_init}, \
  {(char *)"cbcMacTdesEde3Init", (char *)"([J[BI)I", (void *)call_cbc_mac_tdes_ede3_init}, \
  {(char *)"retailMacDesInit", (char *)"([J[BI)I", (void *)call_retail_mac_des_init}, \
  {(char *)"cmacTdesEde2Init", (char *)"([J[B)I", (void *)call_cmac_tdes_ede2_init}, \
  {(char *)"cmacTdesEde3Init", (char *)"([J[B)I", (void *)call_cmac_tdes_ede3_init}, \
  {(char *)"cbcMacDesInitNoTables", (char *)"([J[BI)I", (void *)call_cbc_mac_des_init_no_tables}, \
  {(char *)"cbcMacTdesEde2InitNoTables", (char *)"([J[BI)I", (void *)call_cbc_mac_tdes_ede2_init_no_tables}, \
  {(char *)"cbcMacTdesEde3InitNoTables", (char *)"([J[BI)I", (void *)call_cbc_mac_tdes_ede3_init_no_tables}, \
  {(char *)"retailMacDesInitNoTables", (char *)"([J[BI)I", (void *)call_retail_mac_des_init_no_tables}, \
  {(char *)"cmacTdesEde2InitNoTables", (char *)"([J[B)I", (void *)call_cmac_tdes_ede2_init_no_tables}, \
  {(char *)"cmacTdesEde3InitNoTables", (char *)"([J[B)I", (void *)call_cmac_tdes_ede3_init_no_tables}, \
  {(char *)"cbcMacDesMacs", (char *)"([BI[B[J[B)I", (void *)call_cbc_mac_des_macs}, \
  {(char *)"cbcMacDesMacsEach", (char *)"([BI[B[J[B)I", (void *)call_cbc_mac_des_macs_each}, \
  {(char *)"cbcMacTdesEde2Macs", (char *)"([BI[B[J[B)I", (void *)call_cbc_mac_tdes_ede2_macs}, \
  {(char *)"cbcMacTdesEde2MacsEach", (char *)"([BI[B[J[B)I", (void *)call_cbc_mac_tdes_ede2_macs_each}, \
  {(char *)"cbcMacTdesEde3Macs", (char *)"([BI[B[J[B)I", (void *)call_cbc_mac_tdes_ede3_macs}, \
  {(char *)"cbcMacTdesEde3MacsEach", (char *)"([BI[B[J[B)I", (void *)call_cbc_mac_tdes_ede3_macs_each}, \
  {(char *)"retailMacDesMacs", (char *)"([BI[B[J[B)I", (void *)call_retail_mac_des_macs}, \
  {(char *)"retailMacDesMacsEach", (char *)"([BI[B[J[B)I", (void *)call_retail_mac_des_macs_each}, \
  {(char *)"cmacTdesEde2Macs", (char *)"([B[B[J[B)I", (void *)call_cmac_tdes_ede2_macs}, \
  {(char *)"cmacTdesEde2MacsEach", (char *)"([B[B[J[B)I", (void *)call_cmac_tdes_ede2_macs_each}, \
  {(char *)"cmacTdesEde3Macs", (char *)"([B[B[J[B)I", (void *)call_cmac_tdes_ede3_macs}, \
  {(char *)"cmacTdesEde3MacsEach", (char *)"([B[B[J[B)I", (void *)call_cmac_tdes_ede3_macs_each}, \
  {(char *)"desCheckValue", (char *)"([B[B)I", (void *)call_des_check_value}, \
  {(char *)"tdesEde2CheckValue", (char *)"([B[B)I", (void *)call_tdes_ede2_check_value}, \
  {(char *)"tdesEde3CheckValue", (char *)"([B[B)I", (void *)call_tdes_ede3_check_value}, \
  {(char *)"keyCheckValue", (char *)"([B[B)I", (void *)call_key_check_value}, \
  {(char *)"shortKeyCheckValue", (char *)"([B[B)I", (void *)call_short_key_check_value}, \
  {(char *)"desCheckValues", (char *)"([B[BJ)I", (void *)call_des_check_values}, \
  {(char *)"tdesEde2CheckValues", (char *)"([B[BJ)I", (void *)call_tdes_ede2_check_values}, \
  {(char *)"tdesEde3CheckValues", (char *)"([B[BJ)I", (void *)call_tdes_ede3_check_values}, \
  {(char *)"combine8", (char *)"([B[B[BJ[B)I", (void *)call_combine_8}, \
  {(char *)"combine16", (char *)"([B[B[BJ[B)I", (void *)call_combine_16}, \
  {(char *)"combine24", (char *)"([B[B[BJ[B)I", (void *)call_combine_24}, \
  {(char *)"dukptIsUsable", (char *)"([B)Z", (void *)call_dukpt_is_usable}, \
  {(char *)"dukptNextSerial", (char *)"([B[B)I", (void *)call_dukpt_next_serial}, \
  {(char *)"dukptInitialKey", (char *)"([B[B[B)V", (void *)call_dukpt_initial_key}, \
  {(char *)"dukptTransactionKey", (char *)"([B[B[B)V", (void *)call_dukpt_transaction_key}, \
  {(char *)"dukptTransactionKeysFromBase", (char *)"([B[B[BJ)I", (void *)call_dukpt_transaction_keys_from_base}, \
  {(char *)"dukptPinKey", (char *)"([B[B)V", (void *)call_dukpt_pin_key}, \
  {(char *)"dukptMacKey", (char *)"([BZ[B)V", (void *)call_dukpt_mac_key}, \
  {(char *)"dukptDataKey", (char *)"([BZ[B)V", (void *)call_dukpt_data_key}, \
  {(char *)"dukptDataVariant", (char *)"([BZ[B)V", (void *)call_dukpt_data_variant}, \
  {(char *)"dukptTerminalInit", (char *)"([B[B[B)V", (void *)call_dukpt_terminal_init}, \
  {(char *)"dukptTerminalNextKey", (char *)"([B[B[B)I", (void *)call_dukpt_terminal_next_key}, \
  {(char *)"pinEncode0", (char *)"([B[B[B)I", (void *)call_pin_encode_0}, \
  {(char *)"pinEncode1", (char *)"([B[B[B)I", (void *)call_pin_encode_1}, \
  {(char *)"pinEncode2", (char *)"([B[B)I", (void *)call_pin_encode_2}, \
  {(char *)"pinEncode3", (char *)"([B[B[B[B)I", (void *)call_pin_encode_3}, \
  {(char *)"pinDecode0", (char *)"([B[B[B)I", (void *)call_pin_decode_0}, \
  {(char *)"pinDecode1", (char *)"([B[B)I", (void *)call_pin_decode_1}, \
  {(char *)"pinDecode2", (char *)"([B[B)I", (void *)call_pin_decode_2}, \
  {(char *)"pinDecode3", (char *)"([B[B[B)I", (void *)call_pin_decode_3}, \
  {(char *)"pinTranslateTo0", (char *)"([BI[B[B[B[B[B)I", (void *)call_pin_translate_to_0}, \
  {(char *)"pinTranslateTo1", (char *)"([BI[B[B[B[B[B)I", (void *)call_pin_translate_to_1}, \
  {(char *)"pinTranslateTo3", (char *)"([BI[B[B[B[B[B)I", (void *)call_pin_translate_to_3}, \
  {(char *)"pvv", (char *)"([B[BI[B[B)I", (void *)call_pvv}, \
  {(char *)"pvvVerify", (char *)"([B[BI[B[B)I", (void *)call_pvv_verify}, \
  {(char *)"pvvIsPin", (char *)"([B[BI[B[B)Z", (void *)call_pvv_is_pin}, \
  {(char *)"decimalTableInit", (char *)"([B[B)I", (void *)call_decimal_table_init}, \
  {(char *)"decimalTableInitAny", (char *)"([B[B)I", (void *)call_decimal_table_init_any}, \
  {(char *)"naturalPin", (char *)"([B[B[BJ[B)I", (void *)call_natural_pin}, \
  {(char *)"pinOffset", (char *)"([B[B[B[B[B)I", (void *)call_pin_offset}, \
  {(char *)"pinOffsetVerify", (char *)"([B[B[B[B[B)I", (void *)call_pin_offset_verify}, \
  {(char *)"pinOffsetIsPin", (char *)"([B[B[B[B[B)Z", (void *)call_pin_offset_is_pin}, \
  {(char *)"cvv", (char *)"([B[B[B[B[B)I", (void *)call_cvv}, \
  {(char *)"emvCardKey", (char *)"([B[B[B[B)I", (void *)call_emv_card_key}, \
  {(char *)"emvCardKeyB", (char *)"([B[B[B[B)I", (void *)call_emv_card_key_b}, \
  {(char *)"emvApplicationKey", (char *)"([B[B[B)V", (void *)call_emv_application_key}, \
  {(char *)"emvSessionKey", (char *)"([B[B[B)V", (void *)call_emv_session_key}, \
  {(char *)"emvApplicationCryptogram", (char *)"([B[B[B)V", (void *)call_emv_application_cryptogram}, \
  {(char *)"emvResponse1", (char *)"([B[B[B[B)V", (void *)call_emv_response_1}, \
  {(char *)"emvResponse2", (char *)"([B[B[B[B[B)I", (void *)call_emv_response_2}, \
  {(char *)"keyBlockUnwrap", (char *)"([B[B[B[B[J)I", (void *)call_key_block_unwrap}, \
  {(char *)"keyBlockWrap", (char *)"([B[B[B[B[B[B[J)I", (void *)call_key_block_wrap}, \
  {(char *)"keyBlockHeader", (char *)"([B[B)I", (void *)call_key_block_header}, \
  {(char *)"keyBlockContext", (char *)"([B[B)I", (void *)call_key_block_context}, \
  {(char *)"keyBlockOptionalBlock", (char *)"([BJ[B[J[J)I", (void *)call_key_block_optional_block}, \
  {(char *)"pbkdf2", (char *)"(IJ[B[B[B)I", (void *)call_pbkdf2}, \
  {(char *)"bytesToKey", (char *)"(I[B[B[B)I", (void *)call_bytes_to_key}, \
  {(char *)"desOpenSalted", (char *)"(IJ[B[B[B[J)I", (void *)call_des_open_salted}, \
  {(char *)"tdesEde2OpenSalted", (char *)"(IJ[B[B[B[J)I", (void *)call_tdes_ede2_open_salted}, \
  {(char *)"tdesEde3OpenSalted", (char *)"(IJ[B[B[B[J)I", (void *)call_tdes_ede3_open_salted}, \
  {(char *)"pbeKey", (char *)"([BJ[B[B[B)I", (void *)call_pbe_key}
