// Decrypts a file of old records. Each is an initialization vector of 8 bytes, and 32 bytes of ciphertext: triple DES with
// three keys in CBC mode, padded by PKCS#7. It needs Node 20 or later.

import { readFileSync } from "node:fs";
import { TdesEde3, load, unpad } from "../../generated/wasm/cukvashe_des.mjs"; // once installed: from "cukvashe_des"

const SIZE = 32; // the bytes of a ciphertext: yours may have another size

// The key is 48 hexadecimal digits in a file. On the command line every user of the machine could read it.
function readKey(file) {
  const digits = readFileSync(file, "ascii").trim();
  if (!/^[0-9a-f]{48}$/i.test(digits)) throw new Error("the key does not have 48 hexadecimal digits");
  return Buffer.from(digits, "hex");
}

const [keyFile, file] = process.argv.slice(2);
await load(); // before any other call
const key = readKey(keyFile);
const cipher = new TdesEde3(key);
key.fill(0);
const records = readFileSync(file);
for (let at = 0; at < records.length; at += 8 + SIZE) {
  if (records.length - at < 8 + SIZE) throw new Error("the file ends within a record");
  const iv = records.subarray(at, at + 8);
  const data = records.subarray(at + 8, at + 8 + SIZE);
  console.log(Buffer.from(unpad(cipher.decryptCbc(data, { iv }), "pkcs7")).toString());
}
cipher.close(); // wipes the round keys

// NIST SP 800-67, Appendix B, has the key. OpenSSL encrypted the records: see examples/data/by_openssl.
// $ node examples/javascript/records.mjs examples/data/key examples/data/records
// The qufck brown fox jump
// Now is the time for all men
// Account 4012345678909, 25.00
