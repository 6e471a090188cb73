// A host and a terminal's transaction: its keys by DUKPT, the retail MAC, the PIN block for the issuer; and a key block. It
// needs Node 20 or later.

import * as des from "../../generated/wasm/cukvashe_des.mjs"; // once installed: from "cukvashe_des"

await des.load(); // before any other call
const bytes = (digits) => Uint8Array.from(Buffer.from(digits, "hex"));
const hex = (array) => Buffer.from(array).toString("hex");

// Published values. A base derivation key makes the keys of all terminals: keep yours in a security module.
const base = bytes("0123456789abcdeffedcba9876543210");
const protection = bytes("dd7515f2bfc17f85ce48f3ca25cb21f6");
const issuerKey = bytes("89e88cf7931444f334bd7547fc3f380c");

// What the terminal sent: key serial number, message, tag, and the PIN block under the transaction's PIN key. An account
// number is a string: a number would lose zeros at its beginning.
const serial = bytes("ffff9876543210e00001");
const [message, tag] = [Buffer.from("4012345678909D987"), bytes("9ccc78173fc4fb64")];
const [account, pinBlock] = ["4012345678909", bytes("1b9c1845eb993a7a")];

// Some counters no transaction has. With 0 the transaction's key would be the terminal's initial key.
if (!des.dukptIsUsable(serial)) throw new Error("no transaction has this key serial number");
const transaction = des.dukptTransactionKey(des.dukptInitialKey(base, serial), serial);
const pinKey = des.dukptPinKey(transaction);

// The MAC before all else. The terminal has chosen the padding method, 1 or 2. `verify` takes whole tags. It throws for a
// wrong one, and never is false.
const mac = new des.RetailMacDes(des.dukptMacKey(transaction), 1, message);
mac.verify(tag);
try {
  mac.verify(new Uint8Array(8));
} catch (error) {
  if (!(error instanceof des.TagMismatch)) throw error;
  console.log("another tag is refused");
}

// The PIN block under the issuer's key: the PIN does not come out. Any fault of the block is PinBlock.
const keys = { incomingKey: pinKey, outgoingKey: issuerKey };
console.log("to the issuer:", hex(des.pinTranslateTo0(0, account, pinBlock, keys)));

// A PIN key in a key block (TR-31). Look at the header before you use the key: no call does.
const block = "B0080P0TE00E000094B420079CC80BA3461F86FE26EFC4A3B8E4FA4C5F5341176EED7B727B8A248E";
const { header, key } = des.unwrapKeyBlock(protection, block);
const isPinKey = header.usage === "P0" && header.algorithm === "T" && header.mode === "E" && key.length >= 16;
const isComponent = header.keyVersion.startsWith("c");
if (!isPinKey || isComponent) throw new Error("the key is not one that encrypts PIN blocks");
console.log("a PIN key with check value", hex(des.keyCheckValue(key)));
for (const secret of [transaction, pinKey, key]) secret.fill(0);

// ANSI X9.24-1:2009, Annex A, has the tag and the PIN block. The key block is a published one. The block for the issuer and
// the check value are OpenSSL's, by -des-ede-ecb.
// $ node examples/javascript/payment.mjs
// another tag is refused
// to the issuer: 8856db66d89e9eff
// a PIN key with check value 57c409
