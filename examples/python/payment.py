"""A host and a terminal's transaction: its keys by DUKPT, the retail MAC, the PIN block for the issuer; and a key block."""

import cukvashe_des

# Published values. A base derivation key makes the keys of all terminals: keep yours in a security module.
base = bytes.fromhex("0123456789abcdeffedcba9876543210")
protection = bytes.fromhex("dd7515f2bfc17f85ce48f3ca25cb21f6")
issuer_key = bytes.fromhex("89e88cf7931444f334bd7547fc3f380c")

# What the terminal sent: the key serial number, the message, its tag, and the PIN block under the transaction's PIN key.
serial = bytes.fromhex("ffff9876543210e00001")
message, tag = b"4012345678909D987", bytes.fromhex("9ccc78173fc4fb64")
account, pin_block = "4012345678909", bytes.fromhex("1b9c1845eb993a7a")

# Some counters no transaction has. With 0 the transaction's key would be the terminal's initial key.
if not cukvashe_des.dukpt_is_usable(serial):
    raise SystemExit("no transaction has this key serial number")
transaction = cukvashe_des.dukpt_transaction_key(cukvashe_des.dukpt_initial_key(base, serial), serial)
pin_key = cukvashe_des.dukpt_pin_key(transaction)

# The MAC before all else. The terminal has chosen the padding method, 1 or 2. `verify` takes whole tags.
mac = cukvashe_des.RetailMacDes(cukvashe_des.dukpt_mac_key(transaction), 1, message)
mac.verify(tag)
try:
    mac.verify(bytes(8))
except cukvashe_des.TagMismatchError:
    print("another tag is refused")

# The PIN block under the issuer's key: the PIN does not come out. Any fault of the block is PinBlockError.
keys = {"incoming_key": pin_key, "outgoing_key": issuer_key}
print("to the issuer:", cukvashe_des.pin_translate_to_0(0, account, pin_block, **keys).hex())

# A PIN key in a key block (TR-31). Look at the header before you use the key: no call does.
block = "B0080P0TE00E000094B420079CC80BA3461F86FE26EFC4A3B8E4FA4C5F5341176EED7B727B8A248E"
header, key = cukvashe_des.unwrap_key_block(protection, block)
is_pin_key = (header.usage, header.algorithm, header.mode) == ("P0", "T", "E") and len(key) >= 16
if not is_pin_key or header.key_version.startswith("c"):  # c: a component of a key
    raise SystemExit("the key is not one that encrypts PIN blocks")
print("a PIN key with check value", cukvashe_des.key_check_value(key).hex())

# ANSI X9.24-1:2009, Annex A, has the tag and the PIN block. The key block is a published one. The block for the issuer and
# the check value are OpenSSL's, by -des-ede-ecb.
# $ PYTHONPATH=bindings/python python3 examples/python/payment.py
# another tag is refused
# to the issuer: 8856db66d89e9eff
# a PIN key with check value 57c409
