/**
 * DES and triple DES (FIPS 46-3) over a native library whose exports are proved; these classes are tested.
 *
 * <p>{@link cukvashe.des.CukvasheProvider} is the provider for JCE. The other classes are for payment systems: their calls take and give
 * keys as {@link javax.crypto.SecretKey}, PINs as {@link cukvashe.des.Pin}, account numbers and other texts as {@link String}, and refuse
 * by a {@link cukvashe.des.CukvasheException} what the standards refuse. A key of 24 bytes whose third part is the first is a key of two
 * parts wherever 16 bytes are expected. No text of an exception shows a value that was given. Null is a {@link
 * java.lang.NullPointerException} wherever the call does not say what it means.
 */
package cukvashe.des;
