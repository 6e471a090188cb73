package cukvashe.des;

import java.io.IOException;
import java.io.InputStream;
import java.nio.file.Files;
import java.nio.file.Path;
import java.util.Locale;

/** Finds and loads the native library. */
final class Library {
  private static final String NAME = "cukvashe_jni";

  private Library() {}

  /** Loads the library. Why it can't be loaded, or null. */
  static UnsatisfiedLinkError load() {
    try {
      find();
      String version = Native.version();
      return version.equals(Native.VERSION)
          ? null
          : new UnsatisfiedLinkError("the native library has version " + version + ", and these classes have " + Native.VERSION);
    } catch (UnsatisfiedLinkError error) {
      return error;
    } catch (LinkageError error) {
      // As when a native library of another version lacks a method.
      UnsatisfiedLinkError wrong = new UnsatisfiedLinkError("the native library is not that of these classes: " + error.getMessage());
      wrong.initCause(error);
      return wrong;
    }
  }

  /**
   * The file that the property {@code cukvashe.library} names; else the one in the jar for this system; else the one that {@code
   * java.library.path} has.
   */
  private static void find() {
    String named = System.getProperty("cukvashe.library");
    if (named != null) {
      System.load(named);
      return;
    }
    String file = System.mapLibraryName(NAME);
    String resource = "/META-INF/native/" + system() + "/" + file;
    try (InputStream stream = Library.class.getResourceAsStream(resource)) {
      if (stream == null) {
        System.loadLibrary(NAME);
      } else {
        unpack(stream, file);
      }
    } catch (IOException | UnsatisfiedLinkError error) {
      UnsatisfiedLinkError thrown =
          new UnsatisfiedLinkError(
              "the native library can't be loaded (" + error.getMessage() + "); if java.io.tmpdir does not allow it, -Dcukvashe.library"
                  + " names an unpacked " + resource.substring(1));
      thrown.initCause(error);
      throw thrown;
    }
  }

  private static void unpack(InputStream stream, String file) throws IOException {
    // Only this user may enter the folder: nobody can put another library there before it is loaded.
    Path folder = Files.createTempDirectory("cukvashe");
    Path copy = folder.resolve(file);
    try {
      Files.copy(stream, copy);
      System.load(copy.toString());
    } finally {
      try {
        Files.deleteIfExists(copy);
        Files.deleteIfExists(folder);
      } catch (IOException isMapped) {
        // Only if a mapped file can't be removed, as on Windows.
        folder.toFile().deleteOnExit();
        copy.toFile().deleteOnExit();
      }
    }
  }

  private static String system() {
    String os = System.getProperty("os.name").toLowerCase(Locale.ROOT);
    String processor = System.getProperty("os.arch").toLowerCase(Locale.ROOT);
    return (os.startsWith("windows") ? "windows" : os) + "-" + (processor.equals("amd64") ? "x86_64" : processor);
  }
}
