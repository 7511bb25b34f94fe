package covetrivet;

import java.lang.invoke.MethodHandle;
import java.lang.invoke.MethodType;
import java.lang.reflect.Array;
import java.lang.reflect.Field;
import java.lang.reflect.InvocationTargetException;
import java.lang.reflect.Method;
import java.nio.file.Path;
import java.util.Map;
import java.util.Optional;
import java.util.concurrent.ConcurrentHashMap;
import sun.misc.Unsafe;

/**
 * The calls of the shared object, and memory for what they write. Functions take ints and longs, among them addresses.
 *
 * <p>Java 22 and later have java.lang.foreign. Java 17 has it as an incubator's module, with other names, so both are looked up
 * here. Java 17 takes --add-modules jdk.incubator.foreign, and each --enable-native-access=ALL-UNNAMED. The tests have run by 17
 * alone.
 */
final class Native {
  static final Unsafe MEMORY = memory();
  private static final Map<String, MethodHandle> CALLS = new ConcurrentHashMap<>();
  private static final Linker LINKER = linker();

  private Native() {}

  private interface Linker {
    MethodHandle handle(String name, MethodType type) throws ReflectiveOperationException;
  }

  /** Calls a function by its name. Each argument is an Integer or a Long; what it returns is a code. */
  static int call(String name, Object... given) {
    try {
      return (int) CALLS.computeIfAbsent(name, it -> handle(it, given)).invokeWithArguments(given);
    } catch (RuntimeException | Error fault) {
      throw fault;
    } catch (Throwable fault) {
      throw new IllegalStateException(fault);
    }
  }

  private static MethodHandle handle(String name, Object... given) {
    Class<?>[] kinds = new Class<?>[given.length];
    for (int k = 0; k < kinds.length; k++) kinds[k] = given[k] instanceof Long ? long.class : int.class;
    try {
      return LINKER.handle("covetrivet_" + name, MethodType.methodType(int.class, kinds));
    } catch (ReflectiveOperationException fault) {
      throw new IllegalStateException(fault instanceof InvocationTargetException ? fault.getCause() : fault);
    }
  }

  private static Unsafe memory() {
    try {
      Field field = Unsafe.class.getDeclaredField("theUnsafe");
      field.setAccessible(true);
      return (Unsafe) field.get(null);
    } catch (ReflectiveOperationException fault) {
      throw new IllegalStateException(fault);
    }
  }

  private static Linker linker() {
    String file = System.getenv("COVETRIVET_LIBRARY");
    if (file == null) throw new IllegalStateException("COVETRIVET_LIBRARY doesn't name libcovetrivet.so");
    String path = Path.of(file).toAbsolutePath().toString();
    try {
      return ModuleLayer.boot().findModule("jdk.incubator.foreign").isPresent() ? incubator(path) : last(path);
    } catch (ReflectiveOperationException fault) {
      throw new IllegalStateException("there is no foreign linker in this Java: 17 with its incubator, or 22 and later", fault);
    }
  }

  /** Java 22 and later. */
  private static Linker last(String path) throws ReflectiveOperationException {
    String of = "java.lang.foreign.";
    Class<?> linkers = Class.forName(of + "Linker"), arenas = Class.forName(of + "Arena"), values = Class.forName(of + "ValueLayout");
    Object linker = linkers.getMethod("nativeLinker").invoke(null), arena = arenas.getMethod("global").invoke(null);
    Class<?> lookups = Class.forName(of + "SymbolLookup"), options = Class.forName(of + "Linker$Option");
    Object lookup = lookups.getMethod("libraryLookup", Path.class, arenas).invoke(null, Path.of(path), arena);
    Object ofInt = values.getField("JAVA_INT").get(null), ofLong = values.getField("JAVA_LONG").get(null);
    Class<?> descriptors = Class.forName(of + "FunctionDescriptor");
    Method downcall = linkers.getMethod("downcallHandle", Class.forName(of + "MemorySegment"), descriptors, Array.newInstance(options, 0).getClass());
    return (name, type) -> {
      Object symbol = ((Optional<?>) lookups.getMethod("find", String.class).invoke(lookup, name)).orElseThrow();
      return (MethodHandle) downcall.invoke(linker, symbol, descriptor(of, type, ofInt, ofLong), Array.newInstance(options, 0));
    };
  }

  /** Java 17. */
  private static Linker incubator(String path) throws ReflectiveOperationException {
    String of = "jdk.incubator.foreign.";
    Class<?> linkers = Class.forName(of + "CLinker"), lookups = Class.forName(of + "SymbolLookup");
    System.load(path);
    Object linker = linkers.getMethod("getInstance").invoke(null), lookup = lookups.getMethod("loaderLookup").invoke(null);
    Object ofInt = linkers.getField("C_INT").get(null), ofLong = linkers.getField("C_LONG_LONG").get(null);
    Class<?> descriptors = Class.forName(of + "FunctionDescriptor");
    Method downcall = linkers.getMethod("downcallHandle", Class.forName(of + "Addressable"), MethodType.class, descriptors);
    return (name, type) -> {
      Object symbol = ((Optional<?>) lookups.getMethod("lookup", String.class).invoke(lookup, name)).orElseThrow();
      return (MethodHandle) downcall.invoke(linker, symbol, type, descriptor(of, type, ofInt, ofLong));
    };
  }

  private static Object descriptor(String of, MethodType type, Object ofInt, Object ofLong) throws ReflectiveOperationException {
    Class<?> layouts = Class.forName(of + "MemoryLayout");
    Object all = Array.newInstance(layouts, type.parameterCount());
    for (int k = 0; k < type.parameterCount(); k++) Array.set(all, k, type.parameterType(k) == long.class ? ofLong : ofInt);
    return Class.forName(of + "FunctionDescriptor").getMethod("of", layouts, all.getClass()).invoke(null, ofInt, all);
  }
}
