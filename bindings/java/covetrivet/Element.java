package covetrivet;

/** An element. Nothing of it ever changes. {@code by} is the unit of work that made it, or 65536 where a client did. */
public record Element(long[] body, int id, int root, int by, int stage) {
  static Element at(long address) {
    long[] body = new long[4];
    for (int k = 0; k < 4; k++) body[k] = Native.MEMORY.getLong(address + 8L * k);
    return new Element(body, Native.MEMORY.getInt(address + 32), Native.MEMORY.getInt(address + 36),
        Native.MEMORY.getInt(address + 40), Native.MEMORY.getByte(address + 44) & 0xff);
  }
}
