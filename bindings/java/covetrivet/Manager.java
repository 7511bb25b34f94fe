package covetrivet;

import java.lang.ref.Cleaner;
import java.util.ArrayList;
import java.util.List;

/** A manager of queued requests, which threads may share: a lock lets one of its own calls through at a time. */
public final class Manager implements AutoCloseable {
  static final Cleaner CLEANER = Cleaner.create();
  final Handle handle = new Handle();

  /** What leads to something of the library, and the room for what calls write. One call at a time uses it. */
  static final class Handle {
    final long at = Native.MEMORY.allocateMemory(8 + 256), out = at + 8;

    Handle() {
      long mine = at;
      Native.MEMORY.setMemory(mine, 8 + 256, (byte) 0);
      // (a manager's is held by what brings its callers home)
      CLEANER.register(this, () -> Native.MEMORY.freeMemory(mine));
    }

    static void told(String call, int code) {
      if (code != 0) throw new Refused(call, code);
    }
  }

  /**
   * A manager with these limits, all of whose callers are at home: {@code parts} callers, 1 to 32; of each {@code rows}
   * elements in rows of its own, 1 to 256, and {@code units} units of work, 1 to 1024; {@code spare} blocks of 8 rows, 0
   * to 256; {@code attempts} before an element is parked, 1 to 7.
   */
  public Manager(int parts, int rows, int units, int spare, int attempts) {
    limits(parts, rows, units, spare, attempts);
    Handle mine = handle;
    Handle.told("make", Native.call("make", mine.out, mine.at));
    CLEANER.register(this, () -> {
      synchronized (mine) {
        Native.call("give_up", mine.at);
      }
    });
  }

  private void limits(int... all) {
    int[] most = {32, 256, 1024, 256, 7};
    for (int k = 0; k < 5; k++) {
      if (all[k] < 0 || all[k] > most[k]) throw new Refused("make", Refused.BAD_LIMITS);
      if (k < 4) Native.MEMORY.putShort(handle.out + 2L * k, (short) all[k]);
      else Native.MEMORY.putByte(handle.out + 8, (byte) all[k]);
    }
  }

  /** Opens the caller at home with the least number. NO_PART where all are open. */
  public Caller open() {
    return new Caller(this, at -> Native.call("open", handle.at, at));
  }

  /** Opens the caller with this number, which has in hand what it held. NO_PART where it isn't at home. */
  public Caller open(int number) {
    return new Caller(this, at -> Native.call("open_number", handle.at, number, at));
  }

  /** How many elements of a stage, 1 to 15, or with 0 of all stages, there are. NOT_ALL where a caller isn't at home. */
  public Counts account(int stage) {
    synchronized (handle) {
      Handle.told("account", Native.call("account", handle.at, Caller.stage("account", stage), handle.out));
      int[] of = new int[5];
      for (int k = 0; k < 5; k++) of[k] = Native.MEMORY.getInt(handle.out + 4L * k);
      return new Counts(of[0], of[1], of[2], of[3], of[4]);
    }
  }

  /** Goes on in a new manager with these limits, with what waits, is parked or is held. NOT_ALL, FULL. */
  public List<Moved> rollOver(int parts, int rows, int units, int spare, int attempts) {
    synchronized (handle) {
      limits(parts, rows, units, spare, attempts);
      Handle.told("roll_over", Native.call("roll_over", handle.at, handle.out, handle.out + 16));
      long count = Native.MEMORY.getLong(handle.out + 16);
      List<Moved> all = new ArrayList<>();
      for (long place = 0; place < count; place++) {
        Handle.told("moved_at", Native.call("moved_at", handle.at, place, handle.out));
        int[] of = new int[5];
        for (int k = 0; k < 5; k++) of[k] = Native.MEMORY.getInt(handle.out + 4L * k);
        all.add(new Moved(of[0], of[1], of[2], of[3], of[4]));
      }
      return all;
    }
  }

  /** Gives it up. Callers that are open go on. */
  @Override
  public void close() {
    synchronized (handle) {
      Native.call("give_up", handle.at);
    }
  }
}
