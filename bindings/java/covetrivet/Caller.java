package covetrivet;

import java.util.Optional;
import java.util.OptionalInt;
import java.util.function.LongToIntFunction;

/**
 * One way to act on a manager. Threads that share one have a call each at a time. Closed, or held by nobody any more, it is at
 * home again, with what it has in hand.
 */
public final class Caller implements AutoCloseable {
  private final Manager.Handle handle = new Manager.Handle();
  private final Manager.Handle home;

  Caller(Manager manager, LongToIntFunction open) {
    home = manager.handle;
    synchronized (home) {
      Manager.Handle.told("open", open.applyAsInt(handle.at));
    }
    Manager.Handle mine = handle, its = home;
    Manager.CLEANER.register(this, () -> bringHome(mine, its));
  }

  private static void bringHome(Manager.Handle mine, Manager.Handle home) {
    synchronized (mine) {
      synchronized (home) {
        Native.call("close", home.at, mine.at);
      }
    }
  }

  static int stage(String call, int stage) {
    if (stage < 0 || stage > Draft.REPLIES) throw new Refused(call, Refused.BAD_STAGE);
    return stage;
  }

  private interface Does<T> {
    T with(Manager.Handle handle);
  }

  private <T> T ask(Does<T> what) {
    synchronized (handle) {
      T answer = what.with(handle);
      java.lang.ref.Reference.reachabilityFence(this);
      return answer;
    }
  }

  private static boolean found(String call, int code, int none) {
    if (code != none) Manager.Handle.told(call, code);
    return code != none;
  }

  private int number(String call, Object... given) {
    return ask(it -> {
      Object[] all = new Object[given.length + 2];
      all[0] = it.at;
      System.arraycopy(given, 0, all, 1, given.length);
      all[all.length - 1] = it.out;
      Native.MEMORY.putInt(it.out, 0);
      Manager.Handle.told(call, Native.call(call, all));
      return Native.MEMORY.getInt(it.out);
    });
  }

  private static void put(long at, long... body) {
    for (int k = 0; k < 4; k++) Native.MEMORY.putLong(at + 8L * k, k < body.length ? body[k] : 0);
  }

  /** Puts an element into the queue of a stage, 1 to 14. Its id. BAD_STAGE, FULL. */
  public int submit(int stage, long... body) {
    return ask(it -> {
      put(it.out + 8, body);
      Manager.Handle.told("submit", Native.call("submit", it.at, stage("submit", stage), it.out + 8, it.out));
      return Native.MEMORY.getInt(it.out);
    });
  }

  /** The waiting reply with the least id to this request, once, if there is one. BUSY. */
  public Optional<Element> collectNext(int root) {
    return ask(it -> found("collect_next", Native.call("collect_next", it.at, root, it.out), Refused.NONE)
        ? Optional.of(Element.at(it.out)) : Optional.empty());
  }

  /** The least id from this one on of an element that is parked. */
  public OptionalInt nextError(int from) {
    return ask(it -> found("next_error", Native.call("next_error", it.at, from, it.out), Refused.NONE)
        ? OptionalInt.of(Native.MEMORY.getInt(it.out)) : OptionalInt.empty());
  }

  /** Gives a parked element another round of attempts. Which, 1 to 3. NOT_PARKED, NO_ROUND. */
  public int requeue(int id) {
    return number("requeue", id);
  }

  /** Kills an element. How many units of work that held it were aborted. BUSY. */
  public int kill(int id) {
    return number("kill", id);
  }

  /** Kills what isn't finished of a request. How many. BUSY. */
  public int cancel(int root) {
    return number("cancel", root);
  }

  /** Aborts the unit of work that holds an element. NOT_HELD, BUSY. */
  public void release(int id) {
    number("release", id);
  }

  /** The number of the caller, from 0 on. */
  public int number() {
    return number("number");
  }

  private Optional<Work> claim(String call, int what, int none) {
    return ask(it -> found(call, Native.call(call, it.at, what, it.out), none)
        ? Optional.of(new Work(Element.at(it.out), Native.MEMORY.getShort(it.out + 48) & 0xffff, Native.MEMORY.getByte(it.out + 50) & 0xff))
        : Optional.empty());
  }

  /** Takes the element of a stage, 1 to 14, that waits and has the least id, if there is one. BUSY, NO_UNIT. */
  public Optional<Work> claim(int stage) {
    return claim("claim", stage("claim", stage), Refused.IDLE);
  }

  /** Takes the one behind that which it took last so, as in a circle. BUSY, NO_UNIT. */
  public Optional<Work> claimNext(int stage) {
    return claim("claim_next", stage("claim_next", stage), Refused.IDLE);
  }

  /** Takes the element with this id. NOT_THERE, NOT_WAITING, BUSY, NO_UNIT. */
  public Work claimId(int id) {
    return claim("claim_id", id, -1).orElseThrow();
  }

  /** Gives up the open unit of work: its element waits again, or is parked. NO_OPEN, LOST. */
  public void abort() {
    ask(it -> {
      Manager.Handle.told("abort", Native.call("abort", it.at));
      return null;
    });
  }

  /**
   * Commits the open unit of work with these outputs, at most four, in one step. The first of their ids, which follow one another.
   * LOST, FULL, FULL_LOST: it is over. NO_OPEN, TOO_MANY, BAD_DRAFT: nothing has changed.
   */
  public int commit(Draft... drafts) {
    if (drafts.length > 4) throw new Refused("commit", Refused.TOO_MANY);
    return ask(it -> {
      for (int k = 0; k < drafts.length; k++) {
        if (drafts[k].stage() < 1 || drafts[k].stage() > Draft.REPLIES) throw new Refused("commit", Refused.BAD_DRAFT);
        put(it.out + 16 + 40L * k, drafts[k].body());
        Native.MEMORY.putByte(it.out + 16 + 40L * k + 32, (byte) drafts[k].stage());
      }
      Manager.Handle.told("commit", Native.call("commit", it.at, it.out + 16, (long) drafts.length, it.out));
      return Native.MEMORY.getInt(it.out);
    });
  }

  /** Takes it home, with what it has in hand. Where its manager was closed it is gone. */
  @Override
  public void close() {
    bringHome(handle, home);
  }
}
