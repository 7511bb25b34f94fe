package covetrivet;

/** A call that did not do what was asked: why, by the code of include/covetrivet.h. */
public final class Refused extends RuntimeException {
  private static final long serialVersionUID = 1;

  public static final int CLOSED_HANDLE = 1, NO_MEMORY = 3, BAD_LIMITS = 4, NO_PART = 5, BAD_STAGE = 6, NOT_THERE = 7;
  public static final int FULL = 10, NOT_PARKED = 11, NO_ROUND = 12, NOT_HELD = 13, NOT_WAITING = 14, NO_UNIT = 15;
  public static final int LOST = 17, BUSY = 19, NO_OPEN = 20, TOO_MANY = 21, BAD_DRAFT = 22, NOT_ALL = 23, FULL_LOST = 26;
  static final int IDLE = 16, NONE = 18;

  public final int code;

  Refused(String call, int code) {
    super(call + ": code " + code);
    this.code = code;
  }
}
