package covetrivet;

/** An output of a unit of work, before it is born: its stage, 1 to 14 or {@link #REPLIES}, and four words. */
public record Draft(int stage, long... body) {
  public static final int REPLIES = 15;
}
