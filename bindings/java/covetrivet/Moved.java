package covetrivet;

/** What a rollover carried over. {@code holder} is 65536 where no caller has it in hand. */
public record Moved(int oldId, int newId, int oldRoot, int newRoot, int holder) {}
