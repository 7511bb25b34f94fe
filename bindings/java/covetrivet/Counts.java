package covetrivet;

/** How many elements there are of each status. */
public record Counts(int waiting, int held, int consumed, int parked, int killed) {}
