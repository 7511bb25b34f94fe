package covetrivet;

/** What a claim took: an element, the unit of work that holds it, and the how manieth attempt of its round that is. */
public record Work(Element element, int unit, int attempt) {}
