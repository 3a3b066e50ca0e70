/** A line of the output: the name of a case, and what came of it. */
class Line {
    private final StringBuffer text = new StringBuffer();

    Line(String name) {
        text.append(name).append(':');
    }

    Line add(String word) {
        text.append(' ').append(word);
        return this;
    }

    Line add(long number) {
        text.append(' ').append(number);
        return this;
    }

    Line add(boolean truth) {
        text.append(' ').append(truth);
        return this;
    }

    /** Adds the class of what was thrown. */
    Line add(Throwable thrown) {
        return add(Faults.name(thrown));
    }

    void print() {
        System.out.println(text.toString());
    }
}
