package left;

/** A class with a method that its own package alone sees. */
public class Base {
    String name() {
        return "base";
    }

    public static String call(Base it) {
        return it.name();
    }
}
