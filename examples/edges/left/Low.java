package left;

/** Overrides the method of the class above the one above. */
public class Low extends right.Mid {
    String name() {
        return "low";
    }
}
