package right;

/** A method of the same name, in another package, which overrides nothing. */
public class Mid extends left.Base {
    String name() {
        return "mid";
    }

    public static String callMid(Mid it) {
        return it.name();
    }
}
