/** A class with two members. */
class Top {
    int mark = 1;

    String name() {
        return "top";
    }
}
