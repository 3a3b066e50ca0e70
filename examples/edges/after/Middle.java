/** It has members of its own now. */
class Middle extends Top {
    int mark = 2;

    String name() {
        return "middle over ".concat(super.name());
    }
}
