/** It leaves the method to others later. */
abstract class Half implements Versions.Sized {
    public int size() {
        return 6;
    }
}
