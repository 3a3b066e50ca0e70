/** It leaves the method to others now. */
abstract class Half implements Versions.Sized {
}
