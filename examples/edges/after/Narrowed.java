/** The method isn't public any more. */
class Narrowed {
    int size() {
        return 3;
    }
}
