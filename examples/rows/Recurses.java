/** An endless recursion, caught. */
class Recurses {
    static void again() {
        again();
    }

    public static void main(String[] args) {
        try {
            again();
        } catch (StackOverflowError e) {
            System.out.println(1);
        }
    }
}
