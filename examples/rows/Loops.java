/** A loop that never ends. */
class Loops {
    public static void main(String[] args) {
        System.out.println(1);
        for (int i = 0; true; i++) {
        }
    }
}
