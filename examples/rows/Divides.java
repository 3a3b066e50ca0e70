/** A division by zero that nothing catches. */
class Divides {
    public static void main(String[] args) {
        int zero = 0;
        System.out.println(1 / zero);
    }
}
