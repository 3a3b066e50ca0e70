/** An endless recursion behind a line; nothing catches its end. */
class Descends {
    static int again(int depth) {
        return again(depth + 1);
    }

    public static void main(String[] args) {
        System.out.println(1);
        System.out.println(again(0));
    }
}
