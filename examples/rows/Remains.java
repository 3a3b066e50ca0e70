/** A division by zero, two calls deep, behind lines. */
class Remains {
    static int remain(int x, int y) {
        System.out.println(y);
        return x % y;
    }

    static int last(int x) {
        return remain(x, 2) + remain(x, 1) + remain(x, 0);
    }

    public static void main(String[] args) {
        try {
            System.out.println(last(7));
        } finally {
            System.out.println("left");
        }
        System.out.println("not reached");
    }
}
