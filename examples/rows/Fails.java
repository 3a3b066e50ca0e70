/** A class whose initialiser fails, used twice. */
class Fails {
    static int zero() {
        return 0;
    }

    static class Bad {
        static int x = 1 / zero();
    }

    public static void main(String[] args) {
        try {
            System.out.println(Bad.x);
        } catch (ExceptionInInitializerError e) {
            System.out.println(1);
        }
        try {
            System.out.println(Bad.x);
        } catch (NoClassDefFoundError e) {
            System.out.println(2);
        }
    }
}
