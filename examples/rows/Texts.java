/** Texts joined by concat and by a StringBuffer. */
class Texts {
    public static void main(String[] args) {
        long x = 7L;
        System.out.println("n=".concat(String.valueOf(7)));
        System.out.println(new StringBuffer().append("n=").append(x).toString());
    }
}
