/** The least int divided by -1 (JVMS2 6, idiv and irem), and a byte array that narrows what is stored. */
class Edges {
    public static void main(String[] args) {
        int x = -2147483648;
        int y = -1;
        System.out.println(x / y);
        System.out.println(x % y);
        byte[] bytes = new byte[1];
        int big = 200;
        bytes[0] = (byte) big;
        System.out.println(bytes[0]);
    }
}
