/** What is stored in a byte, char or short is cut to it by the store: tools/program_rows.py takes the casts out. */
class Stores {
    byte b;
    char c;
    short s;
    static byte shared;

    public static void main(String[] args) {
        int x = 200;
        byte[] bytes = new byte[1];
        bytes[0] = (byte) x;
        System.out.println(bytes[0]);
        x = -3;
        char[] chars = new char[1];
        chars[0] = (char) x;
        System.out.println((int) chars[0]);
        x = 100000;
        short[] shorts = new short[1];
        shorts[0] = (short) x;
        System.out.println(shorts[0]);
        Stores it = new Stores();
        x = 384;
        it.b = (byte) x;
        System.out.println(it.b);
        x = 65601;
        it.c = (char) x;
        System.out.println((int) it.c);
        x = -32769;
        it.s = (short) x;
        System.out.println(it.s);
        x = 255;
        shared = (byte) x;
        System.out.println(shared);
    }
}
