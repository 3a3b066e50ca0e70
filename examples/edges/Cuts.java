/** A store cuts a value by itself: the class file is kept without the casts before stores. */
class Cuts {
    byte ofByte;
    char ofChar;
    short ofShort;
    static byte sharedByte;
    static char sharedChar;
    static short sharedShort;

    static void all() {
        int[] values = {0, -1, 127, 128, -128, -129, 255, 256, 32767, 32768, -32768, -32769, 65535,
            65536, 2147483647, -2147483648};
        for (int i = 0; i < values.length; i++) {
            cut(values[i]);
        }
    }

    static void cut(int x) {
        byte[] bytes = new byte[1];
        char[] chars = new char[1];
        short[] shorts = new short[1];
        Cuts it = new Cuts();
        bytes[0] = (byte) x;
        chars[0] = (char) x;
        shorts[0] = (short) x;
        it.ofByte = (byte) x;
        it.ofChar = (char) x;
        it.ofShort = (short) x;
        sharedByte = (byte) x;
        sharedChar = (char) x;
        sharedShort = (short) x;
        new Line("cut").add(x).add(bytes[0]).add(chars[0]).add(shorts[0]).add(it.ofByte)
            .add(it.ofChar).add(it.ofShort).add(sharedByte).add(sharedChar).add(sharedShort)
            .print();
    }
}
