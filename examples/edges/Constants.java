/** Statics that are constants later. */
class Constants {
    static boolean TRUTH;
    static byte BYTE;
    static char CHAR;
    static short SHORT;
    static int INT;
    static long LONG;
    static String TEXT;
    static String NONE;
}
