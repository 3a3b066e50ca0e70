/** Constants of each type. */
class Constants {
    static final boolean TRUTH = true;
    static final byte BYTE = -128;
    static final char CHAR = '\uffff';
    static final short SHORT = -32768;
    static final int INT = -2147483648;
    static final long LONG = -9223372036854775808L;
    static final String TEXT = "constant";
    static String NONE;
}
