/** What an interface has as constants later. */
interface Limits {
    boolean TRUTH = "".length() > 0;
    byte BYTE = (byte) "".length();
    char CHAR = (char) "".length();
    short SHORT = (short) "".length();
    int INT = "".length();
    long LONG = "".length();
    String TEXT = "".concat("");
}
