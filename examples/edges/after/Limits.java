/** Constants of an interface. */
interface Limits {
    boolean TRUTH = true;
    byte BYTE = 127;
    char CHAR = 'x';
    short SHORT = 32767;
    int INT = 2147483647;
    long LONG = 9223372036854775807L;
    String TEXT = "limit";
}
