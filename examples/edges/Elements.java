/** Arrays by the kind of their elements. */
class Elements {
    static final int KINDS = 8;

    static String name(int kind) {
        switch (kind) {
            case 0: return "boolean";
            case 1: return "byte";
            case 2: return "char";
            case 3: return "short";
            case 4: return "int";
            case 5: return "long";
            case 6: return "Object";
            default: return "int[]";
        }
    }

    static Object make(int kind, int length) {
        switch (kind) {
            case 0: return new boolean[length];
            case 1: return new byte[length];
            case 2: return new char[length];
            case 3: return new short[length];
            case 4: return new int[length];
            case 5: return new long[length];
            case 6: return new Object[length];
            default: return new int[length][];
        }
    }

    static int length(int kind, Object array) {
        switch (kind) {
            case 0: return ((boolean[]) array).length;
            case 1: return ((byte[]) array).length;
            case 2: return ((char[]) array).length;
            case 3: return ((short[]) array).length;
            case 4: return ((int[]) array).length;
            case 5: return ((long[]) array).length;
            case 6: return ((Object[]) array).length;
            default: return ((int[][]) array).length;
        }
    }

    static long load(int kind, Object array, int index) {
        switch (kind) {
            case 0: return ((boolean[]) array)[index] ? 1 : 0;
            case 1: return ((byte[]) array)[index];
            case 2: return ((char[]) array)[index];
            case 3: return ((short[]) array)[index];
            case 4: return ((int[]) array)[index];
            case 5: return ((long[]) array)[index];
            case 6: return ((Object[]) array)[index] == null ? 0 : 1;
            default: return ((int[][]) array)[index] == null ? 0 : 1;
        }
    }

    static void store(int kind, Object array, int index, long value) {
        switch (kind) {
            case 0: ((boolean[]) array)[index] = value != 0; break;
            case 1: ((byte[]) array)[index] = (byte) value; break;
            case 2: ((char[]) array)[index] = (char) value; break;
            case 3: ((short[]) array)[index] = (short) value; break;
            case 4: ((int[]) array)[index] = (int) value; break;
            case 5: ((long[]) array)[index] = value; break;
            case 6: ((Object[]) array)[index] = array; break;
            default: ((int[][]) array)[index] = new int[1];
        }
    }
}
