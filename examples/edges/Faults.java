/** Names of what is thrown: a superclass is asked for behind those below it. */
class Faults {
    static String name(Throwable e) {
        return e instanceof RuntimeException ? exception(e) : error(e);
    }

    private static String exception(Throwable e) {
        if (e instanceof ArithmeticException) {
            return "Arithmetic";
        }
        if (e instanceof NullPointerException) {
            return "NullPointer";
        }
        if (e instanceof ArrayIndexOutOfBoundsException) {
            return "ArrayIndex";
        }
        if (e instanceof StringIndexOutOfBoundsException) {
            return "StringIndex";
        }
        if (e instanceof NegativeArraySizeException) {
            return "NegativeSize";
        }
        if (e instanceof ArrayStoreException) {
            return "ArrayStore";
        }
        return e instanceof ClassCastException ? "ClassCast" : "RuntimeException";
    }

    private static String error(Throwable e) {
        if (e instanceof StackOverflowError) {
            return "StackOverflow";
        }
        if (e instanceof AbstractMethodError) {
            return "AbstractMethod";
        }
        if (e instanceof IllegalAccessError) {
            return "IllegalAccess";
        }
        if (e instanceof IncompatibleClassChangeError) {
            return "ClassChange";
        }
        if (e instanceof Error) {
            return "Error";
        }
        return e instanceof Exception ? "Exception" : "Throwable";
    }
}
