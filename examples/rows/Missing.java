/** Prints a line, and then an argument that isn't there. */
class Missing {
    public static void main(String[] args) {
        System.out.println(args.length);
        System.out.println(args[0]);
    }
}
