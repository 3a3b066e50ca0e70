/** Prints its arguments, and their lengths together. */
public class Echo {
    public static void main(String[] args) {
        StringBuffer all = new StringBuffer();
        for (int i = 0; i < args.length; i++) {
            System.out.println(args[i]);
            all.append(args[i]);
        }
        System.out.println(all.length());
    }
}
