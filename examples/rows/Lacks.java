/** More arrays than there are names: memory runs out behind a line. */
class Lacks {
    public static void main(String[] args) {
        System.out.println(1);
        int[][][] all = new int[65536][65536][1];
        System.out.println(all.length);
    }
}
