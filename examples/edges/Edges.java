/** Each family of instructions at the edges of what it takes, a line for each case. */
class Edges {
    public static void main(String[] args) {
        Arrays.all();
        Cuts.all();
        Fields.all();
        Calls.all();
        Handlers.all();
        Strings.all();
        Versions.all();
    }
}
