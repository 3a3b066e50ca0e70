/** Counts the primes below 1,000. */
public class Sieve {
    public static void main(String[] args) {
        boolean[] crossed = new boolean[1000];
        int count = 0;
        for (int i = 2; i < crossed.length; i++) {
            if (crossed[i]) {
                continue;
            }
            count++;
            for (int j = 2 * i; j < crossed.length; j += i) {
                crossed[j] = true;
            }
        }
        System.out.println(count);
    }
}
